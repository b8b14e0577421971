//! Stored look-ups of pairs, and of three-way constraints by place.

use crate::{small_jobs, stored, tally::Tally};
use kickballbox::{File, Reason, Refusal};

/// Where the body of the three-way constraint of this number begins, and the body, a part of the file; none where there is no such record.
pub fn body(file: File<'_>, number: usize) -> Result<Option<(usize, &[u8])>, Refusal> {
    let place = |body: &[u8]| body.as_ptr() as usize - file.bytes().as_ptr() as usize;
    Ok(file.triples(number)?.map(|body| (place(body), body)))
}

#[test]
fn look_ups() {
    let mut places = Tally::new("look-up: replies");
    let mut shown = Tally::new("look-up: row bytes shown");
    let cases = stored::all("lookup.bin", |c| {
        let (file, i, j, kind) = (c.file(), c.byte(), c.byte(), c.byte());
        (file, i, j, kind, c.byte(), c.word())
    });
    for (bytes, i, j, kind, number, place) in cases {
        let file = File::new(&bytes);
        let (i, j) = (i.into(), j.into());
        let expected = match kind {
            0 => Ok(None),
            1 => Ok(Some(usize::from(place))),
            2 | 3 => Err(stored::refusal(number, place)),
            other => panic!("{other} is no kind of look-up"),
        };
        places.compare(file.look_up(i, j), expected);
        let rows = expected.map(|found| found.map(|at| &bytes[at..at + 32]));
        let came = file.rows(i, j);
        shown.compare(came.map(|found| found.map(|part| (part, part.as_ptr()))), rows.map(|found| found.map(|p| (p, p.as_ptr()))));
    }
    places.end(500);
    shown.end(500);
}

/// Card 7: pairs and three-way constraints of files that have these, and of refused ones; how many bytes are shown, and that they are those
/// of the file.
#[test]
fn by_pair_and_by_place() {
    let mut tally = Tally::new("card07-lookup.bin: replies, and what is shown");
    let mut by_place = 0;
    let cases = stored::all("card07-lookup.bin", |c| {
        let (file, kind, numbers) = (c.file(), c.byte(), [c.word(), c.word()].map(usize::from));
        let (reply, number, place) = (c.byte(), c.byte(), c.word());
        (file, kind, numbers, reply, number, place, usize::from(c.byte()))
    });
    for (bytes, kind, [i, j], reply, number, place, length) in cases {
        let file = File::new(&bytes);
        let at = usize::from(place);
        let expected = match reply {
            0 => Ok(None),
            1 => Ok(Some((at, &bytes[at..at + length]))),
            2 | 3 => Err(stored::refusal(number, place)),
            other => panic!("{other} is no reply of a look-up"),
        };
        assert!(kind < 2 && length == usize::from(reply == 1) * length, "{kind} is no kind of look-up, or bytes are shown of none");
        if kind == 1 {
            tally.compare(body(file, i), expected);
            by_place += 1;
            continue;
        }
        let place = file.look_up(i, j).ok().flatten();
        tally.compare(file.rows(i, j).map(|rows| place.zip(rows)), expected);
    }
    println!("card07-lookup.bin: {by_place} by place, the others by pair");
    tally.end(500);
}

/// Numbers of variables are tested whole: what is a pair only when cut is none.
#[test]
fn wide_numbers() {
    let mut tally = Tally::new("look-up: wide numbers");
    let bytes = small_jobs::g1();
    let file = File::new(&bytes);
    tally.compare(file.look_up(0, 1), Ok(Some(17)));
    let mut pairs = vec![(0, 0), (1, 0), (1, 1), (0, 2), (1, 2), (usize::MAX - 1, usize::MAX)];
    for wide in [1 << 5, 1 << 8, 1 << 16, 1 << 32, 1 << 63] {
        pairs.extend([(wide, wide | 1), (0, wide | 1), (wide, 1)]);
    }
    for (i, j) in pairs {
        tally.compare(file.look_up(i, j), Err(Reason::Choice.into()));
    }
    tally.end(1 + 6 + 15);
}

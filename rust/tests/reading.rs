//! Stored files read, every pair and every three-way constraint looked up, and accepted ones written back.

use crate::{lent, look_ups, plain, refusals, stored, tally::Tally};
use kickballbox::{File, Problem, Refusal};

/// The stored files of files. Those of the second have three-way constraints.
const FILES: [&str; 2] = ["reading.bin", "card07-reading.bin"];

/// A stored file, why it is refused, if it is, and its number of three-way constraints.
fn files(name: &'static str) -> Vec<(Vec<u8>, Option<Refusal>, u8)> {
    stored::all(name, |c| (c.file(), c.refusal(), if name == FILES[1] { c.byte() } else { 0 }))
}

fn accepted(name: &'static str) -> Vec<Vec<u8>> {
    files(name).into_iter().filter(|(_, refusal, _)| refusal.is_none()).map(|(file, ..)| file).collect()
}

#[test]
fn files_read() {
    for (name, [count, fine]) in FILES.into_iter().zip([[1118, 217], [917, 219]]) {
        let mut verdicts = Tally::new(format!("{name}: accepted or refused"));
        let mut contents = Tally::new(format!("{name}: contents of accepted files"));
        let mut everywhere = Tally::new(format!("{name}: refused by every call"));
        for (bytes, refusal, triples) in files(name) {
            let read = File::new(&bytes).read();
            verdicts.compare((read.err(), read.map_or(0, |r| r.t)), (refusal, triples.into()));
            match refusal {
                None => contents.compare(read, plain::read(&bytes).map(|p| plain::reading(&p))),
                Some(_) => {
                    for by in refusals::by_every_call(&bytes) {
                        everywhere.compare(by, refusal);
                    }
                }
            }
        }
        verdicts.end(count);
        contents.end(fine);
        everywhere.end((count - fine) * refusals::CALLS);
    }
}

/// Where the row bytes of each pair stand, by a walk over the records of an accepted file.
#[test]
fn every_pair_looked_up() {
    let mut pairs = Tally::new("reading: pairs looked up");
    let mut shown = Tally::new("reading: row bytes shown");
    for bytes in FILES.into_iter().flat_map(accepted) {
        let file = File::new(&bytes);
        let p = plain::read(&bytes).expect("an accepted file");
        let n = p.domains.len();
        let mut at = if p.rules.is_some() { 8 } else { 5 } + 4 * n;
        let mut constraints = p.constraints.iter().peekable();
        for i in 0..n {
            for j in i + 1..n {
                let constraint = constraints.next_if(|c| (c.i, c.j) == (i, j));
                let place = constraint.map(|_| at + 4);
                let rows = constraint.map(|c| c.rows.iter().flat_map(|row| row.to_le_bytes()).collect::<Vec<u8>>());
                pairs.compare(file.look_up(i, j), Ok(place));
                shown.compare(file.rows(i, j), Ok(rows.as_deref()));
                if constraint.is_some() {
                    at += 36;
                }
            }
        }
        assert!(constraints.next().is_none(), "a constraint was not met");
    }
    pairs.end(13509 + 16705);
    shown.end(13509 + 16705);
}

/// The body of each three-way constraint, by a walk over the records of an accepted file, and none behind the last, by any number.
#[test]
fn every_record_looked_up() {
    let mut records = Tally::new("reading: three-way constraints looked up");
    let mut none = Tally::new("reading: numbers of no three-way constraint");
    for bytes in FILES.into_iter().flat_map(accepted) {
        let file = File::new(&bytes);
        let p = plain::read(&bytes).expect("an accepted file");
        let mut at = if p.rules.is_some() { 8 } else { 5 } + 4 * p.domains.len() + 36 * p.constraints.len();
        for (number, t) in p.triples.iter().enumerate() {
            let body = plain::body(t);
            records.compare(look_ups::body(file, number), Ok(Some((at + 2, &body[..]))));
            at += 2 + body.len();
        }
        let t = p.triples.len();
        for number in [t, t + 1, 32, 255, 1 << 8, 1 << 16, 1 << 32, 1 << 63, usize::MAX] {
            none.compare(look_ups::body(file, number), Ok(None));
        }
    }
    records.end(431);
    none.end(9 * (217 + 219));
}

/// What reading and look-up show of a file, handed to the writer, gives the same bytes.
#[test]
fn files_written_back() {
    let mut tally = Tally::new("reading: files written back");
    for bytes in FILES.into_iter().flat_map(accepted) {
        let file = File::new(&bytes);
        let r = file.read().expect("an accepted file");
        let mut constraints = vec![];
        for i in 0..r.n {
            for j in i + 1..r.n {
                if let Some(rows) = file.rows(i, j).expect("a pair of the file") {
                    constraints.extend([i as u16, j as u16]);
                    constraints.extend(rows.chunks(2).map(|row| u16::from_le_bytes([row[0], row[1]])));
                }
            }
        }
        let mut triples = vec![];
        for number in 0..r.t {
            let (_, body) = look_ups::body(file, number).expect("an accepted file").expect("a three-way constraint of the file");
            triples.extend(body.iter().map(|byte| u16::from(*byte)));
        }
        let problem = Problem {
            n: r.n,
            m: r.m,
            rules: r.rules,
            universal: r.universal.into(),
            domains: &r.domains[..r.n],
            constraints: &constraints,
            triples: &triples,
        };
        let written = lent::with_buffer(bytes.len() + 9, &bytes, |buffer| problem.write(buffer));
        tally.compare(written, (Ok(bytes.len()), true));
    }
    tally.end(217 + 219);
}

//! The rows of document 01 that are tried by program only.

use crate::plain::{Constraint, Problem, Triples};
use crate::{lent, plain, refusals, tally::Tally};
use kickballbox::{File, Position, Reason, Refusal, RuleSet, FILE, ROOM, TEXT};

/// A file of n existential variables with one value, m times the constraint of the pair (0, 1) and this rule set.
fn file(n: u8, m: u8, rules: Option<u8>) -> Vec<u8> {
    let mut bytes = vec![b'Q', b'P', n, m, 0];
    bytes.extend(rules.map(|set| [b'R', b'S', set]).into_iter().flatten());
    bytes.extend((0..n).flat_map(|_| *b"VE\x01\x00"));
    bytes.extend((0..m).flat_map(|_| [&b"CT\x00\x01"[..], &[0; 32]].concat()));
    bytes.extend(b"EN");
    bytes
}

#[test]
fn rows() {
    let mut tally = Tally::new("boundaries: reading");
    let at = |reason, place| Some(Refusal { reason, place: Some(place) });
    tally.compare(File::new(&[]).read().err(), at(Reason::Short, 0));
    let rows = [
        (32, 0, None, None),
        (33, 0, None, at(Reason::Count, 0)),
        (0, 0, None, at(Reason::Count, 0)),
        (2, 1, None, None),
        (2, 2, None, at(Reason::Count, 0)),
        (2, 1, Some(127), None),
        (2, 1, Some(128), at(Reason::Rules, 5)),
    ];
    for (n, m, rules, refusal) in rows {
        let bytes = file(n, m, rules);
        let read = File::new(&bytes).read();
        tally.compare((read.err(), read.ok().map(|r| (r.n, r.m))), (refusal, refusal.is_none().then_some((n.into(), m.into()))));
    }
    tally.end(8);
}

/// 128·(n + 1) words pass, one fewer gives 12, for each n.
#[test]
fn rooms() {
    let mut tally = Tally::new("boundaries: room");
    for n in 1..=32 {
        let bytes = file(n, 0, None);
        let file = File::new(&bytes);
        let at = Position::fresh();
        let needed = lent::needed(n.into());
        for words in [needed, needed - 1] {
            let refusal = (words < needed).then_some(Reason::Room.into());
            let used = if refusal.is_some() { 0 } else { needed };
            let judged = lent::with_room(words, used, |room| file.judge_in(&at, RuleSet::USUAL, room));
            let marked = lent::with_room(words, used, |room| file.mark_in(&at, RuleSet::USUAL, room).map(|marks| marks.winning));
            tally.compare(judged, (refusal.map_or(Ok(true), Err), true));
            tally.compare(marked, (refusal.map_or(Ok(1), Err), true));
        }
    }
    assert_eq!(ROOM, lent::needed(32));
    tally.end(128);
}

/// A problem of n existential variables with one value and so many three-way constraints, fewer where there are no more.
fn with_triples(n: usize, count: usize) -> Problem {
    let threes = (0..n).flat_map(|i| (i + 1..n).flat_map(move |j| (j + 1..n).map(move |k| [i, j, k])));
    let triples = threes.take(count).map(|variables| Triples { variables, permitted: vec![[0; 3]] }).collect();
    Problem { rules: None, universal: vec![false; n], domains: vec![1; n], constraints: vec![], triples }
}

/// n variables and t three-way constraints, 32 together and fewer: 128·(n + t + 1) words pass, one fewer gives 12. One constraint more than
/// 32 together gives 27, at its record and before it is looked at.
#[test]
fn variables_and_triples() {
    let mut rooms = Tally::new("boundaries: room of variables and three-way constraints");
    let mut many = Tally::new("boundaries: 32 variables and three-way constraints, and one more");
    let (mut sizes, mut over) = (0, 0);
    for n in 3..=32 {
        for count in [0, 1, 31 - n.min(31), 32 - n] {
            let p = with_triples(n, count);
            let bytes = plain::write(&p);
            let file = File::new(&bytes);
            let needed = lent::needed(p.all());
            if p.all() > 32 {
                continue;
            }
            for words in [needed, needed - 1] {
                let refusal = (words < needed).then_some(Reason::Room.into());
                let used = if refusal.is_some() { 0 } else { needed };
                let came = lent::with_room(words, used, |room| file.judge_in(&Position::fresh(), RuleSet::USUAL, room));
                rooms.compare(came, (refusal.map_or(Ok(true), Err), true));
                sizes += 1;
            }
        }
        let mut p = with_triples(n, 33 - n);
        let t = p.triples.len();
        let one_more = p.all() == 33;
        let place = 5 + 4 * n + 9 * t.saturating_sub(1);
        let expected = if one_more { Err(Refusal { reason: Reason::Many, place: Some(place) }) } else { Ok((n, t)) };
        many.compare(File::new(&plain::write(&p)).read().map(|r| (r.n, r.t)), expected);
        over += u64::from(one_more);
        // the last record is wrong as well
        p.triples.last_mut().expect("a three-way constraint").variables[2] = 99;
        let reason = if one_more { Reason::Many } else { Reason::Triple };
        many.compare(File::new(&plain::write(&p)).read().err(), Some(Refusal { reason, place: Some(place) }));
    }
    assert_eq!(over, 26);
    rooms.end(sizes);
    many.end(2 * 30);
}

/// With all n variables played every number of plays up to n can be held, and none above.
#[test]
fn lock_depths() {
    let mut tally = Tally::new("boundaries: lock depths");
    for n in 1..=32 {
        let bytes = file(n, 0, None);
        let file = File::new(&bytes);
        let n = usize::from(n);
        let played = Position::after(&[0; 32][..n]).unwrap();
        let [held, one_less, one_more] = [n, n - 1, n + 1].map(|depth| played.with_depth(depth as u64));
        let before = Position::after(&[0; 32][..n - 1]).unwrap().with_depth(n as u64 - 1);
        let refused = |reason: Reason| Err(reason.into());
        tally.compare((file.lock(&played), file.lock(&held)), (Ok(held), Ok(held)));
        tally.compare((file.take_back(&held), file.take_back(&one_less)), (refused(Reason::Locked), Ok(before)));
        tally.compare((file.unlock(&held, n + 1), file.unlock(&held, n)), (refused(Reason::Depth), Ok(held)));
        tally.compare((file.unlock(&played, 1), file.unlock(&held, 0)), (refused(Reason::Depth), Ok(played)));
        tally.compare(refusals::by_moves(file, &one_more), refusals::all(Reason::Misfit));
        tally.compare(refusals::by_position(&bytes, &one_more, RuleSet::USUAL), refusals::all(Reason::Misfit));
    }
    tally.end(6 * 32);
}

/// The longest file passes, and its text and the longest text fit as the constants say.
#[test]
fn longest() {
    let mut tally = Tally::new("boundaries: longest file and text");
    let mut p = Problem { rules: Some(127), universal: vec![true; 32], domains: vec![65535; 32], constraints: vec![], triples: vec![] };
    for i in 0..32 {
        for j in i + 1..32 {
            p.constraints.push(Constraint { i, j, rows: [65535; 16] });
        }
    }
    let mut bytes = plain::write(&p);
    tally.compare(bytes.len(), FILE);
    tally.compare(File::new(&bytes).read(), Ok(plain::reading(&p)));
    let lines = (0..16).map(|a| format!("option {a} good\n")).collect::<String>();
    let text = format!("choices 32\ntables 496\nrules 127\nanswer yes\nnext 0 day\n{lines}");
    assert!(text.len() <= TEXT);
    tally.compare(File::new(&bytes).text(), Ok(text));
    bytes.push(0);
    let tail = Refusal { reason: Reason::Tail, place: Some(FILE) };
    tally.compare(File::new(&bytes).read().err(), Some(tail));
    tally.end(4);
}

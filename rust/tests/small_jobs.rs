//! The small jobs of document 01, G1 to G10, under every rule set.

use crate::plain::{self, Constraint, Problem};
use crate::{all_sets, tally::Tally};
use kickballbox::{Clash, File, Marks, Position, PureValues, Reason};

/// A problem of universal ('A') and existential ('E') variables with these domains, and constraints by their first two rows.
fn job(sides: &str, domains: &[u16], constraints: &[(usize, usize, [u16; 2])]) -> Vec<u8> {
    let constraints = constraints.iter().map(|&(i, j, first)| {
        let mut rows = [0; 16];
        rows[..2].copy_from_slice(&first);
        Constraint { i, j, rows }
    });
    plain::write(&Problem {
        rules: None,
        universal: sides.chars().map(|side| side == 'A').collect(),
        domains: domains.to_vec(),
        constraints: constraints.collect(),
        triples: vec![],
    })
}

/// The rows of values 0 and 1 that must differ, must be equal, of which 0 goes with both and 1 with 1 only, and that all go together.
const DIFFER: [u16; 2] = [2, 1];
const EQUAL: [u16; 2] = [1, 2];
const ZERO_WITH_BOTH: [u16; 2] = [3, 2];
const FULL: [u16; 2] = [3, 3];

pub fn g1() -> Vec<u8> {
    job("AE", &[3, 3], &[(0, 1, DIFFER)])
}

/// Their names, files and verdicts, and the winning values of variable 0.
pub fn g1_to_g8() -> [(&'static str, Vec<u8>, bool, u16); 8] {
    [
        ("G1", g1(), true, 3),
        ("G2", job("EA", &[3, 3], &[(0, 1, DIFFER)]), false, 0),
        ("G3", job("AEE", &[3, 1, 1], &[(1, 2, [0, 0])]), false, 0),
        ("G4", job("EA", &[3, 3], &[(0, 1, ZERO_WITH_BOTH)]), true, 1),
        ("G5", job("EE", &[3, 3], &[(0, 1, ZERO_WITH_BOTH)]), true, 3),
        ("G6", job("AAE", &[3, 3, 3], &[(0, 2, ZERO_WITH_BOTH), (1, 2, EQUAL)]), false, 1),
        ("G7", job("E", &[32], &[]), true, 32),
        ("G8", job("EE", &[3, 3], &[(0, 1, FULL)]), true, 3),
    ]
}

#[test]
fn verdicts_and_marks() {
    let jobs = g1_to_g8();
    let mut tally = Tally::new("small jobs: verdicts and marks under all sets");
    for (name, bytes, won, winning) in &jobs {
        let file = File::new(bytes);
        let domain = file.read().expect("an accepted file").domains[0];
        for rules in all_sets() {
            let came = (file.judge(&Position::fresh(), rules), file.mark(&Position::fresh(), rules));
            tally.compare((name, came), (name, (Ok(*won), Ok(Marks { winning: *winning, domain }))));
        }
    }
    tally.end(8 * 128);
    assert_eq!(jobs[0].1, [&b"QP\x02\x01\x00VA\x03\x00VE\x03\x00CT\x00\x01\x02\x00\x01\x00"[..], &[0; 28], b"EN"].concat());
    assert_eq!((jobs[0].1.len(), jobs[6].1.len()), (51, 11));
}

/// What arc says and leaves, and the pure and the smallest interchangeable values of variable 0, over the file's own domains.
#[test]
fn rules_alone() {
    let jobs = [
        ("G2", job("EA", &[3, 3], &[(0, 1, DIFFER)]), (true, vec![0, 3]), 0, 3),
        ("G3", job("AEE", &[3, 1, 1], &[(1, 2, [0, 0])]), (true, vec![3, 0, 0]), 3, 1),
        ("G4", job("EA", &[3, 3], &[(0, 1, ZERO_WITH_BOTH)]), (false, vec![1, 3]), 1, 3),
        ("G5", job("EE", &[3, 3], &[(0, 1, ZERO_WITH_BOTH)]), (false, vec![3, 3]), 1, 3),
        ("G8", job("EE", &[3, 3], &[(0, 1, FULL)]), (false, vec![3, 3]), 3, 1),
    ];
    let mut tally = Tally::new("small jobs: rules alone");
    for (name, bytes, arc, pure, interchangeable) in jobs {
        let file = File::new(&bytes);
        let read = file.read().expect("an accepted file");
        let mut list = read.domains[..read.n].to_vec();
        tally.compare((name, file.pure(&list, 0).map(|shown| shown.pure)), (name, Ok(pure)));
        tally.compare((name, file.interchangeable(&list, 0)), (name, Ok(interchangeable)));
        tally.compare((name, file.arc(&mut list)), (name, Ok(arc.0)));
        tally.compare((name, list), (name, arc.1));
    }
    tally.end(20);
}

/// The pure values of a variable over the file's own domains, and of each other value (first number) the variable and the value that it does
/// not go with.
#[test]
fn names_of_pure() {
    let [g1, g2, g3, g4, g5, g6, g7, g8] = g1_to_g8();
    let all = [
        (&g1, 0, 0, vec![(0, 1, 0), (1, 1, 1)]),
        (&g1, 1, 0, vec![(0, 0, 0), (1, 0, 1)]),
        (&g2, 0, 0, vec![(0, 1, 0), (1, 1, 1)]),
        (&g3, 0, 3, vec![]),
        (&g3, 1, 0, vec![(0, 2, 0)]),
        (&g3, 2, 0, vec![(0, 1, 0)]),
        (&g4, 0, 1, vec![(1, 1, 0)]),
        (&g5, 0, 1, vec![(1, 1, 0)]),
        (&g5, 1, 2, vec![(0, 0, 1)]),
        (&g6, 0, 1, vec![(1, 2, 0)]),
        (&g6, 1, 0, vec![(0, 2, 1), (1, 2, 0)]),
        (&g6, 2, 0, vec![(0, 0, 1), (1, 1, 0)]),
        (&g7, 0, 32, vec![]),
        (&g8, 0, 3, vec![]),
    ];
    let count = all.len();
    let mut tally = Tally::new("small jobs: names of pure");
    for ((name, bytes, ..), x, pure, names) in all {
        let file = File::new(bytes);
        let read = file.read().expect("an accepted file");
        let mut expected = PureValues { pure, clashes: [None; 16] };
        names.into_iter().for_each(|(a, variable, value): (usize, _, _)| expected.clashes[a] = Some(Clash { variable, value }));
        tally.compare((name, x, file.pure(&read.domains[..read.n], x)), (name, x, Ok(expected)));
    }
    tally.end(count as u64);
}

/// G9 and G10: plays and take-backs on G1.
#[test]
fn plays() {
    let bytes = g1();
    let file = File::new(&bytes);
    let mut tally = Tally::new("small jobs: plays under all sets");
    for rules in all_sets() {
        let mut session = file.session();
        tally.compare(session.take_back(), Err(Reason::Bare.into()));
        tally.compare(session.play(2), Err(Reason::Option.into()));
        tally.compare(session.play(0), Ok(()));
        tally.compare(file.open_values(session.position()).map(|open| (open.masks[1], open.counts[1])), Ok((2, 1)));
        tally.compare(file.mark(session.position(), rules), Ok(Marks { winning: 2, domain: 3 }));
        tally.compare(session.play(0), Ok(()));
        tally.compare(file.judge(session.position(), rules), Ok(false));
        tally.compare(file.mark(session.position(), rules), Err(Reason::Done.into()));
        tally.compare(session.play(0), Err(Reason::Full.into()));
        tally.compare((session.take_back(), session.take_back()), (Ok(()), Ok(())));
        tally.compare(file.mark(session.position(), rules), Ok(Marks { winning: 3, domain: 3 }));
    }
    tally.end(11 * 128);
}

/// Card 6 on G1: a take-back at the lock depth, an unlock above it, and with nothing played a bare take-back first.
#[test]
fn locks() {
    let bytes = g1();
    let file = File::new(&bytes);
    let mut session = file.session();
    let mut tally = Tally::new("small jobs: locks");
    tally.compare(session.take_back(), Err(Reason::Bare.into()));
    tally.compare((session.play(0), session.lock()), (Ok(()), Ok(())));
    tally.compare(session.take_back(), Err(Reason::Locked.into()));
    tally.compare(session.unlock(2), Err(Reason::Depth.into()));
    tally.compare((session.unlock(0), session.take_back()), (Ok(()), Ok(())));
    tally.compare(*session.position(), Position::fresh());
    tally.compare((session.lock(), session.take_back()), (Ok(()), Err(Reason::Bare.into())));
    tally.compare(*session.position(), Position::fresh());
    tally.end(8);
}

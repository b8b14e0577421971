//! The hidden variable encoding of document 003, definition 8: each three-way constraint becomes an existential variable behind all others,
//! whose values are the places of its triples, with a constraint to each of its three variables.

use super::{Constraint, Problem, Triples};

/// The ordinary problem of this one.
pub fn ordinary(p: &Problem) -> Problem {
    let mut all = Problem { triples: vec![], ..p.clone() };
    for t in &p.triples {
        let hidden = all.domains.len();
        for place in 0..3 {
            all.constraints.push(Constraint { i: t.variables[place], j: hidden, rows: rows(t, place) });
        }
        all.domains.push((0..t.permitted.len()).fold(0, |mask, q| mask | 1 << q));
        all.universal.push(false);
    }
    all.constraints.sort_by_key(|c| (c.i, c.j));
    all
}

/// For each value of the variable at this place the triples that have it there.
fn rows(t: &Triples, place: usize) -> [u16; 16] {
    let mut rows = [0; 16];
    for (q, triple) in t.permitted.iter().enumerate() {
        rows[usize::from(triple[place])] |= 1 << q;
    }
    rows
}

/// Two records and a constraint between their tables, by hand.
#[test]
fn ordinary_by_hand() {
    let rows = |first: &[u16]| std::array::from_fn(|a| first.get(a).copied().unwrap_or(0));
    let constraint = |i: usize, j: usize, first: &[u16]| Constraint { i, j, rows: rows(first) };
    let p = Problem {
        rules: Some(9),
        universal: vec![false, true, false, true],
        domains: vec![3, 7, 3, 1],
        constraints: vec![constraint(1, 2, &[3, 3, 1])],
        triples: vec![
            Triples { variables: [0, 1, 2], permitted: vec![[0, 1, 1], [0, 2, 0], [1, 0, 1]] },
            Triples { variables: [0, 1, 3], permitted: vec![[1, 2, 0]] },
        ],
    };
    let all = ordinary(&p);
    let shown: Vec<(usize, usize, [u16; 16])> = all.constraints.iter().map(|c| (c.i, c.j, c.rows)).collect();
    assert_eq!((all.rules, all.universal, all.domains), (Some(9), vec![false, true, false, true, false, false], vec![3, 7, 3, 1, 7, 1]));
    assert_eq!(
        shown,
        [
            (0, 4, rows(&[3, 4])),
            (0, 5, rows(&[0, 1])),
            (1, 2, rows(&[3, 3, 1])),
            (1, 4, rows(&[4, 1, 2])),
            (1, 5, rows(&[0, 0, 1])),
            (2, 4, rows(&[2, 5])),
            (3, 5, rows(&[1])),
        ]
    );
    assert!(all.triples.is_empty());
}

//! The groups of a problem, from card 4 of document 02: a search through its constraints, breadth first, from each variable that no group has
//! yet, and each group as a problem of its own.

use super::{Constraint, Problem};

/// The variables of each group, ascending. The groups ascend by their smallest variable.
pub fn groups(p: &Problem) -> Vec<Vec<usize>> {
    let mut seen = vec![false; p.domains.len()];
    let mut all = vec![];
    for first in 0..seen.len() {
        if !seen[first] {
            all.push(reached(p, first, &mut seen));
        }
    }
    all
}

/// The variables that chains of constraints lead to from this one, itself too.
fn reached(p: &Problem, first: usize, seen: &mut [bool]) -> Vec<usize> {
    let mut found = vec![first];
    seen[first] = true;
    let mut at = 0;
    while let Some(&x) = found.get(at) {
        for c in p.constraints.iter().filter(|c| c.i == x || c.j == x) {
            let other = c.i + c.j - x;
            if !seen[other] {
                seen[other] = true;
                found.push(other);
            }
        }
        at += 1;
    }
    found.sort();
    found
}

/// The problem of these variables, which are renumbered in order, with the constraints among them.
pub fn part(p: &Problem, variables: &[usize]) -> Problem {
    let new = |old: usize| variables.iter().position(|x| *x == old);
    Problem {
        rules: p.rules,
        universal: variables.iter().map(|x| p.universal[*x]).collect(),
        domains: variables.iter().map(|x| p.domains[*x]).collect(),
        constraints: p.constraints.iter().filter_map(|c| Some(Constraint { i: new(c.i)?, j: new(c.j)?, rows: c.rows })).collect(),
        triples: vec![],
    }
}

/// A chain in falling order, two that cross, one inside another, and a variable alone.
#[test]
fn groups_by_hand() {
    let split = |n: usize, pairs: &[(usize, usize)]| {
        let constraints = pairs.iter().map(|&(i, j)| Constraint { i, j, rows: [1; 16] }).collect();
        groups(&Problem { rules: None, universal: vec![false; n], domains: vec![1; n], constraints, triples: vec![] })
    };
    assert_eq!(split(4, &[(0, 3), (1, 2), (2, 3)]), [vec![0, 1, 2, 3]]);
    assert_eq!(split(5, &[(0, 2), (1, 3)]), [vec![0, 2], vec![1, 3], vec![4]]);
    assert_eq!(split(4, &[(0, 3), (1, 2)]), [vec![0, 3], vec![1, 2]]);
    assert_eq!(split(3, &[(1, 2)]), [vec![0], vec![1, 2]]);
    assert_eq!(split(2, &[]), [vec![0], vec![1]]);
}

/// The new numbers and what goes with them.
#[test]
fn part_by_hand() {
    let rows = |first: u16| std::array::from_fn(|a| if a < 2 { first } else { 0 });
    let constraint = |i: usize, j: usize, first: u16| Constraint { i, j, rows: rows(first) };
    let p = Problem {
        rules: Some(5),
        universal: vec![false, true, false, true],
        domains: vec![3, 1, 7, 15],
        constraints: vec![constraint(0, 2, 4), constraint(0, 3, 8), constraint(2, 3, 9)],
        triples: vec![],
    };
    let part = part(&p, &[0, 2, 3]);
    let shown: Vec<(usize, usize, [u16; 16])> = part.constraints.iter().map(|c| (c.i, c.j, c.rows)).collect();
    assert_eq!((part.rules, part.universal, part.domains), (Some(5), vec![false, false, true], vec![3, 7, 15]));
    assert_eq!(shown, [(0, 1, rows(4)), (0, 2, rows(8)), (1, 2, rows(9))]);
}

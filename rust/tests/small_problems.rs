//! Every problem with one or two variables whose domains lie within {0, 1}: from every position, under every rule set, beside the plain
//! solver.

use crate::plain::{self, Constraint, Game, Problem};
use crate::{all_sets, lent, tally::Tally};
use kickballbox::{File, Position};

/// The problems of one variable.
pub fn single() -> Vec<Problem> {
    let mut all = vec![];
    for universal in [false, true] {
        for domain in 1..=3 {
            all.push(Problem { rules: None, universal: vec![universal], domains: vec![domain], constraints: vec![], triples: vec![] });
        }
    }
    all
}

/// The problems of two variables: without a constraint, and with every one whose rows stay within the domains.
pub fn double() -> Vec<Problem> {
    let mut all = vec![];
    for k in 0..36 {
        let (sides, first, second) = (k % 4, 1 + k / 4 % 3, 1 + k / 12);
        let free = Problem {
            rules: None,
            universal: vec![sides & 1 == 1, sides & 2 == 2],
            domains: vec![first, second],
            constraints: vec![],
            triples: vec![],
        };
        for (zero, one) in (0..4).flat_map(|zero| (0..4).map(move |one| (zero, one))) {
            let may = |a: u16| if first >> a & 1 == 1 { second } else { 0 };
            if zero & !may(0) == 0 && one & !may(1) == 0 {
                let mut rows = [0; 16];
                (rows[0], rows[1]) = (zero, one);
                all.push(Problem { constraints: vec![Constraint { i: 0, j: 1, rows }], ..free.clone() });
            }
        }
        all.push(free);
    }
    all
}

/// All lists of plays of a problem, each play in its domain.
fn positions(p: &Problem) -> Vec<Vec<u8>> {
    let mut all = vec![vec![]];
    let mut k = 0;
    while k < all.len() {
        let plays: Vec<u8> = all[k].clone();
        if let Some(domain) = p.domains.get(plays.len()) {
            all.extend((0..16).filter(|a| domain >> a & 1 == 1).map(|a| [&plays[..], &[a]].concat()));
        }
        k += 1;
    }
    all
}

fn compare(names: [&'static str; 4], problems: Vec<Problem>, expected: [u64; 4]) {
    let mut tallies = names.map(Tally::new);
    let [problem_count, won_count, lost_count, position_count] = expected;
    let (mut won_positions, mut lost_positions) = (0, 0);
    assert_eq!(problems.len() as u64, problem_count, "problems");
    for p in &problems {
        let bytes = plain::write(p);
        let file = File::new(&bytes);
        let n = p.domains.len();
        for plays in positions(p) {
            let at = Position::after(&plays).unwrap();
            let won = Game::whole(p).won(&plays).unwrap();
            *if won { &mut won_positions } else { &mut lost_positions } += 1;
            let marks = Game::whole(p).marking(&plays).unwrap();
            let used = if marks.is_ok() { lent::needed(n) } else { 0 };
            for rules in all_sets() {
                let words = lent::needed(n) + rules.number() as usize;
                let came = lent::with_room(words, lent::needed(n), |room| file.judge_in(&at, rules, room));
                tallies[0].compare(came, (Ok(won), true));
                let came = lent::with_room(words, used, |room| file.mark_in(&at, rules, room));
                tallies[1].compare(came, (marks, true));
                tallies[2].compare(file.search(&at, rules).map(|found| found.won), Ok(won));
            }
            tallies[3].compare(file.open_values(&at), Ok(plain::open_values(p, &plays)));
        }
    }
    assert_eq!((won_positions, lost_positions), (won_count, lost_count), "positions won and lost");
    let counts = [128 * position_count, 128 * position_count, 128 * position_count, position_count];
    tallies.into_iter().zip(counts).for_each(|(tally, count)| tally.end(count));
}

#[test]
fn one_variable() {
    let names = ["one variable: verdicts", "one variable: marks", "one variable: searches", "one variable: open values"];
    compare(names, single(), [6, 14, 0, 14]);
}

#[test]
fn two_variables() {
    let names = ["two variables: verdicts", "two variables: marks", "two variables: searches", "two variables: open values"];
    compare(names, double(), [196, 564, 416, 980]);
}

//! Generated problems of up to six variables, from positions of any number of plays and any lock depth, under every rule set, beside the
//! plain solver: with plays that clash, misfits, and room that is dirty, just enough, longer or one word short.

use crate::plain::{self, Game, Kind, Problem, Random};
use crate::{all_sets, lent, refusals, stored, tally::Tally};
use kickballbox::{File, Position, Reason, RuleSet};

/// Problems, each from its start and from two positions further on.
const PROBLEMS: u64 = 2048;

/// A problem of up to six variables.
pub fn generated(random: &mut Random) -> Problem {
    let kind = Kind {
        n: (1 + random.below(12)).min(6),
        values: 5,
        single: 5,
        universal: 25,
        constraints: 25 + random.below(76),
        compatible: 40 + random.below(50),
    };
    plain::problem(&kind, random)
}

/// A number above this one: the next, the largest, or any.
fn above(k: u64, random: &mut Random) -> u64 {
    match random.below(3) {
        0 => k + 1,
        1 => u64::MAX,
        _ => k + 1 + (random.next() >> (1 + random.below(63))),
    }
}

/// A misfit made of a position: too many plays; more held than there are; a place that is not played and not zero; a played value that its
/// domain lacks.
fn misfit(p: &Problem, at: &Position, random: &mut Random) -> Position {
    let mut wrong = *at;
    loop {
        match random.below(7) {
            0 => wrong.plays = p.domains.len() as u64 + 1 + random.below(40),
            1 => wrong.values[31] = 1,
            2 | 3 => wrong.depth = above(at.plays, random),
            _ => wrong.values[random.below(1 + at.plays) as usize] ^= 1 << random.below(8),
        }
        if !plain::fits(p, &wrong) {
            return wrong;
        }
    }
}

/// How many positions there were of each kind.
#[derive(Default)]
struct Kinds {
    won: u64,
    lost: u64,
    clashing: u64,
    held: u64,
    too_deep: u64,
    first: u64,
    played: u64,
    later: u64,
}

#[test]
fn beside_the_plain_solver() {
    let mut random = Random(0x1234abcd5678ef);
    let [mut verdicts, mut marks, mut searches] = ["generated: verdicts", "generated: marks", "generated: searches"].map(Tally::new);
    let mut short = Tally::new("generated: room one word short");
    let mut misfits = Tally::new("generated: misfits");
    let mut opened = Tally::new("generated: open values");
    let mut kinds = Kinds::default();
    for _ in 0..PROBLEMS {
        let p = generated(&mut random);
        let bytes = plain::write(&p);
        let file = File::new(&bytes);
        let n = p.domains.len();
        let needed = lent::needed(n);
        let counts = [0, 1 + random.below(n as u64), 1 + random.below(n as u64)];
        for count in counts {
            let at = plain::position_after(&p, count, &mut random);
            let plays = at.played();
            let won = Game::whole(&p).won(plays).unwrap();
            let marking = Game::whole(&p).marking(plays).unwrap();
            let used = if marking.is_ok() { needed } else { 0 };
            for rules in all_sets() {
                let words = needed + rules.number() as usize;
                let came = lent::with_room(words, needed, |room| file.judge_in(&at, rules, room));
                verdicts.compare(came, (Ok(won), true));
                let came = lent::with_room(words, used, |room| file.mark_in(&at, rules, room));
                marks.compare(came, (marking, true));
                searches.compare(file.search(&at, rules).map(|found| (found.won, found.won && found.loss)), Ok((won, false)));
            }
            let rules = RuleSet::unchecked(random.below(128));
            let came = lent::with_room(needed - 1, 0, |room| file.judge_in(&at, rules, room));
            short.compare(came, (Err(Reason::Room.into()), true));
            let wrong = misfit(&p, &at, &mut random);
            misfits.compare(refusals::by_position(&bytes, &wrong, rules), refusals::all(Reason::Misfit));
            misfits.compare(refusals::by_moves(file, &wrong), refusals::all(Reason::Misfit));
            opened.compare(file.open_values(&at), Ok(plain::open_values(&p, plays)));
            let loss = file.search(&at, rules).is_ok_and(|found| found.loss);
            kinds.won += u64::from(won);
            kinds.lost += u64::from(!won);
            kinds.clashing += u64::from(plain::clashing(&p, plays));
            kinds.held += u64::from(at.depth > 0);
            kinds.too_deep += u64::from(plain::fits(&p, &wrong.with_depth(0)));
            kinds.first += u64::from(loss && count == 0);
            kinds.played += u64::from(loss && count > 0);
            kinds.later += u64::from(!won && !loss);
        }
    }
    let Kinds { won, lost, clashing, held, too_deep, first, played, later } = kinds;
    println!("generated: {won} positions won, {lost} lost, {clashing} with plays that clash, {held} with plays held");
    println!("generated: {too_deep} misfits by the lock depth alone");
    println!("generated: lost at the first turn {first} with nothing played, {played} with some played; {later} lost after it");
    assert!(won > 2000 && lost > 2000 && clashing > 1000 && first > 200 && played > 1000 && later > 500, "too plain a mixture");
    assert!(held > 1000 && too_deep > 1000, "too plain a mixture");
    for tally in [verdicts, marks, searches] {
        tally.end(128 * 3 * PROBLEMS);
    }
    for tally in [short, opened] {
        tally.end(3 * PROBLEMS);
    }
    misfits.end(2 * 3 * PROBLEMS);
}

/// At each number of plays every lock depth that fits, and some above it. What judging, marking, searching and the open values reply is the
/// same at each that fits; a lock and an unlock alter the depth alone, a take-back goes down to it.
#[test]
fn lock_depths() {
    let mut replies = Tally::new("lock depths: replies where they fit");
    let mut moves = Tally::new("lock depths: locks, unlocks and take-backs");
    let mut refused = Tally::new("lock depths: above the plays");
    let mut random = Random(0x10cced);
    let (mut fitting, mut numbers, mut above) = (0, 0, 0);
    for _ in 0..400 {
        let p = generated(&mut random);
        let bytes = plain::write(&p);
        let file = File::new(&bytes);
        let n = p.domains.len();
        for count in 0..=n as u64 {
            let none = plain::position_after(&p, count, &mut random).with_depth(0);
            let won = Game::whole(&p).won(none.played()).unwrap();
            let marks = Game::whole(&p).marking(none.played()).unwrap();
            let opened = plain::open_values(&p, none.played());
            let rules = RuleSet::unchecked(random.below(128));
            let found = file.search(&none, rules);
            let before = Position::after(&none.played()[..count.saturating_sub(1) as usize]).unwrap();
            let wide = [255, 256, 1 << 8 | count, 1 << 16 | count, 1 << 32 | count, 1 << 63 | count, u64::MAX];
            for depth in 0..=count {
                let at = none.with_depth(depth);
                replies.compare((file.judge(&at, rules), file.mark(&at, rules)), (Ok(won), marks));
                let mut room = [1; kickballbox::ROOM];
                replies.compare((file.judge_in(&at, rules, &mut room), file.mark_in(&at, rules, &mut room)), (Ok(won), marks));
                replies.compare((file.search(&at, rules), file.open_values(&at)), (found, Ok(opened)));
                moves.compare(file.lock(&at), Ok(none.with_depth(count)));
                let taken = match (count, depth) {
                    (0, _) => Err(Reason::Bare.into()),
                    _ if depth == count => Err(Reason::Locked.into()),
                    _ => Ok(before.with_depth(depth)),
                };
                moves.compare(file.take_back(&at), taken);
                for number in (0..=count + 1).chain(wide) {
                    let left = if number > depth { Err(Reason::Depth.into()) } else { Ok(none.with_depth(number)) };
                    moves.compare(file.unlock(&at, number as usize), left);
                    numbers += 1;
                }
                fitting += 1;
            }
            for depth in [count + 1].into_iter().chain(wide) {
                let at = none.with_depth(depth);
                refused.compare(refusals::by_position(&bytes, &at, rules), refusals::all(Reason::Misfit));
                refused.compare(refusals::by_moves(file, &at), refusals::all(Reason::Misfit));
                above += 2;
            }
        }
    }
    assert!(fitting > 5_000 && above > 20_000, "too few depths: {fitting} that fit, {above} above");
    replies.end(3 * fitting);
    moves.end(2 * fitting + numbers);
    refused.end(above);
}

/// Loss and list of the first turn, beside the rules' definitions.
#[test]
fn first_turns() {
    let mut tally = Tally::new("generated: first turns under all sets");
    let mut random = Random(0xf1257);
    let (mut losses, mut narrowed) = (0, 0);
    for _ in 0..600 {
        let p = generated(&mut random);
        let bytes = plain::write(&p);
        let count = random.below(p.domains.len() as u64 + 1);
        let at = plain::position_after(&p, count, &mut random);
        for rules in all_sets() {
            let (loss, list) = p.first_turn(at.played(), rules.number());
            let found = File::new(&bytes).search(&at, rules);
            losses += u64::from(loss);
            narrowed += u64::from(list.get(count as usize).is_some_and(|mask| *mask != p.domains[count as usize]));
            tally.compare(found.map(|found| (found.loss, found.list)), Ok((loss, stored::filled(&list))));
        }
    }
    println!("generated: {losses} first turns that lose, {narrowed} that narrow the next variable");
    assert!(losses > 10_000 && narrowed > 10_000, "too plain a mixture");
    tally.end(600 * 128);
}

/// What holds of the findings that document 01 leaves free. Conflict set: it holds played variables alone, none in a won search, and every
/// position of as many plays with the same values at them is lost too. Leaf: it keeps the plays and breaks no constraint.
#[test]
fn conflict_sets_and_leaves() {
    let mut conflicts = Tally::new("generated: conflict sets");
    let mut leaves = Tally::new("generated: leaves");
    let mut random = Random(0xc0ffee);
    let (mut narrow, mut others, mut won) = (0, 0, 0);
    for _ in 0..600 {
        let p = generated(&mut random);
        let n = p.domains.len();
        let bytes = plain::write(&p);
        let count = 1 + random.below(n as u64) as usize;
        let at = plain::position_after(&p, count as u64, &mut random);
        for rules in all_sets() {
            let found = File::new(&bytes).search(&at, rules).expect("an accepted file and position");
            if found.won {
                let leaf: Vec<u8> = found.leaf[..n].iter().map(|value| *value as u8).collect();
                let kept = leaf[..count] == *at.played() && found.leaf[n..].iter().all(|value| *value == 0);
                let fits = Position::after(&leaf).is_some_and(|leaf| plain::fits(&p, &leaf));
                leaves.compare((kept, fits, plain::clashing(&p, &leaf), found.conflict), (true, true, false, 0));
                won += 1;
                continue;
            }
            let mut lawful = found.conflict >> count == 0;
            narrow += u64::from(found.conflict.count_ones() < count as u32);
            for _ in 0..4 {
                let mut plays = plain::position_after(&p, count as u64, &mut random).played().to_vec();
                for k in (0..count).filter(|k| found.conflict >> k & 1 == 1) {
                    plays[k] = at.values[k];
                }
                lawful &= !Game::whole(&p).won(&plays).unwrap();
                others += 1;
            }
            conflicts.compare((lawful, found.leaf), (true, [0; 32]));
        }
    }
    println!("generated: {narrow} conflict sets that leave a play out, {others} other positions tried");
    assert!(narrow > 1000 && won > 10_000, "too plain a mixture");
    conflicts.end(600 * 128 - won);
    leaves.end(won);
}

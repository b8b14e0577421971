//! Searches: the first turn's loss and list, the verdict and the leaf, conflict sets.

use crate::plain::{self, Kind, Random};
use crate::{all_sets, stored, tally::Tally};
use kickballbox::{File, Position};

#[test]
fn first_turns() {
    let mut tally = Tally::new("searches: first turns");
    for case in stored::turns() {
        let found = File::new(&case.file).search(&case.position, case.rules);
        tally.compare(found.map(|found| (found.loss, found.list)), Ok((case.flag, case.shown)));
    }
    tally.end(700);
}

#[test]
fn whole_searches() {
    let mut tally = Tally::new("searches: verdicts and leaves");
    for case in stored::searches() {
        let found = File::new(&case.file).search(&case.position, case.rules);
        tally.compare(found.map(|found| (found.won, found.leaf)), Ok((case.flag, case.shown)));
    }
    tally.end(700);
}

/// First turns whose loss rule 2 or rule 3 finds: the conflict set holds the played variables that share a constraint with the variable
/// that the loss names. `trial_turns` runs these cases and those of turns below the first.
#[test]
fn named_in_first_turns() {
    let mut tally = Tally::new("searches: conflict sets beside the variable named");
    let mut all_played = Tally::new("searches: conflict sets beside the variable named, all played");
    for turn in stored::named_turns().into_iter().filter(|turn| turn.first) {
        let found = File::new(&turn.file).search(&turn.position, turn.rules);
        let came = found.map(|found| (found.won, found.loss, found.conflict & turn.neighbours));
        let expected = Ok((false, true, turn.neighbours));
        if turn.position.plays == turn.file[2].into() {
            all_played.compare(came, expected);
        }
        tally.compare(came, expected);
    }
    tally.end(517);
    all_played.end(120);
}

/// Plays of all variables, under every set: the conflict set of a lost one has the two variables of the first broken constraint; with
/// rule 2 the variables that share one with the later of these, too; without rule 6 it has all variables.
#[test]
fn conflict_sets_of_whole_plays() {
    let mut tally = Tally::new("searches: conflict sets of whole plays");
    let mut random = Random(0xca4d2);
    let (mut lost, mut more) = (0, 0);
    for k in 0..300 {
        let n = if k % 30 == 0 { 32 } else { 1 + random.below(8) };
        let kind = Kind {
            n,
            values: 1 + random.below(4),
            single: 10,
            universal: 40,
            constraints: 20 + random.below(61),
            compatible: 50 + random.below(50),
        };
        let p = plain::problem(&kind, &mut random);
        let bytes = plain::write(&p);
        let plays: Vec<u8> = p.domains.iter().map(|domain| random.value(*domain)).collect();
        let at = Position::after(&plays).expect("at most 32 plays");
        let broken = p.first_broken(&plays);
        lost += u64::from(broken.is_some());
        for rules in all_sets() {
            let expected = broken.map_or(0, |(i, j)| {
                let near = if rules.number() & 2 == 2 { p.neighbours(j) } else { 0 };
                more += u64::from(near & !(1 << i | 1 << j) != 0);
                if rules.number() & 32 == 32 {
                    1 << i | 1 << j | near
                } else {
                    u32::MAX >> (32 - n)
                }
            });
            let found = File::new(&bytes).search(&at, rules);
            tally.compare(found.map(|found| (found.won, found.conflict)), Ok((broken.is_none(), expected)));
        }
    }
    println!("searches: whole plays, lost {lost} of 300; with a neighbour more {more} times");
    assert!(lost > 100 && lost < 290 && more > 1000, "too plain a mixture");
    tally.end(300 * 128);
}

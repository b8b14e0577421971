//! Lists of calls replayed, refused ones among them, beside a plain list of the plays that stand with its lock depth, and the plain solver.

use crate::plain::{self, Call, Game, PlainList, Problem, Random};
use crate::{
    stored,
    tally::{Refused, Tally},
};
use kickballbox::{File, Marks, Reason, Refusal, RuleSet};

/// Call of a list: of 32 ten are take-backs, one is a lock, two are unlocks to a number of at most one above the lock depth, two any byte
/// from 16 to 253, six plays of any value below 16, and the others plays of a value of the next variable, which are refused when all are
/// played.
fn call(p: &Problem, list: &PlainList, random: &mut Random) -> u8 {
    match random.below(32) {
        0..=9 => 255,
        10 => 254,
        11 | 12 => 192 + random.below(list.depth as u64 + 2) as u8,
        13 | 14 => 16 + random.below(238) as u8,
        15..=20 => random.below(16) as u8,
        _ => random.value(p.domains.get(list.plays.len()).copied().unwrap_or(65535)),
    }
}

/// What the marks are at the plays that stand, by the plain solver.
fn marks(p: &Problem, plays: &[u8], set: u64) -> Result<Marks, Refusal> {
    if set > 127 {
        return Err(Reason::Rules.into());
    }
    Game::whole(p).marking(plays).expect("no bound")
}

#[test]
fn beside_a_plain_list() {
    let mut by_solver = Tally::new("replays: marks by the plain solver");
    let mut by_mark = Tally::new("replays: marks at the plays that stand");
    let mut by_open = Tally::new("replays: open values at the plays that stand");
    let mut opened = Tally::new("replays: open values by their definition");
    let mut random = Random(0x7e57ca5e);
    let mut refused = Refused::default();
    let (mut calls, mut rules, mut done) = (0, 0, 0);
    for game in stored::GAMES.into_iter().flat_map(stored::games_of) {
        let file = File::new(&game.file);
        let p = plain::read(&game.file).expect("an accepted file");
        for _ in 0..16 {
            let mut list = PlainList::new(&p);
            let mut bytes = vec![];
            for _ in 0..random.below(65) {
                let byte = call(&p, &list, &mut random);
                bytes.push(byte);
                refused.note(list.make(Call::of(byte)).map_err(Refusal::from));
            }
            calls += bytes.len() as u64;
            let set = random.below(130);
            let expected = marks(&p, &list.plays, set);
            rules += u64::from(expected == Err(Reason::Rules.into()));
            done += u64::from(expected == Err(Reason::Done.into()));
            let replayed = file.replay(&bytes, RuleSet::unchecked(set));
            let at = list.position();
            by_solver.compare(replayed.marks, expected);
            by_mark.compare(replayed.marks, file.mark(&at, RuleSet::unchecked(set)));
            by_open.compare(replayed.opened, file.open_values(&at));
            opened.compare(replayed.opened, Ok(plain::open_values(&p, &list.plays)));
        }
    }
    println!("replays: {calls} calls; marks refused: {rules} with 8, {done} with 22");
    assert!(calls > 300_000 && refused.all > 100_000 && rules > 100 && done > 1_000);
    refused.end("replays");
    for tally in [by_solver, by_mark, by_open, opened] {
        tally.end(16 * 1300);
    }
}

/// The calls may be any bytes, the file's own among them, and many.
#[test]
fn any_bytes_as_calls() {
    let mut tally = Tally::new("replays: a file's bytes as calls");
    for game in stored::GAMES.into_iter().flat_map(stored::games_of) {
        let p = plain::read(&game.file).expect("an accepted file");
        let mut list = PlainList::new(&p);
        for &byte in &game.file {
            let _ = list.make(Call::of(byte));
        }
        let replayed = File::new(&game.file).replay(&game.file, RuleSet::USUAL);
        tally.compare((replayed.marks, replayed.opened), (marks(&p, &list.plays, 3), Ok(plain::open_values(&p, &list.plays))));
    }
    tally.end(1300);
}

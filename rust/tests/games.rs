//! Stored games under all 128 rule sets, those of card 7 with three-way constraints: judged, marked and searched, in lent room and in room
//! of their own.

use crate::stored::{self, Game};
use crate::{all_sets, lent, plain, tally::Tally};
use kickballbox::{File, Marks, Position, Reason, Refusal, RuleSet};

/// Compares in each stored file of games: with the tallies, a game. So many cases of each tally.
fn compare<const N: usize>(names: [&str; N], counts: [u64; 2], mut compare: impl FnMut(&mut [Tally; N], &Game)) {
    for (file, count) in stored::GAMES.into_iter().zip(counts) {
        let mut tallies = names.map(|name| Tally::new(format!("{file}: {name}")));
        stored::games_of(file).iter().for_each(|game| compare(&mut tallies, game));
        tallies.into_iter().for_each(|tally| tally.end(count));
    }
}

/// The games, and these under all sets.
const COUNTS: [u64; 2] = [700, 600];
const UNDER_ALL_SETS: [u64; 2] = [128 * COUNTS[0], 128 * COUNTS[1]];

/// What marking replies, and how many words it leaves zero: 22 and none where all variables are played.
fn marks(game: &Game) -> (Result<Marks, Refusal>, usize) {
    let file = File::new(&game.file).read().expect("an accepted file");
    let next = game.position.plays as usize;
    if next == file.n {
        (Err(Reason::Done.into()), 0)
    } else {
        (Ok(Marks { winning: game.winning, domain: file.domains[next] }), stored::needed(&game.file))
    }
}

/// Under each set, with as many words as its number says more than needed, or under every other more than any file needs.
fn words(needed: usize, rules: RuleSet) -> usize {
    let set = rules.number() as usize;
    set + if set % 2 == 0 { needed } else { kickballbox::ROOM }
}

#[test]
fn judged_in_room() {
    compare(["judged under all sets in lent room"], UNDER_ALL_SETS, |[tally], game| {
        let needed = stored::needed(&game.file);
        for rules in all_sets() {
            let words = words(needed, rules);
            let came = lent::with_room(words, needed, |room| File::new(&game.file).judge_in(&game.position, rules, room));
            tally.compare(came, (Ok(game.won), true));
        }
    });
}

#[test]
fn marked_in_room() {
    compare(["marked under all sets in lent room"], UNDER_ALL_SETS, |[tally], game| {
        let (expected, used) = marks(game);
        let needed = stored::needed(&game.file);
        for rules in all_sets() {
            let words = words(needed, rules);
            let came = lent::with_room(words, used, |room| File::new(&game.file).mark_in(&game.position, rules, room));
            tally.compare(came, (expected, true));
        }
    });
}

#[test]
fn judged_marked_and_searched() {
    let names = ["judged under all sets", "marked under all sets", "verdicts of searches under all sets"];
    compare(names, UNDER_ALL_SETS, |[judged, marked, searched], game| {
        let file = File::new(&game.file);
        let (expected, _) = marks(game);
        for rules in all_sets() {
            judged.compare(file.judge(&game.position, rules), Ok(game.won));
            marked.compare(file.mark(&game.position, rules), expected);
            searched.compare(file.search(&game.position, rules).map(|found| found.won), Ok(game.won));
        }
    });
}

/// 12 with one word too few, with the words for the variables alone where three-way constraints need more, and with none, and 22 before it;
/// the room is kept.
#[test]
fn short_room() {
    compare(["judged in short room", "marked in short room"], COUNTS.map(|count| 4 * count), |[judged, marked], game| {
        let file = File::new(&game.file);
        let done = marks(game).0.err();
        let short = stored::needed(&game.file) - 1;
        for words in [0, 1, short.min(lent::needed(game.file[2].into())), short] {
            let came = lent::with_room(words, 0, |room| file.judge_in(&game.position, RuleSet::ALL, room));
            judged.compare(came, (Err(Reason::Room.into()), true));
            let came = lent::with_room(words, 0, |room| file.mark_in(&game.position, RuleSet::ALL, room));
            marked.compare(came, (Err(done.unwrap_or(Reason::Room.into())), true));
        }
    });
}

#[test]
fn opened() {
    compare(["open values"], COUNTS, |[tally], game| {
        tally.compare(File::new(&game.file).open_values(&game.position), Ok(game.opened));
    });
}

/// The plain game and the plain open values, which other tests go by, without the library.
#[test]
fn by_the_plain_game() {
    compare(["verdicts, marks and open values of the plain reading"], COUNTS, |[tally], game| {
        let p = plain::read(&game.file).expect("an accepted file");
        let plays = game.position.played();
        let mut plainly = plain::Game { problem: &p, early: true, budget: u64::MAX };
        let winning = p.domains.get(plays.len()).map_or(Some(0), |_| plainly.marks(plays));
        tally.compare((plainly.won(plays), winning, plain::open_values(&p, plays)), (Some(game.won), Some(game.winning), game.opened));
    });
}

/// Card 3: positions where two plays clash, an existential variable has nothing open, a play clashes with a universal variable, any two
/// or all three of these hold, or none; and the plain reading of them that other tests go by.
#[test]
fn opened_after_a_clash() {
    let mut tally = Tally::new("card 3: open values");
    let mut plain = Tally::new("card 3: causes and open values of the plain reading");
    let mut by_cause = [0; 8];
    for opening in stored::openings() {
        let p = plain::read(&opening.file).expect("an accepted file");
        let plays = opening.position.played();
        tally.compare(File::new(&opening.file).open_values(&opening.position), Ok(opening.opened));
        plain.compare((plain::causes(&p, plays), plain::open_values(&p, plays)), (opening.causes, opening.opened));
        by_cause[usize::from(opening.causes)] += 1;
    }
    tally.end(1000);
    plain.end(1000);
    assert_eq!(by_cause.iter().filter(|&&cases| cases > 0).count(), 8, "causes alone and together: {by_cause:?}");
}

/// G7 of document 01 with every RS byte, called with sets on either side of 127, in the fresh position and in one that does not fit,
/// without room: the file's 8 comes first, then the call's, then 23, then 12.
#[test]
fn every_rule_byte() {
    let mut tally = Tally::new("games: files with every RS");
    let [fresh, misfit] = [Position::fresh(), Position::after(&[0]).unwrap()];
    for byte in 0..=255u8 {
        let bytes = [b"QP\x01\x00\x00RS", &[byte][..], b"VE\x20\x00EN"].concat();
        let file = File::new(&bytes);
        for set in [0, 127, 128, 255] {
            let rules = RuleSet::unchecked(set);
            let refusal = if byte > 127 {
                Some(Refusal { reason: Reason::Rules, place: Some(5) })
            } else {
                (set > 127).then_some(Reason::Rules.into())
            };
            let used = if refusal.is_some() { 0 } else { 256 };
            let won = lent::with_room(256, used, |room| file.judge_in(&fresh, rules, room));
            tally.compare(won, (refusal.map_or(Ok(true), Err), true));
            let marks = lent::with_room(256, used, |room| file.mark_in(&fresh, rules, room));
            tally.compare(marks, (refusal.map_or(Ok(Marks { winning: 32, domain: 32 }), Err), true));
            let refusal = refusal.unwrap_or(Reason::Misfit.into());
            let won = lent::with_room(0, 0, |room| file.judge_in(&misfit, rules, room));
            tally.compare(won, (Err(refusal), true));
            let marks = lent::with_room(0, 0, |room| file.mark_in(&misfit, rules, room));
            tally.compare(marks, (Err(refusal), true));
        }
    }
    tally.end(4096);
}

//! Calls one after another, refused ones among them, beside a plain list of the plays that stand with its lock depth: by value, in a
//! session, and replayed where every call has a byte.

use crate::plain::{self, Call, Game, PlainList, Random};
use crate::{
    all_sets, stored,
    tally::{Refused, Tally},
};
use kickballbox::{File, Marks, Position, Reason, Refusal, RuleSet, Session};

/// The number, or now and then one that is it only when cut. Where every call is to have a byte, 16 more alone.
fn widened(number: usize, bytes: bool, random: &mut Random) -> usize {
    match random.below(16) {
        0 => 16 + number,
        1 if !bytes => 256 + number,
        2 if !bytes => (1 << 32) + number,
        3 if !bytes => (1 << 63) + number,
        4 if !bytes => usize::MAX,
        _ => number,
    }
}

/// A value to play: half the time one of the next variable's, if there is one.
fn value(domain: Option<&u16>, random: &mut Random) -> u8 {
    match domain {
        Some(&domain) if random.chance(50) => random.value(domain),
        _ => random.below(16) as u8,
    }
}

/// A call after those that led to this list: of 24 one is a lock, three are unlocks to a number of at most one above the lock depth before
/// it is widened, three are take-backs, 14 where the plays go down, and the others plays.
fn call(list: &PlainList, next: Option<&u16>, down: bool, bytes: bool, random: &mut Random) -> Call {
    match random.below(24) {
        0 => Call::Lock,
        1..=3 => Call::Unlock(widened(random.below(list.depth as u64 + 2) as usize, bytes, random)),
        4..=17 if down => Call::TakeBack,
        4..=6 => Call::TakeBack,
        _ => Call::Play(widened(value(next, random).into(), bytes, random)),
    }
}

fn by_value(file: File, at: &Position, call: Call) -> Result<Position, Refusal> {
    match call {
        Call::Play(value) => file.play(at, value),
        Call::TakeBack => file.take_back(at),
        Call::Lock => file.lock(at),
        Call::Unlock(number) => file.unlock(at, number),
    }
}

fn in_session(session: &mut Session, call: Call) -> Result<(), Refusal> {
    match call {
        Call::Play(value) => session.play(value),
        Call::TakeBack => session.take_back(),
        Call::Lock => session.lock(),
        Call::Unlock(number) => session.unlock(number),
    }
}

#[test]
fn beside_a_plain_list() {
    let mut values = Tally::new("histories: calls by value");
    let mut sessions = Tally::new("histories: calls in a session");
    let mut opened = Tally::new("histories: open values");
    let mut replayed = Tally::new("histories: replayed");
    let mut random = Random(0x51ed2701);
    let mut refused = Refused::default();
    for (k, game) in stored::GAMES.into_iter().flat_map(stored::games_of).enumerate() {
        let file = File::new(&game.file);
        let p = plain::read(&game.file).expect("an accepted file");
        let mut list = PlainList::new(&p);
        let mut position = Position::fresh();
        let mut session = file.session();
        let mut bytes = vec![];
        let with_bytes = k % 2 == 0;
        for place in 0..120 {
            let call = call(&list, p.domains.get(list.plays.len()), place % 40 > 25, with_bytes, &mut random);
            let expected = list.make(call).map_err(Refusal::from);
            let moved = by_value(file, &position, call);
            let answer = in_session(&mut session, call);
            refused.note(expected);
            values.compare(moved, expected.map(|()| list.position()));
            sessions.compare((answer, *session.position()), (expected, list.position()));
            position = moved.unwrap_or(position);
            bytes.extend(call.byte());
        }
        let open = plain::open_values(&p, &list.plays);
        opened.compare(file.open_values(&position), Ok(open));
        if with_bytes {
            assert_eq!(bytes.len(), 120, "a call without a byte");
            let shown = file.replay(&bytes, RuleSet::USUAL);
            replayed.compare((shown.marks, shown.opened), (Game::whole(&p).marking(&list.plays).unwrap(), Ok(open)));
        }
    }
    assert!(refused.all > 37_000 && refused.all < 119_000, "too plain a mixture");
    refused.end("histories");
    values.end(120 * 1300);
    sessions.end(120 * 1300);
    opened.end(1300);
    replayed.end(650);
}

/// Card 6: stored lists of calls, from the fresh position.
#[test]
fn stored_lists() {
    let mut values = Tally::new("card 6: calls by value");
    let mut sessions = Tally::new("card 6: calls in a session");
    let mut plain = Tally::new("card 6: calls on the plain list");
    let mut reached = Tally::new("card 6: positions reached by value, in a session and on the plain list");
    let mut marked = Tally::new("card 6: marks under all sets");
    let mut opened = Tally::new("card 6: open values");
    let mut replayed = Tally::new("card 6: lists replayed");
    let mut refused = Refused::default();
    for (k, history) in stored::histories().into_iter().enumerate() {
        let file = File::new(&history.file);
        let p = plain::read(&history.file).expect("an accepted file");
        let mut list = PlainList::new(&p);
        let mut position = Position::fresh();
        let mut session = file.session();
        for &(call, expected) in &history.calls {
            let moved = by_value(file, &position, call);
            values.compare(moved.map(drop), expected);
            sessions.compare(in_session(&mut session, call), expected);
            plain.compare(list.make(call).map_err(Refusal::from), expected);
            refused.note(expected);
            position = moved.unwrap_or(position);
        }
        reached.compare([position, *session.position(), list.position()], [history.position; 3]);
        let domain = p.domains.get(history.position.plays as usize);
        let marks = domain.map_or(Err(Reason::Done.into()), |&domain| Ok(Marks { winning: history.winning, domain }));
        for rules in all_sets() {
            marked.compare(file.mark(&position, rules), marks);
        }
        opened.compare((file.open_values(&position), plain::open_values(&p, &list.plays)), (Ok(history.opened), history.opened));
        let bytes: Option<Vec<u8>> = history.calls.iter().map(|(call, _)| call.byte()).collect();
        if let Some(bytes) = bytes {
            let shown = file.replay(&bytes, RuleSet::unchecked(k as u64 % 128));
            replayed.compare((shown.marks, shown.opened), (marks, Ok(history.opened)));
        }
    }
    refused.end("card 6");
    for tally in [values, sessions, plain] {
        tally.end(17313);
    }
    reached.end(700);
    marked.end(89600);
    opened.end(700);
    replayed.end(582);
}

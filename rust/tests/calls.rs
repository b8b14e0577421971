//! Stored calls: plays, take-backs, locks, unlocks and open values; judging and marking in lent room, and in room of their own.

use crate::stored::{self, Answer, Call};
use crate::{lent, tally::Tally};
use kickballbox::{File, Marks, Position, Reason, Refusal, RuleSet, Session};

/// What a call answers, and whether it left what it is lent as it should.
type Made = (Result<Answer, Refusal>, bool);

/// The calls of this kind in each of the stored files, made and compared: so many of each, 0 where it has none.
fn compare(name: &str, kind: u8, counts: [u64; 3], made: impl Fn(File, &Position, &Call) -> Made) {
    for (file, count) in stored::CALLS.into_iter().zip(counts).filter(|(_, count)| *count > 0) {
        let mut tally = Tally::new(format!("{file}: {name}"));
        for call in stored::calls(file, kind) {
            tally.compare(made(File::new(&call.file), &call.position, &call), (call.answer, true));
        }
        tally.end(count);
    }
}

/// Calls that move a position, by value and in a session.
fn compare_moves(
    name: &str,
    kind: u8,
    counts: [u64; 3],
    by_value: impl Fn(File, &Position, usize) -> Result<Position, Refusal>,
    in_session: impl Fn(&mut Session, usize) -> Result<(), Refusal>,
) {
    compare(name, kind, counts, |file, at, call| (by_value(file, at, call.argument.into()).map(Answer::Moved), true));
    compare(&format!("{name} in a session"), kind, counts, |file, at, call| {
        let mut session = Session::new(file, *at);
        let reply = in_session(&mut session, call.argument.into());
        let kept = reply.is_ok() || session.position() == at;
        (reply.map(|()| Answer::Moved(*session.position())), kept)
    });
}

#[test]
fn plays() {
    compare_moves("plays", stored::PLAY, [166, 260, 196], |file, at, value| file.play(at, value), |session, value| session.play(value));
}

#[test]
fn take_backs() {
    compare_moves("take-backs", stored::TAKE_BACK, [185, 211, 157], |file, at, _| file.take_back(at), |session, _| session.take_back());
}

#[test]
fn locks() {
    compare_moves("locks", stored::LOCK, [0, 112, 0], |file, at, _| file.lock(at), |session, _| session.lock());
}

#[test]
fn unlocks() {
    compare_moves(
        "unlocks",
        stored::UNLOCK,
        [0, 219, 0],
        |file, at, number| file.unlock(at, number),
        |session, number| session.unlock(number),
    );
}

#[test]
fn open_values() {
    compare("open values", stored::OPEN, [190, 158, 186], |file, at, _| (file.open_values(at).map(Answer::Opened), true));
}

fn rules(call: &Call) -> RuleSet {
    RuleSet::unchecked(call.argument.into())
}

fn marks(marks: Marks) -> Answer {
    Answer::Marks(marks.winning, marks.domain)
}

/// A call in the room that is stored. Where it finishes, the words that it needs are zero then.
fn in_room(call: &Call, made: impl Fn(&mut [u16]) -> Result<Answer, Refusal>) -> Made {
    let used = call.answer.map_or(0, |_| stored::needed(&call.file));
    lent::with_room(call.words, used, made)
}

#[test]
fn judging() {
    compare("judging in lent room", stored::JUDGE, [188, 249, 190], |file, at, call| {
        in_room(call, |room| file.judge_in(at, rules(call), room).map(Answer::Won))
    });
}

#[test]
fn marking() {
    compare("marking in lent room", stored::MARK, [171, 291, 171], |file, at, call| {
        in_room(call, |room| file.mark_in(at, rules(call), room).map(marks))
    });
}

/// The same without lent room. Those that are refused in short room alone then finish, as they do in room that suffices.
#[test]
fn in_room_of_their_own() {
    let mut judged = Tally::new("calls: judging without lent room");
    let mut marked = Tally::new("calls: marking without lent room");
    let mut searched = Tally::new("calls: searching");
    let room = || vec![0; kickballbox::ROOM];
    let calls = |kind: u8| stored::CALLS.into_iter().flat_map(move |name| stored::calls(name, kind));
    for call in calls(stored::JUDGE) {
        let (file, at, rules) = (File::new(&call.file), &call.position, rules(&call));
        let expected = match call.answer {
            Err(Refusal { reason: Reason::Room, .. }) => file.judge_in(at, rules, &mut room()).map(Answer::Won),
            stored => stored,
        };
        judged.compare(file.judge(at, rules).map(Answer::Won), expected);
        searched.compare(file.search(at, rules).map(|found| Answer::Won(found.won)), expected);
    }
    for call in calls(stored::MARK) {
        let (file, at, rules) = (File::new(&call.file), &call.position, rules(&call));
        let expected = match call.answer {
            Err(Refusal { reason: Reason::Room, .. }) => file.mark_in(at, rules, &mut room()).map(marks),
            stored => stored,
        };
        marked.compare(file.mark(at, rules).map(marks), expected);
    }
    judged.end(188 + 249 + 190);
    searched.end(188 + 249 + 190);
    marked.end(171 + 291 + 171);
}

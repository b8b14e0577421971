//! What calls refuse, gathered.

use crate::{lent, look_ups};
use kickballbox::{File, Position, Reason, Refusal, RuleSet, Session};

/// More plays than any file has, as many held, and values that no domain holds.
pub const MISFIT: Position = Position { plays: u64::MAX, depth: u64::MAX, values: [255; 32] };

/// All of so many calls refuse for this reason.
pub fn all<const N: usize>(reason: Reason) -> [Option<Refusal>; N] {
    [Some(reason.into()); N]
}

/// Why a call refuses; none where it does not, or where it does not leave what it is lent as it was.
fn refusal<R>((reply, kept): (Result<R, Refusal>, bool)) -> Option<Refusal> {
    reply.err().filter(|_| kept)
}

/// How many calls take a file, and so refuse one.
pub const CALLS: u64 = 29;

/// Why the calls that take a file turn it away, each handed whatever else it refuses too.
pub fn by_every_call(bytes: &[u8]) -> Vec<Option<Refusal>> {
    let file = File::new(bytes);
    let list = [0, 0, 65535];
    let replayed = file.replay(&[255], RuleSet::unchecked(256));
    let mut refusals = by_position(bytes, &MISFIT, RuleSet::unchecked(256)).to_vec();
    refusals.extend(by_moves(file, &MISFIT));
    refusals.extend([
        file.read().err(),
        file.look_up(9, 9).err(),
        file.rows(9, 9).err(),
        look_ups::body(file, 99).err(),
        replayed.marks.err(),
        replayed.opened.err(),
        refusal(lent::with_list(&list, &list, |list| file.arc(list))),
        refusal(lent::with_list(&list, &list, |list| file.forward_check(list, 99, 99))),
        file.look_ahead(&list, 99).err(),
        file.pure(&list, 99).err(),
        file.interchangeable(&list, 99).err(),
        refusal(lent::with_buffer(9, &[], |buffer| file.formula(buffer))),
        refusal(lent::with_buffer(9, &[], |buffer| file.judge_formula(buffer))),
        file.groups().err(),
        refusal(lent::with_buffer(9, &[], |buffer| file.group(99, buffer))),
    ]);
    refusals
}

/// Why the calls with a position and a rule set turn these away, lent too little room.
pub fn by_position(bytes: &[u8], at: &Position, rules: RuleSet) -> [Option<Refusal>; 5] {
    let file = File::new(bytes);
    [
        file.judge(at, rules).err(),
        file.mark(at, rules).err(),
        refusal(lent::with_room(9, 0, |room| file.judge_in(at, rules, room))),
        refusal(lent::with_room(9, 0, |room| file.mark_in(at, rules, room))),
        file.search(at, rules).err(),
    ]
}

/// Why plays, take-backs, locks, unlocks and open values turn the position away, by value and in a session, which is left as it was.
pub fn by_moves(file: File, at: &Position) -> [Option<Refusal>; 9] {
    let mut session = Session::new(file, *at);
    let replies = [session.play(99), session.take_back(), session.lock(), session.unlock(usize::MAX)];
    let kept = session.position() == at;
    let [play, take_back, lock, unlock] = replies.map(|reply| refusal((reply, kept)));
    [
        file.play(at, 99).err(),
        file.take_back(at).err(),
        file.lock(at).err(),
        file.unlock(at, usize::MAX).err(),
        file.open_values(at).err(),
        play,
        take_back,
        lock,
        unlock,
    ]
}

//! Judging, marking, searching and replaying.

use crate::entries::{self, finished, flag, variables};
use crate::{File, Marks, Position, Refusal, Replayed, RuleSet, Searched};

impl File<'_> {
    /// Whether the position is won under this rule set. Refuses with `Rules`, `Misfit`.
    pub fn judge(self, position: &Position, rules: RuleSet) -> Result<bool, Refusal> {
        let (file, length) = self.lent();
        let [a, b, c, d] = position.packed();
        // SAFETY: the entry reads the file's bytes.
        let reply = unsafe { entries::kb_judge(file, length, position.plays, position.depth, a, b, c, d, rules.number()) };
        finished(reply).map(|judgement| flag(judgement.won))
    }

    /// The winning values of the next variable under this rule set. Refuses with `Rules`, `Misfit`, `Done`.
    pub fn mark(self, position: &Position, rules: RuleSet) -> Result<Marks, Refusal> {
        let (file, length) = self.lent();
        let [a, b, c, d] = position.packed();
        // SAFETY: the entry reads the file's bytes.
        let reply = unsafe { entries::kb_mark(file, length, position.plays, position.depth, a, b, c, d, rules.number()) };
        finished(reply).map(entries::Marks::typed)
    }

    /// [`judge`](File::judge) in lent room of any contents: the 128·(n + t + 1) words that the call needs are zero afterwards,
    /// those behind them as they were. Refuses last with `Room`, where there are fewer words.
    pub fn judge_in(self, position: &Position, rules: RuleSet, room: &mut [u16]) -> Result<bool, Refusal> {
        let (file, length) = self.lent();
        // SAFETY: the entry reads the file's bytes and writes the room, which is borrowed for this call alone.
        let reply = unsafe { entries::kb_judge_in(file, length, *position, rules.number(), room.as_mut_ptr(), room.len()) };
        finished(reply).map(|judgement| flag(judgement.won))
    }

    /// [`mark`](File::mark) in lent room, as [`judge_in`](File::judge_in).
    pub fn mark_in(self, position: &Position, rules: RuleSet, room: &mut [u16]) -> Result<Marks, Refusal> {
        let (file, length) = self.lent();
        // SAFETY: the entry reads the file's bytes and writes the room, which is borrowed for this call alone.
        let reply = unsafe { entries::kb_mark_in(file, length, *position, rules.number(), room.as_mut_ptr(), room.len()) };
        finished(reply).map(entries::Marks::typed)
    }

    /// What a search from the position finds under this rule set, in the [ordinary problem](crate). Refuses as [`judge`](File::judge) does.
    pub fn search(self, position: &Position, rules: RuleSet) -> Result<Searched, Refusal> {
        let (file, length) = self.lent();
        // SAFETY: the entry reads the file's bytes.
        let found = finished(unsafe { entries::kb_search(file, length, *position, rules.number()) })?;
        Ok(Searched {
            won: flag(found.won),
            loss: flag(found.loss),
            conflict: variables(found.conflict),
            list: found.list,
            leaf: found.leaf,
        })
    }

    /// Runs calls from the fresh position, each a byte: 255 a take-back, 254 a lock, 192 to 253 an unlock to that less 192, any other a
    /// play of that value; a refused one changes nothing. Replies [`mark`](File::mark) and [`open_values`](File::open_values) of the
    /// position reached.
    pub fn replay(self, calls: &[u8], rules: RuleSet) -> Replayed {
        let (file, length) = self.lent();
        // SAFETY: the entry reads the bytes of the file and of the calls.
        let reply = unsafe { entries::kb_replay(file, length, calls.as_ptr(), calls.len(), rules.number()) };
        Replayed { marks: finished(reply.marks).map(entries::Marks::typed), opened: finished(reply.opened).map(entries::Opened::typed) }
    }
}

//! The entries as `include/kickballbox.h` declares them, and their replies as results.

use crate::{Clash, OpenValues, Position, PureValues, Reason, Refusal};

/// What every reply begins with. The header repeats these fields in each struct; the layout is the same.
#[repr(C)]
#[derive(Clone, Copy, Debug, Default, PartialEq, Eq)]
pub struct Answer {
    pub kind: u64,
    pub number: u64,
    pub place: u64,
}

#[repr(C)]
#[derive(Clone, Copy, Debug, Default, PartialEq, Eq)]
pub struct Reading {
    pub answer: Answer,
    pub n: u64,
    pub m: u64,
    pub t: u64,
    pub universal: u64,
    pub given: u64,
    pub rules: u64,
    pub domains: [u16; 32],
}

#[repr(C)]
#[derive(Clone, Copy, Debug, Default, PartialEq, Eq)]
pub struct Found {
    pub answer: Answer,
    pub found: u64,
    pub rows: u64,
}

#[repr(C)]
#[derive(Clone, Copy, Debug, Default, PartialEq, Eq)]
pub struct FoundTriples {
    pub answer: Answer,
    pub found: u64,
    pub body: u64,
    pub length: u64,
}

#[repr(C)]
#[derive(Clone, Copy, Debug, Default, PartialEq, Eq)]
pub struct Written {
    pub answer: Answer,
    pub length: u64,
}

#[repr(C)]
#[derive(Clone, Copy, Debug, Default, PartialEq, Eq)]
pub struct Moved {
    pub answer: Answer,
    pub position: Position,
}

#[repr(C)]
#[derive(Clone, Copy, Debug, Default, PartialEq, Eq)]
pub struct Opened {
    pub answer: Answer,
    pub masks: [u16; 32],
    pub counts: [u8; 32],
}

#[repr(C)]
#[derive(Clone, Copy, Debug, Default, PartialEq, Eq)]
pub struct Judgement {
    pub answer: Answer,
    pub won: u64,
}

#[repr(C)]
#[derive(Clone, Copy, Debug, Default, PartialEq, Eq)]
pub struct Marks {
    pub answer: Answer,
    pub winning: u64,
    pub domain: u64,
}

#[repr(C)]
#[derive(Clone, Copy, Debug, Default, PartialEq, Eq)]
pub struct Replayed {
    pub marks: Marks,
    pub opened: Opened,
}

#[repr(C)]
#[derive(Clone, Copy, Debug, Default, PartialEq, Eq)]
pub struct Ruled {
    pub answer: Answer,
    pub lost: u64,
}

#[repr(C)]
#[derive(Clone, Copy, Debug, Default, PartialEq, Eq)]
pub struct Checked {
    pub answer: Answer,
    pub lost: u64,
    pub variable: u64,
}

#[repr(C)]
#[derive(Clone, Copy, Debug, Default, PartialEq, Eq)]
pub struct Looked {
    pub answer: Answer,
    pub lost: u64,
    pub value: u64,
    pub variable: u64,
}

#[repr(C)]
#[derive(Clone, Copy, Debug, Default, PartialEq, Eq)]
pub struct Values {
    pub answer: Answer,
    pub values: u64,
}

#[repr(C)]
#[derive(Clone, Copy, Debug, Default, PartialEq, Eq)]
pub struct NamedValues {
    pub answer: Answer,
    pub pure: u64,
    pub impure: u64,
    pub variables: [u8; 16],
    pub values: [u8; 16],
}

#[repr(C)]
#[derive(Clone, Copy, Debug, Default, PartialEq, Eq)]
pub struct Searched {
    pub answer: Answer,
    pub won: u64,
    pub loss: u64,
    pub conflict: u64,
    pub list: [u16; 32],
    pub leaf: [u16; 32],
}

#[repr(C)]
#[derive(Clone, Copy, Debug, Default, PartialEq, Eq)]
pub struct FormulaJudgement {
    pub answer: Answer,
    pub won: u64,
    pub length: u64,
}

#[repr(C)]
#[derive(Clone, Copy, Debug, Default, PartialEq, Eq)]
pub struct GroupList {
    pub answer: Answer,
    pub count: u64,
    pub group: [u8; 32],
}

#[rustfmt::skip]
extern "C" {
    pub fn kb_interface() -> u64;

    pub fn kb_read(file: *const u8, length: usize) -> Reading;
    pub fn kb_look_up(file: *const u8, length: usize, i: u64, j: u64) -> Found;
    pub fn kb_look_up_triples(file: *const u8, length: usize, number: u64) -> FoundTriples;
    pub fn kb_write(
        buffer: *mut u8, size: usize, n: u64, m: u64, given: u64, rules: u64, universal: u64,
        domains: *const u16, domain_count: usize, constraints: *const u16, constraint_count: usize, triples: *const u16,
        triple_count: usize,
    ) -> Written;
    pub fn kb_report(file: *const u8, length: usize, buffer: *mut u8, size: usize) -> Written;

    pub fn kb_play(file: *const u8, length: usize, position: Position, value: u64) -> Moved;
    pub fn kb_take_back(file: *const u8, length: usize, position: Position) -> Moved;
    pub fn kb_lock(file: *const u8, length: usize, position: Position) -> Moved;
    pub fn kb_unlock(file: *const u8, length: usize, position: Position, number: u64) -> Moved;
    pub fn kb_session_play(file: *const u8, length: usize, session: *mut Position, value: u64) -> Answer;
    pub fn kb_session_take_back(file: *const u8, length: usize, session: *mut Position) -> Answer;
    pub fn kb_session_lock(file: *const u8, length: usize, session: *mut Position) -> Answer;
    pub fn kb_session_unlock(file: *const u8, length: usize, session: *mut Position, number: u64) -> Answer;
    pub fn kb_open(file: *const u8, length: usize, position: Position) -> Opened;

    pub fn kb_judge(
        file: *const u8, length: usize, plays: u64, depth: u64, a: u64, b: u64, c: u64, d: u64, rules: u64,
    ) -> Judgement;
    pub fn kb_mark(file: *const u8, length: usize, plays: u64, depth: u64, a: u64, b: u64, c: u64, d: u64, rules: u64) -> Marks;
    pub fn kb_judge_in(
        file: *const u8, length: usize, position: Position, rules: u64, room: *mut u16, words: usize,
    ) -> Judgement;
    pub fn kb_mark_in(file: *const u8, length: usize, position: Position, rules: u64, room: *mut u16, words: usize) -> Marks;
    pub fn kb_search(file: *const u8, length: usize, position: Position, rules: u64) -> Searched;
    pub fn kb_replay(file: *const u8, length: usize, calls: *const u8, call_count: usize, rules: u64) -> Replayed;

    pub fn kb_arc(file: *const u8, length: usize, list: *mut u16, masks: usize) -> Ruled;
    pub fn kb_forward_check(file: *const u8, length: usize, list: *mut u16, masks: usize, x: u64, a: u64) -> Checked;
    pub fn kb_look_ahead(file: *const u8, length: usize, list: *const u16, masks: usize, x: u64) -> Looked;
    pub fn kb_pure(file: *const u8, length: usize, list: *const u16, masks: usize, x: u64) -> NamedValues;
    pub fn kb_interchangeable(file: *const u8, length: usize, list: *const u16, masks: usize, x: u64) -> Values;

    pub fn kb_formula(file: *const u8, length: usize, buffer: *mut u8, size: usize) -> Written;
    pub fn kb_judge_formula(file: *const u8, length: usize, buffer: *mut u8, size: usize) -> FormulaJudgement;

    pub fn kb_groups(file: *const u8, length: usize) -> GroupList;
    pub fn kb_group(file: *const u8, length: usize, group: u64, buffer: *mut u8, size: usize) -> Written;
}

/// A struct that begins with an [`Answer`].
pub trait Reply {
    fn answer(&self) -> Answer;
}

impl Reply for Answer {
    fn answer(&self) -> Answer {
        *self
    }
}

macro_rules! replies {
    ($($reply:ident)*) => {$(
        impl Reply for $reply {
            fn answer(&self) -> Answer {
                self.answer
            }
        }
    )*};
}
replies!(Reading Found FoundTriples Written Opened Judgement Marks Ruled Checked Looked Values NamedValues Searched FormulaJudgement GroupList);

/// The reply, where the call finished. Any kind but 0 is a refusal, and 2 one with a place.
pub fn finished<T: Reply>(reply: T) -> Result<T, Refusal> {
    let Answer { kind, number, place } = reply.answer();
    match kind {
        0 => Ok(reply),
        _ => Err(Refusal { reason: Reason::of(number), place: (kind == 2).then_some(place as usize) }),
    }
}

/// A number that is 1 or 0.
pub fn flag(number: u64) -> bool {
    debug_assert!(number <= 1, "{number} is no flag");
    number == 1
}

/// A number that is a mask of values.
pub fn mask(number: u64) -> u16 {
    debug_assert!(number <= u16::MAX.into(), "{number} is no mask of 16 values");
    number as u16
}

/// A number that is a set of variables.
pub fn variables(number: u64) -> u32 {
    debug_assert!(number <= u32::MAX.into(), "{number} is no set of 32 variables");
    number as u32
}

impl Marks {
    pub fn typed(self) -> crate::Marks {
        crate::Marks { winning: mask(self.winning), domain: mask(self.domain) }
    }
}

impl Opened {
    pub fn typed(self) -> OpenValues {
        OpenValues { masks: self.masks, counts: self.counts }
    }
}

impl NamedValues {
    pub fn typed(self) -> PureValues {
        let impure = mask(self.impure);
        let clash = |a: usize| Clash { variable: self.variables[a].into(), value: self.values[a].into() };
        PureValues { pure: mask(self.pure), clashes: std::array::from_fn(|a| (impure >> a & 1 == 1).then(|| clash(a))) }
    }
}

#[cfg(test)]
mod against_header;
#[cfg(test)]
mod raw_replies;

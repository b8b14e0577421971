//! What finished calls reply.

use crate::{Refusal, RuleSet};

/// What a file says.
#[derive(Clone, Copy, Debug, PartialEq, Eq)]
pub struct Reading {
    /// The number of variables, 1 to 32.
    pub n: usize,
    /// The number of constraints of two variables.
    pub m: usize,
    /// The number of three-way constraints.
    pub t: usize,
    /// The file's rule set, if it names one.
    pub rules: Option<RuleSet>,
    /// The rule set to judge by: the file's, else [`RuleSet::USUAL`].
    pub rules_to_use: RuleSet,
    /// Bit k is set where variable k is universal; zero from n on.
    pub universal: u32,
    /// The domain of each variable as a mask of values; zero from n on.
    pub domains: [u16; 32],
}

/// Masks of values of the next variable.
#[derive(Clone, Copy, Debug, PartialEq, Eq)]
pub struct Marks {
    /// The values that win.
    pub winning: u16,
    /// All that the file has there.
    pub domain: u16,
}

/// The open values of each variable; zero from n on.
#[derive(Clone, Copy, Debug, PartialEq, Eq)]
pub struct OpenValues {
    /// The values as masks.
    pub masks: [u16; 32],
    /// How many they are.
    pub counts: [u8; 32],
}

/// What a search finds.
#[derive(Clone, Copy, Debug, PartialEq, Eq)]
pub struct Searched {
    /// Whether the position is won.
    pub won: bool,
    /// Whether the rules of the first turn found a loss.
    pub loss: bool,
    /// The conflict set of a lost search: bit k for variable k of the ordinary problem, as in the lists below. Zero in a won one.
    pub conflict: u32,
    /// The domains that the rules of the first turn reached; zero from n + t on.
    pub list: [u16; 32],
    /// The leaf of a won search, a value for each variable; zero from n + t on, and in a lost search.
    pub leaf: [u16; 32],
}

/// What a loss of look ahead names.
#[derive(Clone, Copy, Debug, PartialEq, Eq)]
pub struct LosingValue {
    /// The smallest value whose forward check is a loss.
    pub value: usize,
    /// The variable that this check names.
    pub variable: usize,
}

/// What rule 4 replies of a variable.
#[derive(Clone, Copy, Debug, PartialEq, Eq)]
pub struct PureValues {
    /// The mask of the pure values: those that go with every value that the list has at any other variable.
    pub pure: u16,
    /// At place a, for each other value a of the list's mask, the first that it does not go with; `None` at pure values, and at those that
    /// are not in the mask.
    pub clashes: [Option<Clash>; 16],
}

/// What a value that is not pure does not go with first.
#[derive(Clone, Copy, Debug, PartialEq, Eq)]
pub struct Clash {
    /// The first variable in order of play, the value's own left out, of which the list has a value that it does not go with.
    pub variable: usize,
    /// The smallest such value.
    pub value: usize,
}

/// What judging a problem's formula replies.
#[derive(Clone, Copy, Debug, PartialEq, Eq)]
pub struct JudgedFormula {
    /// Whether the formula is true, which it is exactly if the problem is won.
    pub won: bool,
    /// The length of its text in bytes.
    pub length: usize,
}

/// The groups of variables of the ordinary problem that hang together, numbered from 0 by their smallest variable.
#[derive(Clone, Copy, Debug, PartialEq, Eq)]
pub struct Groups {
    /// How many there are, 1 to n: a three-way constraint's variable is in the group of its three.
    pub count: usize,
    /// The group of each variable; zero from n + t on.
    pub group: [u8; 32],
}

/// What marking and the open values reply at the position that a list of calls reaches.
#[derive(Clone, Copy, Debug, PartialEq, Eq)]
pub struct Replayed {
    /// The marks there, or why there are none.
    pub marks: Result<Marks, Refusal>,
    /// The open values there, or why there are none.
    pub opened: Result<OpenValues, Refusal>,
}

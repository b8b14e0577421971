//! Rule sets.

use crate::{Reason, Refusal};

/// The number of a rule set, 0 to 127: the sum of its rules' numbers.
#[derive(Clone, Copy, Debug, PartialEq, Eq, PartialOrd, Ord, Hash)]
pub struct RuleSet(u64);

impl RuleSet {
    /// The plain game, without a rule.
    pub const PLAIN: RuleSet = RuleSet(0);
    /// Arc and forward check: the set that a file without one is judged by.
    pub const USUAL: RuleSet = RuleSet(3);
    /// All seven rules.
    pub const ALL: RuleSet = RuleSet(127);

    /// The set with this number. Refuses a number above 127.
    pub fn new(number: u64) -> Result<RuleSet, Refusal> {
        if number <= 127 {
            Ok(RuleSet(number))
        } else {
            Err(Reason::Rules.into())
        }
    }

    /// Any number. One above 127 is no rule set: the calls that it is handed to refuse it with [`Reason::Rules`].
    pub const fn unchecked(number: u64) -> RuleSet {
        RuleSet(number)
    }

    /// Its number.
    pub const fn number(self) -> u64 {
        self.0
    }
}

#[test]
fn numbers_up_to_127() {
    for number in (0..300).chain([1 << 16 | 3, 1 << 32 | 3, 1 << 63 | 3, u64::MAX]) {
        let expected = if number < 128 { Ok(number) } else { Err(Reason::Rules.into()) };
        assert_eq!(RuleSet::new(number).map(RuleSet::number), expected);
        assert_eq!(RuleSet::unchecked(number).number(), number);
    }
    assert_eq!([RuleSet::PLAIN, RuleSet::USUAL, RuleSet::ALL].map(RuleSet::number), [0, 3, 127]);
}

//! Why a call is turned away.

use std::{error::Error, fmt};

/// The names of document 01's list, and those that cards of document 02 add.
#[derive(Clone, Copy, Debug, PartialEq, Eq, Hash)]
pub enum Reason {
    /// 1: fewer than two bytes for a mark, or a body that is not whole.
    Short,
    /// 2: two bytes that no record may have there.
    Mark,
    /// 3: a count outside its range.
    Count,
    /// 4: a domain without a value.
    Domain,
    /// 5: a pair of variables that is not in order.
    Pair,
    /// 6: a pair that is not above the one before.
    Order,
    /// 7: a bit outside the domains.
    Stray,
    /// 8: a rule set above 127, in file or call.
    Rules,
    /// 9: bytes behind the end.
    Tail,
    /// 10: a value that is not in the domain concerned.
    Option,
    /// 11: a variable or a group that the file does not have; in a look-up also a pair that is not in order.
    Choice,
    /// 12: room or a buffer that is too short.
    Room,
    /// 13: a lent list that does not fit the file, or lists of a wrong length handed to the writer.
    List,
    /// 20: a play when all variables are played.
    Full,
    /// 21: a take-back when none is played.
    Bare,
    /// 22: marks asked when all variables are played.
    Done,
    /// 23: a position that the file does not allow, or with more plays held than there are.
    Misfit,
    /// 24: a take-back when all plays are held.
    Locked,
    /// 25: an unlock to more plays than are held.
    Depth,
    /// 26: of a three-way constraint, a wrong variable, count, value or order.
    Triple,
    /// 27: variables and three-way constraints, more than 32 together.
    Many,
    /// Any other number. The library is proved to reply none; it would be handed on as it came.
    Other(u64),
}

/// The list once: number, reason, and its condition in plain words.
const LIST: [(u64, Reason, &str); 21] = [
    (1, Reason::Short, "a mark or a body is not whole"),
    (2, Reason::Mark, "no record may have this mark here"),
    (3, Reason::Count, "a count is outside its range"),
    (4, Reason::Domain, "a domain has no value"),
    (5, Reason::Pair, "a pair of variables is not in order"),
    (6, Reason::Order, "a pair is not above the one before"),
    (7, Reason::Stray, "a bit is outside the domains"),
    (8, Reason::Rules, "a rule set is above 127"),
    (9, Reason::Tail, "bytes stand behind the end"),
    (10, Reason::Option, "the value is not in the domain"),
    (11, Reason::Choice, "there is no such variable, pair or group"),
    (12, Reason::Room, "the room or buffer is too short"),
    (13, Reason::List, "the list does not fit"),
    (20, Reason::Full, "all variables are played"),
    (21, Reason::Bare, "no variable is played"),
    (22, Reason::Done, "all variables are played, so there is nothing to mark"),
    (23, Reason::Misfit, "the file does not allow the position, or more plays are held than there are"),
    (24, Reason::Locked, "all plays are held"),
    (25, Reason::Depth, "fewer plays are held"),
    (26, Reason::Triple, "a three-way constraint has a wrong variable, count, value or order"),
    (27, Reason::Many, "variables and three-way constraints are more than 32"),
];

impl Reason {
    /// The reason with this number.
    pub fn of(number: u64) -> Reason {
        LIST.iter().find(|row| row.0 == number).map_or(Reason::Other(number), |row| row.1)
    }

    /// Document 01's number.
    pub fn number(self) -> u64 {
        match self {
            Reason::Other(number) => number,
            _ => LIST.iter().find(|row| row.1 == self).map_or(0, |row| row.0),
        }
    }
}

impl fmt::Display for Reason {
    fn fmt(&self, f: &mut fmt::Formatter<'_>) -> fmt::Result {
        f.write_str(LIST.iter().find(|row| row.1 == *self).map_or("a number outside the list", |row| row.2))
    }
}

/// Why a call was turned away, and where, if it is the file.
#[derive(Clone, Copy, Debug, PartialEq, Eq, Hash)]
pub struct Refusal {
    /// The condition that holds.
    pub reason: Reason,
    /// The place in the file, where the file itself is refused: the first byte of the record, or the first byte too many.
    pub place: Option<usize>,
}

impl Refusal {
    /// Document 01's number.
    pub fn number(&self) -> u64 {
        self.reason.number()
    }
}

impl From<Reason> for Refusal {
    /// A refusal of the call, which has no place.
    fn from(reason: Reason) -> Refusal {
        Refusal { reason, place: None }
    }
}

impl fmt::Display for Refusal {
    fn fmt(&self, f: &mut fmt::Formatter<'_>) -> fmt::Result {
        write!(f, "refused with {}", self.number())?;
        if let Some(place) = self.place {
            write!(f, " at byte {place}")?;
        }
        write!(f, ": {}", self.reason)
    }
}

impl Error for Refusal {}

#[cfg(test)]
mod tests {
    use super::*;

    #[test]
    fn names_and_numbers() {
        let numbers: Vec<u64> = LIST.iter().map(|row| row.0).collect();
        assert_eq!(numbers, (1..=13).chain(20..=27).collect::<Vec<u64>>());
        for number in (0..300).chain([1 << 32 | 8, u64::MAX]) {
            assert_eq!(Reason::of(number).number(), number);
            assert_eq!(matches!(Reason::of(number), Reason::Other(_)), !numbers.contains(&number));
        }
    }

    #[test]
    fn plain_words() {
        let file = Refusal { reason: Reason::of(2), place: Some(5) };
        assert_eq!(file.to_string(), "refused with 2 at byte 5: no record may have this mark here");
        assert_eq!(Refusal::from(Reason::Bare).to_string(), "refused with 21: no variable is played");
        assert_eq!(Refusal::from(Reason::of(99)).to_string(), "refused with 99: a number outside the list");
    }
}

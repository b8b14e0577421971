//! Calls on a position: the plays that stand as a plain list with its lock depth, and the open values by their definition.

use super::Problem;
use kickballbox::{OpenValues, Position, Reason};

/// Whether two plays break a constraint.
pub fn clashing(p: &Problem, plays: &[u8]) -> bool {
    (0..plays.len()).any(|j| (0..j).any(|i| !p.goes(i, plays[i], j, plays[j])))
}

/// Whether the file allows the position.
pub fn fits(p: &Problem, at: &Position) -> bool {
    let mut places = at.values.iter().enumerate();
    at.plays <= p.domains.len() as u64
        && at.depth <= at.plays
        && places.all(|(k, &v)| if (k as u64) < at.plays { p.has(k, v.into()) } else { v == 0 })
}

/// Why no unplayed variable has an open value, as bits: 1 two plays clash, 2 an unplayed existential variable has no value that goes with
/// every play, 4 a play clashes with a value of an unplayed universal one.
pub fn causes(p: &Problem, plays: &[u8]) -> u8 {
    let clash = |j: usize, b: u8| (0..plays.len()).any(|i| !p.goes(i, plays[i], j, b));
    let mut found = u8::from(clashing(p, plays));
    for j in plays.len()..p.domains.len() {
        let mut values = (0..16).filter(|&b| p.has(j, b.into()));
        if p.universal[j] {
            found |= u8::from(values.any(|b| clash(j, b))) << 2;
        } else {
            found |= u8::from(values.all(|b| clash(j, b))) << 1;
        }
    }
    found
}

/// The open values after these plays: of an unplayed variable those still usable.
pub fn open_values(p: &Problem, plays: &[u8]) -> OpenValues {
    let mut opened = OpenValues { masks: [0; 32], counts: [0; 32] };
    let usable = causes(p, plays) == 0;
    for j in 0..p.domains.len() {
        for b in 0..16 {
            let open = match plays.get(j) {
                Some(&played) => b == played,
                None => usable && p.has(j, b.into()) && (p.universal[j] || (0..plays.len()).all(|i| p.goes(i, plays[i], j, b))),
            };
            if open {
                opened.masks[j] |= 1 << b;
                opened.counts[j] += 1;
            }
        }
    }
    opened
}

/// A call of a history.
#[derive(Clone, Copy, Debug, PartialEq, Eq)]
pub enum Call {
    Play(usize),
    TakeBack,
    Lock,
    Unlock(usize),
}

impl Call {
    /// The call that a replay takes a byte for.
    pub fn of(byte: u8) -> Call {
        match byte {
            255 => Call::TakeBack,
            254 => Call::Lock,
            192..=253 => Call::Unlock(usize::from(byte) - 192),
            _ => Call::Play(byte.into()),
        }
    }

    /// The byte that a replay takes for it; none where there is none.
    pub fn byte(self) -> Option<u8> {
        (0..=255).find(|byte| Call::of(*byte) == self)
    }
}

/// The plays that stand and how many of them are held, fed by the problem and each call alone.
pub struct PlainList<'a> {
    problem: &'a Problem,
    pub plays: Vec<u8>,
    pub depth: usize,
}

impl<'a> PlainList<'a> {
    pub fn new(problem: &'a Problem) -> PlainList<'a> {
        PlainList { problem, plays: vec![], depth: 0 }
    }

    /// Makes a call, or tells why not.
    pub fn make(&mut self, call: Call) -> Result<(), Reason> {
        let count = self.plays.len();
        match call {
            Call::Play(_) if count == self.problem.domains.len() => return Err(Reason::Full),
            Call::Play(value) if !self.problem.has(count, value) => return Err(Reason::Option),
            Call::Play(value) => self.plays.push(value as u8),
            Call::TakeBack if count == 0 => return Err(Reason::Bare),
            Call::TakeBack if count == self.depth => return Err(Reason::Locked),
            Call::TakeBack => drop(self.plays.pop()),
            Call::Lock => self.depth = count,
            Call::Unlock(number) if number > self.depth => return Err(Reason::Depth),
            Call::Unlock(number) => self.depth = number,
        }
        Ok(())
    }

    pub fn position(&self) -> Position {
        Position::after(&self.plays).expect("at most 32 plays").with_depth(self.depth as u64)
    }
}

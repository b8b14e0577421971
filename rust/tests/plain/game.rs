//! The game by its definition, three-way constraints among what is looked at at its end. Nothing here knows of hidden variables.

use super::{Constraint, Problem};
use kickballbox::{Marks, Reason, Refusal};
use std::ops::Range;

/// The game, with a bound on the values tried.
pub struct Game<'a> {
    pub problem: &'a Problem,
    /// Whether a play that breaks a constraint, of two variables or of three, with earlier plays is given up at once. The verdict is the
    /// same, since no domain is empty.
    pub early: bool,
    pub budget: u64,
}

impl<'a> Game<'a> {
    /// The plain game without a bound.
    pub fn whole(problem: &'a Problem) -> Game<'a> {
        Game { problem, early: false, budget: u64::MAX }
    }

    fn holds(&self, t: &Constraint, plays: &[u8]) -> bool {
        t.rows[plays[t.i] as usize] >> plays[t.j] & 1 == 1
    }

    /// Whether the plays break a constraint whose last variable is among these.
    fn breaks(&self, plays: &[u8], last: Range<usize>) -> bool {
        self.problem.constraints.iter().any(|t| last.contains(&t.j) && !self.holds(t, plays))
            || self.problem.triples.iter().any(|t| last.contains(&t.variables[2]) && !t.holds(plays))
    }

    /// Whether the position is won; none where the budget does not suffice.
    pub fn won(&mut self, plays: &[u8]) -> Option<bool> {
        let mut plays = plays.to_vec();
        if self.early && self.breaks(&plays, 0..plays.len()) {
            return Some(false);
        }
        self.turn(&mut plays)
    }

    fn turn(&mut self, plays: &mut Vec<u8>) -> Option<bool> {
        let next = plays.len();
        if next == self.problem.domains.len() {
            return Some(!self.breaks(plays, 0..next));
        }
        let universal = self.problem.universal[next];
        for a in 0..16 {
            if self.problem.domains[next] >> a & 1 == 0 {
                continue;
            }
            self.budget = self.budget.checked_sub(1)?;
            plays.push(a);
            let broken = self.early && self.breaks(plays, next..next + 1);
            let won = if broken { Some(false) } else { self.turn(plays) };
            plays.pop();
            if won? != universal {
                return Some(!universal);
            }
        }
        Some(universal)
    }

    /// The winning values of the next variable.
    pub fn marks(&mut self, plays: &[u8]) -> Option<u16> {
        let mut winning = 0;
        for a in 0..16 {
            if self.problem.domains[plays.len()] >> a & 1 == 1 {
                let mut next = plays.to_vec();
                next.push(a);
                winning |= (self.won(&next)? as u16) << a;
            }
        }
        Some(winning)
    }

    /// What marking replies after these plays.
    pub fn marking(&mut self, plays: &[u8]) -> Option<Result<Marks, Refusal>> {
        Some(match self.problem.domains.get(plays.len()) {
            None => Err(Reason::Done.into()),
            Some(&domain) => Ok(Marks { winning: self.marks(plays)?, domain }),
        })
    }
}

//! What the judging program prints.

use super::{read, Game};
use std::fmt::Write;

/// The text of any bytes; none where so many tried values do not suffice to judge it, in the whole game where the file's rule set has no
/// forward check.
pub fn text(file: &[u8], budget: u64) -> Option<String> {
    let p = match read(file) {
        Ok(p) => p,
        Err(refusal) => return Some(format!("refused {} at {}\n", refusal.number(), refusal.place?)),
    };
    let rules = p.rules.unwrap_or(3);
    let mut game = Game { problem: &p, early: rules & 2 == 2, budget };
    let (won, winning) = (game.won(&[])?, game.marks(&[])?);
    let mut out = format!("choices {}\ntables {}\nrules {}\n", p.domains.len(), p.constraints.len(), rules);
    let _ = writeln!(out, "answer {}", if won { "yes" } else { "no" });
    let _ = writeln!(out, "next 0 {}", if p.universal[0] { "day" } else { "shift" });
    for a in (0..16).filter(|a| p.domains[0] >> a & 1 == 1) {
        let _ = writeln!(out, "option {a} {}", if winning >> a & 1 == 1 { "good" } else { "bad" });
    }
    Some(out)
}

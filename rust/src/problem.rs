//! The writer.

use crate::{entries, interface::demand_interface, Refusal, RuleSet};

/// The numbers that the writer is handed. They may be anything: what no file says is refused.
#[derive(Clone, Copy, Debug, PartialEq, Eq)]
pub struct Problem<'a> {
    /// The number of variables.
    pub n: usize,
    /// The number of constraints of two variables.
    pub m: usize,
    /// The rule set that the file names, or none.
    pub rules: Option<RuleSet>,
    /// Bit k for a universal variable k.
    pub universal: u64,
    /// The domains of the n variables.
    pub domains: &'a [u16],
    /// 18 numbers a constraint: its variables i and j, and its 16 rows.
    pub constraints: &'a [u16],
    /// The three-way constraints one behind another, ascending strictly by (i, j, k): i < j < k, how many triples of values (1 to 16),
    /// and three numbers for each, a value of i, of j and of k, triples ascending strictly.
    pub triples: &'a [u16],
}

impl Problem<'_> {
    /// Writes the file at the front of the buffer and replies its length; bytes behind it keep their contents. Refuses with
    /// `Count` (n or m), `List` (not n domains, not 18·m numbers, or triples that stop within a constraint), `Rules`, `Choice` (a bit
    /// of `universal` at n or above), `Domain`, then `Pair`, `Order` and `Stray` constraint by constraint, `Many` and `Triple` likewise,
    /// and `Room` (the buffer is shorter than the file).
    ///
    /// # Panics
    ///
    /// As [`File::new`](crate::File::new) does.
    pub fn write(&self, buffer: &mut [u8]) -> Result<usize, Refusal> {
        demand_interface();
        let (given, rules) = self.rules.map_or((0, 0), |set| (1, set.number()));
        // SAFETY: the entry reads the three lists and writes the buffer, each within the length that comes with it.
        let reply = unsafe {
            entries::kb_write(
                buffer.as_mut_ptr(),
                buffer.len(),
                self.n as u64,
                self.m as u64,
                given,
                rules,
                self.universal,
                self.domains.as_ptr(),
                self.domains.len(),
                self.constraints.as_ptr(),
                self.constraints.len(),
                self.triples.as_ptr(),
                self.triples.len(),
            )
        };
        entries::finished(reply).map(|written| written.length as usize)
    }
}

//! The first five rules, each called alone on a lent list of a mask for each of the n + t variables of the ordinary problem, none zero, each
//! within that variable's domain (that of a three-way constraint's variable has a bit for each of its triples: (1 << count) - 1, `count`
//! being byte 3 of [`File::triples`]). All refuse any other list with `List`; those with a variable then one that this problem does not have with
//! `Choice`. Variables named are the ordinary problem's too.

use crate::entries::{self, finished, flag, mask};
use crate::{File, LosingValue, PureValues, Refusal};

impl File<'_> {
    /// Arc (rule 1): leaves the list without dead values, also in a loss, and replies whether it is a loss. Refuses with `List`.
    pub fn arc(self, list: &mut [u16]) -> Result<bool, Refusal> {
        let (file, length) = self.lent();
        // SAFETY: the entry reads the file's bytes and writes the list, which is borrowed for this call alone.
        let reply = unsafe { entries::kb_arc(file, length, list.as_mut_ptr(), list.len()) };
        finished(reply).map(|ruled| flag(ruled.lost))
    }

    /// Forward check (rule 2) of a value of variable x: leaves the list as checked, also in a loss. Of a loss it replies the lowest
    /// later variable that was emptied (existential) or that holds a clash (universal); where there is no loss, none. Refuses with
    /// `List`, `Choice`, `Option` (a value that is not in the list's mask).
    pub fn forward_check(self, list: &mut [u16], x: usize, value: usize) -> Result<Option<usize>, Refusal> {
        let (file, length) = self.lent();
        // SAFETY: the entry reads the file's bytes and writes the list, which is borrowed for this call alone.
        let reply = unsafe { entries::kb_forward_check(file, length, list.as_mut_ptr(), list.len(), x as u64, value as u64) };
        finished(reply).map(|checked| flag(checked.lost).then_some(checked.variable as usize))
    }

    /// Look ahead (rule 3) at variable x: of a loss, what shows it; where there is no loss, as for every existential variable, none.
    /// Refuses with `List`, `Choice`.
    pub fn look_ahead(self, list: &[u16], x: usize) -> Result<Option<LosingValue>, Refusal> {
        let (file, length) = self.lent();
        // SAFETY: the entry reads the file's bytes and the list.
        let reply = unsafe { entries::kb_look_ahead(file, length, list.as_ptr(), list.len(), x as u64) };
        let named = |looked: entries::Looked| LosingValue { value: looked.value as usize, variable: looked.variable as usize };
        finished(reply).map(|looked| flag(looked.lost).then(|| named(looked)))
    }

    /// The pure values of variable x (rule 4), and what each other value of the list's mask does not go with first. Refuses with `List`,
    /// `Choice`.
    pub fn pure(self, list: &[u16], x: usize) -> Result<PureValues, Refusal> {
        let (file, length) = self.lent();
        // SAFETY: the entry reads the file's bytes and the list.
        let reply = unsafe { entries::kb_pure(file, length, list.as_ptr(), list.len(), x as u64) };
        finished(reply).map(entries::NamedValues::typed)
    }

    /// The mask of the smallest of each group of interchangeable values of variable x (rule 5). Refuses with `List`, `Choice`.
    pub fn interchangeable(self, list: &[u16], x: usize) -> Result<u16, Refusal> {
        let (file, length) = self.lent();
        // SAFETY: the entry reads the file's bytes and the list.
        let reply = unsafe { entries::kb_interchangeable(file, length, list.as_ptr(), list.len(), x as u64) };
        finished(reply).map(|shown| mask(shown.values))
    }
}

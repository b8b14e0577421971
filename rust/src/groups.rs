//! Which variables hang together, and each group of them as a file of its own.

use crate::entries::{self, finished};
use crate::{File, Groups, Refusal, FILE};

impl File<'_> {
    /// The groups of variables of the [ordinary problem](crate). Two are in one group if a chain of constraints joins them, and a
    /// constraint joins its two whatever it permits; so the problem is won exactly if the problem of each group is.
    pub fn groups(self) -> Result<Groups, Refusal> {
        let (file, length) = self.lent();
        // SAFETY: the entry reads the file's bytes.
        let list = finished(unsafe { entries::kb_groups(file, length) })?;
        Ok(Groups { count: list.count as usize, group: list.group })
    }

    /// Writes this group as a file at the front of the buffer, its variables renumbered in order, none of its constraints three-way,
    /// with the file's rule set, if it has one, and replies the length; bytes behind it keep their contents. [`FILE`] bytes suffice
    /// for every group. Refuses with `Choice` (no such group), `Room` (the buffer is shorter than the group's file).
    pub fn group(self, group: usize, buffer: &mut [u8]) -> Result<usize, Refusal> {
        let (file, length) = self.lent();
        // SAFETY: the entry reads the file's bytes and writes the buffer, which is borrowed for this call alone.
        let reply = unsafe { entries::kb_group(file, length, group as u64, buffer.as_mut_ptr(), buffer.len()) };
        finished(reply).map(|written| written.length as usize)
    }

    /// The file of [`group`](File::group). Refuses with `Choice`.
    pub fn group_file(self, group: usize) -> Result<Vec<u8>, Refusal> {
        let mut buffer = vec![0; FILE];
        let length = self.group(group, &mut buffer)?;
        buffer.truncate(length);
        Ok(buffer)
    }
}

//! Sessions.

use crate::{entries, File, Position, Refusal};

/// A position of a file that plays, take-backs, locks and unlocks alter.
#[derive(Clone, Copy, Debug, PartialEq, Eq)]
pub struct Session<'a> {
    file: File<'a>,
    position: Position,
}

impl<'a> Session<'a> {
    /// A session of this file that begins at this position.
    pub fn new(file: File<'a>, position: Position) -> Session<'a> {
        Session { file, position }
    }

    /// Its file.
    pub fn file(&self) -> File<'a> {
        self.file
    }

    /// The position that it has reached.
    pub fn position(&self) -> &Position {
        &self.position
    }

    /// Plays this value of the next variable. Refuses as [`File::play`] does, and then leaves the position as it was.
    pub fn play(&mut self, value: usize) -> Result<(), Refusal> {
        let (file, length) = self.file.lent();
        // SAFETY: the entry reads the file's bytes, and alters the position, which is borrowed for this call alone.
        let reply = unsafe { entries::kb_session_play(file, length, &mut self.position, value as u64) };
        entries::finished(reply).map(drop)
    }

    /// Takes the last play back. Refuses as [`File::take_back`] does, and then leaves the position as it was.
    pub fn take_back(&mut self) -> Result<(), Refusal> {
        let (file, length) = self.file.lent();
        // SAFETY: the entry reads the file's bytes, and alters the position, which is borrowed for this call alone.
        let reply = unsafe { entries::kb_session_take_back(file, length, &mut self.position) };
        entries::finished(reply).map(drop)
    }

    /// Holds all plays that stand. Refuses as [`File::lock`] does, and then leaves the position as it was.
    pub fn lock(&mut self) -> Result<(), Refusal> {
        let (file, length) = self.file.lent();
        // SAFETY: the entry reads the file's bytes, and alters the position, which is borrowed for this call alone.
        let reply = unsafe { entries::kb_session_lock(file, length, &mut self.position) };
        entries::finished(reply).map(drop)
    }

    /// Holds the first `number` plays alone. Refuses as [`File::unlock`] does, and then leaves the position as it was.
    pub fn unlock(&mut self, number: usize) -> Result<(), Refusal> {
        let (file, length) = self.file.lent();
        // SAFETY: the entry reads the file's bytes, and alters the position, which is borrowed for this call alone.
        let reply = unsafe { entries::kb_session_unlock(file, length, &mut self.position, number as u64) };
        entries::finished(reply).map(drop)
    }
}

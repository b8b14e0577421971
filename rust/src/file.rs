//! Files, and what is read and played on them.

use crate::entries::{self, finished, flag, variables};
use crate::{interface::demand_interface, JudgedFormula, OpenValues, Position, Reading, Reason, Refusal, RuleSet, Session, TEXT};

/// The bytes of a file. They may be any bytes: each call reads them first, and where they are no file it refuses them with their
/// [place](Refusal::place).
#[derive(Clone, Copy, Debug, PartialEq, Eq)]
pub struct File<'a>(&'a [u8]);

impl<'a> File<'a> {
    /// These bytes as a file.
    ///
    /// # Panics
    ///
    /// Where the library has another interface than the wrapper ([`check_interface`](crate::check_interface)).
    pub fn new(bytes: &'a [u8]) -> File<'a> {
        demand_interface();
        File(bytes)
    }

    /// The bytes.
    pub fn bytes(self) -> &'a [u8] {
        self.0
    }

    /// Pointer and length, as the entries take them.
    pub(crate) fn lent(self) -> (*const u8, usize) {
        (self.0.as_ptr(), self.0.len())
    }

    /// What the file says.
    pub fn read(self) -> Result<Reading, Refusal> {
        let (file, length) = self.lent();
        // SAFETY: the entry reads the file's bytes.
        let r = finished(unsafe { entries::kb_read(file, length) })?;
        let rules_to_use = RuleSet::unchecked(r.rules);
        Ok(Reading {
            n: r.n as usize,
            m: r.m as usize,
            t: r.t as usize,
            rules: flag(r.given).then_some(rules_to_use),
            rules_to_use,
            universal: variables(r.universal),
            domains: r.domains,
        })
    }

    /// Where the first of the 32 row bytes of the constraint between i and j stands, or none where the pair is free. Refuses with
    /// `Choice` unless i < j < n.
    pub fn look_up(self, i: usize, j: usize) -> Result<Option<usize>, Refusal> {
        let (file, length) = self.lent();
        // SAFETY: the entry reads the file's bytes.
        let found = finished(unsafe { entries::kb_look_up(file, length, i as u64, j as u64) })?;
        Ok(flag(found.found).then_some(found.rows as usize))
    }

    /// The 32 row bytes that [`look_up`](File::look_up) tells, as a part of the file.
    pub fn rows(self, i: usize, j: usize) -> Result<Option<&'a [u8]>, Refusal> {
        Ok(self.look_up(i, j)?.map(|place| &self.0[place..place + 32]))
    }

    /// The body of the three-way constraint of this number, counted from 0 in the file's order, as a part of the file, or none where there
    /// is no such constraint: its variables i, j, k and how many triples of values, a byte each, then three bytes for each triple. Refuses
    /// the file alone.
    pub fn triples(self, number: usize) -> Result<Option<&'a [u8]>, Refusal> {
        let (file, length) = self.lent();
        // SAFETY: the entry reads the file's bytes.
        let found = finished(unsafe { entries::kb_look_up_triples(file, length, number as u64) })?;
        Ok(flag(found.found).then(|| &self.0[found.body as usize..][..found.length as usize]))
    }

    /// Writes what the judging program prints of these bytes at the front of the buffer and replies the length, at most [`TEXT`];
    /// bytes behind it keep their contents. Refuses with `Room` alone, where the buffer is shorter than the text.
    pub fn report(self, buffer: &mut [u8]) -> Result<usize, Refusal> {
        let (file, length) = self.lent();
        // SAFETY: the entry reads the file's bytes and writes the buffer, which is borrowed for this call alone.
        let reply = unsafe { entries::kb_report(file, length, buffer.as_mut_ptr(), buffer.len()) };
        finished(reply).map(|written| written.length as usize)
    }

    /// The text of [`report`](File::report).
    pub fn text(self) -> Result<String, Refusal> {
        let mut buffer = [0; TEXT];
        let length = self.report(&mut buffer)?;
        Ok(String::from_utf8_lossy(&buffer[..length]).into_owned())
    }

    /// Writes the [ordinary problem](crate) as a quantified boolean formula (QDIMACS) at the front of the buffer and replies the length
    /// of that text; bytes behind it keep their contents. [`FORMULA`](crate::FORMULA) bytes suffice for every file. Refuses with `Room`, where the
    /// buffer is shorter than the text.
    pub fn formula(self, buffer: &mut [u8]) -> Result<usize, Refusal> {
        let (file, length) = self.lent();
        // SAFETY: the entry reads the file's bytes and writes the buffer, which is borrowed for this call alone.
        let reply = unsafe { entries::kb_formula(file, length, buffer.as_mut_ptr(), buffer.len()) };
        finished(reply).map(|written| written.length as usize)
    }

    /// The text of [`formula`](File::formula). Refuses the file alone: the buffer grows until the text fits.
    pub fn formula_text(self) -> Result<String, Refusal> {
        let mut buffer = vec![0; 1 << 14];
        loop {
            match self.formula(&mut buffer) {
                Err(Refusal { reason: Reason::Room, .. }) => buffer = vec![0; 4 * buffer.len()],
                reply => return reply.map(|length| String::from_utf8_lossy(&buffer[..length]).into_owned()),
            }
        }
    }

    /// Writes the text of [`formula`](File::formula) into the buffer and judges that text, one boolean after another. Its time is
    /// exponential in the number of booleans by nature: it is for small problems, a stock QBF solver for large ones. Refuses as
    /// `formula` does.
    ///
    /// It needs [`FORMULA_STACK`](crate::FORMULA_STACK) bytes of stack; a thread that Rust starts has 2 MiB unless told otherwise.
    pub fn judge_formula(self, buffer: &mut [u8]) -> Result<JudgedFormula, Refusal> {
        let (file, length) = self.lent();
        // SAFETY: the entry reads the file's bytes and writes the buffer, which is borrowed for this call alone.
        let reply = unsafe { entries::kb_judge_formula(file, length, buffer.as_mut_ptr(), buffer.len()) };
        finished(reply).map(|judgement| JudgedFormula { won: flag(judgement.won), length: judgement.length as usize })
    }

    /// The position after a play of this value of the next variable. Refuses with `Misfit`, `Full`, `Option`. The lock depth stays.
    pub fn play(self, position: &Position, value: usize) -> Result<Position, Refusal> {
        let (file, length) = self.lent();
        // SAFETY: the entry reads the file's bytes.
        let moved = unsafe { entries::kb_play(file, length, *position, value as u64) };
        finished(moved.answer).map(|_| moved.position)
    }

    /// The position without its last play. Refuses with `Misfit`, `Bare`, `Locked` (all plays are held). The lock depth
    /// stays.
    pub fn take_back(self, position: &Position) -> Result<Position, Refusal> {
        let (file, length) = self.lent();
        // SAFETY: the entry reads the file's bytes.
        let moved = unsafe { entries::kb_take_back(file, length, *position) };
        finished(moved.answer).map(|_| moved.position)
    }

    /// The position with all its plays held. Refuses with `Misfit`.
    pub fn lock(self, position: &Position) -> Result<Position, Refusal> {
        let (file, length) = self.lent();
        // SAFETY: the entry reads the file's bytes.
        let moved = unsafe { entries::kb_lock(file, length, *position) };
        finished(moved.answer).map(|_| moved.position)
    }

    /// The position with its first `number` plays alone held. Refuses with `Misfit`, `Depth` (fewer are held).
    pub fn unlock(self, position: &Position, number: usize) -> Result<Position, Refusal> {
        let (file, length) = self.lent();
        // SAFETY: the entry reads the file's bytes.
        let moved = unsafe { entries::kb_unlock(file, length, *position, number as u64) };
        finished(moved.answer).map(|_| moved.position)
    }

    /// A session that begins at the fresh position.
    pub fn session(self) -> Session<'a> {
        Session::new(self, Position::fresh())
    }

    /// The open values of every variable, those still usable: a played one's own value, all of a universal variable, and of an
    /// existential one those that go with every play. Nothing is usable at any unplayed variable if two plays clash, if no value of
    /// an unplayed existential variable goes with every play, or if a play clashes with a value of an unplayed universal variable.
    /// Three-way constraints count for nothing here.
    /// Refuses with `Misfit`.
    pub fn open_values(self, position: &Position) -> Result<OpenValues, Refusal> {
        let (file, length) = self.lent();
        // SAFETY: the entry reads the file's bytes.
        finished(unsafe { entries::kb_open(file, length, *position) }).map(entries::Opened::typed)
    }
}

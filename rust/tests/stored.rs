//! The stored cases, as `cases/README.md` lays them out.

use crate::{lent, plain};
use kickballbox::{OpenValues, Position, Reason, Refusal, RuleSet};

/// A stored file, and how far it is read.
pub struct Cases {
    name: &'static str,
    bytes: Vec<u8>,
    at: usize,
}

impl Cases {
    /// The stored file of this name.
    fn open(name: &'static str) -> Cases {
        let path = format!("{}/../cases/{name}", env!("CARGO_MANIFEST_DIR"));
        let bytes = std::fs::read(&path).unwrap_or_else(|error| panic!("{path}: {error}"));
        Cases { name, bytes, at: 0 }
    }

    pub fn bytes(&mut self, count: usize) -> Vec<u8> {
        let part = self.bytes.get(self.at..self.at + count);
        let part = part.unwrap_or_else(|| panic!("{} is too short: {count} bytes from {} on", self.name, self.at));
        self.at += count;
        part.to_vec()
    }

    pub fn byte(&mut self) -> u8 {
        self.bytes(1)[0]
    }

    pub fn flag(&mut self) -> bool {
        match self.byte() {
            0 => false,
            1 => true,
            other => panic!("{}: {other} before byte {} is no flag", self.name, self.at),
        }
    }

    pub fn word(&mut self) -> u16 {
        let bytes = self.bytes(2);
        u16::from_le_bytes([bytes[0], bytes[1]])
    }

    pub fn long(&mut self) -> u32 {
        u32::from(self.word()) | u32::from(self.word()) << 16
    }

    pub fn words(&mut self, count: usize) -> Vec<u16> {
        (0..count).map(|_| self.word()).collect()
    }

    /// The length, and so many bytes.
    pub fn file(&mut self) -> Vec<u8> {
        let length = self.word();
        self.bytes(length.into())
    }

    /// Number and place of a refusal; none where the call finished.
    pub fn refusal(&mut self) -> Option<Refusal> {
        let (number, place) = (self.byte(), self.word());
        (number != 0).then(|| refusal(number, place))
    }
}

/// Reads every case of a stored file to its end.
pub fn all<T>(name: &'static str, case: impl Fn(&mut Cases) -> T) -> Vec<T> {
    let mut cases = Cases::open(name);
    let count = cases.word();
    let read = (0..count).map(|_| case(&mut cases)).collect();
    assert_eq!(cases.at, cases.bytes.len(), "{name} goes on behind its last case");
    read
}

/// A stored refusal. 1 to 9, 26 and 27 are the file's, with their place; but 8 is also the call's: a file's stands at its RS, so not at 0.
pub fn refusal(number: u8, place: u16) -> Refusal {
    let of_file = matches!(number, 1..=9 | 26 | 27) && (number, place) != (8, 0);
    Refusal { reason: Reason::of(number.into()), place: of_file.then_some(place.into()) }
}

/// A list of n, and zeros behind it.
pub fn filled<T: Copy + Default>(list: &[T]) -> [T; 32] {
    let mut all = [T::default(); 32];
    all[..list.len()].copy_from_slice(list);
    all
}

/// The number of variables of an accepted file.
fn n_of(file: &[u8]) -> usize {
    file[2].into()
}

/// How many words judging an accepted file needs: its variables and its three-way constraints count.
pub fn needed(file: &[u8]) -> usize {
    lent::needed(plain::read(file).expect("an accepted file").all())
}

/// A position, and what the game comes to from there.
pub struct Game {
    pub file: Vec<u8>,
    pub position: Position,
    pub won: bool,
    pub winning: u16,
    pub opened: OpenValues,
}

/// The stored files of games. Those of the second have three-way constraints.
pub const GAMES: [&str; 2] = ["game.bin", "card07-game.bin"];

pub fn games() -> Vec<Game> {
    games_of(GAMES[0])
}

pub fn games_of(name: &'static str) -> Vec<Game> {
    all(name, |c| {
        let file = c.file();
        let position = played(c);
        let n = n_of(&file);
        Game { position, won: c.flag(), winning: c.word(), opened: opened(c, n), file }
    })
}

/// A position, why nothing is open there, and what is.
pub struct Opening {
    pub file: Vec<u8>,
    pub position: Position,
    /// As bits: 1 two plays clash, 2 an unplayed existential variable has no open value, 4 a play clashes with an unplayed universal one.
    pub causes: u8,
    pub opened: OpenValues,
}

pub fn openings() -> Vec<Opening> {
    all("card03.bin", |c| {
        let file = c.file();
        let position = played(c);
        let n = n_of(&file);
        Opening { position, causes: c.byte(), opened: opened(c, n), file }
    })
}

fn played(c: &mut Cases) -> Position {
    let plays = c.byte();
    Position::after(&c.bytes(plays.into())).expect("at most 32 plays")
}

fn opened(c: &mut Cases, n: usize) -> OpenValues {
    OpenValues { masks: filled(&c.words(n)), counts: filled(&c.bytes(n)) }
}

/// A call on a position, and what it answers.
pub struct Call {
    pub file: Vec<u8>,
    pub position: Position,
    pub argument: u16,
    pub words: usize,
    pub answer: Result<Answer, Refusal>,
    pub kind: u8,
}

/// What a finished call answers.
#[derive(Clone, Copy, Debug, PartialEq)]
pub enum Answer {
    Moved(Position),
    Marks(u16, u16),
    Opened(OpenValues),
    Won(bool),
}

pub const PLAY: u8 = 0;
pub const TAKE_BACK: u8 = 1;
pub const MARK: u8 = 2;
pub const OPEN: u8 = 3;
pub const JUDGE: u8 = 4;
pub const LOCK: u8 = 5;
pub const UNLOCK: u8 = 6;

/// The stored files of calls. In the second an argument has two bytes; the files of the third have three-way constraints.
pub const CALLS: [&str; 3] = ["calls.bin", "card06.bin", "card07-calls.bin"];

/// The calls of this kind in one of them.
pub fn calls(name: &'static str, kind: u8) -> Vec<Call> {
    let mut calls = all(name, |c| call(c, name == CALLS[1]));
    calls.retain(|call| call.kind == kind);
    calls
}

fn call(c: &mut Cases, wide: bool) -> Call {
    let file = c.file();
    let position = any_position(c);
    let kind = c.byte();
    let argument = if wide { c.word() } else { c.byte().into() };
    let words = c.word().into();
    let refusal = c.refusal();
    let length = c.byte();
    let start = c.at;
    let answer = match refusal {
        Some(refusal) => Err(refusal),
        None => Ok(match kind {
            PLAY | TAKE_BACK | LOCK | UNLOCK => Answer::Moved(any_position(c)),
            MARK => Answer::Marks(c.word(), c.word()),
            OPEN => Answer::Opened(opened(c, n_of(&file))),
            JUDGE => Answer::Won(c.flag()),
            other => panic!("{other} is no kind of call"),
        }),
    };
    assert_eq!(c.at, start + usize::from(length), "{}: an answer of another length", c.name);
    Call { file, position, argument, words, answer, kind }
}

fn any_position(c: &mut Cases) -> Position {
    Position { plays: c.byte().into(), depth: c.byte().into(), values: filled(&c.bytes(32)) }
}

/// A list of calls from the fresh position with what each answers, the position reached, and what it comes to there.
pub struct History {
    pub file: Vec<u8>,
    pub calls: Vec<(plain::Call, Result<(), Refusal>)>,
    pub position: Position,
    pub winning: u16,
    pub opened: OpenValues,
}

pub fn histories() -> Vec<History> {
    all("card06-histories.bin", |c| {
        let file = c.file();
        let count = c.word();
        let calls = (0..count).map(|_| history_call(c)).collect();
        let position = played(c).with_depth(c.byte().into());
        let n = n_of(&file);
        History { calls, position, winning: c.word(), opened: opened(c, n), file }
    })
}

fn history_call(c: &mut Cases) -> (plain::Call, Result<(), Refusal>) {
    let (kind, argument) = (c.byte(), c.word().into());
    let call = match kind {
        PLAY => plain::Call::Play(argument),
        TAKE_BACK => plain::Call::TakeBack,
        LOCK => plain::Call::Lock,
        UNLOCK => plain::Call::Unlock(argument),
        other => panic!("{}: {other} is no kind of call", c.name),
    };
    let number = c.byte();
    (call, if number == 0 { Ok(()) } else { Err(refusal(number, 0)) })
}

/// A search: from where, under which set, whether won or lost, and the list or leaf behind it.
pub struct Search {
    pub file: Vec<u8>,
    pub rules: RuleSet,
    pub position: Position,
    pub flag: bool,
    pub shown: [u16; 32],
}

/// First turns: whether the rules lose, and the list that they reach.
pub fn turns() -> Vec<Search> {
    all("turns.bin", |c| search(c, Cases::words))
}

/// Whole searches: whether won, and the leaf.
pub fn searches() -> Vec<Search> {
    all("search.bin", |c| search(c, |c, n| c.bytes(n).into_iter().map(u16::from).collect()))
}

/// A turn whose loss rule 2 or rule 3 finds.
pub struct NamedTurn {
    pub file: Vec<u8>,
    pub rules: RuleSet,
    pub position: Position,
    /// Whether it is the first turn of a search, or one below it.
    pub first: bool,
    /// The played variables that share a constraint with the variable that the loss names.
    pub neighbours: u32,
}

/// The turns that the program `trial_turns` reads.
pub fn named_turns() -> Vec<NamedTurn> {
    all("../crates/trial_turns/stdin", |c| {
        let file = c.file();
        let rules = RuleSet::new(c.byte().into()).expect("a rule set");
        let position = played(c);
        let [turn, _rule, _named] = [c.byte(), c.byte(), c.byte()];
        NamedTurn { file, rules, position, first: turn == 0, neighbours: c.long() }
    })
}

fn search(c: &mut Cases, shown: impl Fn(&mut Cases, usize) -> Vec<u16>) -> Search {
    let file = c.file();
    let rules = RuleSet::new(c.byte().into()).expect("a rule set");
    let position = played(c);
    let n = n_of(&file);
    Search { rules, position, flag: c.flag(), shown: filled(&shown(c, n)), file }
}

/// The examples, each with the text that is stored beside it.
pub fn examples() -> Vec<(Vec<u8>, String)> {
    let folder = format!("{}/../examples", env!("CARGO_MANIFEST_DIR"));
    let paths = std::fs::read_dir(&folder).expect("the examples").map(|entry| entry.expect("an example").path());
    let texts = paths.filter(|path| path.extension().is_some_and(|extension| extension == "txt"));
    texts
        .map(|path| {
            let bytes = std::fs::read(path.with_extension("job")).expect("the file of an example");
            (bytes, std::fs::read_to_string(path).expect("the text of an example"))
        })
        .collect()
}

//! Problems as quantified boolean formulas: stored texts and verdicts, and texts and verdicts beside a separately written encoder, a strict
//! reader, a plain evaluator (`plain::qdimacs`) and the plain game.

use crate::plain::{self, qdimacs, Constraint, Game, Kind, Problem, Random};
use crate::{lent, small_jobs, small_problems, stored, tally::Tally};
use kickballbox::{File, JudgedFormula, Reason, Refusal, FORMULA, FORMULA_STACK};

struct Case {
    file: Vec<u8>,
    size: usize,
    reply: Result<usize, Refusal>,
    check: u32,
    won: Option<bool>,
    text: Option<Vec<u8>>,
}

fn cases() -> Vec<Case> {
    stored::all("card01.bin", |c| {
        let (file, size, refusal) = (c.file(), c.long() as usize, c.refusal());
        let (length, check) = (c.long() as usize, c.long());
        let won = match c.byte() {
            0 => Some(false),
            1 => Some(true),
            2 => None,
            other => panic!("card01.bin: {other} is no verdict"),
        };
        let text = c.flag().then(|| c.bytes(length));
        Case { file, size, reply: refusal.map_or(Ok(length), Err), check, won, text }
    })
}

fn check_number(bytes: &[u8]) -> u32 {
    bytes.iter().fold(0, |h: u32, byte| h.wrapping_mul(31).wrapping_add((*byte).into()))
}

/// The text of the problem's formula by the separate encoder; none of a refused file.
fn plain_text(file: &[u8]) -> String {
    plain::read(file).map(|p| qdimacs::text(&qdimacs::formula(&p))).unwrap_or_default()
}

/// Reply, check number and all bytes of the buffer. A text that is too long to be stored is the separate encoder's.
#[test]
fn stored_texts() {
    let mut tally = Tally::new("formulas: stored cases");
    let mut longest = 0;
    for case in cases() {
        let text = case.text.unwrap_or_else(|| plain_text(&case.file).into_bytes());
        let came = lent::with_buffer(case.size, &text, |buffer| {
            let reply = File::new(&case.file).formula(buffer);
            (reply, check_number(&buffer[..reply.unwrap_or(0)]))
        });
        tally.compare(came, ((case.reply, case.check), true));
        longest = longest.max(case.reply.unwrap_or(0));
    }
    assert_eq!(longest, FORMULA);
    tally.end(552);
}

/// The judge where a verdict is stored, and where the call is refused.
#[test]
fn stored_verdicts() {
    let mut judged = Tally::new("formulas: stored verdicts");
    let mut refused = Tally::new("formulas: refused by the judge too");
    let mut asked = [0; 2];
    for case in cases() {
        let (tally, expected) = match (case.reply, case.won) {
            (Ok(length), Some(won)) => (&mut judged, Ok(JudgedFormula { won, length })),
            (Err(refusal), _) => (&mut refused, Err(refusal)),
            (Ok(_), None) => continue,
        };
        let text = if expected.is_ok() { plain_text(&case.file) } else { String::new() };
        let came = lent::with_buffer(case.size, text.as_bytes(), |buffer| File::new(&case.file).judge_formula(buffer));
        tally.compare(came, (expected, true));
        case.won.into_iter().for_each(|won| asked[usize::from(won)] += 1);
    }
    println!("formulas: stored verdicts: {} lost, {} won", asked[0], asked[1]);
    judged.end(306);
    refused.end(204);
}

/// What is compared of each problem's formula.
struct Compared {
    texts: Tally,
    read: Tally,
    truths: Tally,
    calls: Tally,
}

impl Compared {
    fn new(name: &str) -> Compared {
        let tally = |what: &str| Tally::new(format!("formulas: {name}: {what}"));
        Compared {
            texts: tally("texts by the encoder"),
            read: tally("texts read back"),
            truths: tally("verdicts by the plain evaluator"),
            calls: tally("buffers that fit and do not"),
        }
    }

    /// An accepted file and its verdict; none where the judge is not to be asked.
    fn compare(&mut self, bytes: &[u8], won: Option<bool>) {
        let file = File::new(bytes);
        let formula = qdimacs::formula(&plain::read(bytes).expect("an accepted file"));
        let expected = qdimacs::text(&formula);
        let text = file.formula_text().expect("an accepted file");
        self.texts.compare(first_difference(&text, &expected), None);
        self.read.compare(qdimacs::read(&text).map(|read| read == formula), Ok(true));
        if let Some(truth) = qdimacs::truth(&formula) {
            self.truths.compare(Some(truth), won);
        }
        let length = expected.len();
        for size in [0, length - 1, length, length + 1, length + 300] {
            let (front, fits) = if size < length { ("", Err(Reason::Room.into())) } else { (&expected[..], Ok(length)) };
            self.calls.compare(lent::with_buffer(size, front.as_bytes(), |buffer| file.formula(buffer)), (fits, true));
            let judged = match (fits, won) {
                (Err(refusal), _) => Err(refusal),
                (Ok(length), Some(won)) => Ok(JudgedFormula { won, length }),
                (Ok(_), None) => continue,
            };
            self.calls.compare(lent::with_buffer(size, front.as_bytes(), |buffer| file.judge_formula(buffer)), (judged, true));
        }
    }

    /// So many problems, of which the plain evaluator judged so many and the entry so many.
    fn end(self, problems: u64, evaluated: u64, judged: u64) {
        self.texts.end(problems);
        self.read.end(problems);
        self.truths.end(evaluated);
        self.calls.end(7 * problems + 3 * judged);
    }
}

/// The first byte at which two texts differ.
fn first_difference(one: &str, other: &str) -> Option<usize> {
    (0..one.len().max(other.len())).find(|&at| one.as_bytes().get(at) != other.as_bytes().get(at))
}

/// Every stored file that is accepted. Where no verdict is stored, those with few booleans have the plain game's.
#[test]
fn stored_files() {
    let mut compared = Compared::new("stored files");
    let mut games = Tally::new("formulas: stored files: verdicts by the plain game");
    for case in cases() {
        let Ok(p) = plain::read(&case.file) else { continue };
        let small = qdimacs::formula(&p).universal.len() <= 14;
        let played = Game { problem: &p, early: true, budget: 200_000 }.won(&[]);
        if let (Some(won), Some(played)) = (case.won, played) {
            games.compare(played, won);
        }
        let won = case.won.or_else(|| played.filter(|_| small));
        compared.compare(&case.file, won);
    }
    compared.end(510, 446, 466);
    games.end(306);
}

/// G1 to G8 of document 01; then a universal variable of three values, for the first of which two codes stand, one of a single value, and
/// both in one constraint. The texts were worked out by hand.
#[test]
fn texts_by_hand() {
    let texts = [
        "p cnf 3 3\na 1 0\ne 2 3 0\n2 3 0\n1 -2 0\n-1 -3 0\n",
        "p cnf 4 4\ne 1 2 0\na 3 0\ne 4 0\n1 2 0\n-1 3 0\n-2 -3 0\n4 0\n",
        "p cnf 3 3\na 1 0\ne 2 3 0\n2 0\n3 0\n-2 -3 0\n",
        "p cnf 4 3\ne 1 2 0\na 3 0\ne 4 0\n1 2 0\n-2 3 0\n4 0\n",
        "p cnf 4 3\ne 1 2 3 4 0\n1 2 0\n3 4 0\n-2 -3 0\n",
        "p cnf 4 4\na 1 2 0\ne 3 4 0\n3 4 0\n-1 -3 0\n2 -4 0\n-2 -3 0\n",
        "p cnf 1 1\ne 1 0\n1 0\n",
        "p cnf 4 2\ne 1 2 3 4 0\n1 2 0\n3 4 0\n",
    ];
    let mut tally = Tally::new("formulas: texts by hand");
    let mut compared = Compared::new("problems by hand");
    let mut compare = |name: &str, bytes: &[u8], text: &str, won: bool| {
        tally.compare((name, File::new(bytes).formula_text().as_deref()), (name, Ok(text)));
        compared.compare(bytes, Some(won));
    };
    for ((name, bytes, won, _), text) in small_jobs::g1_to_g8().iter().zip(texts) {
        compare(name, bytes, text, *won);
    }
    let clash = |universal: [bool; 2], domains: [u16; 2]| {
        let mut rows = [0; 16];
        (0..16).filter(|a| domains[0] >> a & 1 == 1).skip(1).for_each(|a| rows[a] = domains[1]);
        let constraints = vec![Constraint { i: 0, j: 1, rows }];
        plain::write(&Problem { rules: None, universal: universal.to_vec(), domains: domains.to_vec(), constraints, triples: vec![] })
    };
    let three = "p cnf 3 3\na 1 2 0\ne 3 0\n3 0\n1 2 -3 0\n-1 -2 -3 0\n";
    compare("three values", &clash([true, false], [0b1000100100, 1]), three, false);
    let single = "p cnf 2 3\na 1 0\ne 2 0\n2 0\n1 -2 0\n-1 -2 0\n";
    compare("a single value", &clash([true, false], [0b100000, 1]), single, false);
    let both = "p cnf 4 5\na 1 2 3 0\ne 4 0\n1 2 3 0\n1 2 -3 0\n-1 -2 3 0\n-1 -2 -3 0\n4 0\n";
    compare("both", &clash([true, true], [0b1000100100, 0b100000]), both, false);
    tally.end(8 + 3);
    compared.end(8 + 3, 8 + 3, 8 + 3);
}

/// Every problem with one or two variables whose domains lie within {0, 1}.
#[test]
fn small_problems() {
    let mut compared = Compared::new("one and two variables");
    for p in small_problems::single().iter().chain(&small_problems::double()) {
        compared.compare(&plain::write(p), Game::whole(p).won(&[]));
    }
    compared.end(6 + 196, 6 + 196, 6 + 196);
}

/// Generated problems: 300 with few enough booleans for the plain evaluator, 60 with more.
#[test]
fn generated_problems() {
    let mut compared = Compared::new("generated");
    let mut random = Random(0x9d1ac5);
    let (mut few, mut more, mut won_of) = (0, 0, [0; 2]);
    while few < 300 || more < 60 {
        let kind = Kind {
            n: 1 + random.below(6),
            values: 1 + random.below(6),
            single: 10,
            universal: 10 + random.below(50),
            constraints: 50 + random.below(51),
            compatible: 30 + random.below(60),
        };
        let p = plain::problem(&kind, &mut random);
        let (count, most) = match qdimacs::formula(&p).universal.len() {
            0..=14 => (&mut few, 300),
            15..=24 => (&mut more, 60),
            _ => continue,
        };
        if *count < most {
            let won = Game::whole(&p).won(&[]).unwrap();
            compared.compare(&plain::write(&p), Some(won));
            won_of[usize::from(won)] += 1;
            *count += 1;
        }
    }
    println!("formulas: generated: {} lost, {} won", won_of[0], won_of[1]);
    assert!(won_of[0] > 100 && won_of[1] > 100, "too plain a mixture");
    compared.end(360, 300, 360);
}

/// The most booleans, 512, judged on a thread whose stack is what is stated and a little for the caller.
#[test]
fn stack_as_stated() {
    let mut tally = Tally::new("formulas: stack as stated");
    let p = Problem { rules: None, universal: vec![false; 32], domains: vec![65535; 32], constraints: vec![], triples: vec![] };
    let (bytes, length) = (plain::write(&p), qdimacs::text(&qdimacs::formula(&p)).len());
    let judged = move || File::new(&bytes).judge_formula(&mut vec![0; length]);
    let there = std::thread::Builder::new().stack_size(FORMULA_STACK + 32768).spawn(judged).unwrap().join().unwrap();
    tally.compare(there, Ok(JudgedFormula { won: true, length }));
    tally.end(1);
}

//! The judging program's text, beside one that is built by the plain solver.

use crate::plain::{self, Kind, Random};
use crate::{lent, stored, tally::Tally};
use kickballbox::{File, Reason, TEXT};

/// Values that the plain solver may try at one file. What needs more is left out, and counted.
const BUDGET: u64 = 200_000;

/// Reports into buffers of just the text's length, one byte less, more, and none: 12 where it does not fit, and all else kept.
fn compare(tally: &mut Tally, bytes: &[u8], text: &str) {
    let file = File::new(bytes);
    tally.compare(file.text().as_deref(), Ok(text));
    for size in [text.len(), text.len() + 9, TEXT, text.len() - 1, 0] {
        let (expected, front) = if size < text.len() { (Err(Reason::Room.into()), "") } else { (Ok(text.len()), text) };
        tally.compare(lent::with_buffer(size, front.as_bytes(), |buffer| file.report(buffer)), (expected, true));
    }
}

/// Reports on all files that the plain solver can judge, so many, and prints how many are left out.
fn compare_all(name: &'static str, files: Vec<Vec<u8>>, count: u64) {
    let mut tally = Tally::new(name);
    let mut left_out = 0;
    for bytes in &files {
        match plain::text(bytes, BUDGET) {
            Some(text) => compare(&mut tally, bytes, &text),
            None => left_out += 1,
        }
    }
    println!("{name}: {} files, {left_out} left out", files.len());
    tally.end(6 * count);
}

#[test]
fn stored_files() {
    compare_all("reports: files of reading.bin", stored::all("reading.bin", |c| (c.file(), c.refusal()).0), 1083);
}

#[test]
fn stored_games() {
    compare_all("reports: files of game.bin", stored::games().into_iter().map(|game| game.file).collect(), 700);
}

/// Card 7: files with three-way constraints, whose texts are stored.
#[test]
fn stored_texts() {
    let mut texts = Tally::new("card07-text.bin: texts");
    let mut buffers = Tally::new("card07-text.bin: texts in buffers that fit and do not");
    for (bytes, text) in stored::all("card07-text.bin", |c| (c.file(), c.file())) {
        let text = String::from_utf8(text).expect("a text");
        texts.compare(File::new(&bytes).text().as_ref(), Ok(&text));
        compare(&mut buffers, &bytes, &text);
    }
    texts.end(120);
    buffers.end(6 * 120);
}

#[test]
fn generated_files() {
    let mut random = Random(0xfeed5eed);
    let mut files = vec![];
    for _ in 0..1000 {
        let kind = Kind {
            n: 1 + random.below(32),
            values: 1 + random.below(4),
            single: random.below(60),
            universal: random.below(30),
            constraints: random.below(101),
            compatible: 40 + random.below(61),
        };
        files.push(plain::write(&plain::problem(&kind, &mut random)));
    }
    compare_all("reports: generated files", files, 975);
}

/// The examples, whose texts are stored beside them: those of the plain solver.
#[test]
fn examples() {
    let mut tally = Tally::new("reports: examples");
    let mut stored = Tally::new("reports: stored texts of the examples by the plain solver");
    for (bytes, text) in stored::examples() {
        compare(&mut tally, &bytes, &text);
        stored.compare(plain::text(&bytes, u64::MAX), Some(text));
    }
    tally.end(6 * 10);
    stored.end(10);
}

//! Stored cases of the writer, and numbers wider than a file holds.

use crate::{lent, stored, tally::Tally};
use kickballbox::{File, Problem, Reason, Refusal, RuleSet};

/// Writes into a dirty buffer of this size: what it replies, and whether it leaves these bytes at the front and all else as it was.
fn written(problem: &Problem, size: usize, bytes: &[u8]) -> (Result<usize, Refusal>, bool) {
    lent::with_buffer(size, bytes, |buffer| problem.write(buffer))
}

struct Case {
    n: usize,
    m: usize,
    rules: Option<RuleSet>,
    universal: u64,
    domains: Vec<u16>,
    constraints: Vec<u16>,
    triples: Vec<u16>,
    size: usize,
    reply: Result<usize, Refusal>,
    bytes: Vec<u8>,
}

/// The stored cases; those of the second file are handed numbers of three-way constraints too.
const FILES: [&str; 2] = ["writer.bin", "card07-writer.bin"];

fn cases(name: &'static str) -> Vec<Case> {
    stored::all(name, |c| {
        let (n, m, set) = (c.word().into(), c.word().into(), c.byte());
        let universal = c.long().into();
        let count = c.byte();
        let domains = c.words(count.into());
        let count = c.word();
        let constraints = c.words(count.into());
        let count = if name == FILES[1] { c.word() } else { 0 };
        let triples = c.words(count.into());
        let (size, number, length) = (c.word().into(), c.byte(), c.word().into());
        Case {
            n,
            m,
            rules: (set != 255).then(|| RuleSet::unchecked(set.into())),
            universal,
            domains,
            constraints,
            triples,
            size,
            reply: if number == 0 { Ok(length) } else { Err(Reason::of(number.into()).into()) },
            bytes: c.bytes(length),
        }
    })
}

#[test]
fn stored_writes() {
    for (name, writes) in FILES.into_iter().zip([265, 258]) {
        let mut tally = Tally::new(format!("{name}: writes"));
        let mut again = Tally::new(format!("{name}: one byte too few"));
        for case in cases(name) {
            let Case { n, m, rules, universal, domains, constraints, triples, size, reply, bytes } = &case;
            let problem = Problem { n: *n, m: *m, rules: *rules, universal: *universal, domains, constraints, triples };
            tally.compare(written(&problem, *size, bytes), (*reply, true));
            if let Ok(length) = reply {
                again.compare(written(&problem, length - 1, &[]), (Err(Reason::Room.into()), true));
            }
        }
        tally.end(900);
        again.end(writes);
    }
}

/// Numbers that are right only when cut are refused, each in its turn.
#[test]
fn wide_numbers() {
    let mut tally = Tally::new("writer: wide numbers");
    let mut rows = [0u16; 18];
    rows[1] = 1;
    let (domains, constraints) = ([3, 3], rows);
    let right = Problem { n: 2, m: 1, rules: None, universal: 1, domains: &domains, constraints: &constraints, triples: &[] };
    let mut bytes = b"QP\x02\x01\x00VA\x03\x00VE\x03\x00CT\x00\x01".to_vec();
    bytes.extend([0; 32]);
    bytes.extend(b"EN");
    tally.compare(written(&right, 60, &bytes), (Ok(51), true));
    let mut refused = |problem: Problem, reason: Reason| tally.compare(written(&problem, 60, &[]), (Err(reason.into()), true));
    for wide in [1 << 8, 1 << 16, 1 << 32, 1 << 63] {
        refused(Problem { n: wide | 2, ..right }, Reason::Count);
        refused(Problem { m: wide | 1, ..right }, Reason::Count);
        refused(Problem { rules: Some(RuleSet::unchecked(wide as u64 | 3)), ..right }, Reason::Rules);
        refused(Problem { universal: wide as u64 | 1, ..right }, Reason::Choice);
    }
    for set in [128, 255, u64::MAX] {
        refused(Problem { rules: Some(RuleSet::unchecked(set)), ..right }, Reason::Rules);
    }
    for wide in [256, 512 | 1, 65535] {
        let mut other = rows;
        other[1] = wide;
        refused(Problem { constraints: &other, ..right }, Reason::Pair);
        other = rows;
        other[0] = wide & !1;
        refused(Problem { constraints: &other, ..right }, Reason::Pair);
    }
    // with all 32 variables the bits from 32 on are still outside
    let domains = [1; 32];
    let all =
        Problem { n: 32, m: 0, rules: Some(RuleSet::ALL), universal: u32::MAX.into(), domains: &domains, constraints: &[], triples: &[] };
    let mut buffer = [0; 138];
    tally.compare(all.write(&mut buffer), Ok(138));
    tally.compare(File::new(&buffer).read().map(|r| (r.n, r.universal, r.rules)), Ok((32, u32::MAX, Some(RuleSet::ALL))));
    for bit in 32..64 {
        tally.compare(written(&Problem { universal: 1 << bit, ..all }, 138, &[]), (Err(Reason::Choice.into()), true));
    }
    tally.end(1 + 16 + 3 + 6 + 2 + 32);
}

/// The numbers of the 31-byte job whose three variables have two triples, a list cut anywhere, and numbers of it that are right only when
/// cut.
#[test]
fn triples() {
    let mut tally = Tally::new("writer: numbers of three-way constraints");
    let (domains, numbers) = ([3, 3, 3], [0, 1, 2, 2, 0, 0, 1, 0, 1, 0]);
    let right = Problem { n: 3, m: 0, rules: None, universal: 2, domains: &domains, constraints: &[], triples: &numbers };
    let bytes = b"QP\x03\x00\x00VE\x03\x00VA\x03\x00VE\x03\x00TT\x00\x01\x02\x02\x00\x00\x01\x00\x01\x00EN";
    tally.compare(written(&right, 40, bytes), (Ok(31), true));
    tally.compare(written(&right, 30, &[]), (Err(Reason::Room.into()), true));
    let mut refused = |problem: Problem, reason: Reason| tally.compare(written(&problem, 40, &[]), (Err(reason.into()), true));
    for length in 1..numbers.len() {
        refused(Problem { triples: &numbers[..length], ..right }, Reason::List);
        refused(
            Problem { triples: &[&numbers[..], &numbers[..length]].concat(), rules: Some(RuleSet::unchecked(128)), ..right },
            Reason::List,
        );
    }
    // the same record again
    refused(Problem { triples: &[numbers, numbers].concat(), ..right }, Reason::Triple);
    for (at, number) in numbers.iter().enumerate() {
        for wide in [256 | number, 512 | number, 65280 | number] {
            let mut other = numbers;
            other[at] = wide;
            // a count that is too large asks for more numbers than there are
            refused(Problem { triples: &other, ..right }, if at == 3 { Reason::List } else { Reason::Triple });
        }
    }
    // 258 triples, all there: as a byte the count would be 2
    let many: Vec<u16> = [&[0, 1, 2, 258], &[0; 3 * 258][..]].concat();
    refused(Problem { triples: &many, ..right }, Reason::Triple);
    // one constraint too many, and a count of 0, among 32 variables and 31: one too many counts first
    let ones = [1; 32];
    let all = Problem { n: 32, m: 0, rules: None, universal: 0, domains: &ones, constraints: &[], triples: &numbers };
    refused(all, Reason::Many);
    refused(Problem { triples: &[0, 1, 2, 0], ..all }, Reason::Many);
    refused(Problem { n: 31, domains: &ones[..31], triples: &[0, 1, 2, 0], ..all }, Reason::Triple);
    refused(Problem { n: 31, domains: &ones[..31], triples: &[0, 1, 2, 1, 0, 0, 0, 0, 1, 2, 0], ..all }, Reason::Many);
    tally.end(2 + 2 * 9 + 1 + 3 * 10 + 1 + 4);
}

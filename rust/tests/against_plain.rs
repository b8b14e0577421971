//! Replies beside a plain reading of document 01 (`plain`), on generated files: long and short, valid and damaged.

use crate::plain::{self, problem, some_position, write, Game, Kind, Problem, Random};
use crate::refusals::{self, all};
use crate::{all_sets, tally::Tally};
use kickballbox::{File, Marks, Position, Reason, Refusal, RuleSet, FILE, STACK};

/// What the plain game expects at one position, once for all rule sets.
pub struct Expected {
    pub won: bool,
    marks: Result<Marks, Refusal>,
}

/// None where the bound does not suffice.
pub fn expect(p: &Problem, at: &Position, early: bool, budget: u64) -> Option<Expected> {
    let mut game = Game { problem: p, early, budget };
    Some(Expected { won: game.won(at.played())?, marks: game.marking(at.played())? })
}

pub fn compare(tally: &mut Tally, bytes: &[u8], at: &Position, rules: RuleSet, e: &Expected) {
    let file = File::new(bytes);
    tally.compare(
        (file.judge(at, rules), file.mark(at, rules), file.search(at, rules).map(|found| found.won)),
        (Ok(e.won), e.marks, Ok(e.won)),
    );
}

/// Any bytes: the reading, and for a refused file the same refusal by every call, whatever else is wrong. Whether it was accepted.
pub fn compare_bytes(tally: &mut Tally, bytes: &[u8]) -> bool {
    let expected = plain::read(bytes).map(|p| plain::reading(&p));
    tally.compare(File::new(bytes).read(), expected);
    if let Err(refusal) = expected {
        tally.compare(refusals::by_every_call(bytes), vec![Some(refusal); refusals::CALLS as usize]);
    }
    expected.is_ok()
}

/// How many positions are won, how many lost, and at how many some values win and some lose.
#[derive(Default)]
pub struct Mixture {
    won: u64,
    lost: u64,
    both: u64,
}

impl Mixture {
    pub fn note(&mut self, e: &Expected) {
        self.won += u64::from(e.won);
        self.lost += u64::from(!e.won);
        self.both += u64::from(e.marks.is_ok_and(|m| m.winning != 0 && m.winning != m.domain));
    }

    pub fn end(self, name: &str, won: u64, lost: u64, both: u64) {
        println!("{name}: {} won, {} lost, {} with marks of both kinds", self.won, self.lost, self.both);
        assert!(self.won > won && self.lost > lost && self.both > both, "too plain a mixture");
    }
}

#[test]
fn short_files_under_every_rule_set() {
    let mut random = Random(0x9e3779b97f4a7c15);
    let mut mixture = Mixture::default();
    let mut tally = Tally::new("short files: under all sets");
    let mut readings = Tally::new("short files: read");
    for _ in 0..800 {
        let kind = Kind {
            n: 1 + random.below(6),
            values: 2 + random.below(3),
            single: 5,
            universal: 20 + random.below(30),
            constraints: 30 + random.below(50),
            compatible: 40 + random.below(40),
        };
        let p = problem(&kind, &mut random);
        let file = write(&p);
        compare_bytes(&mut readings, &file);
        let at = some_position(&p, &mut random);
        let e = expect(&p, &at, false, u64::MAX).unwrap();
        for rules in all_sets() {
            compare(&mut tally, &file, &at, rules, &e);
        }
        mixture.note(&e);
    }
    mixture.end("short files", 100, 100, 40);
    readings.end(800);
    tally.end(800 * 128);
}

#[test]
fn files_of_many_variables() {
    let mut random = Random(0x2545f4914f6cdd1d);
    let mut mixture = Mixture::default();
    let mut tally = Tally::new("long files: under some sets");
    let mut readings = Tally::new("long files: read");
    let (mut files, mut calls, mut largest) = (0, 0, 0);
    while files < 800 {
        // near the edge between won and lost, with little that is universal
        let n = 12 + random.below(21);
        let kind = Kind {
            n,
            values: 1 + random.below(4),
            single: 20 + random.below(60),
            universal: random.below(30),
            constraints: 5 + random.below(95),
            compatible: 40 + random.below(61),
        };
        let p = problem(&kind, &mut random);
        let file = write(&p);
        let at = some_position(&p, &mut random);
        // under rule sets without forward check and arc the search may go through the whole game: only if that is short
        let whole = expect(&p, &at, false, 20_000);
        let early = whole.is_none().then(|| expect(&p, &at, true, 20_000)).flatten();
        let sets: Vec<u64> = match (&whole, &early) {
            (Some(_), _) => (0..8).map(|_| random.below(128)).chain([0, 3, 127]).collect(),
            (None, Some(_)) => (0..4).map(|_| random.below(128) | 2).chain([2, 3, 127]).collect(),
            (None, None) => continue,
        };
        compare_bytes(&mut readings, &file);
        let e = whole.or(early).unwrap();
        calls += sets.len() as u64;
        for set in sets {
            compare(&mut tally, &file, &at, RuleSet::unchecked(set), &e);
        }
        files += 1;
        largest = largest.max(file.len());
        mixture.note(&e);
    }
    assert!(largest > 10_000, "no long file: {largest}");
    mixture.end("long files", 50, 50, 20);
    readings.end(800);
    tally.end(calls);
}

/// The largest file, with and without a rule set, and bytes behind it.
#[test]
fn largest_file() {
    let mut tally = Tally::new("largest file: read, judged and marked");
    let mut random = Random(7);
    let kind = Kind { n: 32, values: 16, single: 0, universal: 0, constraints: 100, compatible: 100 };
    let mut p = problem(&kind, &mut random);
    p.domains = vec![65535; 32];
    for c in &mut p.constraints {
        c.rows = [65535; 16];
    }
    let e = Expected { won: true, marks: Ok(Marks { winning: 65535, domain: 65535 }) };
    for (rules, length) in [(None, FILE - 3), (Some(127), FILE)] {
        p.rules = rules;
        let mut file = write(&p);
        assert_eq!(file.len(), length);
        compare_bytes(&mut tally, &file);
        for set in [RuleSet::PLAIN, RuleSet::USUAL, RuleSet::ALL] {
            compare(&mut tally, &file, &Position::fresh(), set, &e);
        }
        file.push(0);
        compare_bytes(&mut tally, &file);
        file.resize(1 << 20, 1);
        compare_bytes(&mut tally, &file);
    }
    tally.end(2 * (1 + 3 + 2 * 2));
}

/// Every byte changed, left out and put in twice, and every length cut, of some files.
#[test]
fn damaged_files() {
    let mut tally = Tally::new("damaged files: read, and refused by every call");
    let mut random = Random(0xdeadbeefcafef00d);
    let (mut accepted, mut refused) = (0, 0);
    let mut compare = |bytes: &[u8]| *if compare_bytes(&mut tally, bytes) { &mut accepted } else { &mut refused } += 1;
    for n in [1, 2, 3, 4, 5, 7, 9, 32] {
        let kind = Kind { n, values: 3, single: 20, universal: 40, constraints: if n == 32 { 6 } else { 60 }, compatible: 70 };
        let mut p = problem(&kind, &mut random);
        p.rules = (n % 2 == 1).then_some(random.below(128) as u8);
        let file = write(&p);
        for at in 0..file.len() {
            let others: Vec<u8> =
                if n <= 3 { (0..=255).collect() } else { vec![file[at] ^ 1, file[at] ^ 128, !file[at], random.next() as u8, 0, 127] };
            for byte in others {
                let mut f = file.clone();
                f[at] = byte;
                compare(&f);
            }
            compare(&file[..at]);
            compare(&[&file[..at], &file[at + 1..]].concat());
            compare(&[&file[..=at], &file[at..]].concat());
        }
    }
    // bytes that are no file at all, and a good beginning with anything behind it
    let g = write(&problem(&Kind { n: 3, values: 3, single: 0, universal: 50, constraints: 100, compatible: 60 }, &mut random));
    for length in 0..400 {
        let noise: Vec<u8> = (0..length).map(|_| random.next() as u8).collect();
        compare(&noise);
        compare(&[&g[..length.min(g.len())], &noise].concat());
    }
    println!("damaged files: {accepted} accepted, {refused} refused");
    assert!(accepted > 500 && refused > 5_000, "too plain a mixture");
    tally.end(accepted + 2 * refused);
}

/// Two records in each other's place, written twice or with another mark.
#[test]
fn records_out_of_place() {
    let mut tally = Tally::new("records out of place: read, and refused by every call");
    let mut random = Random(99);
    let (mut accepted, mut refused) = (0, 0);
    for _ in 0..300 {
        let n = 2 + random.below(5);
        let p = problem(&Kind { n, values: 4, single: 10, universal: 50, constraints: 80, compatible: 70 }, &mut random);
        let mut records: Vec<Vec<u8>> = vec![];
        let whole = write(&p);
        let mut at = 0;
        while at < whole.len() {
            let length = match &whole[at..at + 2] {
                b"QP" => 5,
                b"RS" => 3,
                b"VE" | b"VA" => 4,
                b"CT" => 36,
                _ => 2,
            };
            records.push(whole[at..at + length].to_vec());
            at += length;
        }
        let (x, y) = (random.below(records.len() as u64) as usize, random.below(records.len() as u64) as usize);
        match random.below(4) {
            0 => records.swap(x, y),
            1 => records.insert(x, records[y].clone()),
            2 => drop(records.remove(x)),
            _ => records[x][..2].copy_from_slice([b"QP", b"RS", b"VE", b"VA", b"CT", b"EN", b"\0\0"][random.below(7) as usize]),
        }
        *if compare_bytes(&mut tally, &records.concat()) { &mut accepted } else { &mut refused } += 1;
    }
    assert!(accepted > 20 && refused > 200, "too plain a mixture: {accepted} accepted, {refused} refused");
    tally.end(accepted + 2 * refused);
}

/// Positions that do not fit, and rule sets that are none: tested whole, at 64 bits, and in this order.
#[test]
fn misfits_and_rule_sets() {
    let mut sets = Tally::new("misfits: rule sets refused");
    let mut plays = Tally::new("misfits: numbers of plays refused");
    let mut depths = Tally::new("misfits: lock depths refused");
    let mut places = Tally::new("misfits: places");
    let mut full = Tally::new("misfits: all played");
    let mut random = Random(31);
    let wide = |k: u64| [128, 255, 256, 257, 259, 1 << 16 | k, 1 << 32 | k, 1 << 63 | k, u64::MAX];
    let (mut by_plays, mut by_depth, mut refused, mut taken) = (0, 0, 0, 0);
    for _ in 0..300 {
        let most = if random.chance(20) { 32 } else { 4 };
        let n = 1 + random.below(most);
        let p = problem(&Kind { n, values: 3, single: 60, universal: 30, constraints: 20, compatible: 80 }, &mut random);
        let bytes = write(&p);
        let file = File::new(&bytes);
        let fit = some_position(&p, &mut random);
        for set in wide(3) {
            sets.compare(refusals::by_position(&bytes, &fit, RuleSet::unchecked(set)), all(Reason::Rules));
        }
        let compare = |tally: &mut Tally, at: Position| {
            tally.compare(refusals::by_position(&bytes, &at, RuleSet::USUAL), all(Reason::Misfit));
            tally.compare(refusals::by_position(&bytes, &at, RuleSet::unchecked(128)), all(Reason::Rules));
            tally.compare(refusals::by_moves(file, &at), all(Reason::Misfit));
        };
        let above = |k: u64| (k + 1..=40).chain(wide(fit.plays)).chain([1 << 8 | fit.plays, 1 << 40 | fit.plays]);
        for count in above(n) {
            compare(&mut plays, Position { plays: count, depth: fit.depth, values: fit.values });
            by_plays += 3;
        }
        for depth in above(fit.plays) {
            compare(&mut depths, fit.with_depth(depth));
            by_depth += 3;
        }
        for place in 0..32 {
            for value in [0, 1, 2, 15, 16, 17, 32, 128, 255, random.next() as u8] {
                let mut at = fit;
                at.values[place] = value;
                if plain::fits(&p, &at) {
                    places.compare(file.open_values(&at), Ok(plain::open_values(&p, at.played())));
                    taken += 1;
                } else {
                    places.compare(refusals::by_position(&bytes, &at, RuleSet::ALL), all(Reason::Misfit));
                    places.compare(refusals::by_moves(file, &at), all(Reason::Misfit));
                    refused += 2;
                }
            }
        }
        let last = plain::position_after(&p, n, &mut random);
        let won = Game::whole(&p).won(last.played()).unwrap();
        full.compare((file.mark(&last, RuleSet::PLAIN), file.judge(&last, RuleSet::PLAIN)), (Err(Reason::Done.into()), Ok(won)));
        full.compare(file.play(&last, 0), Err(Reason::Full.into()));
    }
    assert!(refused > 100_000 && taken > 2_000, "too plain a mixture: {refused} refused, {taken} taken");
    sets.end(300 * 9);
    plays.end(by_plays);
    depths.end(by_depth);
    places.end(refused + taken);
    full.end(600);
}

/// A whole game, each play by the marks: an existential variable takes a winning value while there is one, a universal one any.
#[test]
fn games_played_by_the_marks() {
    let mut tally = Tally::new("games played by the marks: verdicts and plays");
    let mut random = Random(0x123456789);
    let mut plays = 0;
    for _ in 0..60 {
        let kind = Kind { n: 2 + random.below(6), values: 3, single: 10, universal: 40, constraints: 60, compatible: 75 };
        let p = problem(&kind, &mut random);
        let bytes = write(&p);
        let file = File::new(&bytes);
        let mut session = file.session();
        let mut won = file.judge(session.position(), RuleSet::USUAL);
        while let Ok(m) = file.mark(session.position(), RuleSet::USUAL) {
            let universal = p.universal[session.position().plays as usize];
            tally.compare(won, Ok(if universal { m.winning == m.domain } else { m.winning != 0 }));
            let value = random.value(if universal || m.winning == 0 { m.domain } else { m.winning });
            tally.compare(session.play(value.into()), Ok(()));
            won = file.judge(session.position(), RuleSet::USUAL);
            tally.compare(won, Ok(m.winning >> value & 1 == 1));
            plays += 1;
        }
        tally.compare(session.position().plays, p.domains.len() as u64);
        tally.compare(won.ok(), Game::whole(&p).won(session.position().played()));
    }
    tally.end(3 * plays + 2 * 60);
}

/// Calls on a thread whose stack is what is stated and a little for the caller.
#[test]
fn stack_as_stated() {
    let mut tally = Tally::new("stack as stated");
    let mut random = Random(5);
    let p = problem(&Kind { n: 32, values: 2, single: 0, universal: 10, constraints: 5, compatible: 95 }, &mut random);
    let bytes = write(&p);
    let calls = |bytes: &[u8]| {
        let (file, at, mut room) = (File::new(bytes), Position::fresh(), [1; kickballbox::ROOM]);
        let (mut list, mut buffer) = (file.read()?.domains, [0; kickballbox::TEXT]);
        let length = file.report(&mut buffer)?;
        let value = list[0].trailing_zeros() as usize;
        let shown = (file.look_ahead(&list, 0)?, file.pure(&list, 1)?, file.interchangeable(&list, 1)?);
        let lost = (file.forward_check(&mut list.clone(), 0, value)?, file.arc(&mut list)?);
        Ok::<_, Refusal>((
            (file.judge(&at, RuleSet::ALL)?, file.mark(&at, RuleSet::ALL)?, file.search(&at, RuleSet::ALL)?),
            (file.judge_in(&at, RuleSet::ALL, &mut room)?, file.mark_in(&at, RuleSet::ALL, &mut room)?),
            (file.replay(&[255; 9], RuleSet::ALL), file.open_values(&at)?),
            (file.take_back(&at).err(), file.lock(&at)?, file.unlock(&at, 0)?),
            (shown, lost, list, buffer[..length].to_vec(), file.formula_text()?, file.groups()?, file.group_file(0)?),
        ))
    };
    let here = calls(&bytes);
    let there = std::thread::Builder::new().stack_size(STACK + 32768).spawn(move || calls(&bytes)).unwrap().join().unwrap();
    assert!(here.is_ok(), "{here:?}");
    tally.compare(there, here);
    tally.end(1);
}

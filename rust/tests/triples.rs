//! Card 7: three-way constraints beside the plain reader and the game in which all constraints are looked at when the problem's own variables
//! are played: the small job of the card's design, generated problems under every rule set, long ones, damaged files.

use crate::against_plain::{compare, compare_bytes, expect, Mixture};
use crate::plain::{self, add_triples, problem, some_position, write, Game, Kind, Problem, Random, Triples};
use crate::stored::filled;
use crate::{all_sets, lent, look_ups, tally::Tally};
use kickballbox::{File, Marks, OpenValues, Position, Reason, Refusal, RuleSet, FILE};

/// Existential, universal, existential, each {0, 1}; the triples 0, 0, 1 and 0, 1, 0. 31 bytes.
fn small() -> Vec<u8> {
    b"QP\x03\x00\x00VE\x03\x00VA\x03\x00VE\x03\x00TT\x00\x01\x02\x02\x00\x00\x01\x00\x01\x00EN".to_vec()
}

#[test]
fn small_job() {
    let mut tally = Tally::new("triples: the 31-byte job");
    let bytes = small();
    let file = File::new(&bytes);
    tally.compare(file.read().map(|r| (r.n, r.m, r.t, r.universal)), Ok((3, 0, 1, 2)));
    tally.compare(file.read(), plain::read(&bytes).map(|p| plain::reading(&p)));
    tally.compare(look_ups::body(file, 0), Ok(Some((19, &bytes[19..29]))));
    tally.compare(look_ups::body(file, 1), Ok(None));
    tally.compare((file.look_up(0, 1), file.look_up(0, 2), file.look_up(1, 2)), (Ok(None), Ok(None), Ok(None)));
    let masks = |counted: [u16; 3]| {
        let mut open = OpenValues { masks: [0; 32], counts: [0; 32] };
        for (k, mask) in counted.into_iter().enumerate() {
            (open.masks[k], open.counts[k]) = (mask, mask.count_ones() as u8);
        }
        open
    };
    let plays: [(&[u8], bool, Option<u16>, [u16; 3]); 6] = [
        (&[], true, Some(1), [3, 3, 3]),
        (&[0], true, Some(3), [1, 3, 3]),
        (&[1], false, Some(0), [2, 3, 3]),
        (&[0, 0], true, Some(2), [1, 1, 3]),
        (&[0, 0, 0], false, None, [1, 1, 1]),
        (&[0, 0, 1], true, None, [1, 1, 2]),
    ];
    for (plays, won, winning, open) in plays {
        let at = Position::after(plays).unwrap();
        let marks = winning.map_or(Err(Reason::Done.into()), |winning| Ok(Marks { winning, domain: 3 }));
        for rules in all_sets() {
            tally.compare((file.judge(&at, rules), file.mark(&at, rules)), (Ok(won), marks));
            let came = lent::with_room(640, 640, |room| file.judge_in(&at, rules, room));
            tally.compare(came, (Ok(won), true));
        }
        tally.compare(lent::with_room(639, 0, |room| file.judge_in(&at, RuleSet::ALL, room)), (Err(Reason::Room.into()), true));
        tally.compare(file.open_values(&at), Ok(masks(open)));
    }
    // a play of the hidden variable
    let wrong = Position::after(&[0, 0, 1, 0]).unwrap();
    tally.compare(file.judge(&wrong, RuleSet::USUAL), Err(Reason::Misfit.into()));
    tally.compare(file.play(&Position::after(&[0, 0, 1]).unwrap(), 0), Err(Reason::Full.into()));
    tally.compare(lent::with_list(&[3; 4], &[1, 3, 3, 3], |list| file.arc(list)), (Ok(false), true));
    tally.compare(lent::with_list(&[3; 3], &[3; 3], |list| file.arc(list)), (Err(Reason::List.into()), true));
    tally.compare(file.text().as_deref(), Ok("choices 3\ntables 0\nrules 3\nanswer yes\nnext 0 shift\noption 0 good\noption 1 bad\n"));
    tally.end(5 + 6 * (2 * 128 + 2) + 5);
}

/// The direct game by hand: the second three-way constraint decides, and the universal variable is met by every value.
#[test]
fn direct_game_by_hand() {
    let record = |variables: [usize; 3], permitted: &[[u8; 3]]| Triples { variables, permitted: permitted.to_vec() };
    let mut p = Problem {
        rules: None,
        universal: vec![false, true, false, false],
        domains: vec![3, 3, 3, 3],
        constraints: vec![],
        triples: vec![record([0, 1, 2], &[[0, 0, 1], [0, 1, 0], [1, 0, 0], [1, 1, 0]])],
    };
    let marks = |p: &Problem| Game::whole(p).marks(&[]).unwrap();
    assert_eq!(marks(&p), 3);
    p.triples.push(record([1, 2, 3], &[[0, 0, 0], [0, 1, 1], [1, 1, 0]]));
    assert_eq!(marks(&p), 0);
    p.triples[1].permitted.insert(2, [1, 0, 0]);
    assert_eq!(marks(&p), 3);
    p.triples[1].permitted.remove(1);
    assert_eq!((marks(&p), Game::whole(&p).won(&[0, 1, 0, 0]), Game::whole(&p).won(&[1, 0, 0, 1])), (2, Some(true), Some(false)));
}

/// Three variables of either side with the values 0 and 1, and every three-way constraint of theirs: 8 · 255 problems.
#[test]
fn every_constraint_of_three() {
    let mut tally = Tally::new("triples: every constraint of three variables, under all sets");
    let mut won = 0;
    let all: Vec<[u8; 3]> = (0..8).map(|k| [k >> 2, k >> 1 & 1, k & 1]).collect();
    for sides in 0..8 {
        for permitted in 1..256 {
            let permitted = (0..8).filter(|k| permitted >> k & 1 == 1).map(|k| all[k]).collect();
            let p = Problem {
                rules: None,
                universal: (0..3).map(|k| sides >> k & 1 == 1).collect(),
                domains: vec![3; 3],
                constraints: vec![],
                triples: vec![Triples { variables: [0, 1, 2], permitted }],
            };
            let e = expect(&p, &Position::fresh(), false, u64::MAX).unwrap();
            won += u64::from(e.won);
            for rules in all_sets() {
                compare(&mut tally, &write(&p), &Position::fresh(), rules, &e);
            }
        }
    }
    println!("triples: every constraint of three variables: {won} of 2,040 won");
    tally.end(8 * 255 * 128);
}

/// Up to five variables and three three-way constraints of few triples, so that even the search that plays hidden variables blindly is short.
fn generated(random: &mut Random) -> Problem {
    let kind = Kind { n: 3 + random.below(3), values: 3, single: 10, universal: 30, constraints: random.below(60), compatible: 75 };
    let mut p = problem(&kind, random);
    add_triples(&mut p, 1 + random.below(3), 4, random);
    p
}

#[test]
fn generated_under_every_rule_set() {
    let mut random = Random(0x7122e5);
    let mut mixture = Mixture::default();
    let mut tally = Tally::new("triples: generated, under all sets");
    let mut readings = Tally::new("triples: generated, read");
    let mut room = Tally::new("triples: generated, in room just enough and one word short");
    let mut opened = Tally::new("triples: generated, open values");
    let mut decided = 0;
    for _ in 0..400 {
        let p = generated(&mut random);
        let bytes = write(&p);
        let file = File::new(&bytes);
        compare_bytes(&mut readings, &bytes);
        let at = some_position(&p, &mut random);
        let e = expect(&p, &at, false, u64::MAX).unwrap();
        for rules in all_sets() {
            compare(&mut tally, &bytes, &at, rules, &e);
        }
        let needed = lent::needed(p.all());
        room.compare(lent::with_room(needed, needed, |room| file.judge_in(&at, RuleSet::ALL, room)), (Ok(e.won), true));
        for words in [needed - 1, lent::needed(p.domains.len())] {
            let came = lent::with_room(words, 0, |room| file.judge_in(&at, RuleSet::ALL, room));
            room.compare(came, (Err(Reason::Room.into()), true));
        }
        opened.compare(file.open_values(&at), Ok(plain::open_values(&p, at.played())));
        let without = Problem { triples: vec![], ..p.clone() };
        decided += u64::from(Game::whole(&without).won(at.played()) != Some(e.won));
        mixture.note(&e);
    }
    println!("triples: generated, the three-way constraints decide {decided} of 400");
    assert!(decided > 40);
    mixture.end("triples: generated", 80, 80, 20);
    readings.end(400);
    tally.end(400 * 128);
    room.end(400 * 3);
    opened.end(400);
}

/// What a search finds is the ordinary problem's: loss and list of the first turn by the rules' definitions; a leaf that keeps the plays, meets
/// every constraint and has at each hidden variable the place of the triple played; a conflict set of played variables alone, with every
/// position of as many plays that has the same values at them lost too.
#[test]
fn searches() {
    let mut random = Random(0x7122e8);
    let mut turns = Tally::new("triples: first turns under all sets");
    let mut leaves = Tally::new("triples: leaves");
    let mut conflicts = Tally::new("triples: conflict sets");
    let (mut won, mut narrow, mut losses) = (0, 0, 0);
    for _ in 0..300 {
        let p = generated(&mut random);
        let all = plain::ordinary(&p);
        let bytes = write(&p);
        let n = p.domains.len();
        let count = 1 + random.below(n as u64) as usize;
        let at = plain::position_after(&p, count as u64, &mut random);
        for rules in all_sets() {
            let found = File::new(&bytes).search(&at, rules).expect("an accepted file and position");
            let (loss, list) = all.first_turn(at.played(), rules.number());
            losses += u64::from(loss);
            turns.compare((found.loss, found.list), (loss, filled(&list)));
            if found.won {
                let leaf: Vec<u8> = found.leaf[..n].iter().map(|value| *value as u8).collect();
                let hidden = |t: &Triples| t.permitted.iter().position(|triple| *triple == t.variables.map(|x| leaf[x]));
                let places: Vec<u16> = p.triples.iter().map(|t| hidden(t).map_or(99, |place| place as u16)).collect();
                let own = leaf[..count] == *at.played() && Position::after(&leaf).is_some_and(|leaf| plain::fits(&p, &leaf));
                let expected = [&found.leaf[..n], &places[..]].concat();
                leaves.compare((own, Game::whole(&p).won(&leaf), found.leaf), (true, Some(true), filled(&expected)));
                won += 1;
                continue;
            }
            let mut lawful = found.conflict >> count == 0;
            narrow += u64::from(found.conflict.count_ones() < count as u32);
            for _ in 0..4 {
                let mut plays = plain::position_after(&p, count as u64, &mut random).played().to_vec();
                for k in (0..count).filter(|k| found.conflict >> k & 1 == 1) {
                    plays[k] = at.values[k];
                }
                lawful &= Game::whole(&p).won(&plays) == Some(false);
            }
            conflicts.compare((lawful, found.leaf), (true, [0; 32]));
        }
    }
    println!("triples: {losses} first turns that lose, {narrow} conflict sets that leave a play out");
    turns.end(300 * 128);
    leaves.end(won);
    conflicts.end(300 * 128 - won);
    assert!(losses > 2_000 && narrow > 2_000 && won > 5_000, "too plain a mixture");
}

/// As many variables and three-way constraints as there can be together, 32, under sets with the forward check.
#[test]
fn many_variables() {
    let mut random = Random(0x7122e6);
    let mut mixture = Mixture::default();
    let mut tally = Tally::new("triples: many variables, under some sets");
    let mut readings = Tally::new("triples: many variables, read");
    let mut triples = 0;
    for k in 0..300 {
        let n = 12 + random.below(19);
        let kind =
            Kind { n, values: 1 + random.below(4), single: 20, universal: random.below(25), constraints: random.below(15), compatible: 80 };
        let mut p = problem(&kind, &mut random);
        add_triples(&mut p, 32 - n, 16, &mut random);
        let at = some_position(&p, &mut random);
        let Some(e) = expect(&p, &at, true, 20_000) else { continue };
        let bytes = write(&p);
        assert_eq!(p.all(), 32);
        compare_bytes(&mut readings, &bytes);
        for set in [2, 3, 127, 35, 98 | k % 32] {
            compare(&mut tally, &bytes, &at, RuleSet::unchecked(set), &e);
        }
        triples += 1;
        mixture.note(&e);
    }
    println!("triples: many variables, {triples} of 300 problems are short enough for the plain game");
    assert!(triples > 200);
    mixture.end("triples: many variables", 40, 40, 10);
    readings.end(triples);
    tally.end(5 * triples);
}

/// Every byte changed, left out and put in twice, and every length cut, of files with three-way constraints; then records in each other's
/// place, written twice or with another mark.
#[test]
fn damaged_files() {
    let mut tally = Tally::new("triples: damaged files read, and refused by every call");
    let mut random = Random(0xdead7);
    let (mut accepted, mut refused) = (0, 0);
    let mut compare = |bytes: &[u8]| *if compare_bytes(&mut tally, bytes) { &mut accepted } else { &mut refused } += 1;
    for (n, count, most) in [(3, 1, 2), (3, 1, 16), (4, 4, 5), (6, 9, 3), (31, 1, 4), (30, 2, 16), (20, 12, 2)] {
        let kind = Kind { n, values: 4, single: 20, universal: 40, constraints: 100 / n, compatible: 70 };
        let mut p = problem(&kind, &mut random);
        add_triples(&mut p, count, most, &mut random);
        let file = write(&p);
        let first = file.len() - 2 - p.triples.iter().map(|t| 2 + plain::body(t).len()).sum::<usize>();
        for at in first..file.len() {
            for byte in 0..=255 {
                let mut f = file.clone();
                f[at] = byte;
                compare(&f);
            }
            compare(&file[..at]);
            compare(&[&file[..at], &file[at + 1..]].concat());
            compare(&[&file[..=at], &file[at..]].concat());
        }
        let mut records = vec![file[..first].to_vec()];
        records.extend(p.triples.iter().map(|t| [b"TT", &plain::body(t)[..]].concat()));
        records.push(b"EN".to_vec());
        for _ in 0..60 {
            let mut other = records.clone();
            let [x, y] = [(); 2].map(|()| random.below(other.len() as u64) as usize);
            match random.below(4) {
                0 => other.swap(x, y),
                1 => other.insert(x, records[y].clone()),
                2 => drop(other.remove(x)),
                _ => other[x][..2].copy_from_slice([b"QP", b"RS", b"VE", b"VA", b"CT", b"TT", b"EN", b"RR"][random.below(8) as usize]),
            }
            compare(&other.concat());
        }
    }
    println!("triples: damaged files, {accepted} accepted, {refused} refused");
    assert!(accepted > 500 && refused > 10_000, "too plain a mixture");
    tally.end(accepted + 2 * refused);
}

/// The farthest place that decides: behind 496 constraints of 32 variables a record that counts 255 triples is one too many if its body is
/// whole, and short with a byte fewer. And the longest file with such a record.
#[test]
fn longest() {
    let mut tally = Tally::new("triples: longest files");
    let mut random = Random(7);
    let kind = Kind { n: 32, values: 16, single: 0, universal: 0, constraints: 100, compatible: 100 };
    let mut p = problem(&kind, &mut random);
    p.rules = Some(3);
    let mut bytes = write(&p);
    assert_eq!(bytes.len(), FILE);
    bytes.truncate(FILE - 2);
    bytes.extend(b"TT\x00\x01\x02\xff");
    bytes.extend([0; 3 * 255]);
    assert_eq!(bytes.len(), 18_763);
    let many = Refusal { reason: Reason::Many, place: Some(17_992) };
    let short = Refusal { reason: Reason::Short, place: Some(17_992) };
    tally.compare(File::new(&bytes).read().err(), Some(many));
    tally.compare(File::new(&bytes).text().as_deref(), Ok("refused 27 at 17992\n"));
    bytes.extend([7; 40]);
    tally.compare(File::new(&bytes).read().err(), Some(many));
    bytes.truncate(18_762);
    tally.compare(File::new(&bytes).read().err(), Some(short));
    tally.compare(File::new(&bytes).text().as_deref(), Ok("refused 1 at 17992\n"));
    let mut p = problem(&Kind { n: 31, ..kind }, &mut random);
    p.rules = Some(127);
    p.domains[..3].fill(65535);
    p.triples.push(Triples { variables: [0, 1, 2], permitted: (0..16).map(|a| [a; 3]).collect() });
    let bytes = write(&p);
    tally.compare(bytes.len(), 16_928);
    tally.compare(File::new(&bytes).read(), Ok(plain::reading(&p)));
    tally.compare(look_ups::body(File::new(&bytes), 0).map(|body| body.map(|(at, body)| (at, body.len()))), Ok(Some((16_874, 52))));
    tally.end(8);
}

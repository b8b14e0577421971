//! The five rules alone: stored cases, what they name, and every refusal.

use crate::plain::{self, Kind, Random};
use crate::{lent, small_jobs, stored, tally::Tally};
use kickballbox::{Clash, File, LosingValue, PureValues, Reason, Refusal};

const NAMES: [&str; 5] = ["arc", "forward check", "look ahead", "pure", "interchangeable"];

struct Case {
    file: Vec<u8>,
    list: Vec<u16>,
    x: usize,
    a: usize,
    arc: (bool, Vec<u16>),
    forward: (bool, Vec<u16>),
    ahead: bool,
    pure: u16,
    interchangeable: u16,
}

fn cases() -> Vec<Case> {
    stored::all("rules.bin", |c| {
        let file = c.file();
        let n = file[2].into();
        let list = c.words(n);
        let arc = (c.flag(), c.words(n));
        let (x, a) = (c.byte().into(), c.byte().into());
        let forward = (c.flag(), c.words(n));
        Case { file, list, x, a, arc, forward, ahead: c.flag(), pure: c.word(), interchangeable: c.word() }
    })
}

/// What a rule tells, by its number: 0 for no loss; 1 for a loss and what it names; a mask, of rule 4 with the names of each value that is
/// named. And whether it leaves this list and touches no more.
fn ruled(rule: u8, file: File, list: &[u16], x: usize, a: usize, left: &[u16]) -> (Result<Vec<usize>, Refusal>, bool) {
    lent::with_list(list, left, |list| match rule {
        1 => file.arc(list).map(|lost| vec![lost.into()]),
        2 => file.forward_check(list, x, a).map(|named| told(named.map(|variable| vec![variable]))),
        3 => file.look_ahead(list, x).map(|named| told(named.map(|LosingValue { value, variable }| vec![value, variable]))),
        4 => file.pure(list, x).map(told_pure),
        _ => file.interchangeable(list, x).map(|mask| vec![mask.into()]),
    })
}

/// A loss with what it names, or none.
fn told(named: Option<Vec<usize>>) -> Vec<usize> {
    named.map_or(vec![0], |names| [vec![1], names].concat())
}

/// The mask of the pure values, and each value that is named with its variable and its value.
fn told_pure(PureValues { pure, clashes }: PureValues) -> Vec<usize> {
    let names = clashes.iter().enumerate().filter_map(|(a, clash)| clash.map(|Clash { variable, value }| [a, variable, value]));
    [vec![pure.into()], names.flatten().collect()].concat()
}

#[test]
fn stored_rules() {
    let mut tallies = NAMES.map(|name| Tally::new(format!("rules: stored cases of {name}")));
    for case in cases() {
        let file = File::new(&case.file);
        let expected = [
            (usize::from(case.arc.0), &case.arc.1),
            (case.forward.0.into(), &case.forward.1),
            (case.ahead.into(), &case.list),
            (case.pure.into(), &case.list),
            (case.interchangeable.into(), &case.list),
        ];
        for (rule, (reply, left)) in expected.into_iter().enumerate() {
            let (came, kept) = ruled(rule as u8 + 1, file, &case.list, case.x, case.a, left);
            tallies[rule].compare((came.map(|told| told[0]), kept), (Ok(reply), true));
        }
    }
    tallies.into_iter().for_each(|tally| tally.end(700));
}

/// What is stored behind a loss: so many names, each 255 where there is no loss.
fn names(c: &mut stored::Cases, count: usize) -> Vec<usize> {
    let lost = c.flag();
    let names: Vec<usize> = c.bytes(count).into_iter().map(usize::from).collect();
    assert!(lost || names.iter().all(|name| *name == 255), "a name where nothing is lost");
    told(lost.then_some(names))
}

/// What losses of rules 2 and 3 name, and that nothing is named without one.
#[test]
fn stored_names() {
    let mut tally = Tally::new("rules: stored names of forward check and look ahead");
    let mut losses = [0; 2];
    let cases = stored::all("card02.bin", |c| {
        let file = c.file();
        let list = c.words(file[2].into());
        let (x, a) = (c.byte(), c.byte());
        (list, x.into(), a, names(c, 1), names(c, 2), file)
    });
    for (list, x, a, forward, ahead, bytes) in cases {
        let file = File::new(&bytes);
        let mut left = list.clone();
        plain::read(&bytes).expect("an accepted file").forward_check(&mut left, x, a);
        let came = (ruled(2, file, &list, x, a.into(), &left), ruled(3, file, &list, x, 0, &list));
        losses[0] += forward[0];
        losses[1] += ahead[0];
        tally.compare(came, ((Ok(forward), true), (Ok(ahead), true)));
    }
    println!("rules: stored names, losses of forward check and look ahead: {losses:?}");
    tally.end(1200);
}

/// The pure values, and what rule 4 names at each of the 16 places: a variable and a value, or nothing where both are stored as 255.
#[test]
fn stored_names_of_pure() {
    let mut tally = Tally::new("rules: stored names of pure");
    let (mut named, mut pure, mut absent) = (0, 0, 0);
    let cases = stored::all("card05.bin", |c| {
        let file = c.file();
        let list = c.words(file[2].into());
        let (x, pure) = (usize::from(c.byte()), c.word());
        let places: [(u8, u8); 16] = std::array::from_fn(|_| (c.byte(), c.byte()));
        (file, list, x, pure, places)
    });
    for (bytes, list, x, mask, places) in cases {
        let clashes = places.map(|(variable, value)| {
            assert_eq!(variable == 255, value == 255, "half a name");
            (variable != 255).then_some(Clash { variable: variable.into(), value: value.into() })
        });
        let came = lent::with_list(&list, &list, |list| File::new(&bytes).pure(list, x));
        tally.compare(came, (Ok(PureValues { pure: mask, clashes }), true));
        for (a, clash) in clashes.iter().enumerate() {
            match (clash, list[x] >> a & 1, mask >> a & 1) {
                (Some(_), 1, 0) => named += 1,
                (None, 1, 1) => pure += 1,
                (None, 0, 0) => absent += 1,
                other => panic!("value {a} is stored as {other:?}"),
            }
        }
    }
    println!("rules: stored names of pure: {named} values named, {pure} pure, {absent} not in the mask");
    assert!(named > 0 && pure > 0 && absent > 0);
    tally.end(1000);
}

/// Every variable and value of generated lists, beside the rules' definitions.
#[test]
fn generated_lists() {
    let mut tallies = NAMES.map(|name| Tally::new(format!("rules: generated lists, {name}")));
    let mut losses = [0; 5];
    let mut random = Random(0x51ab1e);
    let (mut lists, mut variables, mut checks, mut named) = (0, 0, 0, 0);
    for k in 0..600 {
        let kind = Kind {
            n: if k % 50 == 0 { 32 } else { 1 + random.below(10) },
            values: 1 + random.below(8),
            single: 10,
            universal: 10 + random.below(50),
            constraints: if k % 50 == 0 { 10 } else { 20 + random.below(81) },
            compatible: 60 + random.below(41),
        };
        let p = plain::problem(&kind, &mut random);
        let bytes = plain::write(&p);
        let file = File::new(&bytes);
        let list: Vec<u16> = p.domains.iter().map(|domain| domain & random.next() as u16 | 1 << random.value(*domain)).collect();
        let mut compare = |rule: u8, x: usize, a: u8, reply: Vec<usize>, left: &[u16]| {
            losses[rule as usize - 1] += u64::from(reply[0] != 0);
            tallies[rule as usize - 1].compare(ruled(rule, file, &list, x, a.into(), left), (Ok(reply), true));
        };
        let mut left = list.clone();
        let loss = p.arc(&mut left);
        compare(1, 0, 0, vec![loss.into()], &left);
        for x in 0..list.len() {
            for a in (0..16).filter(|a| list[x] >> a & 1 == 1) {
                let mut left = list.clone();
                let stuck = p.forward_check(&mut left, x, a);
                compare(2, x, a, told(stuck.first().map(|variable| vec![*variable])), &left);
                checks += 1;
            }
            let losing = p.look_ahead(&list, x);
            compare(3, x, 0, told(losing.first().map(|(value, variable)| vec![usize::from(*value), *variable])), &list);
            let clashes = p.clashes(&list, x);
            named += clashes.len();
            let names = clashes.into_iter().flat_map(|(a, variable, value)| [a.into(), variable, value.into()]);
            compare(4, x, 0, [vec![p.pure(&list, x).into()], names.collect()].concat(), &list);
            compare(5, x, 0, vec![p.interchangeable(&list, x).into()], &list);
            variables += 1;
        }
        lists += 1;
    }
    println!(
        "rules: generated lists, losses of arc, forward check and look ahead: {:?}; variables with pure values: {}; values named: {named}",
        &losses[..3],
        losses[3]
    );
    assert!(losses.iter().all(|count| *count > 50) && named > 50, "too plain a mixture");
    for (tally, count) in tallies.into_iter().zip([lists, checks, variables, variables, variables]) {
        tally.end(count);
    }
}

/// Every refusal on G1, the first where two apply, and the list kept.
#[test]
fn refusals() {
    let mut tally = Tally::new("rules: refusals");
    let bytes = small_jobs::g1();
    let mut refused = |rule: u8, length: usize, list: &[u16], x: usize, a: usize, refusal: Refusal| {
        let came = ruled(rule, File::new(&bytes[..length]), list, x, a, list);
        tally.compare(came, (Err(refusal), true));
    };
    let wide = [1 << 8, 1 << 16, 1 << 32, 1 << 63];
    for rule in 1..=5 {
        for (length, place) in [(0, 0), (12, 9), (50, 49)] {
            let refusal = Refusal { reason: Reason::Short, place: Some(place) };
            refused(rule, length, &[0, 4, 3], 9, 9, refusal);
        }
        let lists: [&[u16]; 9] = [&[], &[3], &[3, 3, 3], &[0, 3], &[3, 0], &[5, 3], &[3, 4], &[0, 0], &[0x103, 3]];
        for list in lists {
            refused(rule, 51, list, 9, 9, Reason::List.into());
        }
        refused(rule, 51, &[3; 32], 9, 9, Reason::List.into());
        if rule > 1 {
            for x in [2, 3, 31, 32, 255, usize::MAX].into_iter().chain(wide) {
                refused(rule, 51, &[3, 1], x, 16, Reason::Choice.into());
            }
        }
    }
    for (list, x, a) in [([3, 3], 0, 2), ([1, 3], 0, 1), ([3, 2], 1, 0), ([3, 3], 1, 16), ([3, 3], 0, usize::MAX)] {
        refused(2, 51, &list, x, a, Reason::Option.into());
    }
    for a in wide {
        refused(2, 51, &[3, 3], 1, a, Reason::Option.into());
        refused(2, 51, &[3, 3], 1, a | 1, Reason::Option.into());
    }
    tally.end(5 * (3 + 9 + 1) + 4 * 10 + 5 + 8);
}

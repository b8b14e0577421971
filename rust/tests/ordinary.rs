//! Card 7: a problem with three-way constraints and its ordinary problem, with a hidden variable for each. What the rules alone, the formula
//! and the groups reply to the first they reply to the second, lists having a mask for each of its variables.

use crate::plain::{self, groups, qdimacs, Game, Kind, Problem, Random};
use crate::{lent, stored, tally::Tally};
use kickballbox::{File, JudgedFormula, Reason, Refusal, FORMULA};

/// What is compared.
struct Compared {
    files: Tally,
    rules: Tally,
    formulas: Tally,
    groups: Tally,
    refusals: Tally,
}

impl Compared {
    fn new(name: &str) -> Compared {
        let tally = |what: &str| Tally::new(format!("{name}: {what}"));
        Compared {
            files: tally("ordinary files by the plain reading"),
            rules: tally("rules alone"),
            formulas: tally("formulas"),
            groups: tally("groups and their files"),
            refusals: tally("refused alike"),
        }
    }

    /// A file with three-way constraints and that of its ordinary problem; with some lists, variables and values.
    fn compare(&mut self, bytes: &[u8], second: &[u8], random: &mut Random) {
        let all = plain::read(second).expect("an accepted file");
        let turned = plain::ordinary(&plain::read(bytes).expect("an accepted file"));
        self.files.compare(plain::write(&turned), second.to_vec());
        let (first, second) = (File::new(bytes), File::new(second));
        for round in 0..4 {
            let list: Vec<u16> = match round {
                0 => all.domains.clone(),
                _ => all.domains.iter().map(|domain| domain & random.next() as u16 | 1 << random.value(*domain)).collect(),
            };
            let x = random.below(list.len() as u64) as usize;
            let a = random.value(list[x]).into();
            self.rules.compare(by_rules(first, &list, x, a), by_rules(second, &list, x, a));
            // the same by the definitions
            let mut left = list.clone();
            let lost = all.arc(&mut left);
            self.rules.compare(lent::with_list(&list, &left, |list| first.arc(list)), (Ok(lost), true));
            let mut left = list.clone();
            let stuck = all.forward_check(&mut left, x, a as u8).first().copied();
            self.rules.compare(lent::with_list(&list, &left, |list| first.forward_check(list, x, a)), (Ok(stuck), true));
            let values = (first.pure(&list, x).map(|shown| shown.pure), first.interchangeable(&list, x));
            self.rules.compare(values, (Ok(all.pure(&list, x)), Ok(all.interchangeable(&list, x))));
        }
        let text = qdimacs::text(&qdimacs::formula(&all));
        self.formulas.compare(first.formula_text().as_deref(), Ok(&text));
        self.formulas.compare(second.formula_text().as_deref(), Ok(&text));
        for size in [0, text.len() - 1, text.len(), text.len() + 9] {
            let front = if size < text.len() { "" } else { &text[..] };
            let came = |file: File| lent::with_buffer(size, front.as_bytes(), |buffer| file.formula(buffer));
            self.formulas.compare(came(first), came(second));
        }
        let parts = groups::groups(&all);
        self.groups.compare(first.groups(), second.groups());
        self.groups.compare(first.groups().map(|list| list.count), Ok(parts.len()));
        for (group, variables) in parts.iter().enumerate() {
            let part = plain::write(&groups::part(&all, variables));
            self.groups.compare(first.group_file(group).as_ref(), Ok(&part));
            for size in [part.len() - 1, part.len(), part.len() + 9] {
                let front = if size < part.len() { &[][..] } else { &part[..] };
                let came = |file: File| lent::with_buffer(size, front, |buffer| file.group(group, buffer));
                self.groups.compare(came(first), came(second));
            }
        }
        self.refusals.compare(first.group_file(parts.len()).err(), Some(Reason::Choice.into()));
        // a list for the file's own variables alone (right where there is no three-way constraint), one mask too many, a variable beyond
        let own = usize::from(bytes[2]);
        let count = all.domains.len();
        let mut list = all.domains.clone();
        list.push(1);
        let alone = (own < count).then_some(Reason::List);
        for (masks, x, reason) in [(own, 0, alone), (count + 1, 0, Some(Reason::List)), (count, count, Some(Reason::Choice))] {
            let list = &list[..masks];
            let reason = reason.map(Refusal::from);
            self.refusals.compare([first.look_ahead(list, x).err(), first.interchangeable(list, x).err()], [reason; 2]);
        }
    }

    /// So many problems with so many groups in all.
    fn end(self, problems: u64, groups: u64) {
        self.files.end(problems);
        self.rules.end(16 * problems);
        self.formulas.end(6 * problems);
        self.groups.end(2 * problems + 4 * groups);
        self.refusals.end(4 * problems);
    }
}

/// What the five rules reply, and the lists that arc and forward check leave.
fn by_rules(file: File, list: &[u16], x: usize, a: usize) -> impl PartialEq + std::fmt::Debug {
    let (mut arc, mut checked) = (list.to_vec(), list.to_vec());
    let lost = file.arc(&mut arc);
    let forward = file.forward_check(&mut checked, x, a);
    ((lost, arc), (forward, checked), file.look_ahead(list, x), file.pure(list, x), file.interchangeable(list, x))
}

/// The groups of so many problems, by the plain reading.
fn count_groups(files: &[(Vec<u8>, Vec<u8>)]) -> u64 {
    files.iter().map(|(_, second)| groups::groups(&plain::read(second).expect("an accepted file")).len() as u64).sum()
}

#[test]
fn stored_files() {
    let files = stored::all("card07-ordinary.bin", |c| (c.file(), c.file()));
    let mut compared = Compared::new("card07-ordinary.bin");
    let mut random = Random(0x0d1a57);
    files.iter().for_each(|(bytes, second)| compared.compare(bytes, second, &mut random));
    let groups = count_groups(&files);
    println!("card07-ordinary.bin: {groups} groups");
    compared.end(300, groups);
}

/// Problems of up to 32 variables and three-way constraints together.
#[test]
fn generated_files() {
    let mut compared = Compared::new("ordinary problems of generated ones");
    let mut random = Random(0x0d1a58);
    let mut files = vec![];
    for k in 0..300 {
        let n = if k % 10 == 0 { 16 + random.below(16) } else { 3 + random.below(8) };
        let kind = Kind { n, values: 1 + random.below(8), single: 10, universal: 30, constraints: random.below(60), compatible: 60 };
        let mut p: Problem = plain::problem(&kind, &mut random);
        let records = if k % 10 == 0 { 32 - n } else { 1 + random.below(6) };
        plain::add_triples(&mut p, records, 16, &mut random);
        files.push((plain::write(&p), plain::write(&plain::ordinary(&p))));
    }
    files.iter().for_each(|(bytes, second)| compared.compare(bytes, second, &mut random));
    let groups = count_groups(&files);
    compared.end(300, groups);
}

/// The accepted examples, of whose formulas and groups the gate has check numbers: texts and files are those of the plain reading.
#[test]
fn examples() {
    let mut compared = Compared::new("ordinary problems of the examples");
    let mut random = Random(0x0d1a5a);
    let problems = stored::examples().into_iter().filter_map(|(bytes, _)| plain::read(&bytes).ok().map(|p| (bytes, p)));
    let files: Vec<_> = problems.map(|(bytes, p)| (bytes, plain::write(&plain::ordinary(&p)))).collect();
    files.iter().for_each(|(bytes, second)| compared.compare(bytes, second, &mut random));
    compared.end(8, count_groups(&files));
}

/// The judge of formulas says of a problem with three-way constraints what the direct game comes to, and so does the plain evaluator: stored
/// files and generated ones whose formulas have few booleans.
#[test]
fn verdicts_of_formulas() {
    let mut random = Random(0x0d1a59);
    let mut judged = Tally::new("ordinary problems: formulas judged, in both files");
    let mut truths = Tally::new("ordinary problems: formulas by the plain evaluator");
    let mut files: Vec<Vec<u8>> = stored::all("card07-ordinary.bin", |c| (c.file(), c.file()).0);
    for _ in 0..1000 {
        let kind = Kind { n: 3 + random.below(2), values: 2, single: 20, universal: 40, constraints: random.below(60), compatible: 75 };
        let mut p = plain::problem(&kind, &mut random);
        plain::add_triples(&mut p, 1 + random.below(2), 6, &mut random);
        files.push(plain::write(&p));
    }
    let (mut few, mut fewer, mut won_of) = (0, 0, [0; 2]);
    for bytes in files {
        let p = plain::read(&bytes).expect("an accepted file");
        let all = plain::ordinary(&p);
        let formula = qdimacs::formula(&all);
        if formula.universal.len() > 18 {
            continue;
        }
        let won = Game::whole(&p).won(&[]).unwrap();
        let length = qdimacs::text(&formula).len();
        let mut buffer = vec![0; length];
        for file in [&bytes, &plain::write(&all)] {
            judged.compare(File::new(file).judge_formula(&mut buffer), Ok(JudgedFormula { won, length }));
        }
        few += 1;
        won_of[usize::from(won)] += 1;
        if let Some(truth) = qdimacs::truth(&formula) {
            truths.compare(truth, won);
            fewer += 1;
        }
    }
    println!("ordinary problems: formulas judged: {} lost, {} won", won_of[0], won_of[1]);
    assert!(won_of[0] > 100 && won_of[1] > 100 && fewer > 200, "too plain a mixture");
    judged.end(2 * few);
    truths.end(fewer);
}

/// The longest formula of a file with three-way constraints stays below the constant, and fits.
#[test]
fn long_formula() {
    let mut tally = Tally::new("ordinary problems: a long formula");
    let mut random = Random(0x10f);
    let kind = Kind { n: 22, values: 16, single: 0, universal: 50, constraints: 100, compatible: 0 };
    let mut p = plain::problem(&kind, &mut random);
    plain::add_triples(&mut p, 10, 16, &mut random);
    let text = qdimacs::text(&qdimacs::formula(&plain::ordinary(&p)));
    assert!(text.len() > 300_000 && text.len() < FORMULA, "{}", text.len());
    let came = File::new(&plain::write(&p)).formula_text();
    tally.compare(came.is_ok_and(|came| came == text), true);
    tally.end(1);
}

/// Every refusal that comes behind the reading is that of the ordinary file, and a file that is refused is so by all.
#[test]
fn refused_files() {
    let mut tally = Tally::new("ordinary problems: 27 and 26 by the rules, the formula and the groups");
    let p = Problem {
        rules: None,
        universal: vec![false; 3],
        domains: vec![3; 3],
        constraints: vec![],
        triples: vec![plain::Triples { variables: [0, 1, 2], permitted: vec![[0, 0, 2]] }],
    };
    let many = Problem {
        rules: None,
        universal: vec![false; 32],
        domains: vec![1; 32],
        constraints: vec![],
        triples: vec![plain::Triples { variables: [0, 1, 2], permitted: vec![[0, 0, 0]] }],
    };
    for (p, reason, place) in [(p, Reason::Triple, 17), (many, Reason::Many, 133)] {
        let bytes = plain::write(&p);
        let refusal = Refusal { reason, place: Some(place) };
        tally.compare(File::new(&bytes).formula_text().err(), Some(refusal));
        tally.compare(File::new(&bytes).groups().err(), Some(refusal));
        tally.compare(File::new(&bytes).arc(&mut vec![3; p.domains.len() + 1]).err(), Some(refusal));
    }
    tally.end(6);
}

//! Which variables hang together, and each group as a file of its own (card 4 of document 02): stored cases; stored files split, read back
//! and judged, whole and group by group; lists and files beside a plain reading of the card (`plain::groups`).

use crate::plain::{self, groups, Game, Kind, Problem, Random};
use crate::{generated, lent, small_jobs, small_problems, stored, tally::Tally};
use kickballbox::{File, Groups, Position, Reading, Reason, Refusal, RuleSet, FILE};

struct Case {
    file: Vec<u8>,
    groups: Result<Groups, Refusal>,
    group: usize,
    size: usize,
    reply: Result<usize, Refusal>,
    written: Vec<u8>,
}

fn cases() -> Vec<Case> {
    stored::all("card04.bin", |c| {
        let (file, count) = (c.file(), usize::from(c.byte()));
        let list = if count == 0 { vec![] } else { c.bytes(file[2].into()) };
        let (group, size, refusal) = (c.long() as usize, c.word().into(), c.refusal());
        let written = c.file();
        let groups = match refusal {
            Some(refusal) if count == 0 => Err(refusal),
            _ => Ok(Groups { count, group: stored::filled(&list) }),
        };
        Case { file, groups, group, size, reply: refusal.map_or(Ok(written.len()), Err), written }
    })
}

/// The list, the reply to the group asked for, and all bytes of the buffer.
#[test]
fn stored_cases() {
    let mut tally = Tally::new("groups: stored cases");
    for case in cases() {
        let file = File::new(&case.file);
        let came = lent::with_buffer(case.size, &case.written, |buffer| file.group(case.group, buffer));
        tally.compare((file.groups(), came), (case.groups, (case.reply, true)));
    }
    tally.end(575);
}

/// What reading and the look-up of every pair show of an accepted file: the rows of the pairs (0, 1), (0, 2), .. (1, 2), ..
type Shown = (Reading, Vec<Option<Vec<u8>>>);

fn shown(bytes: &[u8]) -> Result<Shown, Refusal> {
    let file = File::new(bytes);
    let reading = file.read()?;
    let pairs = (0..reading.n).flat_map(|i| (i + 1..reading.n).map(move |j| (i, j)));
    let rows = pairs.map(|(i, j)| Ok(file.rows(i, j)?.map(<[u8]>::to_vec))).collect::<Result<_, Refusal>>()?;
    Ok((reading, rows))
}

/// What is to be shown of these variables' file, as the whole shows them.
fn shown_of(whole: File, variables: &[usize]) -> Result<Shown, Refusal> {
    let of_all = whole.read()?;
    let mut reading = Reading { n: variables.len(), m: 0, universal: 0, domains: [0; 32], ..of_all };
    let mut rows = vec![];
    for (new, &old) in variables.iter().enumerate() {
        reading.domains[new] = of_all.domains[old];
        reading.universal |= (of_all.universal >> old & 1) << new;
        for &later in &variables[new + 1..] {
            rows.push(whole.rows(old, later)?.map(<[u8]>::to_vec));
        }
    }
    reading.m = rows.iter().flatten().count();
    Ok((reading, rows))
}

/// Every accepted file of the stored cases and of the stored games is split, and each group is read back, split again and judged; the whole
/// is won exactly if all groups are, by `kb_judge` and by the plain game.
#[test]
fn stored_files_split() {
    let [mut parts, mut sums, mut verdicts, mut games] =
        ["files of groups read back", "groups added up", "verdicts of whole and groups", "the same by the plain game"]
            .map(|what| Tally::new(format!("groups: stored files: {what}")));
    let accepted = cases().into_iter().filter(|case| case.groups.is_ok()).map(|case| case.file);
    let (mut files, mut split, mut into, mut won_of) = (0, 0, 0, [0; 2]);
    for bytes in accepted.chain(stored::games().into_iter().map(|game| game.file)) {
        let file = File::new(&bytes);
        let whole = file.read().expect("an accepted file");
        let list = file.groups().expect("an accepted file");
        let (mut variables, mut constraints, mut all_won, mut played) = (0, 0, true, Some(true));
        for group in 0..list.count {
            let members: Vec<usize> = (0..whole.n).filter(|x| usize::from(list.group[*x]) == group).collect();
            let part = file.group_file(group).expect("a group of the file");
            let read = shown(&part);
            parts.compare((&read, File::new(&part).groups()), (&shown_of(file, &members), Ok(Groups { count: 1, group: [0; 32] })));
            variables += read.as_ref().map_or(0, |(reading, _)| reading.n);
            constraints += read.as_ref().map_or(0, |(reading, _)| reading.m);
            all_won &= File::new(&part).judge(&Position::fresh(), RuleSet::USUAL) == Ok(true);
            played = played.zip(plainly_won(&part)).map(|(one, other)| one && other);
        }
        sums.compare((variables, constraints), (whole.n, whole.m));
        verdicts.compare(file.judge(&Position::fresh(), RuleSet::USUAL), Ok(all_won));
        games.compare((plainly_won(&bytes), played), (Some(all_won), Some(all_won)));
        files += 1;
        if list.count > 1 {
            split += 1;
            into += list.count as u64;
            won_of[usize::from(all_won)] += 1;
        }
    }
    println!("groups: stored files: {split} of {files} split into {into} groups; of these {} lost, {} won", won_of[0], won_of[1]);
    assert!(won_of[0] > 100 && won_of[1] > 100, "too plain a mixture");
    parts.end(2888);
    sums.end(533 + 700);
    verdicts.end(533 + 700);
    games.end(533 + 700);
}

/// The plain game's verdict; none where so many tried values do not suffice.
fn plainly_won(bytes: &[u8]) -> Option<bool> {
    let p = plain::read(bytes).ok()?;
    Game { problem: &p, early: true, budget: 100_000 }.won(&[])
}

/// What is compared of each problem.
struct Compared {
    lists: Tally,
    files: Tally,
    calls: Tally,
}

impl Compared {
    fn new(name: &str) -> Compared {
        let tally = |what: &str| Tally::new(format!("groups: {name}: {what}"));
        Compared { lists: tally("lists"), files: tally("files"), calls: tally("buffers that fit and do not, and no such groups") }
    }

    /// The list, and each group's file in buffers of several sizes; then numbers of no group, some that are one when cut, in buffers of
    /// which the first are too short as well.
    fn compare(&mut self, p: &Problem) {
        let bytes = plain::write(p);
        let file = File::new(&bytes);
        let all = groups::groups(p);
        let mut list = Groups { count: all.len(), group: [0; 32] };
        for (group, variables) in all.iter().enumerate() {
            variables.iter().for_each(|x| list.group[*x] = group as u8);
            let part = plain::write(&groups::part(p, variables));
            self.files.compare(file.group_file(group), Ok(part.clone()));
            let length = part.len();
            for size in [0, length - 1, length, length + 1, length + 300] {
                let (front, fits) = if size < length { (&[][..], Err(Reason::Room.into())) } else { (&part[..], Ok(length)) };
                self.calls.compare(lent::with_buffer(size, front, |buffer| file.group(group, buffer)), (fits, true));
            }
        }
        self.lists.compare(file.groups(), Ok(list));
        let last = all.len() - 1;
        let wide = [1 << 8, 1 << 16, 1 << 32, 1 << 63].map(|wide| wide | last);
        for group in [all.len(), all.len() + 1, 1 << 32, usize::MAX].into_iter().chain(wide) {
            for size in [0, 6, bytes.len()] {
                let came = lent::with_buffer(size, &[], |buffer| file.group(group, buffer));
                self.calls.compare(came, (Err(Reason::Choice.into()), true));
            }
        }
    }

    /// So many problems, and so many groups in all.
    fn end(self, problems: u64, groups: u64) {
        self.lists.end(problems);
        self.files.end(groups);
        self.calls.end(5 * groups + 24 * problems);
    }
}

/// Every problem with one or two variables whose domains lie within {0, 1}, and G1 to G8. Two variables are two groups without a constraint.
#[test]
fn small() {
    let mut compared = Compared::new("one and two variables");
    for p in small_problems::single().iter().chain(&small_problems::double()) {
        compared.compare(p);
    }
    compared.end(6 + 196, 6 + 160 + 2 * 36);
    let mut compared = Compared::new("small jobs");
    for (_, bytes, ..) in small_jobs::g1_to_g8() {
        compared.compare(&plain::read(&bytes).expect("an accepted file"));
    }
    compared.end(8, 7 + 2);
}

/// A problem of up to 32 variables and few constraints.
fn sparse(random: &mut Random) -> Problem {
    let n = 1 + random.below(32);
    let constraints = random.below(20) * 12 / n;
    plain::problem(&Kind { n, values: 4, single: 20, universal: 30, constraints, compatible: 60 }, random)
}

/// A problem whose constraints are chains that go through its variables in any order.
fn chained(random: &mut Random) -> Problem {
    let n = 2 + random.below(31);
    let mut p = plain::problem(&Kind { n, values: 3, single: 20, universal: 30, constraints: 100, compatible: 60 }, random);
    let mut places: Vec<usize> = (0..n as usize).collect();
    for k in 1..places.len() {
        places.swap(k, random.below(k as u64 + 1) as usize);
    }
    let cuts: Vec<bool> = places.iter().map(|_| random.chance(15)).collect();
    p.constraints.retain(|c| {
        let (x, y) = (places[c.i], places[c.j]);
        x.abs_diff(y) == 1 && !cuts[x.min(y)]
    });
    p
}

#[test]
fn generated_problems() {
    let mut random = Random(0x6709125);
    let mut compared = Compared::new("generated");
    (0..1000).for_each(|_| compared.compare(&generated::generated(&mut random)));
    compared.end(1000, 1298);
    let mut compared = Compared::new("few constraints");
    (0..1000).for_each(|_| compared.compare(&sparse(&mut random)));
    compared.end(1000, 9311);
    let mut compared = Compared::new("chains");
    (0..1000).for_each(|_| compared.compare(&chained(&mut random)));
    compared.end(1000, 3438);
}

/// 32 variables: all of them alone, and all in one group, whose file is the whole.
#[test]
fn largest() {
    let mut compared = Compared::new("32 variables");
    let mut random = Random(32);
    let kind = |constraints| Kind { n: 32, values: 16, single: 0, universal: 40, constraints, compatible: 50 };
    compared.compare(&plain::problem(&kind(0), &mut random));
    let mut p = plain::problem(&kind(100), &mut random);
    p.rules = Some(RuleSet::ALL.number() as u8);
    compared.compare(&p);
    assert_eq!((plain::write(&p).len(), File::new(&plain::write(&p)).group_file(0).map(|file| file.len())), (FILE, Ok(FILE)));
    compared.end(2, 33);
}

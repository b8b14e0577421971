//! Problems that look random.

use super::{Constraint, Problem, Triples};
use kickballbox::Position;

/// xorshift64.
pub struct Random(pub u64);

impl Random {
    pub fn next(&mut self) -> u64 {
        self.0 ^= self.0 << 13;
        self.0 ^= self.0 >> 7;
        self.0 ^= self.0 << 17;
        self.0
    }

    /// A number below k.
    pub fn below(&mut self, k: u64) -> u64 {
        (self.next() >> 16) % k
    }

    pub fn chance(&mut self, of_hundred: u64) -> bool {
        self.below(100) < of_hundred
    }

    /// A value of this domain.
    pub fn value(&mut self, domain: u16) -> u8 {
        let mut value = self.below(16) as u8;
        while domain >> value & 1 == 0 {
            value = (value + 1) % 16;
        }
        value
    }

    /// A mask of this many values.
    pub fn mask(&mut self, values: u32) -> u16 {
        let mut mask = 0u16;
        while mask.count_ones() < values {
            mask |= 1 << self.below(16);
        }
        mask
    }
}

/// What a generated problem is like, in percent where nothing else is said.
pub struct Kind {
    pub n: u64,
    /// Most values of a variable.
    pub values: u64,
    /// Variables with one value alone.
    pub single: u64,
    pub universal: u64,
    pub constraints: u64,
    /// Pairs of values that go together.
    pub compatible: u64,
}

/// A problem of this kind. Half have a plan: one value of each existential variable that goes with the plan's others and with every
/// value of the universal ones; of these, half lose a few pairs again. So there are long games that are won, and marks of both kinds.
pub fn problem(kind: &Kind, random: &mut Random) -> Problem {
    let n = kind.n as usize;
    let mut p = Problem { rules: None, universal: vec![], domains: vec![], constraints: vec![], triples: vec![] };
    if random.chance(40) {
        p.rules = Some(random.below(128) as u8);
    }
    for _ in 0..n {
        let values = if random.chance(kind.single) { 1 } else { 1 + random.below(kind.values) };
        p.domains.push(random.mask(values as u32));
        p.universal.push(random.chance(kind.universal));
    }
    let plan = random.chance(50);
    let holes = if random.chance(50) { 3 } else { 0 };
    let planned: Vec<u16> = (0..n)
        .map(|k| match (plan, p.universal[k]) {
            (false, _) => 0,
            (true, true) => p.domains[k],
            (true, false) => 1 << (if random.chance(50) { p.domains[k].trailing_zeros() } else { 15 - p.domains[k].leading_zeros() }),
        })
        .collect();
    for i in 0..n {
        for j in i + 1..n {
            if !random.chance(kind.constraints) {
                continue;
            }
            let mut rows = [0; 16];
            for (a, row) in rows.iter_mut().enumerate() {
                for b in 0..16 {
                    let inside = p.domains[i] >> a & p.domains[j] >> b & 1 == 1;
                    let kept = planned[i] >> a & planned[j] >> b & 1 == 1 && !random.chance(holes);
                    if inside && (kept || random.chance(kind.compatible)) {
                        *row |= 1 << b;
                    }
                }
            }
            p.constraints.push(Constraint { i, j, rows });
        }
    }
    p
}

/// A position of some plays, each in its domain, as [`position_after`] has it.
pub fn some_position(p: &Problem, random: &mut Random) -> Position {
    let n = p.domains.len() as u64;
    let plays = if random.chance(50) { random.below(2) } else { random.below(n + 1) };
    position_after(p, plays, random)
}

/// A position of so many plays, each in its domain. Half the time any number of them is held, else none.
pub fn position_after(p: &Problem, plays: u64, random: &mut Random) -> Position {
    let values: Vec<u8> = p.domains[..plays as usize].iter().map(|domain| random.value(*domain)).collect();
    let depth = if random.chance(50) { 0 } else { random.below(plays + 1) };
    Position::after(&values).expect("at most 32 plays").with_depth(depth)
}

/// Puts so many three-way constraints into a problem, or one for each three variables where these are fewer, each with at most so many
/// triples. Most problems get a plan: a value of each existential variable, which all triples permitted first have; those are as many as
/// they can be, of any values of the universal variables. A few lose one of them again.
pub fn add_triples(p: &mut Problem, count: u64, most: u64, random: &mut Random) {
    let n = p.domains.len();
    let mut threes = vec![];
    for i in 0..n {
        for j in i + 1..n {
            threes.extend((j + 1..n).map(|k| [i, j, k]));
        }
    }
    let plan: Vec<u16> = p.domains.iter().zip(&p.universal).map(|(&d, &all)| if all { d } else { 1 << random.value(d) }).collect();
    let planned = random.chance(70);
    for _ in 0..count.min(threes.len() as u64) {
        let variables = threes.swap_remove(random.below(threes.len() as u64) as usize);
        let values = variables.map(|x| (0..16u8).filter(|a| p.domains[x] >> a & 1 == 1).collect::<Vec<u8>>());
        let mut all = vec![];
        for &a in &values[0] {
            for &b in &values[1] {
                all.extend(values[2].iter().map(|&c| [a, b, c]));
            }
        }
        for at in 1..all.len() {
            all.swap(at, random.below(at as u64 + 1) as usize);
        }
        let fits = |triple: &[u8; 3]| planned && (0..3).all(|x| plan[variables[x]] >> triple[x] & 1 == 1);
        all.sort_by_key(|triple| !fits(triple));
        let fitting = all.iter().filter(|triple| fits(triple)).count() as u64;
        all.truncate((1 + random.below(most)).max(fitting.min(most)) as usize);
        if all.len() > 1 && random.chance(5) {
            all.remove(0);
        }
        all.sort();
        p.triples.push(Triples { variables, permitted: all });
    }
    p.triples.sort_by_key(|t| t.variables);
}

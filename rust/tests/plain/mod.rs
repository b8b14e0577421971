//! A plain reading of document 01, written without the solver's sources: a reader that goes through the records one after another and
//! a writer, here; the game by its definition (`game`), the calls on a position (`calls`), the rules (`rules`), the printed text (`text`),
//! the problem as a boolean formula (`qdimacs`), its groups (`groups`), the problem that three-way constraints are turned into (`ordinary`),
//! and a generator of problems (`generator`).

mod calls;
mod game;
mod generator;
pub mod groups;
mod ordinary;
pub mod qdimacs;
mod rules;
mod text;

pub use calls::{causes, clashing, fits, open_values, Call, PlainList};
pub use game::Game;
pub use generator::{add_triples, position_after, problem, some_position, Kind, Random};
pub use ordinary::ordinary;
pub use text::text;

use kickballbox::{Reading, Reason, Refusal, RuleSet};

/// A problem as its file says.
#[derive(Clone)]
pub struct Problem {
    pub rules: Option<u8>,
    pub universal: Vec<bool>,
    pub domains: Vec<u16>,
    pub constraints: Vec<Constraint>,
    pub triples: Vec<Triples>,
}

#[derive(Clone)]
pub struct Constraint {
    pub i: usize,
    pub j: usize,
    pub rows: [u16; 16],
}

/// A three-way constraint: its variables ascending, and the triples of their values that it permits.
#[derive(Clone)]
pub struct Triples {
    pub variables: [usize; 3],
    pub permitted: Vec<[u8; 3]>,
}

impl Triples {
    /// Whether the values played at its variables are permitted.
    fn holds(&self, plays: &[u8]) -> bool {
        let [i, j, k] = self.variables;
        self.permitted.contains(&[plays[i], plays[j], plays[k]])
    }
}

impl Problem {
    /// Whether the domain of a variable holds a value.
    fn has(&self, variable: usize, value: usize) -> bool {
        value < 16 && self.domains[variable] >> value & 1 == 1
    }

    /// Whether value a of i goes with value b of j, i below j.
    fn goes(&self, i: usize, a: u8, j: usize, b: u8) -> bool {
        self.constraints.iter().filter(|c| (c.i, c.j) == (i, j)).all(|c| c.rows[a as usize] >> b & 1 == 1)
    }
}

/// Number and place of a file's refusal.
type Refused = (u64, usize);

/// What is left of a file, with the place where it begins.
struct Rest<'a> {
    bytes: &'a [u8],
    at: usize,
}

impl<'a> Rest<'a> {
    fn mark(&self) -> Result<&'a [u8], Refused> {
        self.bytes.get(..2).ok_or((1, self.at))
    }

    /// The body of a record of this length; then the next record is at hand.
    fn body(&mut self, length: usize) -> Result<&'a [u8], Refused> {
        let whole = self.bytes.get(..2 + length).ok_or((1, self.at))?;
        self.bytes = &self.bytes[2 + length..];
        self.at += 2 + length;
        Ok(&whole[2..])
    }
}

fn word(low: u8, high: u8) -> u16 {
    low as u16 | (high as u16) << 8
}

/// The problem of an accepted file.
pub fn read(file: &[u8]) -> Result<Problem, Refusal> {
    records(file).map_err(|(number, place)| Refusal { reason: Reason::of(number), place: Some(place) })
}

fn records(file: &[u8]) -> Result<Problem, Refused> {
    let mut rest = Rest { bytes: file, at: 0 };
    if rest.mark()? != b"QP" {
        return Err((2, 0));
    }
    let head = rest.body(3)?;
    let (n, m) = (head[0] as usize, word(head[1], head[2]) as usize);
    if !(1..=32).contains(&n) || m > n * (n - 1) / 2 {
        return Err((3, 0));
    }
    let mut problem = Problem { rules: None, universal: vec![], domains: vec![], constraints: vec![], triples: vec![] };
    if rest.mark()? == b"RS" {
        let set = rest.body(1)?[0];
        if set >= 128 {
            return Err((8, 5));
        }
        problem.rules = Some(set);
    }
    for _ in 0..n {
        let at = rest.at;
        let universal = match rest.mark()? {
            b"VE" => false,
            b"VA" => true,
            _ => return Err((2, at)),
        };
        let body = rest.body(2)?;
        if body == [0, 0] {
            return Err((4, at));
        }
        problem.universal.push(universal);
        problem.domains.push(word(body[0], body[1]));
    }
    let mut last = None;
    for _ in 0..m {
        let at = rest.at;
        if rest.mark()? != b"CT" {
            return Err((2, at));
        }
        let body = rest.body(34)?;
        let (i, j) = (body[0] as usize, body[1] as usize);
        if i >= j || j >= n {
            return Err((5, at));
        }
        if last >= Some((i, j)) {
            return Err((6, at));
        }
        last = Some((i, j));
        let mut rows = [0; 16];
        for (a, row) in rows.iter_mut().enumerate() {
            *row = word(body[2 + 2 * a], body[3 + 2 * a]);
            let may = if problem.domains[i] >> a & 1 == 1 { problem.domains[j] } else { 0 };
            if *row & !may != 0 {
                return Err((7, at));
            }
        }
        problem.constraints.push(Constraint { i, j, rows });
    }
    let mut last = None;
    while rest.mark()? == b"TT" {
        let at = rest.at;
        // the count is the body's last byte before the triples
        let count = rest.bytes.get(5).copied().unwrap_or(0);
        let body = rest.body(4 + 3 * usize::from(count))?;
        if n + problem.triples.len() == 32 {
            return Err((27, at));
        }
        let variables = [body[0], body[1], body[2]].map(usize::from);
        let permitted: Vec<[u8; 3]> = body[4..].chunks(3).map(|triple| [triple[0], triple[1], triple[2]]).collect();
        let in_order = variables.is_sorted_by(|one, next| one < next) && variables[2] < n && last < Some(variables);
        let counted = (1..=16).contains(&count) && permitted.is_sorted_by(|one, next| one < next);
        if !in_order || !counted || !permitted.iter().all(|triple| (0..3).all(|x| problem.has(variables[x], triple[x].into()))) {
            return Err((26, at));
        }
        last = Some(variables);
        problem.triples.push(Triples { variables, permitted });
    }
    if rest.mark()? != b"EN" {
        return Err((2, rest.at));
    }
    rest.body(0)?;
    if !rest.bytes.is_empty() {
        return Err((9, rest.at));
    }
    Ok(problem)
}

/// What reading replies of the problem.
pub fn reading(p: &Problem) -> Reading {
    let rules = p.rules.map(|set| RuleSet::unchecked(set.into()));
    let mut r = Reading {
        n: p.domains.len(),
        m: p.constraints.len(),
        t: p.triples.len(),
        rules,
        rules_to_use: rules.unwrap_or(RuleSet::USUAL),
        universal: 0,
        domains: [0; 32],
    };
    for k in 0..p.domains.len() {
        r.domains[k] = p.domains[k];
        r.universal |= (p.universal[k] as u32) << k;
    }
    r
}

/// The bytes of a problem.
pub fn write(problem: &Problem) -> Vec<u8> {
    let mut out = b"QP".to_vec();
    out.push(problem.domains.len() as u8);
    out.extend((problem.constraints.len() as u16).to_le_bytes());
    if let Some(set) = problem.rules {
        out.extend([b'R', b'S', set]);
    }
    for (mask, universal) in problem.domains.iter().zip(&problem.universal) {
        out.extend(if *universal { b"VA" } else { b"VE" });
        out.extend(mask.to_le_bytes());
    }
    for t in &problem.constraints {
        out.extend([b'C', b'T', t.i as u8, t.j as u8]);
        for row in t.rows {
            out.extend(row.to_le_bytes());
        }
    }
    for t in &problem.triples {
        out.extend(b"TT");
        out.extend(body(t));
    }
    out.extend(b"EN");
    out
}

/// The body of a three-way constraint's record: its variables, how many triples it permits, and those.
pub fn body(t: &Triples) -> Vec<u8> {
    let [i, j, k] = t.variables.map(|variable| variable as u8);
    [&[i, j, k, t.permitted.len() as u8], t.permitted.as_flattened()].concat()
}

impl Problem {
    /// How many variables and three-way constraints there are: what room is counted by.
    pub fn all(&self) -> usize {
        self.domains.len() + self.triples.len()
    }
}

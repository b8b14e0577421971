//! A problem as a quantified boolean formula, from card 1 of document 02: the formula, its text, a strict reader of such texts, and
//! whether the formula is true, by its definition.

use super::Problem;

/// Booleans are numbered from 1. A literal is a boolean's number, negative where the boolean is negated.
#[derive(Clone, Debug, PartialEq)]
pub struct Formula {
    /// Whether each boolean of the prefix is universal.
    pub universal: Vec<bool>,
    pub clauses: Vec<Vec<i64>>,
}

/// A variable with its booleans.
struct Variable {
    universal: bool,
    values: Vec<u8>,
    booleans: Vec<i64>,
}

impl Variable {
    /// A variable whose booleans are numbered from here on.
    fn new(universal: bool, domain: u16, first: i64) -> Variable {
        let values: Vec<u8> = (0..16).filter(|a| domain >> a & 1 == 1).collect();
        let count = if universal { (1..).find(|k| 1 << k >= values.len()).unwrap() } else { values.len() };
        Variable { universal, values, booleans: (first..).take(count).collect() }
    }

    /// For each code or boolean that stands for the value at this place, the literals that it makes false.
    fn against(&self, place: usize) -> Vec<Vec<i64>> {
        if !self.universal {
            return vec![vec![-self.booleans[place]]];
        }
        let codes = (0..1 << self.booleans.len()).filter(|code: &usize| code % self.values.len() == place);
        codes.map(|code| (0..).zip(&self.booleans).map(|(bit, b)| if code >> bit & 1 == 1 { -b } else { *b }).collect()).collect()
    }
}

/// The formula of a problem.
pub fn formula(p: &Problem) -> Formula {
    let mut f = Formula { universal: vec![], clauses: vec![] };
    let mut variables = vec![];
    for (universal, domain) in p.universal.iter().zip(&p.domains) {
        let variable = Variable::new(*universal, *domain, f.universal.len() as i64 + 1);
        f.universal.extend(variable.booleans.iter().map(|_| *universal));
        variables.push(variable);
    }
    f.clauses.extend(variables.iter().filter(|v| !v.universal).map(|v| v.booleans.clone()));
    for c in &p.constraints {
        let [i, j] = [c.i, c.j].map(|k| &variables[k]);
        for (at, a) in i.values.iter().enumerate() {
            for (bt, b) in j.values.iter().enumerate() {
                if c.rows[usize::from(*a)] >> b & 1 == 1 {
                    continue;
                }
                for lower in i.against(at) {
                    f.clauses.extend(j.against(bt).into_iter().map(|higher| [&lower[..], &higher].concat()));
                }
            }
        }
    }
    if p.universal.ends_with(&[true]) {
        f.universal.push(false);
        f.clauses.push(vec![f.universal.len() as i64]);
    }
    f
}

/// Its text.
pub fn text(f: &Formula) -> String {
    let line = |numbers: &[i64]| numbers.iter().map(|number| format!("{number} ")).collect::<String>() + "0\n";
    let mut out = format!("p cnf {} {}\n", f.universal.len(), f.clauses.len());
    let mut last = 0;
    for block in f.universal.chunk_by(|one, next| one == next) {
        let booleans: Vec<i64> = (last + 1..).take(block.len()).collect();
        out += if block[0] { "a " } else { "e " };
        out += &line(&booleans);
        last += block.len() as i64;
    }
    f.clauses.iter().for_each(|clause| out += &line(clause));
    out
}

/// The formula of a text, or what is wrong with it. Nothing is taken that is not just as the card says.
pub fn read(text: &str) -> Result<Formula, String> {
    let body = text.strip_suffix('\n').ok_or("the last line does not end")?;
    let mut lines = body.split('\n').peekable();
    let head = lines.next().and_then(|line| line.strip_prefix("p cnf ")?.split_once(' ')).ok_or("no head")?;
    let mut f = Formula { universal: vec![], clauses: vec![] };
    let mut before = None;
    while let Some(line) = lines.next_if(|line| line.starts_with(['a', 'e'])) {
        let universal = line.starts_with('a');
        if before.replace(universal) == Some(universal) {
            return Err(format!("a block like the one before: {line}"));
        }
        for boolean in numbers(line[1..].strip_prefix(' ').ok_or("no space behind a quantifier")?)? {
            f.universal.push(universal);
            if boolean != f.universal.len() as i64 {
                return Err(format!("boolean {boolean} quantified in place of {}", f.universal.len()));
            }
        }
    }
    if before != Some(false) {
        return Err("the last block is not existential".into());
    }
    for line in lines {
        let clause = numbers(line)?;
        let booleans: Vec<i64> = clause.iter().map(|literal| literal.abs()).collect();
        if !booleans.is_sorted_by(|one, next| one < next) || booleans.last() > Some(&(f.universal.len() as i64)) {
            return Err(format!("literals out of order or range: {line}"));
        }
        f.clauses.push(clause);
    }
    if [number(head.0)?, number(head.1)?] != [f.universal.len() as i64, f.clauses.len() as i64] {
        return Err(format!("{} booleans and {} clauses behind another head", f.universal.len(), f.clauses.len()));
    }
    Ok(f)
}

/// The numbers of a line, one at least, single spaces between them, and 0 behind them.
fn numbers(line: &str) -> Result<Vec<i64>, String> {
    line.strip_suffix(" 0").ok_or(format!("no 0 behind numbers: {line}"))?.split(' ').map(number).collect()
}

/// A number other than 0 that has no other digits or sign than it needs.
fn number(word: &str) -> Result<i64, String> {
    word.parse().ok().filter(|number: &i64| *number != 0 && number.to_string() == word).ok_or(format!("no number: {word:?}"))
}

/// Whether the formula is true: both values of each boolean in the order of the prefix, and at the end every clause. None where it has more
/// than 14 booleans.
pub fn truth(f: &Formula) -> Option<bool> {
    (f.universal.len() <= 14).then(|| rest(f, &mut vec![]))
}

fn rest(f: &Formula, values: &mut Vec<bool>) -> bool {
    let Some(universal) = f.universal.get(values.len()) else {
        let holds = |literal: &i64| values[literal.unsigned_abs() as usize - 1] == (*literal > 0);
        return f.clauses.iter().all(|clause| clause.iter().any(holds));
    };
    let [no, yes] = [false, true].map(|value| {
        values.push(value);
        let won = rest(f, values);
        values.pop();
        won
    });
    if *universal {
        no && yes
    } else {
        no || yes
    }
}

/// The reader takes no other text of a formula than the one that is written, whatever byte is changed, left out or put in twice.
#[test]
fn one_text_of_each_formula() {
    let right = "p cnf 3 3\na 1 0\ne 2 3 0\n2 3 0\n1 -2 0\n-1 -3 0\n";
    let g1 = Formula { universal: vec![true, false, false], clauses: vec![vec![2, 3], vec![1, -2], vec![-1, -3]] };
    assert_eq!((read(right), text(&g1).as_str()), (Ok(g1), right));
    let lawful = |text_: &str| read(text_).is_ok_and(|f| text(&f) == text_);
    for at in 0..right.len() {
        let (before, behind) = right.split_at(at);
        for byte in 0..128u8 {
            let changed = format!("{before}{}{}", byte as char, &behind[1..]);
            assert!(lawful(&changed) || read(&changed).is_err(), "{changed}");
        }
        for other in [format!("{before}{}", &behind[1..]), format!("{before}{}{behind}", &behind[..1]), before.to_string()] {
            assert!(lawful(&other) || read(&other).is_err(), "{other}");
        }
    }
}

/// Each demand on a text by itself.
#[test]
fn wrong_texts() {
    let wrong = [
        ("the last line does not end", "p cnf 1 1\ne 1 0\n1 0"),
        ("no head", "e 1 0\n1 0\n"),
        ("a comment", "c\np cnf 1 1\ne 1 0\n1 0\n"),
        ("an empty line", "p cnf 1 1\ne 1 0\n1 0\n\n"),
        ("two spaces", "p cnf 2 1\ne 1 2 0\n1  2 0\n"),
        ("a space at the end", "p cnf 1 1\ne 1 0\n1 0 \n"),
        ("a carriage return", "p cnf 1 1\r\ne 1 0\r\n1 0\r\n"),
        ("another number of booleans", "p cnf 2 1\ne 1 0\n1 0\n"),
        ("another number of clauses", "p cnf 1 2\ne 1 0\n1 0\n"),
        ("equal neighbours", "p cnf 2 1\ne 1 0\ne 2 0\n1 2 0\n"),
        ("a boolean twice", "p cnf 2 1\na 1 0\ne 1 2 0\n1 2 0\n"),
        ("booleans out of order", "p cnf 2 1\na 2 0\ne 1 0\n1 2 0\n"),
        ("a boolean left out", "p cnf 2 1\ne 2 0\n2 0\n"),
        ("a universal block last", "p cnf 1 1\na 1 0\n1 0\n"),
        ("no block", "p cnf 0 0\n"),
        ("an empty block", "p cnf 1 1\na 0\ne 1 0\n1 0\n"),
        ("an empty clause", "p cnf 1 1\ne 1 0\n0\n"),
        ("literals out of order", "p cnf 2 1\ne 1 2 0\n2 1 0\n"),
        ("a literal twice", "p cnf 2 1\ne 1 2 0\n-1 1 0\n"),
        ("a boolean that is not quantified", "p cnf 2 1\ne 1 2 0\n1 3 0\n"),
        ("a plus", "p cnf 1 1\ne 1 0\n+1 0\n"),
        ("a zero in front", "p cnf 1 1\ne 1 0\n01 0\n"),
        ("a block behind a clause", "p cnf 2 2\ne 1 0\n1 0\na 2 0\n"),
        ("two clauses on a line", "p cnf 1 2\ne 1 0\n1 0 1 0\n"),
    ];
    for (what, text) in wrong {
        assert!(read(text).is_err(), "{what} is taken");
    }
}

/// Prefixes of two booleans that are equal: an existential one can follow a universal one, not go before it.
#[test]
fn truths() {
    let equal = |universal: [bool; 2]| truth(&Formula { universal: universal.to_vec(), clauses: vec![vec![1, -2], vec![-1, 2]] });
    assert_eq!(equal([true, false]), Some(true));
    assert_eq!(equal([false, true]), Some(false));
    assert_eq!(equal([false, false]), Some(true));
    assert_eq!(equal([true, true]), Some(false));
    let free = |count: usize, clauses: Vec<Vec<i64>>| truth(&Formula { universal: vec![true; count], clauses });
    assert_eq!(
        [free(14, vec![]), free(14, vec![vec![]]), free(14, vec![vec![14]]), free(15, vec![])],
        [Some(true), Some(false), Some(false), None]
    );
}

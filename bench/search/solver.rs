//! A solver of the same files under the same seven rules, written apart from the proved one and in plain Rust, to time it against.
//! It tries values in the same order and keeps the same conflict sets, so it takes the same turns.
//!
//! A state holds a mask of values (`domain`) and a set of variables (`why`) for each variable. Rules 2, 1 and 3 find losses, 4 and 5
//! narrow the next domain, 6 jumps back by conflict sets and 7 skips values of universal variables by a winning leaf.

const ARC: u8 = 1;
const FORWARD: u8 = 2;
const AHEAD: u8 = 4;
const PURE: u8 = 8;
const ALIKE: u8 = 16;
const JUMP: u8 = 32;
const SKIP: u8 = 64;

type Leaf = [u8; 32];

struct Bits(u32);

impl Iterator for Bits {
    type Item = usize;
    #[inline(always)]
    fn next(&mut self) -> Option<usize> {
        if self.0 == 0 {
            return None;
        }
        let k = self.0.trailing_zeros() as usize;
        self.0 &= self.0 - 1;
        Some(k)
    }
}

fn bits(m: u16) -> Bits {
    Bits(m as u32)
}

fn above(k: usize) -> u32 {
    !0u32 << k << 1
}

fn below(k: usize) -> u32 {
    ((1u64 << k) - 1) as u32
}

struct Problem {
    n: usize,
    universal: u32,
    domain: [u16; 32],
    near: [u32; 32],
    /// rows[i][j][a]: the values of j that go with value a of i.
    rows: Box<[[[u16; 16]; 32]; 32]>,
}

#[derive(Clone, Copy)]
struct State {
    domain: [u16; 32],
    why: [u32; 32],
}

struct Solver<'a> {
    p: &'a Problem,
    set: u8,
    start: usize,
    turns: u64,
}

impl Problem {
    fn read(f: &[u8]) -> Option<Problem> {
        let word = |at: usize| Some(u16::from_le_bytes(f.get(at..at + 2)?.try_into().ok()?));
        if f.get(..2)? != b"QP" {
            return None;
        }
        let n = *f.get(2)? as usize;
        if !(1..=32).contains(&n) {
            return None;
        }
        let m = word(3)? as usize;
        let mut at = 5;
        if f.get(at..at + 2)? == b"RS" {
            at += 3;
        }
        let mut p = Problem { n, universal: 0, domain: [0; 32], near: [0; 32], rows: Box::new([[[0; 16]; 32]; 32]) };
        for k in 0..n {
            match f.get(at..at + 2)? {
                b"VA" => p.universal |= 1 << k,
                b"VE" => {}
                _ => return None,
            }
            p.domain[k] = word(at + 2)?;
            if p.domain[k] == 0 {
                return None;
            }
            at += 4;
        }
        for _ in 0..m {
            if f.get(at..at + 2)? != b"CT" {
                return None;
            }
            let (i, j) = (*f.get(at + 2)? as usize, *f.get(at + 3)? as usize);
            if i >= j || j >= n {
                return None;
            }
            p.near[i] |= 1 << j;
            p.near[j] |= 1 << i;
            for a in 0..16 {
                let row = word(at + 4 + 2 * a)?;
                p.rows[i][j][a] = row;
                for b in bits(row) {
                    p.rows[j][i][b] |= 1 << a;
                }
            }
            at += 36;
        }
        if f.get(at..)? != b"EN" { None } else { Some(p) }
    }

    fn is_universal(&self, k: usize) -> bool {
        self.universal >> k & 1 == 1
    }

    /// The values of `wanted` at x that go with some value of the mask m of k.
    #[inline(always)]
    fn supported(&self, k: usize, m: u16, x: usize, wanted: u16) -> u16 {
        let rows = &self.rows[k][x];
        let mut out = 0;
        for a in bits(m) {
            out |= rows[a];
            if wanted & !out == 0 {
                break;
            }
        }
        wanted & out
    }

    /// The values of `wanted` at x that go with every value of the mask m of k.
    #[inline(always)]
    fn common(&self, k: usize, m: u16, x: usize, wanted: u16) -> u16 {
        let rows = &self.rows[k][x];
        let mut out = wanted;
        for a in bits(m) {
            out &= rows[a];
            if out == 0 {
                break;
            }
        }
        out
    }

    /// The first variable above k that a check of its value a fails at.
    fn failing(&self, s: &State, k: usize, a: usize) -> Option<usize> {
        for j in Bits(self.near[k] & above(k)) {
            let met = s.domain[j] & self.rows[k][j][a];
            if if self.is_universal(j) { met != s.domain[j] } else { met == 0 } {
                return Some(j);
            }
        }
        None
    }

    /// Rule 2 for the value a of k. The variables that lost values; or a conflict set.
    fn forward(&self, s: &mut State, k: usize, a: usize) -> Result<u32, u32> {
        let cause = s.why[k];
        let mut narrowed = 0;
        for j in Bits(self.near[k] & above(k)) {
            let old = s.domain[j];
            let new = old & self.rows[k][j][a];
            if new == old {
                continue;
            }
            if self.is_universal(j) || new == 0 {
                return Err(cause | s.why[j] | self.near[j]);
            }
            s.domain[j] = new;
            s.why[j] |= cause;
            narrowed |= 1 << j;
        }
        Ok(narrowed)
    }

    /// Rule 1. `changed` are the variables whose domains differ from those of a state in which nothing was dead. Passes over
    /// the variables; each looks at the neighbours that changed since it last looked.
    fn arc(&self, s: &mut State, changed: u32, first: bool) -> Result<(), u32> {
        let existential = below(self.n) & !self.universal;
        let mut dirty = changed;
        let mut all = changed;
        let mut emptied: u32 = 0;
        let mut fresh = changed;
        while dirty != 0 {
            for x in Bits(existential) {
                let mut lost = false;
                for k in Bits(self.near[x] & (dirty | fresh)) {
                    let old = s.domain[x];
                    let late = x < k && self.is_universal(k);
                    let new = if late { self.common(k, s.domain[k], x, old) } else { self.supported(k, s.domain[k], x, old) };
                    if new != old {
                        s.domain[x] = new;
                        s.why[x] |= s.why[k] | if late { 1 << x } else { 0 };
                        lost = true;
                    }
                }
                dirty &= !(1 << x);
                if lost {
                    dirty |= 1 << x;
                    all |= 1 << x;
                    if s.domain[x] == 0 {
                        emptied |= 1 << x;
                    }
                }
            }
            dirty &= existential;
            fresh = 0;
        }
        if emptied != 0 {
            return Err(s.why[emptied.trailing_zeros() as usize]);
        }
        for y in Bits(self.universal) {
            // Only a later existential variable that lost values can bar a value that nothing barred before.
            let looks = if first { self.near[y] & (self.universal | above(y)) } else { self.near[y] & all & above(y) & existential };
            for k in Bits(looks) {
                let u = s.domain[y];
                let left = if self.is_universal(k) { self.common(k, s.domain[k], y, u) } else { self.supported(k, s.domain[k], y, u) };
                if left != u {
                    return Err(s.why[y] | s.why[k]);
                }
            }
        }
        Ok(())
    }

    /// Rule 3 at variable d.
    fn look_ahead(&self, s: &State, d: usize) -> Result<(), u32> {
        for a in bits(s.domain[d]) {
            if let Some(x) = self.failing(s, d, a) {
                return Err(s.why[d] | s.why[x] | self.near[x]);
            }
        }
        Ok(())
    }

    /// Rule 4: the pure values of d.
    fn pure(&self, s: &State, d: usize) -> u16 {
        let mut out = s.domain[d];
        for j in Bits(self.near[d]) {
            out = self.common(j, s.domain[j], d, out);
            if out == 0 {
                break;
            }
        }
        out
    }

    /// Rule 5: the smallest of each group of values that are alike.
    fn smallest_alike(&self, s: &State, d: usize) -> u16 {
        let alike = |a: usize, b: usize| Bits(self.near[d]).all(|j| (self.rows[d][j][a] ^ self.rows[d][j][b]) & s.domain[j] == 0);
        let mut out = 0;
        for a in bits(s.domain[d]) {
            if !bits(out).any(|b| alike(a, b)) {
                out |= 1 << a;
            }
        }
        out
    }

    /// The conflict set of a full play, if it breaks a constraint.
    fn first_broken(&self, s: &State) -> Option<u32> {
        for x in 0..self.n {
            let a = s.domain[x].trailing_zeros() as usize;
            for y in Bits(self.near[x] & above(x)) {
                if self.rows[x][y][a] & s.domain[y] == 0 {
                    return Some(1 << x | 1 << y);
                }
            }
        }
        None
    }

    /// Rule 7: the values of d that the leaf lets it skip. Pairs of two values of the leaf hold already.
    fn skippable(&self, s: &State, d: usize, leaf: &Leaf) -> u16 {
        let later = self.universal & above(d) & below(self.n);
        let values = |j: usize| if later >> j & 1 == 1 { s.domain[j] } else { 1 << leaf[j] };
        let mut out = s.domain[d];
        for j in Bits(self.near[d]) {
            out = self.common(j, values(j), d, out);
            if out == 0 {
                return 0;
            }
        }
        for u in Bits(later) {
            for j in Bits(self.near[u] & !(1 << d)) {
                if self.common(j, values(j), u, s.domain[u]) != s.domain[u] {
                    return 0;
                }
            }
        }
        out
    }
}

impl Solver<'_> {
    fn uses(&self, rule: u8) -> bool {
        self.set & rule != 0
    }

    fn lost(&self, d: usize, conflict: u32) -> Result<Leaf, u32> {
        Err(if self.uses(JUMP) { conflict & below(d) } else { below(d) })
    }

    /// The rules 2, 1 and 3 after d plays, of which those from c on are not checked.
    fn run_rules(&self, s: &mut State, c: usize, d: usize) -> Result<(), u32> {
        let p = self.p;
        let mut changed = 0;
        if self.uses(FORWARD) {
            for k in c..d {
                changed |= p.forward(s, k, s.domain[k].trailing_zeros() as usize)?;
            }
        } else if d > 0 {
            changed = 1 << (d - 1);
        }
        if self.uses(ARC) {
            let first = d == self.start;
            p.arc(s, if first { !0 } else { changed }, first)?;
        }
        if self.uses(AHEAD) && !self.uses(ARC) && p.is_universal(d) {
            p.look_ahead(s, d)?;
        }
        Ok(())
    }

    /// The turn after d plays: a winning leaf or a conflict set.
    fn turn(&mut self, mut s: State, c: usize, d: usize) -> Result<Leaf, u32> {
        self.turns += 1;
        let p = self.p;
        if d == p.n {
            return match p.first_broken(&s) {
                Some(conflict) => self.lost(d, conflict),
                None => Ok(s.domain.map(|m| m.trailing_zeros() as u8)),
            };
        }
        if let Err(conflict) = self.run_rules(&mut s, c, d) {
            return self.lost(d, conflict);
        }
        let universal = p.is_universal(d);
        let before = s.domain[d];
        if self.uses(PURE) {
            let pure = p.pure(&s, d);
            let kept = if universal { before & !pure } else { pure };
            if kept == 0 {
                if universal {
                    s.domain[d] = before & before.wrapping_neg();
                }
            } else {
                s.domain[d] = if universal { kept } else { kept & kept.wrapping_neg() };
            }
        }
        if self.uses(ALIKE) {
            s.domain[d] = p.smallest_alike(&s, d);
        }
        let narrowed = s.domain[d] != before;
        if universal { self.universal_turn(&s, d) } else { self.existential_turn(&s, d, narrowed) }
    }

    fn play(&mut self, s: &State, d: usize, a: usize) -> Result<Leaf, u32> {
        let mut next = *s;
        next.domain[d] = 1 << a;
        next.why[d] = 1 << d;
        self.turn(next, d, d + 1)
    }

    fn existential_turn(&mut self, s: &State, d: usize, narrowed: bool) -> Result<Leaf, u32> {
        let mut conflict = s.why[d];
        if narrowed {
            for k in Bits(self.p.near[d]) {
                conflict |= s.why[k];
            }
        }
        for a in bits(s.domain[d]) {
            match self.play(s, d, a) {
                Ok(leaf) => return Ok(leaf),
                Err(set) if self.uses(JUMP) && set >> d & 1 == 0 => return self.lost(d, set),
                Err(set) => conflict |= set,
            }
        }
        self.lost(d, conflict)
    }

    fn universal_turn(&mut self, s: &State, d: usize) -> Result<Leaf, u32> {
        let mut left = s.domain[d];
        let mut last = [0; 32];
        while left != 0 {
            let a = left.trailing_zeros() as usize;
            left &= left - 1;
            match self.play(s, d, a) {
                Err(set) => return self.lost(d, set),
                Ok(leaf) => {
                    if self.uses(SKIP) && left != 0 {
                        left &= !self.p.skippable(s, d, &leaf);
                    }
                    last = leaf;
                }
            }
        }
        Ok(last)
    }
}

/// For a C program: 1 won, 0 lost, 2 not a problem file. The first `plays` values of `leaf` are played; a winning leaf is written there.
///
/// # Safety
/// `file` has `length` bytes, `turns` one number and `leaf` 32 bytes.
#[no_mangle]
pub unsafe extern "C" fn rust_judge(file: *const u8, length: usize, set: u8, plays: usize, turns: *mut u64, leaf: *mut u8) -> i32 {
    let f = std::slice::from_raw_parts(file, length);
    let leaf = std::slice::from_raw_parts_mut(leaf, 32);
    let Some(p) = Problem::read(f) else { return 2 };
    let mut s = State { domain: p.domain, why: [0; 32] };
    for k in 0..plays {
        s.domain[k] = 1 << leaf[k];
        s.why[k] = 1 << k;
    }
    let mut solver = Solver { p: &p, set, start: plays, turns: 0 };
    let reply = solver.turn(s, 0, plays);
    *turns = solver.turns;
    match reply {
        Ok(found) => {
            leaf[..p.n].copy_from_slice(&found[..p.n]);
            1
        }
        Err(_) => 0,
    }
}

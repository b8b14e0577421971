//! The first five rules by their definitions, and the first turn of a search.

use super::Problem;

fn values(mask: u16) -> impl Iterator<Item = u8> {
    (0..16).filter(move |a| mask >> a & 1 == 1)
}

/// The values of a mask for which this holds.
fn those(mask: u16, holds: impl Fn(u8) -> bool) -> u16 {
    values(mask).filter(|a| holds(*a)).fold(0, |all, a| all | 1 << a)
}

impl Problem {
    fn shares(&self, x: usize, k: usize) -> bool {
        self.constraints.iter().any(|c| (c.i, c.j) == (x.min(k), x.max(k)))
    }

    /// Whether value a of x goes with value b of k, whichever is lower.
    fn goes_with(&self, x: usize, a: u8, k: usize, b: u8) -> bool {
        if x < k {
            self.goes(x, a, k, b)
        } else {
            self.goes(k, b, x, a)
        }
    }

    /// The values in the mask of k that value a of x goes with.
    fn partners(&self, list: &[u16], x: usize, a: u8, k: usize) -> u16 {
        those(list[k], |b| self.goes_with(x, a, k, b))
    }

    /// Rule 1: whether it is a loss. The list is left without dead values.
    pub fn arc(&self, list: &mut [u16]) -> bool {
        let n = list.len();
        let others = |x: usize| (0..n).filter(move |k| *k != x && self.shares(x, *k));
        loop {
            let before = list.to_vec();
            for x in (0..n).filter(|x| !self.universal[*x]) {
                let dead = |a: u8| {
                    others(x).any(|k| {
                        let partners = self.partners(list, x, a, k);
                        if self.universal[k] && k > x {
                            partners != list[k]
                        } else {
                            partners == 0
                        }
                    })
                };
                list[x] = those(list[x], |a| !dead(a));
            }
            if *list == before[..] {
                break;
            }
        }
        (0..n).any(|x| {
            let fails = |a: u8, k: usize| {
                let partners = self.partners(list, x, a, k);
                if self.universal[k] {
                    partners != list[k]
                } else {
                    k > x && partners == 0
                }
            };
            if self.universal[x] {
                values(list[x]).any(|a| others(x).any(|k| fails(a, k)))
            } else {
                list[x] == 0
            }
        })
    }

    /// Rule 2: the variables where it is a loss, ascending. The list is left as checked.
    pub fn forward_check(&self, list: &mut [u16], x: usize, a: u8) -> Vec<usize> {
        list[x] = 1 << a;
        let mut stuck = vec![];
        for k in x + 1..list.len() {
            let partners = self.partners(list, x, a, k);
            let clash = self.universal[k] && partners != list[k];
            if !self.universal[k] {
                list[k] = partners;
            }
            if clash || list[k] == 0 {
                stuck.push(k);
            }
        }
        stuck
    }

    /// Rule 3: each value whose forward check is a loss, ascending, with the first variable where it is one.
    pub fn look_ahead(&self, list: &[u16], x: usize) -> Vec<(u8, usize)> {
        let tried = if self.universal[x] { list[x] } else { 0 };
        values(tried).filter_map(|a| self.forward_check(&mut list.to_vec(), x, a).first().map(|k| (a, *k))).collect()
    }

    /// Rule 4: the pure values.
    pub fn pure(&self, list: &[u16], x: usize) -> u16 {
        those(list[x], |a| (0..list.len()).all(|k| k == x || self.partners(list, x, a, k) == list[k]))
    }

    /// Card 5 of document 02: each value of x with the first variable, in order of play and x left out, and its first value, ascending, that
    /// it does not go with. The pure values go with all.
    pub fn clashes(&self, list: &[u16], x: usize) -> Vec<(u8, usize, u8)> {
        let others = (0..list.len()).filter(|k| *k != x);
        let all: Vec<(usize, u8)> = others.flat_map(|k| values(list[k]).map(move |b| (k, b))).collect();
        let first = |a: u8| all.iter().find(|(k, b)| !self.goes_with(x, a, *k, *b)).map(|(k, b)| (a, *k, *b));
        values(list[x]).filter_map(first).collect()
    }

    /// Rule 5: the smallest of each group of interchangeable values.
    pub fn interchangeable(&self, list: &[u16], x: usize) -> u16 {
        let alike = |a: u8, b: u8| (0..list.len()).all(|k| k == x || self.partners(list, x, a, k) == self.partners(list, x, b, k));
        those(list[x], |a| !values(list[x]).any(|b| b < a && alike(a, b)))
    }

    /// The variables that share a constraint with x, as bits.
    pub fn neighbours(&self, x: usize) -> u32 {
        (0..self.domains.len()).filter(|k| *k != x && self.shares(x, *k)).fold(0, |all, k| all | 1 << k)
    }

    /// The first constraint, ascending by its variables, that a play of all variables breaks.
    pub fn first_broken(&self, plays: &[u8]) -> Option<(usize, usize)> {
        let pairs = (0..plays.len()).flat_map(|i| (i + 1..plays.len()).map(move |j| (i, j)));
        pairs.into_iter().find(|(i, j)| !self.goes(*i, plays[*i], *j, plays[*j]))
    }

    /// Loss and list of the first turn of a search after these plays, when the rules of the set have run.
    pub fn first_turn(&self, plays: &[u8], set: u64) -> (bool, Vec<u16>) {
        let mut list = self.domains.clone();
        plays.iter().enumerate().for_each(|(k, a)| list[k] = 1 << a);
        let checked = set & 2 == 2 && (0..plays.len()).any(|k| !self.forward_check(&mut list, k, plays[k]).is_empty());
        if checked || set & 1 == 1 && self.arc(&mut list) {
            return (true, list);
        }
        let x = plays.len();
        if x < list.len() {
            if set & 4 == 4 && !self.look_ahead(&list, x).is_empty() {
                return (true, list);
            }
            let smallest = |mask: u16| mask & mask.wrapping_neg();
            if set & 8 == 8 {
                let pure = self.pure(&list, x);
                list[x] = match self.universal[x] {
                    false if pure == 0 => list[x],
                    false => smallest(pure),
                    true if pure == list[x] => smallest(pure),
                    true => list[x] & !pure,
                };
            }
            if set & 16 == 16 {
                list[x] = self.interchangeable(&list, x);
            }
        }
        (false, list)
    }
}

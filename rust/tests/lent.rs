//! Memory that is lent, between guards.

const GUARD: usize = 64;

/// Elements to lend, with more of them on either side that nothing may touch, and all as it was before.
pub struct Lent<T> {
    all: Vec<T>,
    before: Vec<T>,
}

impl<T: Copy + PartialEq> Lent<T> {
    fn new(contents: impl Iterator<Item = T>, guard: T) -> Lent<T> {
        let sides = [guard; GUARD];
        let all: Vec<T> = sides.into_iter().chain(contents).chain(sides).collect();
        Lent { before: all.clone(), all }
    }

    pub fn lend(&mut self) -> &mut [T] {
        let end = self.all.len() - GUARD;
        &mut self.all[GUARD..end]
    }

    /// Whether it begins with these elements now, and all else is as it was, the guards too.
    pub fn begins(&self, front: &[T]) -> bool {
        let end = GUARD + front.len();
        end + GUARD <= self.all.len()
            && self.all[..GUARD] == self.before[..GUARD]
            && self.all[GUARD..end] == *front
            && self.all[end..] == self.before[end..]
    }
}

/// What a call replies that is lent a list of domains, and whether it then left this list.
pub fn with_list<R>(domains: &[u16], left: &[u16], call: impl FnOnce(&mut [u16]) -> R) -> (R, bool) {
    let mut list = Lent::new(domains.iter().copied(), 0xA5C3);
    let reply = call(list.lend());
    (reply, left.len() == domains.len() && list.begins(left))
}

/// What a call replies that is lent a dirty buffer of so many bytes, and whether it then left these at its front and all else as it was.
pub fn with_buffer<R>(size: usize, front: &[u8], call: impl FnOnce(&mut [u8]) -> R) -> (R, bool) {
    let mut buffer = Lent::new((0..size).map(|k| ((37 * k + 11) % 251) as u8), 0xA5);
    let reply = call(buffer.lend());
    (reply, buffer.begins(front))
}

/// What a call replies that is lent so many dirty words, none zero, and whether it then left the first ones zero, as many as `used`
/// says, and all else as it was.
pub fn with_room<R>(words: usize, used: usize, call: impl FnOnce(&mut [u16]) -> R) -> (R, bool) {
    let mut room = Lent::new((0..words).map(|k| (40503 * k + 7) as u16 | 1), 0xA5C3);
    let reply = call(room.lend());
    (reply, room.begins(&[0; kickballbox::ROOM][..used]))
}

/// How many words a file of n variables needs.
pub fn needed(n: usize) -> usize {
    128 * (n + 1)
}

/// A change of any element is seen, on either side too, and so is a front that is too long.
#[test]
fn every_touch_is_seen() {
    let fresh = || Lent::new([5, 6, 7].into_iter(), 9);
    assert!(fresh().begins(&[]) && fresh().begins(&[5, 6, 7]) && !fresh().begins(&[5, 6, 7, 9]));
    for at in 0..fresh().all.len() {
        let mut lent = fresh();
        lent.all[at] += 1;
        assert!(!lent.begins(&[]) && !lent.begins(&[5, 6, 7]), "element {at}");
    }
    assert_eq!(with_list(&[1, 2], &[1, 3], |list| list[1] = 3), ((), true));
    assert_eq!(with_list(&[1, 2], &[1], |_| ()), ((), false));
    assert_eq!(with_buffer(3, &[8], |buffer| buffer[0] = 8), ((), true));
    assert_eq!(with_room(3, 2, |room| room[..2].fill(0)), ((), true));
    assert_eq!(with_room(3, 2, |room| room[..3].fill(0)), ((), false));
    assert_eq!(with_room(3, 2, |room| room[..1].fill(0)), ((), false));
}

//! Positions.

/// How many variables are played, how many of these plays, the first ones, are held, and 32 places: the values played in order of play,
/// and zero elsewhere. It may hold anything: what a file does not allow is refused with [`Reason::Misfit`](crate::Reason::Misfit), and so
/// are more plays held than there are. Marks, open values and verdicts do not depend on the lock depth.
#[repr(C)]
#[derive(Clone, Copy, Debug, Default, PartialEq, Eq, Hash)]
pub struct Position {
    /// How many variables are played.
    pub plays: u64,
    /// The lock depth: how many plays are held. A held play cannot be taken back.
    pub depth: u64,
    /// The values played, and zero elsewhere.
    pub values: [u8; 32],
}

impl Position {
    /// The position in which nothing is played.
    pub fn fresh() -> Position {
        Position::default()
    }

    /// The position after these plays, none of them held; none where they are more than 32.
    pub fn after(plays: &[u8]) -> Option<Position> {
        let mut position = Position { plays: plays.len() as u64, depth: 0, values: [0; 32] };
        position.values.get_mut(..plays.len())?.copy_from_slice(plays);
        Some(position)
    }

    /// The same position with this lock depth.
    pub fn with_depth(self, depth: u64) -> Position {
        Position { depth, ..self }
    }

    /// The values played: at most 32, whatever the number of plays says.
    pub fn played(&self) -> &[u8] {
        &self.values[..self.plays.min(32) as usize]
    }

    /// The places eight to a number, the lowest byte first.
    pub(crate) fn packed(&self) -> [u64; 4] {
        let mut numbers = [0; 4];
        for (number, places) in numbers.iter_mut().zip(self.values.chunks_exact(8)) {
            for place in places.iter().rev() {
                *number = *number << 8 | u64::from(*place);
            }
        }
        numbers
    }
}

#[test]
fn plays_in_order() {
    assert_eq!(Position::after(&[]), Some(Position::fresh()));
    let plays: Vec<u8> = (1..=32).collect();
    for count in 0..=32 {
        let position = Position::after(&plays[..count]).unwrap();
        assert_eq!((position.plays, position.depth, position.played()), (count as u64, 0, &plays[..count]));
        assert!(position.values[count..].iter().all(|value| *value == 0));
    }
    assert_eq!(Position::after(&[0; 33]), None);
    assert_eq!(Position { plays: u64::MAX, depth: 0, values: [7; 32] }.played(), [7; 32]);
}

#[test]
fn places_lowest_byte_first() {
    let plays: Vec<u8> = (1..=32).collect();
    let packed = Position::after(&plays).unwrap().packed();
    assert_eq!(packed, [0x0807060504030201, 0x100f0e0d0c0b0a09, 0x1817161514131211, 0x201f1e1d1c1b1a19]);
}

//! Blocks: as they are added, as they are given out, and as a tape's list has them.

use crate::numbers::{
    GIVEN_ACCEL, GIVEN_CRUISE, GIVEN_DOWN, GIVEN_ENTRY, GIVEN_EXIT, GIVEN_FEED, GIVEN_LENGTH,
    GIVEN_MARK, GIVEN_PEAK, GIVEN_RADIUS, GIVEN_UP, LISTED_CAP, LISTED_JUNCTION_CAP, MOVES,
};

/// One straight move. The ranges are checked where a block is used, not here; [`Block::default`] has
/// 0 everywhere, for the fields that a program leaves out.
///
/// ```
/// use fullerecru::Block;
///
/// let along_x = Block { x: 1_000, feed: 20_000, mark: 7, ..Block::default() };
/// assert_eq!(along_x.moves(), [1_000, 0, 0]);
/// assert_eq!(along_x.radius, 0); // no curve
/// ```
#[derive(Clone, Copy, Debug, Default, PartialEq, Eq, Hash)]
pub struct Block {
    /// Move along X, −1,000,000 to 1,000,000 µm. Not all three moves are 0.
    pub x: i64,
    /// Move along Y, −1,000,000 to 1,000,000 µm.
    pub y: i64,
    /// Move along Z, −1,000,000 to 1,000,000 µm.
    pub z: i64,
    /// The speed that is asked for, 1 to 1,000,000 µm/s.
    pub feed: u64,
    /// Radius of the curve that the block is a chord of, 0 to 10,000,000 µm; 0 for no curve.
    pub radius: u64,
    /// A label of the caller's, 0 to 2,097,151. No speed depends on it.
    pub mark: u64,
}

impl Block {
    /// The moves X, Y, Z, µm.
    pub fn moves(&self) -> [i64; 3] {
        [self.x, self.y, self.z]
    }

    /// A block of moves, µm, and of numbers that begin with its feed, radius and mark.
    pub(crate) fn of([x, y, z]: [i64; MOVES], numbers: &[u64]) -> Block {
        Block {
            x,
            y,
            z,
            feed: numbers[GIVEN_FEED],
            radius: numbers[GIVEN_RADIUS],
            mark: numbers[GIVEN_MARK],
        }
    }
}

/// A block given out: its length, acceleration, squared speeds and ramp.
///
/// The table speeds up over `up`, runs `cruise` at the peak and brakes over `down`; the three add up to
/// `length`. They are rounded to whole µm, so a servo loop interpolates from `entry`, `peak`, `exit` and
/// `accel`: at way s µm along the block the squared speed is the least of entry + 2 × accel × s, peak,
/// and exit + 2 × accel × (length − s), and each axis has run move × s / length.
#[derive(Clone, Copy, Debug, PartialEq, Eq, Hash)]
pub struct Given {
    /// The block as it was added.
    pub block: Block,
    /// Its length, µm, rounded down.
    pub length: u64,
    /// Its acceleration, µm/s².
    pub accel: u64,
    /// Squared speed where it begins, (µm/s)².
    pub entry: u64,
    /// Squared speed where it ends, (µm/s)².
    pub exit: u64,
    /// The greatest squared speed that it reaches, (µm/s)².
    pub peak: u64,
    /// Length run speeding up, µm.
    pub up: u64,
    /// Length run at the peak, µm.
    pub cruise: u64,
    /// Length run braking, µm.
    pub down: u64,
}

impl Given {
    /// A block given out, of its moves, µm, and of numbers that begin with the library's eleven.
    pub(crate) fn of(moves: [i64; MOVES], numbers: &[u64]) -> Given {
        Given {
            block: Block::of(moves, numbers),
            length: numbers[GIVEN_LENGTH],
            accel: numbers[GIVEN_ACCEL],
            entry: numbers[GIVEN_ENTRY],
            exit: numbers[GIVEN_EXIT],
            peak: numbers[GIVEN_PEAK],
            up: numbers[GIVEN_UP],
            cruise: numbers[GIVEN_CRUISE],
            down: numbers[GIVEN_DOWN],
        }
    }
}

/// A row of a tape's list: the block as a planner gives it out, and two caps.
#[derive(Clone, Copy, Debug, PartialEq, Eq, Hash)]
pub struct Listed {
    /// The block with its speeds and ramp.
    pub given: Given,
    /// The greatest squared speed that the block allows by its feed, the axes and the chord rule,
    /// (µm/s)²; the peak is at most that.
    pub cap: u64,
    /// The greatest squared speed that the junction where the block begins allows, (µm/s)²; 0 for the
    /// first block, since a tape begins at rest.
    pub junction_cap: u64,
}

impl Listed {
    /// A row of a block's moves, µm, and of the library's thirteen numbers.
    pub(crate) fn of(moves: [i64; MOVES], numbers: &[u64]) -> Listed {
        Listed {
            given: Given::of(moves, numbers),
            cap: numbers[LISTED_CAP],
            junction_cap: numbers[LISTED_JUNCTION_CAP],
        }
    }
}

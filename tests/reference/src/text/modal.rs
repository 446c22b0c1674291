//! What holds from one line to the next, and the block of a line.

use super::words::Word;
use crate::machine::Block;

/// Hundredths of a µm in a ten-thousandth of a millimetre and of an inch.
const OF_MILLIMETRE: i128 = 10;
const OF_INCH: i128 = 254;
/// Hundredths of a µm in a µm.
const MICROMETRE: i128 = 100;
/// Seconds in a minute.
const MINUTE: i128 = 60;
/// Feed of G0, µm/s.
const RAPID_FEED: u64 = 1_000_000;

/// What holds after a line. A text begins with the default: millimetres, no
/// increments, G1, at zero, with no feed.
#[derive(Clone, Debug, Default, PartialEq, Eq)]
pub struct Modal {
    rapid: bool,
    inches: bool,
    increments: bool,
    /// Exact position of X, Y, Z in hundredths of a µm.
    position: [i128; 3],
    /// Last F word in µm/s, rounded down; 0 if there was none.
    feed: i128,
}

impl Modal {
    /// What holds after a line of these words: its G words act first, wherever
    /// they stand.
    pub fn after(&self, words: &[Word]) -> Modal {
        let mut next = self.clone();
        words.iter().for_each(|word| next.set_mode(word));
        words.iter().for_each(|word| next.set_number(word));
        next
    }

    /// Lets a G word act.
    fn set_mode(&mut self, word: &Word) {
        match *word {
            Word::Rapid(on) => self.rapid = on,
            Word::Inches(on) => self.inches = on,
            Word::Increments(on) => self.increments = on,
            Word::Label | Word::Axis(..) | Word::Feed(_) => {}
        }
    }

    /// Lets any other word act: G91 adds to the exact position, and F becomes
    /// µm/s in the unit of its own line.
    fn set_number(&mut self, word: &Word) {
        let unit = if self.inches { OF_INCH } else { OF_MILLIMETRE };
        match *word {
            Word::Axis(axis, value) => {
                let from = if self.increments {
                    self.position[axis]
                } else {
                    0
                };
                self.position[axis] = from + value * unit;
            }
            Word::Feed(value) => self.feed = (value * unit).div_euclid(MICROMETRE * MINUTE),
            Word::Label | Word::Rapid(_) | Word::Inches(_) | Word::Increments(_) => {}
        }
    }

    /// The unchecked block of the line that led here from `before`, none if no
    /// rounded position has changed. A feed below 0 becomes 0, which is refused
    /// by 4 as well.
    pub fn block_from(&self, before: &Modal, mark: u64) -> Option<Block> {
        let moved = |axis| rounded(self.position[axis]) - rounded(before.position[axis]);
        let moves = [0, 1, 2].map(moved);
        let feed = if self.rapid {
            RAPID_FEED
        } else {
            u64::try_from(self.feed).unwrap_or(0)
        };
        (moves != [0; 3]).then(|| Block {
            moves: moves.map(|size| i64::try_from(size).expect("positions are far below 2^63 µm")),
            feed,
            radius: 0,
            mark,
        })
    }
}

/// The nearest µm of a position in hundredths of a µm, an exact half away from
/// zero.
pub fn rounded(position: i128) -> i128 {
    let size = (position.abs() + MICROMETRE / 2) / MICROMETRE;
    size * position.signum()
}

//! A writer of lines that knows what it has written, so that a text comes with
//! its blocks without being read.

use super::spelling::{label, word};
use crate::machine::range;
use crate::rng::Rng;

/// Greatest number, in ten-thousandths.
const GREATEST: i64 = 999_999_999;
/// Hundredths of a µm in the longest move that is accepted.
const LONGEST: i64 = 100_000_000;
/// Feed in µm/s is hundredths of a µm per minute divided by this.
const PER_MINUTE: i64 = 6_000;

/// What a text is like.
#[derive(Clone, Copy)]
pub struct Style {
    /// Each G word comes once in so many lines.
    pub modes: u64,
    /// N words come once in so many lines.
    pub labels: u64,
    /// Feeds come once in so many lines, and where one is needed.
    pub feeds: u64,
    /// Greatest part of a step, in hundredths of a µm.
    pub step: i64,
}

/// A line as its words, and the block that it yields: moves and feed.
pub struct Written {
    pub words: Vec<Vec<u8>>,
    pub block: Option<([i64; 3], i64)>,
}

/// What the pen has written so far.
pub struct Pen {
    style: Style,
    rapid: bool,
    inches: bool,
    increments: bool,
    /// Exact position, hundredths of a µm.
    at: [i64; 3],
    /// Feed in µm/s of the last F word, of use or not; 0 if there was none.
    feed: i64,
    /// True if feeds are left out where they are needed.
    pub careless: bool,
}

impl Pen {
    /// A pen at the begin of a text.
    pub fn new(style: Style) -> Pen {
        Pen {
            style,
            rapid: false,
            inches: false,
            increments: false,
            at: [0; 3],
            feed: 0,
            careless: false,
        }
    }

    /// A line that is accepted, unless the pen is careless: any of the modes,
    /// then a step, a feed and a label, in any order.
    pub fn line(&mut self, rng: &mut Rng) -> Written {
        let mut words = self.modes(rng);
        let from = self.at;
        let all = rng.once_in(3);
        for (axis, letter) in (0..).zip(*b"XYZ") {
            let value = self.step(rng, axis).filter(|_| all || rng.once_in(2));
            words.extend(value.map(|value| self.go(rng, axis, letter, value)));
        }
        self.finish(rng, words, from)
    }

    /// A line with a move that is refused by 3, by one µm or by far.
    pub fn long_line(&mut self, rng: &mut Rng) -> Written {
        let mut words = self.modes(rng);
        let from = self.at;
        let (axis, away) = (rng.below(3) as usize, rng.pick(&[-1, 1]));
        let least = LONGEST + rng.pick(&[100, 100, 200, 10_000, LONGEST]);
        let target = from[axis] + away * least;
        let mut value = (target - self.origin(axis)) / self.unit();
        while self.micrometres(axis, value).abs() <= *range::MOVE.end() {
            value += away;
        }
        if value.abs() <= GREATEST {
            words.push(self.go(rng, axis, b"XYZ"[axis], value));
        }
        self.finish(rng, words, from)
    }

    /// A line of G1 with a feed that is refused by 4, alone or with a step; the
    /// pen is careless from here on.
    pub fn feedless_line(&mut self, rng: &mut Rng) -> Written {
        self.careless = true;
        let mut words = Vec::new();
        if self.rapid {
            words.push(word(rng, b'G', 10_000));
            self.rapid = false;
        }
        words.push(self.bad_feed(rng));
        let from = self.at;
        if !rng.once_in(4) {
            let axis = rng.below(3) as usize;
            let value = self.step(rng, axis).unwrap_or(0);
            words.push(self.go(rng, axis, b"XYZ"[axis], value));
        }
        self.ended(words, from)
    }

    /// A terse line that yields a block of 1 µm to about 1 mm.
    pub fn short_line(&mut self, rng: &mut Rng) -> Written {
        let (mut words, from) = (Vec::new(), self.at);
        if !self.increments {
            words.push(word(rng, b'G', 910_000));
            self.increments = true;
        }
        let (axis, away) = (rng.below(3) as usize, rng.pick(&[-1, 1]));
        let least = (100 + self.unit() - 1) / self.unit();
        let value = away * rng.spread(least as u64, least as u64 * 1_000) as i64;
        words.push(self.go(rng, axis, b"XYZ"[axis], value));
        if self.needs_feed(from) {
            words.push(self.good_feed(rng));
        }
        self.ended(words, from)
    }

    /// Some of the modes, each as a word or not at all.
    fn modes(&mut self, rng: &mut Rng) -> Vec<Vec<u8>> {
        let mut words = Vec::new();
        let mut chosen = |on: &mut bool, numbers: [i64; 2]| {
            if rng.once_in(self.style.modes) {
                *on = rng.once_in(2);
                words.push(word(rng, b'G', numbers[usize::from(*on)] * 10_000));
            }
        };
        chosen(&mut self.rapid, [1, 0]);
        chosen(&mut self.inches, [21, 20]);
        chosen(&mut self.increments, [90, 91]);
        words
    }

    /// Adds the feed and the label to a line that began at a position, and
    /// shuffles its words.
    fn finish(&mut self, rng: &mut Rng, mut words: Vec<Vec<u8>>, from: [i64; 3]) -> Written {
        let harmless = self.rapid || difference(from, self.at) == [0; 3];
        if harmless && rng.once_in(2 * self.style.feeds) {
            words.push(self.bad_feed(rng));
        } else if self.needs_feed(from) || rng.once_in(self.style.feeds) {
            words.push(self.good_feed(rng));
        }
        if rng.once_in(self.style.labels) {
            words.push(label(rng));
        }
        if rng.once_in(2) {
            for last in (1..words.len()).rev() {
                words.swap(last, rng.below(last as u64 + 1) as usize);
            }
        }
        self.ended(words, from)
    }

    /// The line of these words from a position to here.
    fn ended(&self, words: Vec<Vec<u8>>, from: [i64; 3]) -> Written {
        let moves = difference(from, self.at);
        let feed = if self.rapid { 1_000_000 } else { self.feed };
        let block = (moves != [0; 3]).then_some((moves, feed));
        Written { words, block }
    }

    /// True if a step from a position needs a feed that is not in force.
    fn needs_feed(&self, from: [i64; 3]) -> bool {
        let of_use = (1..=1_000_000).contains(&self.feed);
        !(self.careless || self.rapid || of_use) && difference(from, self.at) != [0; 3]
    }

    /// Hundredths of a µm in a ten-thousandth of the unit.
    fn unit(&self) -> i64 {
        if self.inches {
            254
        } else {
            10
        }
    }

    /// Where the numbers of an axis count from, hundredths of a µm.
    fn origin(&self, axis: usize) -> i64 {
        if self.increments {
            self.at[axis]
        } else {
            0
        }
    }

    /// The µm that an axis would move by a number.
    fn micrometres(&self, axis: usize, value: i64) -> i64 {
        nearest(self.origin(axis) + value * self.unit()) - nearest(self.at[axis])
    }

    /// A number that moves an axis by no more than the style's step and is
    /// accepted; none if none was found.
    fn step(&self, rng: &mut Rng, axis: usize) -> Option<i64> {
        let most = self.style.step.min(LONGEST);
        let size = match rng.below(6) {
            0 => rng.below(4) as i64 * self.unit(),
            1 => most,
            2 => rng.within(0, most as u64) as i64,
            _ => rng.spread(0, most as u64) as i64,
        };
        let target = self.at[axis] + rng.pick(&[-1, 1]) * size;
        let value = (target - self.origin(axis)) / self.unit();
        let fits = |value: &i64| {
            value.abs() <= GREATEST && range::MOVE.contains(&self.micrometres(axis, *value))
        };
        Some(value).filter(fits)
    }

    /// The word that moves an axis by a number, and the move.
    fn go(&mut self, rng: &mut Rng, axis: usize, letter: u8, value: i64) -> Vec<u8> {
        self.at[axis] = self.origin(axis) + value * self.unit();
        word(rng, letter, value)
    }

    /// An F word of 1 to 1,000,000 µm/s, at times the last below a whole number of
    /// µm/s or the first that is not.
    fn good_feed(&mut self, rng: &mut Rng) -> Vec<u8> {
        let least = (PER_MINUTE + self.unit() - 1) / self.unit();
        let most = (PER_MINUTE * 1_000_001 - 1) / self.unit();
        let mut value = rng.spread(least as u64, most as u64) as i64;
        if rng.once_in(4) {
            let speed = rng.spread(1, 1_000_000) as i64;
            value = (PER_MINUTE * speed - 1) / self.unit() + rng.pick(&[0, 1]);
        }
        self.fed(rng, value.max(least))
    }

    /// An F word of 0 by itself or by rounding, of less than 0, or of more than
    /// 1,000,000 µm/s.
    fn bad_feed(&mut self, rng: &mut Rng) -> Vec<u8> {
        let zero_up_to = (PER_MINUTE - 1) / self.unit();
        let too_fast = (PER_MINUTE * 1_000_001 + self.unit() - 1) / self.unit();
        let value = match rng.below(6) {
            0 => 0,
            1 => zero_up_to,
            2 => rng.within(0, zero_up_to as u64) as i64,
            3 => -(rng.spread(1, GREATEST as u64) as i64),
            4 => too_fast,
            _ => rng.spread(too_fast as u64, GREATEST as u64) as i64,
        };
        self.fed(rng, value)
    }

    /// The F word of a number, and the feed.
    fn fed(&mut self, rng: &mut Rng, value: i64) -> Vec<u8> {
        self.feed = value * self.unit() / PER_MINUTE;
        word(rng, b'F', value)
    }
}

/// The nearest µm of a position in hundredths of a µm, a half away from zero.
fn nearest(hundredths: i64) -> i64 {
    let (whole, rest) = (hundredths / 100, hundredths % 100);
    match rest {
        ..=-50 => whole - 1,
        50.. => whole + 1,
        _ => whole,
    }
}

/// The moves in µm from one position to another.
fn difference(from: [i64; 3], to: [i64; 3]) -> [i64; 3] {
    [0, 1, 2].map(|axis| nearest(to[axis]) - nearest(from[axis]))
}

//! What held tapes back: a report's figures, and a list of one tape's junctions.

use crate::machine::Steps;
use crate::numbers::{
    FIGURES, FIGURE_BLOCKS, FIGURE_CHORD, FIGURE_CORNER, FIGURE_FEED, FIGURE_LENGTH, FIGURE_PEAK,
    FIGURE_REACH, REPORT, REPORT_ALL, REPORT_TAPES,
};
use crate::refusal::{Fault, Refusal};
use crate::sys;
use crate::tape::blocks_on;

/// What held an inner junction of a tape, one between two blocks.
///
/// ```
/// use fullerecru::HeldBy;
///
/// assert_eq!(HeldBy::Chord.number(), 2);
/// assert_eq!(HeldBy::from_number(2), Some(HeldBy::Chord));
/// assert_eq!(HeldBy::from_number(4), None);
/// ```
#[derive(Clone, Copy, Debug, PartialEq, Eq, Hash)]
pub enum HeldBy {
    /// 0: the feed, or the speed limit of an axis.
    Feed,
    /// 1: the corner.
    Corner,
    /// 2: the chord rule.
    Chord,
    /// 3: the reach of the blocks around, which are too short to come to the junction's cap or to
    /// brake from it.
    Reach,
}

impl HeldBy {
    /// What a number of the library says; `None` of one above 3.
    pub fn from_number(number: u64) -> Option<HeldBy> {
        match number {
            0 => Some(HeldBy::Feed),
            1 => Some(HeldBy::Corner),
            2 => Some(HeldBy::Chord),
            3 => Some(HeldBy::Reach),
            _ => None,
        }
    }

    /// Its number, 0 to 3.
    pub fn number(self) -> u64 {
        match self {
            HeldBy::Feed => 0,
            HeldBy::Corner => 1,
            HeldBy::Chord => 2,
            HeldBy::Reach => 3,
        }
    }
}

/// Tells what held each inner junction of a tape, in order: one fewer than blocks, none without a
/// block. A junction whose planned speed equals its cap is held by the first of feed, corner and chord
/// that equals it, any other by the reach. Needs under 180 kB of stack.
///
/// # Errors
///
/// Refuses as [`plan_tape`](crate::plan_tape) does.
///
/// ```
/// use fullerecru::{held_by, write_tape, Block, Fault, HeldBy, Limits, Steps};
/// # let limits = Limits {
/// #     accel_x: 200_000, accel_y: 200_000, accel_z: 200_000,
/// #     speed_x: 1_000_000, speed_y: 1_000_000, speed_z: 1_000_000,
/// #     corner_jump: 2_000, chord_tolerance: 1, tick: 2_000,
/// # };
/// let along_x = Block { x: 1_000, feed: 20_000, ..Block::default() };
/// let along_y = Block { y: 1_000, feed: 20_000, ..Block::default() };
/// let tape = write_tape(&limits, &[along_x, along_x, along_y])?;
/// assert_eq!(held_by(&tape, &Steps::BuiltIn)?, [HeldBy::Feed, HeldBy::Corner]);
/// # Ok::<(), Fault>(())
/// ```
pub fn held_by(tape: &[u8], steps: &Steps<'_>) -> Result<Vec<HeldBy>, Fault> {
    let mut list = vec![0; blocks_on(tape).saturating_sub(1)];
    let mut place = [0];
    let number = sys::held_by(tape, steps.bytes(), &mut list, &mut place);
    Fault::judged(number, place)?;
    // A number above 3 comes from no library of this version: see Refusal::Unknown.
    let named = |number| HeldBy::from_number(number).ok_or(Refusal::Unknown(number).into());
    list.into_iter().map(named).collect()
}

/// The figures of a tape, or of all tapes that a report accepted.
#[derive(Clone, Copy, Debug, Default, PartialEq, Eq, Hash)]
pub struct Figures {
    /// Blocks.
    pub blocks: u64,
    /// Total length of the blocks, µm.
    pub length: u64,
    /// Greatest peak of the blocks, a squared speed, (µm/s)²; 0 without blocks.
    pub peak: u64,
    /// Inner junctions held by the feed or an axis.
    pub feed: u64,
    /// Inner junctions held by the corner.
    pub corner: u64,
    /// Inner junctions held by the chord rule.
    pub chord: u64,
    /// Inner junctions held by the reach.
    pub reach: u64,
}

impl Figures {
    /// The figures in a list that begins with the library's seven.
    fn of(numbers: &[u64]) -> Figures {
        Figures {
            blocks: numbers[FIGURE_BLOCKS],
            length: numbers[FIGURE_LENGTH],
            peak: numbers[FIGURE_PEAK],
            feed: numbers[FIGURE_FEED],
            corner: numbers[FIGURE_CORNER],
            chord: numbers[FIGURE_CHORD],
            reach: numbers[FIGURE_REACH],
        }
    }
}

/// A report on what held tapes back, over up to [`MOST_TAPES`](crate::MOST_TAPES) accepted tapes.
///
/// ```
/// use fullerecru::{write_tape, Block, Fault, Figures, Limits, Refusal, Report, Steps};
/// # let limits = Limits {
/// #     accel_x: 200_000, accel_y: 200_000, accel_z: 200_000,
/// #     speed_x: 1_000_000, speed_y: 1_000_000, speed_z: 1_000_000,
/// #     corner_jump: 2_000, chord_tolerance: 1, tick: 2_000,
/// # };
/// let along_x = Block { x: 1_000, feed: 20_000, ..Block::default() };
/// let along_y = Block { y: 1_000, feed: 20_000, ..Block::default() };
/// let tape = write_tape(&limits, &[along_x, along_y])?;
/// let mut report = Report::fresh();
/// let figures = report.add(&tape, &Steps::BuiltIn)?;
/// assert_eq!((figures.blocks, figures.length, figures.peak), (2, 2_000, 201_000_000));
/// assert_eq!((figures.feed, figures.corner, figures.chord, figures.reach), (0, 1, 0, 0));
///
/// let fault = report.add(&tape[..50], &Steps::BuiltIn).unwrap_err(); // adds nothing
/// assert_eq!(fault, Fault { refusal: Refusal::Ragged, place: 0 });
/// assert_eq!((report.tapes(), report.all()), (1, figures));
/// # Ok::<(), Fault>(())
/// ```
#[derive(Clone, Debug, PartialEq, Eq)]
pub struct Report {
    numbers: [u64; REPORT],
}

impl Report {
    /// A fresh report: no tape was accepted.
    pub fn fresh() -> Report {
        let mut numbers = [0; REPORT];
        sys::report_fresh(&mut numbers);
        Report { numbers }
    }

    /// Plans a tape as [`plan_tape`](crate::plan_tape) does, adds it to the report, and gives the
    /// tape's own figures. Needs under 180 kB of stack.
    ///
    /// # Errors
    ///
    /// Refuses by 10 (many) after 100 accepted tapes; then as [`plan_tape`](crate::plan_tape) does. A
    /// refused tape adds nothing.
    pub fn add(&mut self, tape: &[u8], steps: &Steps<'_>) -> Result<Figures, Fault> {
        let (mut figures, mut place) = ([0; FIGURES], [0]);
        let steps = steps.bytes();
        let number = sys::report_add(&mut self.numbers, tape, steps, &mut figures, &mut place);
        Fault::judged(number, place)?;
        Ok(Figures::of(&figures))
    }

    /// How many tapes were accepted, 0 to 100.
    pub fn tapes(&self) -> u64 {
        self.numbers[REPORT_TAPES]
    }

    /// The figures of all accepted tapes: sums, and the greatest peak.
    pub fn all(&self) -> Figures {
        Figures::of(&self.numbers[REPORT_ALL..])
    }
}

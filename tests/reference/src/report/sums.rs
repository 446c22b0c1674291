//! A report over tapes.

use super::figures::{figures_of, Figures};
use crate::refusal::{Fault, Refusal};
use crate::tape::read_to_plan;

/// Most tapes that a report accepts.
pub const MOST_TAPES: u64 = 100;

/// A report: how many tapes it has accepted, and their figures together.
#[derive(Clone, Copy, Debug, Default, PartialEq, Eq)]
pub struct Report {
    pub tapes: u64,
    pub all: Figures,
}

impl Report {
    /// A report of no tape.
    pub fn fresh() -> Report {
        Report::default()
    }

    /// Adds a tape, planned under loaded torque steps or, if the list of them is
    /// empty, none; gives its own figures. Refused by 10 after 100 accepted
    /// tapes, then by the checks of the whole tape: 10, 9, 1, 14, each record. A
    /// refused tape adds nothing.
    pub fn add(&mut self, tape: &[u8], steps: &[u8]) -> Result<Figures, Fault> {
        if self.tapes >= MOST_TAPES {
            return Err(Refusal::Many.at_no_record());
        }
        let (machine, blocks) = read_to_plan(tape, steps)?;
        let figures = figures_of(&machine, &blocks);
        self.tapes += 1;
        self.all = self.all.and(&figures);
        Ok(figures)
    }

    /// The count of tapes and then the seven figures of all.
    pub fn numbers(&self) -> [u64; 8] {
        let [blocks, length, peak, feed, corner, chord, reach] = self.all.numbers();
        [self.tapes, blocks, length, peak, feed, corner, chord, reach]
    }

    /// The report that eight numbers in that order are, whatever they are.
    pub fn of_numbers(numbers: [u64; 8]) -> Report {
        let [tapes, all @ ..] = numbers;
        Report {
            tapes,
            all: Figures::of_numbers(all),
        }
    }
}

impl Figures {
    /// The figures of both together: the greater peak, and for the rest the sum,
    /// which 100 tapes keep far from 2^64; from there on it begins at 0 again.
    pub fn and(&self, more: &Figures) -> Figures {
        Figures {
            blocks: self.blocks.wrapping_add(more.blocks),
            length: self.length.wrapping_add(more.length),
            peak: self.peak.max(more.peak),
            feed: self.feed.wrapping_add(more.feed),
            corner: self.corner.wrapping_add(more.corner),
            chord: self.chord.wrapping_add(more.chord),
            reach: self.reach.wrapping_add(more.reach),
        }
    }
}

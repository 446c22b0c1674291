//! A report on lent memory, and what held the junctions of a tape.

use reference::refusal::Fault;
use reference::report::Figures;

use super::{answer_at, confirm, numbers, on_tape, BYTE_GUARD, FILLER, GUARD};
use crate::guarded::Guarded;
use crate::library::*;

/// A report on lent memory.
#[derive(Clone)]
pub struct Report {
    numbers: Guarded<u64>,
}

impl Report {
    /// A report of numbers that no call has made.
    pub fn of_numbers(numbers: &[u64; REPORT]) -> Report {
        Report {
            numbers: Guarded::new(numbers, GUARD),
        }
    }

    /// A fresh report.
    pub fn fresh() -> Report {
        let mut report = Report::of_numbers(&[FILLER.get(); REPORT]);
        report.freshen();
        report
    }

    /// Makes the report fresh, whatever its numbers are.
    pub fn freshen(&mut self) {
        unsafe { fullerecru_report_fresh(self.numbers.lend()) };
        self.numbers.confirm();
    }

    /// Its numbers: the count of tapes, then the figures of all.
    pub fn numbers(&self) -> [u64; REPORT] {
        self.numbers.list().try_into().expect("8 numbers")
    }

    /// Adds a tape, planned under loaded torque steps, none if the list of them
    /// is empty. The place is written by every call; the figures and the report
    /// stay as they were where the tape is refused.
    pub fn add(&mut self, tape: &[u8], steps: &[u8]) -> Result<Figures, Fault> {
        let mut source = Guarded::new(tape, BYTE_GUARD);
        let mut loaded = Guarded::new(steps, BYTE_GUARD);
        let (mut figures, mut place) = (numbers(FIGURES), numbers(1));
        let before = (self.numbers.list().to_vec(), figures.list().to_vec());
        let number = unsafe {
            fullerecru_report_add(
                self.numbers.lend(),
                source.lend(),
                tape.len(),
                loaded.lend(),
                steps.len(),
                figures.lend(),
                place.lend(),
            )
        };
        source.confirm_only_read(tape);
        loaded.confirm_only_read(steps);
        confirm(number, &before.0, &self.numbers);
        confirm(number, &before.1, &figures);
        answer_at(number, &place)?;
        let own = figures.list().try_into().expect("7 numbers");
        Ok(Figures::of_numbers(own))
    }
}

/// What held each inner junction of a tape in the list.
pub fn held_by(tape: &[u8], steps: &[u8], list: &mut [u64]) -> Result<(), Fault> {
    on_tape(fullerecru_held_by, tape, steps, list)
}

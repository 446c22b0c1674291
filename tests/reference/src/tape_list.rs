//! The list of a tape: a row of numbers for each block of its plan.

use crate::machine::{given, junction_cap, Block, Given, Machine, Numbers};
use crate::plan::from_rest;
use crate::refusal::{Fault, Refusal};
use crate::tape::read_to_plan;

/// Numbers of a row.
pub const LISTED: usize = 13;

/// A block of a planned tape.
#[derive(Clone, Copy, Debug, PartialEq, Eq)]
pub struct Listed {
    /// What is told of it as of a block given out.
    pub given: Given,
    /// Block cap, (µm/s)².
    pub cap: u64,
    /// Cap of the junction where it begins, (µm/s)²; 0 for the first block,
    /// before which the table is at rest.
    pub junction_cap: u64,
}

impl Listed {
    /// Its row: feed, radius, mark, length, acceleration, entry, exit, peak, up,
    /// cruise, down, block cap, junction cap.
    pub fn numbers(&self) -> [u64; LISTED] {
        let Given { block, ramp, .. } = self.given;
        [
            block.feed,
            block.radius,
            block.mark,
            self.given.length,
            self.given.accel,
            self.given.entry,
            self.given.exit,
            ramp.peak,
            ramp.up,
            ramp.cruise,
            ramp.down,
            self.cap,
            self.junction_cap,
        ]
    }
}

/// Checked blocks planned from rest to rest, in order.
pub fn listed_of(machine: &Machine, blocks: &[Block]) -> Vec<Listed> {
    let plan = from_rest(machine, blocks);
    let before = |k: usize| Some(&blocks[k.checked_sub(1)?]);
    let listed = |(k, block): (usize, &Block)| Listed {
        given: given(machine, block, plan[k], plan[k + 1]),
        cap: Numbers::of(machine, block).cap,
        junction_cap: before(k).map_or(0, |last| junction_cap(&machine.limits, last, block)),
    };
    blocks.iter().enumerate().map(listed).collect()
}

/// Lists a tape, planned under loaded torque steps or, if the list of them is
/// empty, none, in lent rows of exactly 13 numbers for each block: the checks of
/// the whole tape, then 11.
pub fn list_tape(tape: &[u8], steps: &[u8], rows: &mut [u64]) -> Result<(), Fault> {
    let (machine, blocks) = read_to_plan(tape, steps)?;
    if rows.len() != LISTED * blocks.len() {
        return Err(Refusal::List.at_no_record());
    }
    let listed = listed_of(&machine, &blocks);
    for (row, block) in rows.chunks_mut(LISTED).zip(&listed) {
        row.copy_from_slice(&block.numbers());
    }
    Ok(())
}

//! The figures of one tape, and what held each of its inner junctions.

use super::held::{HeldBy, JunctionCaps};
use crate::machine::{given, length_of, Block, Machine};
use crate::plan::from_rest;
use crate::refusal::{Fault, Refusal};
use crate::tape::read_to_plan;

/// What a report tells of a tape, or of all tapes together.
#[derive(Clone, Copy, Debug, Default, PartialEq, Eq)]
pub struct Figures {
    /// Blocks.
    pub blocks: u64,
    /// Sum of the blocks' lengths, µm.
    pub length: u64,
    /// Greatest peak of the blocks' ramps, (µm/s)²; 0 without blocks.
    pub peak: u64,
    /// Inner junctions held by a feed or the speed limit of an axis.
    pub feed: u64,
    /// Inner junctions held by their corner.
    pub corner: u64,
    /// Inner junctions held by a chord.
    pub chord: u64,
    /// Inner junctions held by the reach of the blocks about them.
    pub reach: u64,
}

impl Figures {
    /// The seven figures in the order in which they are told.
    pub fn numbers(&self) -> [u64; 7] {
        [
            self.blocks,
            self.length,
            self.peak,
            self.feed,
            self.corner,
            self.chord,
            self.reach,
        ]
    }

    /// The figures that seven numbers in that order are.
    pub fn of_numbers(numbers: [u64; 7]) -> Figures {
        let [blocks, length, peak, feed, corner, chord, reach] = numbers;
        Figures {
            blocks,
            length,
            peak,
            feed,
            corner,
            chord,
            reach,
        }
    }
}

/// The figures of checked blocks planned from rest to rest. Each of the four
/// counts goes by its own condition.
pub fn figures_of(machine: &Machine, blocks: &[Block]) -> Figures {
    let plan = from_rest(machine, blocks);
    let inner = inner_caps(machine, blocks, &plan);
    let counted = |held: fn(&JunctionCaps, u64) -> bool| {
        let found = inner.iter().filter(|(caps, plan)| held(caps, *plan));
        found.count() as u64
    };
    let peak = |k: usize| given(machine, &blocks[k], plan[k], plan[k + 1]).ramp.peak;
    Figures {
        blocks: blocks.len() as u64,
        length: blocks.iter().map(length_of).sum(),
        peak: (0..blocks.len()).map(peak).max().unwrap_or(0),
        feed: counted(JunctionCaps::by_feed),
        corner: counted(JunctionCaps::by_corner),
        chord: counted(JunctionCaps::by_chord),
        reach: counted(JunctionCaps::by_reach),
    }
}

/// What held each inner junction of checked blocks planned from rest to rest.
pub fn held_of(machine: &Machine, blocks: &[Block]) -> Vec<HeldBy> {
    let plan = from_rest(machine, blocks);
    let inner = inner_caps(machine, blocks, &plan);
    let held = inner.iter().map(|(caps, plan)| caps.held_at(*plan));
    held.collect()
}

/// The caps of each inner junction, and a plan's squared speed there.
fn inner_caps(machine: &Machine, blocks: &[Block], plan: &[u64]) -> Vec<(JunctionCaps, u64)> {
    let caps = |pair: &[Block]| JunctionCaps::of(&machine.limits, &pair[0], &pair[1]);
    let junctions = blocks.windows(2).map(caps);
    junctions.zip(plan[1..].iter().copied()).collect()
}

/// Tells what held each inner junction of a tape, planned under loaded torque
/// steps or, if the list of them is empty, none, in a lent list of exactly one
/// number for each: the checks of the whole tape, then 11.
pub fn held_by(tape: &[u8], steps: &[u8], list: &mut [u64]) -> Result<(), Fault> {
    let (machine, blocks) = read_to_plan(tape, steps)?;
    if list.len() != blocks.len().saturating_sub(1) {
        return Err(Refusal::List.at_no_record());
    }
    let held = held_of(&machine, &blocks);
    let numbers: Vec<u64> = held.into_iter().map(HeldBy::number).collect();
    list.copy_from_slice(&numbers);
    Ok(())
}

//! The line of blocks, drawn from the calls and their arguments alone.

use crate::machine::{check_block, given, Block, Given, Limits, Machine};
use crate::plan::{highest, Course};
use crate::refusal::Refusal;

/// Greatest number of blocks held.
pub const PLACES: usize = 64;

/// The calls of a planner that holds up to 64 blocks.
pub trait LookAhead: Sized {
    /// A planner with no block and committed speed 0 that keeps the limits and
    /// the loaded torque steps, none if the list is empty: check 1, then 14.
    fn fresh(limits: &Limits, steps: &[u8]) -> Result<Self, Refusal>;

    /// Puts a block last, or refuses by the first of 2 to 7 that holds.
    fn add(&mut self, block: &Block) -> Result<(), Refusal>;

    /// Gives out the first block, or refuses by 8.
    fn take(&mut self) -> Result<Given, Refusal>;

    /// Number of blocks held.
    fn told(&self) -> usize;

    /// Fills a lent list of exactly one number more than blocks held with the
    /// plan, (µm/s)², or refuses by 11.
    fn shown(&self, list: &mut [u64]) -> Result<(), Refusal>;
}

/// The line: limits and torque steps, blocks in order, committed squared speed
/// in (µm/s)².
#[derive(Clone, Debug, PartialEq, Eq)]
pub struct Line {
    machine: Machine,
    blocks: Vec<Block>,
    committed: u64,
}

impl Line {
    /// The line's highest lawful profile, or zeros if it had none.
    pub fn profile(&self) -> Vec<u64> {
        highest(&self.course()).unwrap_or_else(|| vec![0; self.blocks.len() + 1])
    }

    /// The course that the line's profiles must keep to.
    pub fn course(&self) -> Course {
        Course::of(&self.machine, &self.blocks, self.committed)
    }

    /// The blocks in the order in which they will be given out.
    pub fn blocks(&self) -> &[Block] {
        &self.blocks
    }

    /// Committed squared speed, (µm/s)².
    pub fn committed(&self) -> u64 {
        self.committed
    }
}

impl LookAhead for Line {
    fn fresh(limits: &Limits, steps: &[u8]) -> Result<Line, Refusal> {
        Ok(Line {
            machine: Machine::of(limits, steps)?,
            blocks: Vec::new(),
            committed: 0,
        })
    }

    fn add(&mut self, block: &Block) -> Result<(), Refusal> {
        check_block(block)?;
        if self.blocks.len() == PLACES {
            return Err(Refusal::Full);
        }
        self.blocks.push(*block);
        Ok(())
    }

    fn take(&mut self) -> Result<Given, Refusal> {
        if self.blocks.is_empty() {
            return Err(Refusal::Empty);
        }
        let profile = self.profile();
        let block = self.blocks.remove(0);
        self.committed = profile[1];
        Ok(given(&self.machine, &block, profile[0], profile[1]))
    }

    fn told(&self) -> usize {
        self.blocks.len()
    }

    fn shown(&self, list: &mut [u64]) -> Result<(), Refusal> {
        if list.len() != self.blocks.len() + 1 {
            return Err(Refusal::List);
        }
        list.copy_from_slice(&self.profile());
        Ok(())
    }
}

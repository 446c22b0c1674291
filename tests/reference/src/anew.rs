//! The planner that plans its whole line anew at each take and each time that it
//! is shown, for long lists of calls.
//!
//! It is the line of blocks (`line`), but for its numbers: these are worked out by
//! division, and once for each block.

use crate::line::{LookAhead, PLACES};
use crate::machine::{check_block, Block, Given, Limits, Machine, Numbers};
use crate::plan::{highest, Course};
use crate::quick::{junction_cap, numbers_of, ramp_of};
use crate::refusal::Refusal;

/// Blocks in order with their numbers, and what their profiles must keep to.
#[derive(Clone)]
pub struct Planner {
    machine: Machine,
    line: Vec<(Block, Numbers)>,
    course: Course,
}

impl Planner {
    /// The highest lawful profile of its line.
    fn profile(&self) -> Vec<u64> {
        highest(&self.course).expect("a lawful profile")
    }
}

impl LookAhead for Planner {
    fn fresh(limits: &Limits, steps: &[u8]) -> Result<Planner, Refusal> {
        Ok(Planner {
            machine: Machine::of(limits, steps)?,
            line: Vec::new(),
            course: Course {
                committed: 0,
                caps: Vec::new(),
                reaches: Vec::new(),
            },
        })
    }

    fn add(&mut self, block: &Block) -> Result<(), Refusal> {
        check_block(block)?;
        if self.line.len() == PLACES {
            return Err(Refusal::Full);
        }
        let numbers = numbers_of(&self.machine, block);
        if let Some((last, known)) = self.line.last() {
            let cap = junction_cap(&self.machine.limits, (last, known), (block, &numbers));
            self.course.caps.push(cap);
        }
        self.course.reaches.push(numbers.reach);
        self.line.push((*block, numbers));
        Ok(())
    }

    fn take(&mut self) -> Result<Given, Refusal> {
        if self.line.is_empty() {
            return Err(Refusal::Empty);
        }
        let profile = self.profile();
        let (entry, exit) = (profile[0], profile[1]);
        let (block, numbers) = self.line.remove(0);
        self.course.reaches.remove(0);
        if !self.course.caps.is_empty() {
            self.course.caps.remove(0);
        }
        self.course.committed = exit;
        Ok(Given {
            block,
            length: numbers.length,
            accel: numbers.accel,
            entry,
            exit,
            ramp: ramp_of(&numbers, entry, exit),
        })
    }

    fn told(&self) -> usize {
        self.line.len()
    }

    fn shown(&self, list: &mut [u64]) -> Result<(), Refusal> {
        if list.len() != self.line.len() + 1 {
            return Err(Refusal::List);
        }
        list.copy_from_slice(&self.profile());
        Ok(())
    }
}

//! The same blocks in the proved planner and on tape, and in the reference.

use reference::line::{Line, LookAhead};
use reference::machine::{Block, Limits};
use reference::tape::{self, Tape};

use crate::proved::{self, Planner};
use crate::same;

/// Adds the blocks to both planners, made with the steps, compares the plan and
/// then each block as it is given out, its acceleration among the rest.
pub fn compare_planners(seed: u64, limits: &Limits, steps: &[u8], blocks: &[Block]) {
    let input = || format!("{limits:?} {steps:?} {blocks:?}");
    let mut proved = Planner::fresh(limits, steps).expect("limits and steps that pass");
    let mut line = Line::fresh(limits, steps).expect("limits and steps that pass");
    for block in blocks {
        same(seed, input, proved.add(block), line.add(block));
    }
    let mut plan = vec![77; blocks.len() + 1];
    same(seed, input, proved.shown(&mut plan), Ok(()));
    same(seed, input, plan, line.profile());
    for _ in blocks {
        same(seed, input, proved.take(), line.take());
    }
}

/// Compares the plan of the blocks on a tape under the steps.
pub fn compare_tapes(seed: u64, limits: &Limits, steps: &[u8], blocks: &[Block]) {
    let input = || format!("{limits:?} {steps:?} {blocks:?}");
    let (limits, blocks) = (*limits, blocks.to_vec());
    let (mut plan, mut expected) = (vec![77; blocks.len() + 1], vec![77; blocks.len() + 1]);
    let bytes = Tape { limits, blocks }.pack();
    let found = proved::plan_tape(&bytes, steps, &mut plan);
    same(seed, input, found, Ok(()));
    tape::plan_tape(&bytes, steps, &mut expected).expect("an accepted tape");
    same(seed, input, plan, expected);
}

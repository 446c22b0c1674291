//! A case of the search: a machine, and blocks that are added one after the other,
//! with a take before each add that finds the window full.

use std::fmt::Write;

use reference::generate::{limits_and_path, steps};
use reference::line::PLACES;
use reference::machine::{Block, Limits};
use reference::rng::Rng;
use reference::trace::Call;

use super::Goal;

/// Most blocks of a case: a planner that is filled twice over, so that its first
/// place and its committed speed can be any.
pub const MOST: usize = 2 * PLACES;

#[derive(Clone, Debug, PartialEq, Eq)]
pub struct Case {
    pub limits: Limits,
    /// Loaded torque steps, percent; empty where none are.
    pub steps: Vec<u8>,
    /// Blocks held before a take makes room, 1 to 64.
    pub window: usize,
    /// 1 to 128 blocks.
    pub blocks: Vec<Block>,
}

impl Case {
    /// A random one: any limits, steps and path, or one block over and over, of
    /// whose junctions each is kept, to the end or up to the last add, which may
    /// drop them all.
    pub fn drawn(rng: &mut Rng) -> Case {
        let count = rng.spread(1, MOST as u64) as usize;
        let (limits, mut blocks) = limits_and_path(rng, count);
        let level = rng.pick(&[0, 0, 0, count - 1, count - 1, count]);
        let first = blocks[0];
        blocks[..level].fill(first);
        blocks.iter_mut().for_each(|block| block.mark = 0);
        Case {
            limits,
            steps: steps(rng),
            window: rng.spread(1, PLACES as u64) as usize,
            blocks,
        }
    }

    /// Its calls, the last of which is the one sought.
    pub fn calls(&self, goal: Goal) -> Vec<Call> {
        let mut calls = Vec::new();
        for (place, block) in self.blocks.iter().enumerate() {
            if place >= self.window {
                calls.push(Call::Take);
            }
            calls.push(Call::Add(*block));
        }
        if goal == Goal::Take {
            calls.push(Call::Take);
        }
        calls
    }

    /// Its blocks as runs of equal ones, each with its length.
    pub fn runs(&self) -> Vec<(usize, Block)> {
        let runs = self.blocks.chunk_by(|one, next| one == next);
        runs.map(|run| (run.len(), run[0])).collect()
    }

    /// The case in words, a line for each run.
    pub fn words(&self) -> String {
        let Limits {
            accel,
            speed,
            jump,
            chord,
            tick,
        } = self.limits;
        let mut text = format!(
            "    accelerations {accel:?} speeds {speed:?} jump {jump} tolerance {chord} tick {tick}\n    \
             steps {:?}; a take before each add with {} held",
            self.steps, self.window
        );
        for (count, block) in self.runs() {
            let Block {
                moves,
                feed,
                radius,
                ..
            } = block;
            let run = format!("\n    {count} x {moves:?} feed {feed} radius {radius}");
            text.write_str(&run).expect("memory");
        }
        text
    }
}

#[cfg(test)]
mod tests {
    use super::*;
    use reference::generate::machine_m;
    use reference::machine::check_block;

    fn case(window: usize, count: usize) -> Case {
        let block = Block {
            moves: [3, 0, 0],
            feed: 1,
            radius: 0,
            mark: 0,
        };
        Case {
            limits: machine_m(),
            steps: Vec::new(),
            window,
            blocks: vec![block; count],
        }
    }

    #[test]
    fn a_take_makes_room_where_the_window_is_full() {
        let calls = case(2, 4).calls(Goal::Add);
        let takes = calls.iter().map(|call| *call == Call::Take);
        let expected = [false, false, true, false, true, false];
        assert_eq!(takes.collect::<Vec<_>>(), expected);
        let calls = case(64, 1).calls(Goal::Take);
        assert_eq!((calls.len(), calls[1]), (2, Call::Take));
    }

    #[test]
    fn equal_neighbours_are_one_run() {
        let mut case = case(64, 5);
        case.blocks[3].feed = 2;
        let lengths: Vec<usize> = case.runs().iter().map(|run| run.0).collect();
        assert_eq!(lengths, [3, 1, 1]);
    }

    #[test]
    fn drawn_cases_pass() {
        let mut rng = Rng::new(1);
        for _ in 0..2_000 {
            let case = Case::drawn(&mut rng);
            assert!(case.blocks.iter().all(|block| check_block(block).is_ok()));
            assert!((1..=MOST).contains(&case.blocks.len()));
            assert!((1..=PLACES).contains(&case.window));
        }
    }
}

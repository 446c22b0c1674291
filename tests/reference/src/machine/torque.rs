//! Torque steps: what a motor keeps of its acceleration as the speed grows,
//! built in or loaded by the owner, and check 14.

use std::ops::RangeInclusive;

use super::kinds::{check_limits, Limits};
use crate::refusal::Refusal;

/// Speeds of one torque step, µm/s.
const STEP: u64 = 125_000;

/// Percentages of steps 0 to 7 where none are loaded.
pub const BUILT_IN: [u8; 8] = [100, 100, 90, 80, 70, 60, 50, 40];

/// Range of a loaded percentage, both ends included.
pub const PERCENT: RangeInclusive<u8> = 1..=100;

/// Percentages of steps 0 to 7 that a list of loaded steps puts in force, or
/// refusal 14. An empty list means that none are loaded; any other has eight
/// bytes within the range, none above the one before it.
pub fn read_steps(steps: &[u8]) -> Result<[u8; 8], Refusal> {
    if steps.is_empty() {
        return Ok(BUILT_IN);
    }
    let percents: [u8; 8] = steps.try_into().map_err(|_| Refusal::Steps)?;
    let within = percents.iter().all(|percent| PERCENT.contains(percent));
    let rising = percents.windows(2).any(|pair| pair[0] < pair[1]);
    if within && !rising {
        Ok(percents)
    } else {
        Err(Refusal::Steps)
    }
}

/// What a planner or the plan of a tape is made for: limits that pass check 1,
/// and the percentages of torque steps 0 to 7 that are in force.
#[derive(Clone, Copy, Debug, PartialEq, Eq)]
pub struct Machine {
    pub limits: Limits,
    pub percents: [u8; 8],
}

impl Machine {
    /// The machine of the limits and a list of loaded steps, empty if none are:
    /// check 1, then 14.
    pub fn of(limits: &Limits, steps: &[u8]) -> Result<Machine, Refusal> {
        check_limits(limits)?;
        let percents = read_steps(steps)?;
        Ok(Machine {
            limits: *limits,
            percents,
        })
    }

    /// Percentage of the acceleration that is left at a torque step, 0 to 7.
    pub fn torque_percent(&self, step: u64) -> u64 {
        self.percents[step as usize] as u64
    }
}

/// Torque step number of a block speed of at least 1 µm/s.
pub fn torque_step(speed: u64) -> u64 {
    (speed - 1) / STEP
}

//! Ramp of a block between the speeds that a plan gives it.

use super::kinds::Block;
use super::numbers::{parts, Numbers};
use super::torque::Machine;
use crate::search::largest;

/// How a block is run: squared peak speed and the lengths of its three parts.
#[derive(Clone, Copy, Debug, PartialEq, Eq)]
pub struct Ramp {
    /// Greatest squared speed in the block, (µm/s)².
    pub peak: u64,
    /// Length run while speeding up, µm.
    pub up: u64,
    /// Length run at the peak, µm.
    pub cruise: u64,
    /// Length run while slowing down, µm.
    pub down: u64,
}

/// A block given out with everything that is told of it.
#[derive(Clone, Copy, Debug, PartialEq, Eq)]
pub struct Given {
    pub block: Block,
    /// Length L, µm.
    pub length: u64,
    /// Acceleration a, µm/s².
    pub accel: u64,
    /// Squared speed at the block's begin, (µm/s)².
    pub entry: u64,
    /// Squared speed at the block's end, (µm/s)².
    pub exit: u64,
    pub ramp: Ramp,
}

/// The block with its numbers and ramp, for a plan's entry and exit squared
/// speeds.
pub fn given(machine: &Machine, block: &Block, entry: u64, exit: u64) -> Given {
    let numbers = Numbers::of(machine, block);
    Given {
        block: *block,
        length: numbers.length,
        accel: numbers.accel,
        entry,
        exit,
        ramp: ramp_of(&numbers, entry, exit),
    }
}

/// Ramp for a plan's entry and exit squared speeds, (µm/s)². What up and down
/// leave of the length is run at the peak.
pub fn ramp_of(numbers: &Numbers, entry: u64, exit: u64) -> Ramp {
    let peak = peak_of(numbers, entry, exit);
    let up = ramp_up(peak - entry, numbers.accel);
    let down = ramp_down(peak - exit, numbers.accel);
    Ramp {
        peak,
        up,
        cruise: numbers.length - up - down,
        down,
    }
}

/// Peak, (µm/s)²: the largest p not above the block cap with
/// 2 × p − entry − exit ≤ b.
fn peak_of(numbers: &Numbers, entry: u64, exit: u64) -> u64 {
    let speeds = entry as u128 + exit as u128;
    let lawful = |p: u128| p <= numbers.cap as u128 && 2 * p <= numbers.reach as u128 + speeds;
    largest(lawful) as u64
}

/// Length, µm, needed to gain `rise` (µm/s)² of squared speed: rise / (2 × a)
/// to the nearest whole number, an exact half down. It is the largest q less
/// than a half above the quotient, q × 2 × a < rise + a.
fn ramp_up(rise: u64, accel: u64) -> u64 {
    let a = accel as u128;
    largest(|q| q * 2 * a < parts(rise) as u128 + a) as u64
}

/// Length, µm, needed to lose `fall` (µm/s)² of squared speed: fall / (2 × a)
/// to the nearest whole number, an exact half up. It is the largest q at most
/// a half above the quotient, q × 2 × a ≤ fall + a.
///
/// Where the two quotients fill the block, two exact halves are one µm, which
/// down gets and up does not: so the two never exceed the block.
fn ramp_down(fall: u64, accel: u64) -> u64 {
    let a = accel as u128;
    largest(|q| q * 2 * a <= parts(fall) as u128 + a) as u64
}

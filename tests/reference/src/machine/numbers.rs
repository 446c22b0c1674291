//! From a checked block to its length, speed, acceleration, reach and cap.

use super::kinds::{Block, Limits};
use super::torque::{torque_step, Machine};
use crate::search::largest;

/// Numbers of one block on one machine.
#[derive(Clone, Copy, Debug, PartialEq, Eq)]
pub struct Numbers {
    /// Length L, µm.
    pub length: u64,
    /// Block speed v, µm/s.
    pub speed: u64,
    /// Acceleration a, µm/s².
    pub accel: u64,
    /// Reach b, (µm/s)²: greatest change of squared speed along the block.
    pub reach: u64,
    /// Block cap, (µm/s)².
    pub cap: u64,
}

impl Numbers {
    /// All numbers of a block that passes checks 2 to 6.
    pub fn of(machine: &Machine, block: &Block) -> Numbers {
        let length = length_of(block);
        let speed = speed_of(&machine.limits, block, length);
        let accel = acceleration_of(machine, block, length, speed);
        Numbers {
            length,
            speed,
            accel,
            reach: reach_of(accel, length),
            cap: block_cap(&machine.limits, block, speed),
        }
    }
}

/// A length in µm expressed in the unit of L. The unit is 1 µm.
pub fn parts(micrometres: u64) -> u64 {
    micrometres
}

/// Length L: largest whole number whose square is not above the sum of the
/// squared moves.
pub fn length_of(block: &Block) -> u64 {
    let squares = block.moves.iter().map(|m| size(*m).pow(2));
    root_of(squares.sum())
}

/// Largest whole number whose square is not above a sum.
pub fn root_of(sum: u128) -> u64 {
    largest(|l| l * l <= sum) as u64
}

/// Block speed v, µm/s: largest whole number not above the feed with
/// v × |move| ≤ speed limit × L on each moving axis.
pub fn speed_of(limits: &Limits, block: &Block, length: u64) -> u64 {
    largest(|v| v <= block.feed as u128 && axes_allow(v, &limits.speed, block, length)) as u64
}

/// Acceleration a, µm/s²: largest whole number with
/// a × |move| ≤ acceleration limit × L on each moving axis, then the torque
/// step's percentage of it rounded down, but not below 1.
pub fn acceleration_of(machine: &Machine, block: &Block, length: u64, speed: u64) -> u64 {
    let full = largest(|a| axes_allow(a, &machine.limits.accel, block, length));
    let percent = machine.torque_percent(torque_step(speed)) as u128;
    let reduced = largest(|a| a * 100 <= full * percent);
    reduced.max(1) as u64
}

/// True if `rate` along the block stays within each moving axis' limit:
/// rate × |move| ≤ limit × L.
fn axes_allow(rate: u128, axis_limits: &[u64; 3], block: &Block, length: u64) -> bool {
    let moving = |axis: &usize| block.moves[*axis] != 0;
    let allows = |k| rate * size(block.moves[k]) <= axis_limits[k] as u128 * length as u128;
    (0..3).filter(moving).all(allows)
}

/// Reach b = 2 × a × L, (µm/s)².
pub fn reach_of(accel: u64, length: u64) -> u64 {
    2 * accel * length / parts(1)
}

/// Block cap, (µm/s)²: v squared, and with a radius also at most the chord cap.
pub fn block_cap(limits: &Limits, block: &Block, speed: u64) -> u64 {
    let squared = speed * speed;
    match chord_cap(limits, block) {
        Some(chord) => chord.min(squared as u128) as u64,
        None => squared,
    }
}

/// Chord cap of a checked block, (µm/s)²: the largest q with
/// q × T × T ≤ chord bound; None without a radius.
pub fn chord_cap(limits: &Limits, block: &Block) -> Option<u128> {
    if block.radius == 0 {
        return None;
    }
    let tick = limits.tick as u128;
    let bound = chord_bound(limits, block.radius);
    Some(largest(|q| q * tick * tick <= bound))
}

/// Right side of the chord rule, (8 × e × R − 4 × e × e) × 10^12, where e is
/// the smaller of the chord tolerance E and the radius R, both in µm.
///
/// A chord whose middle is e inside the circle has half a length h with
/// h² = R² − (R − e)² = 2 × e × R − e × e; e = R makes it the diameter. The
/// table runs 2 × h in one tick, which is v × T / 10^6 with v in µm/s and T in
/// microseconds, so v² × T² is 4 × h² × 10^12.
pub fn chord_bound(limits: &Limits, radius: u64) -> u128 {
    let r = radius as u128;
    let e = r.min(limits.chord as u128);
    (8 * e * r - 4 * e * e) * 1_000_000_000_000
}

/// Magnitude of a move in the unit of L.
fn size(signed: i64) -> u128 {
    parts(signed.unsigned_abs()) as u128
}

//! Limits and Block with their ranges, and checks 1 to 6.

use crate::refusal::Refusal;

/// Ranges of document 01's table, both ends included.
pub mod range {
    use std::ops::RangeInclusive;

    /// Acceleration limit of an axis, µm/s².
    pub const ACCEL: RangeInclusive<u64> = 1..=20_000_000;
    /// Speed limit of an axis, µm/s.
    pub const SPEED: RangeInclusive<u64> = 1..=1_000_000;
    /// Corner jump J, µm/s.
    pub const JUMP: RangeInclusive<u64> = 1..=1_000_000;
    /// Chord tolerance E, µm.
    pub const CHORD: RangeInclusive<u64> = 1..=1_000;
    /// Tick T, microseconds.
    pub const TICK: RangeInclusive<u64> = 100..=10_000;
    /// Move of a block on one axis, µm.
    pub const MOVE: RangeInclusive<i64> = -1_000_000..=1_000_000;
    /// Feed, µm/s.
    pub const FEED: RangeInclusive<u64> = 1..=1_000_000;
    /// Radius of the curve that the block is a chord of, µm; 0 is no curve.
    pub const RADIUS: RangeInclusive<u64> = 0..=10_000_000;
    /// Mark, a label for the operator.
    pub const MARK: RangeInclusive<u64> = 0..=2_097_151;
}

/// Limits of a machine. Axes are in the order X, Y, Z.
#[derive(Clone, Copy, Debug, PartialEq, Eq)]
pub struct Limits {
    /// Acceleration limit of each axis, µm/s².
    pub accel: [u64; 3],
    /// Speed limit of each axis, µm/s.
    pub speed: [u64; 3],
    /// Corner jump J, µm/s.
    pub jump: u64,
    /// Chord tolerance E, µm.
    pub chord: u64,
    /// Tick T, microseconds.
    pub tick: u64,
}

/// One straight block. Axes are in the order X, Y, Z.
#[derive(Clone, Copy, Debug, PartialEq, Eq)]
pub struct Block {
    /// Signed move on each axis, µm.
    pub moves: [i64; 3],
    /// Feed, µm/s.
    pub feed: u64,
    /// Radius of the curve that the block is a chord of, µm; 0 is no curve.
    pub radius: u64,
    /// Label for the operator.
    pub mark: u64,
}

/// Check 1: every limit within its range.
pub fn check_limits(limits: &Limits) -> Result<(), Refusal> {
    let good = limits.accel.iter().all(|a| range::ACCEL.contains(a))
        && limits.speed.iter().all(|s| range::SPEED.contains(s))
        && range::JUMP.contains(&limits.jump)
        && range::CHORD.contains(&limits.chord)
        && range::TICK.contains(&limits.tick);
    refuse_unless(good, Refusal::Limits)
}

/// Checks 2 to 6 in the order of their numbers.
pub fn check_block(block: &Block) -> Result<(), Refusal> {
    let moving = block.moves.iter().any(|m| *m != 0);
    let short = block.moves.iter().all(|m| range::MOVE.contains(m));
    refuse_unless(moving, Refusal::Still)?;
    refuse_unless(short, Refusal::Long)?;
    refuse_unless(range::FEED.contains(&block.feed), Refusal::Feed)?;
    refuse_unless(range::RADIUS.contains(&block.radius), Refusal::Radius)?;
    refuse_unless(range::MARK.contains(&block.mark), Refusal::Mark)
}

/// Accepts if `good`, else gives the refusal.
fn refuse_unless(good: bool, refusal: Refusal) -> Result<(), Refusal> {
    if good {
        Ok(())
    } else {
        Err(refusal)
    }
}

//! Feeds a planner as a control does: holds a few blocks ahead, takes the first one when it needs it,
//! and hands its ramp to the servo loop, here one line of print.
//!
//!     cargo run --example feed

use fullerecru::{Block, Given, Limits, Planner, Refusal, Steps};

/// Blocks held ahead; a planner has room for `fullerecru::PLACES`.
const AHEAD: usize = 5;

const MACHINE: Limits = Limits {
    accel_x: 200_000, // µm/s²
    accel_y: 200_000,
    accel_z: 200_000,
    speed_x: 1_000_000, // µm/s
    speed_y: 1_000_000,
    speed_z: 1_000_000,
    corner_jump: 2_000, // µm/s
    chord_tolerance: 1, // µm
    tick: 2_000,        // µs
};

/// A row over a mould and a step sideways: moves X, Y, Z, and radius of the curve, µm.
const ROW: [(i64, i64, i64, u64); 9] = [
    (2_000, 0, 0, 0),
    (500, 0, 230, 3_000),
    (500, 0, 140, 3_000),
    (500, 0, 45, 3_000),
    (500, 0, -45, 3_000),
    (500, 0, -140, 3_000),
    (500, 0, -230, 3_000),
    (2_000, 0, 0, 0),
    (0, 200, 0, 0),
];

/// Prints what a servo loop needs of a block: squared speeds, (µm/s)², and the ramp, µm.
fn print(given: &Given) {
    println!(
        "mark {}: entry {} peak {} exit {} (µm/s)², up {} cruise {} down {} µm",
        given.block.mark, given.entry, given.peak, given.exit, given.up, given.cruise, given.down
    );
}

fn main() -> Result<(), Refusal> {
    let mut planner = Planner::fresh(&MACHINE, &Steps::BuiltIn)?;
    for (mark, (x, y, z, radius)) in (1..).zip(ROW) {
        if planner.told() == AHEAD {
            print(&planner.take()?);
        }
        planner.add(&Block {
            x,
            y,
            z,
            feed: 20_000,
            radius,
            mark,
        })?;
    }
    println!(
        "held {}, plan {:?} (µm/s)²",
        planner.told(),
        planner.shown()
    );
    while let Ok(given) = planner.take() {
        print(&given);
    }
    Ok(())
}

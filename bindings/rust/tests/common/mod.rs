//! What the tests share: the repository's stored examples, and the lines that its programs write.
#![allow(dead_code)] // each test file uses a part

use std::fs;
use std::path::PathBuf;

use fullerecru::{Block, Given, Limits, Planner, Refusal, Steps, LIMITS_BYTES, RECORD_BYTES};

/// The machine of examples/c/feed.c and of the rules' worked examples.
pub const MACHINE: Limits = Limits {
    accel_x: 200_000,
    accel_y: 200_000,
    accel_z: 200_000,
    speed_x: 1_000_000,
    speed_y: 1_000_000,
    speed_z: 1_000_000,
    corner_jump: 2_000,
    chord_tolerance: 1,
    tick: 2_000,
};

/// The example tapes, all of which are accepted.
pub const TAPES: [&str; 5] = [
    "examples/tapes/mould-row.tape",
    "examples/tapes/right-angle.tape",
    "examples/tapes/square-pocket.tape",
    "examples/tapes/to-and-fro.tape",
    "examples/tapes/what-held.tape",
];

/// The torque steps of examples/steps.
pub const SOFT_MOTORS: &str = "examples/steps/soft-motors.steps";

/// A path in the repository.
pub fn path(name: &str) -> PathBuf {
    PathBuf::from(env!("CARGO_MANIFEST_DIR"))
        .join("../..")
        .join(name)
}

/// The bytes of a file of the repository.
pub fn bytes(name: &str) -> Vec<u8> {
    fs::read(path(name)).unwrap_or_else(|error| panic!("{name}: {error}"))
}

/// The lines of a file of the repository.
pub fn lines(name: &str) -> Vec<String> {
    let text = String::from_utf8(bytes(name)).expect("text");
    text.lines().map(str::to_string).collect()
}

/// The blocks on a tape, read one by one.
pub fn blocks_of(tape: &[u8]) -> Vec<Block> {
    let records = tape[LIMITS_BYTES..].chunks_exact(RECORD_BYTES);
    records
        .map(|record| fullerecru::read_record(record).expect("a block"))
        .collect()
}

/// A block of moves, µm, at a feed of 20,000 µm/s.
pub fn block(x: i64, y: i64, z: i64) -> Block {
    Block {
        x,
        y,
        z,
        feed: 20_000,
        ..Block::default()
    }
}

/// A fresh planner for MACHINE with the built-in steps.
pub fn planner() -> Planner {
    Planner::fresh(&MACHINE, &Steps::BuiltIn).expect("limits in range")
}

/// A planner that holds two blocks at a right angle.
pub fn planner_with_pair() -> Planner {
    let mut planner = planner();
    planner
        .add(&Block {
            mark: 7,
            ..block(1_000, 0, 0)
        })
        .expect("a block in range");
    planner
        .add(&Block {
            mark: 8,
            ..block(0, 1_000, 0)
        })
        .expect("a block in range");
    planner
}

/// Numbers behind each other, with spaces between.
pub fn joined(numbers: &[u64]) -> String {
    numbers
        .iter()
        .map(u64::to_string)
        .collect::<Vec<_>>()
        .join(" ")
}

/// The line of planlist, planreplay and planorders for a block given out.
pub fn given_line(given: &Given) -> String {
    joined(&[
        given.block.mark,
        given.length,
        given.accel,
        given.entry,
        given.peak,
        given.exit,
        given.up,
        given.cruise,
        given.down,
    ])
}

/// The line of planreplay and planorders for a call that was refused.
pub fn refused_line(refusal: Refusal) -> String {
    format!("refused {}", refusal.number())
}

//! The sizes and positions of include/fullerecru.h, by the header's names without FULLERECRU_.
//! A test compares each with the header.

/// Version of the library that this binding is made for: 1,000,000 × major + 1,000 × minor + patch.
pub const VERSION: u64 = 12_000;
/// The same as text; it is the package's version too.
pub const VERSION_TEXT: &str = env!("CARGO_PKG_VERSION");

/// Numbers of 64 bits in a planner's memory.
pub(crate) const NUMBERS: usize = 848;
/// Most blocks that a planner holds.
pub const PLACES: usize = 64;
/// Numbers of a machine's limits.
pub(crate) const LIMITS: usize = 9;
/// Bytes of loaded torque steps.
pub const STEPS: usize = 8;
/// Moves of a block.
pub(crate) const MOVES: usize = 3;
/// Numbers of a block given out, beside its moves.
pub(crate) const GIVEN: usize = 11;
/// Numbers of a record read, beside its moves.
pub(crate) const RECORD: usize = 3;
/// Numbers of 64 bits in a host's memory.
pub(crate) const HOST: usize = 4;
/// Doubles of a point.
pub(crate) const POINT: usize = 3;
/// Numbers of 64 bits in a report's memory.
pub(crate) const REPORT: usize = 8;
/// Figures of a tape.
pub(crate) const FIGURES: usize = 7;
/// Most tapes that a report accepts.
pub const MOST_TAPES: usize = 100;
/// Numbers of a row of a tape's list.
pub(crate) const LISTED: usize = 13;
/// Bytes of the limits on tape.
pub const LIMITS_BYTES: usize = 24;
/// Bytes of each record on tape.
pub const RECORD_BYTES: usize = 16;
/// Most blocks of a tape.
pub const MOST_BLOCKS: usize = 2_048;
/// Most bytes of a tape.
pub const MOST_TAPE: usize = 32_792;
/// Bytes of each call of a trace.
pub const CALL_BYTES: usize = 28;
/// Numbers of the row that answers a call of a trace.
pub(crate) const ROW: usize = 15;
/// Numbers of the list that a replay's plan is written in.
pub(crate) const PLAN: usize = 65;

// Positions in a machine's limits.
pub(crate) const LIMIT_ACCEL_X: usize = 0;
pub(crate) const LIMIT_ACCEL_Y: usize = 1;
pub(crate) const LIMIT_ACCEL_Z: usize = 2;
pub(crate) const LIMIT_SPEED_X: usize = 3;
pub(crate) const LIMIT_SPEED_Y: usize = 4;
pub(crate) const LIMIT_SPEED_Z: usize = 5;
pub(crate) const LIMIT_CORNER_JUMP: usize = 6;
pub(crate) const LIMIT_CHORD_TOLERANCE: usize = 7;
pub(crate) const LIMIT_TICK: usize = 8;

// Positions in the numbers of a block given out, of a record (the first three), and of a tape's row.
pub(crate) const GIVEN_FEED: usize = 0;
pub(crate) const GIVEN_RADIUS: usize = 1;
pub(crate) const GIVEN_MARK: usize = 2;
pub(crate) const GIVEN_LENGTH: usize = 3;
pub(crate) const GIVEN_ACCEL: usize = 4;
pub(crate) const GIVEN_ENTRY: usize = 5;
pub(crate) const GIVEN_EXIT: usize = 6;
pub(crate) const GIVEN_PEAK: usize = 7;
pub(crate) const GIVEN_UP: usize = 8;
pub(crate) const GIVEN_CRUISE: usize = 9;
pub(crate) const GIVEN_DOWN: usize = 10;
pub(crate) const LISTED_CAP: usize = 11;
pub(crate) const LISTED_JUNCTION_CAP: usize = 12;

// Positions in the row that answers a call of a trace.
pub(crate) const ANSWER_NUMBER: usize = 0;
pub(crate) const ANSWER_MOVE_X: usize = 1;
pub(crate) const ANSWER_MOVE_Y: usize = 2;
pub(crate) const ANSWER_MOVE_Z: usize = 3;
pub(crate) const ANSWER_GIVEN: usize = 4;

// Positions in the figures of a tape, and in a report's numbers.
pub(crate) const FIGURE_BLOCKS: usize = 0;
pub(crate) const FIGURE_LENGTH: usize = 1;
pub(crate) const FIGURE_PEAK: usize = 2;
pub(crate) const FIGURE_FEED: usize = 3;
pub(crate) const FIGURE_CORNER: usize = 4;
pub(crate) const FIGURE_CHORD: usize = 5;
pub(crate) const FIGURE_REACH: usize = 6;
pub(crate) const REPORT_TAPES: usize = 0;
pub(crate) const REPORT_ALL: usize = 1;

//! The machine's limits and torque steps, the block, and the numbers that
//! follow from them.

mod junction;
mod kinds;
mod numbers;
mod ramp;
mod torque;

pub use junction::{corner_cap, junction_cap};
pub use kinds::{check_block, check_limits, range, Block, Limits};
pub use numbers::{
    acceleration_of, block_cap, chord_bound, chord_cap, length_of, parts, reach_of, root_of,
    speed_of, Numbers,
};
pub use ramp::{given, ramp_of, Given, Ramp};
pub use torque::{read_steps, torque_step, Machine, BUILT_IN, PERCENT};

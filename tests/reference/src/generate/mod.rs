//! Seeded limits, torque steps, blocks, tapes, call lists, texts and a host's
//! events for the comparisons, and paths whose caps are equal.

mod blocks;
mod calls;
mod curves;
mod doubles;
mod limits;
mod orders;
mod pen;
mod raster;
mod speeds;
mod spelling;
mod steps;
mod tapes;
mod text_noise;
mod texts;
mod ties;
mod traffic;

pub use blocks::{
    block, faulty_block, mould_steps, path, short_steps, straight_steps, tiny_block, BLOCK_FAULTS,
};
pub use calls::{calls, trace};
pub use curves::{limits_and_path, tight_path, tight_radius};
pub use doubles::{
    any_radius, any_speed, decimal, decimal_half, double, exact_half, not_finite, pair,
};
pub use limits::{faulty_limits, limits, machine_m, tiny_limits, with_chord};
pub use orders::{event, events, orders};
pub use raster::Raster;
pub use speeds::{block_of_speed, edge_speeds, path_at_edges, Cause, Way, CAUSES, WAYS};
pub use steps::{faulty_steps, loaded_steps, steps};
pub use tapes::{faulty_tape, set_last_bit, spoil_record, tape, TAPE_FAULTS};
pub use text_noise::noisy_text;
pub use texts::{any_text, faulty_text, late_text, many_text, text, text_with_blocks};
pub use ties::{tied_path, tied_tape};
pub use traffic::{traffic, work};

//! Fullerecru is a proved look-ahead speed planner for three-axis milling tables. This is the safe
//! binding of its C library, for x86-64 Linux; it works nothing out itself.
//!
//! - [`Planner`] holds up to 64 [`Block`]s of a machine with [`Limits`] and torque [`Steps`], and gives
//!   each out with its speeds and ramp ([`Given`]). [`Host`] adds blocks by orders in doubles.
//! - A tape of up to 2,048 blocks is written by [`write_tape`] or, from a program in RS-274 text, by
//!   [`text_tape`]; [`plan_tape`] plans it, [`list_tape`] lists it with speeds and ramps, [`held_by`]
//!   tells what held each junction back, and a [`Report`] counts that over up to 100 tapes.
//! - [`replay`] runs recorded calls again.
//!
//! A call that is refused gives a [`Refusal`], or a [`Fault`] where it has a place in a tape or a text,
//! and changes nothing that was lent to it. No function panics, whatever it is called with.
//!
//! # Units
//!
//! Every quantity is a whole number: lengths in µm, speeds in µm/s, squared speeds in (µm/s)²,
//! accelerations in µm/s², the tick in µs. The one exception are the doubles of a host's orders, in mm
//! and mm/s.
//!
//! # Where it may be called
//!
//! There is no shared state, so every type is [`Send`] and [`Sync`]: planners on different threads have
//! nothing to do with each other, and several threads may read one planner's plan. Calls that change a
//! planner, a host or a report take it by `&mut`.
//!
//! A call needs under 1 kB of stack, [`replay`] under 8 kB, [`plan_tape`] and the functions for texts
//! under 34 kB, [`list_tape`], [`held_by`] and [`Report::add`] under 180 kB, and [`Planner::fresh`] the
//! 6 kB of the planner that it gives. That is well within the 2 MiB that a thread of Rust has by
//! default; a thread whose stack is too small ends the process, as any stack overflow does. The calls
//! of [`Planner`] and [`Host`] but [`Planner::shown`] allocate nothing.
//!
//! # The library
//!
//! The library and this binding are made for each other where [`version`] is [`VERSION`]:
//!
//! ```
//! assert_eq!(fullerecru::version(), fullerecru::VERSION);
//! ```

#![deny(unsafe_code)]
#![warn(missing_docs)]

#[cfg(not(all(
    target_arch = "x86_64",
    target_os = "linux",
    target_pointer_width = "64"
)))]
compile_error!("libfullerecru.a is for x86-64 Linux");

mod block;
#[cfg(test)]
mod header_test;
mod host;
mod machine;
mod numbers;
mod planner;
mod refusal;
mod replay;
mod report;
#[allow(unsafe_code)]
mod sys;
mod tape;
mod text;

pub use block::{Block, Given, Listed};
pub use host::{Host, Point};
pub use machine::{Limits, Steps};
pub use numbers::{
    CALL_BYTES, LIMITS_BYTES, MOST_BLOCKS, MOST_TAPE, MOST_TAPES, PLACES, RECORD_BYTES, STEPS,
    VERSION, VERSION_TEXT,
};
pub use planner::Planner;
pub use refusal::{Fault, Refusal};
pub use replay::{replay, Answer, Replayed};
pub use report::{held_by, Figures, HeldBy, Report};
pub use tape::{
    list_tape, plan_tape, read_limits, read_record, write_limits, write_record, write_tape,
};
pub use text::{text_records, text_records_into, text_tape};

/// The version of the linked library: 1,000,000 × major + 1,000 × minor + patch. It must be
/// [`VERSION`].
pub fn version() -> u64 {
    sys::version()
}

/// The examples of the README, which are tested with the others.
#[cfg(doctest)]
#[doc = include_str!("../README.md")]
struct Readme;

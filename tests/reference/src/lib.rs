//! Look-ahead speed planner for three-axis line blocks, after documents 01 and
//! 02 alone.
//!
//! This package is the second implementation that the proved code is compared
//! with. The numbers of a block are found by searching on the documents' own
//! inequalities; `quick` holds the same numbers by division for the benchmark,
//! and the tests compare the two. `line` plans as the documents say; `anew` does so
//! with the numbers of `quick`, and `incremental` and `stairs` keep what a take
//! needs, in two ways. `circle` judges a chord cap by its geometry.
//! The doubles of a host are read and subtracted by their bits, in `doubles`.
//!
//! Units: lengths in µm, speeds in µm/s, squared speeds in (µm/s)²,
//! accelerations in µm/s², the tick in microseconds.

pub mod anew;
pub mod bits;
pub mod call_cases;
pub mod cam_host;
pub mod circle;
pub mod doubles;
pub mod examples;
pub mod generate;
pub mod host;
pub mod incremental;
pub mod line;
pub mod listing;
pub mod machine;
pub mod machine_cases;
pub mod options;
pub mod order_cases;
pub mod order_listing;
pub mod orders;
pub mod plan;
pub mod pocket;
pub mod quick;
pub mod records;
pub mod refusal;
pub mod report;
pub mod rng;
pub mod search;
pub mod stairs;
pub mod step_cases;
pub mod tape;
pub mod tape_cases;
pub mod tape_list;
pub mod text;
pub mod trace;

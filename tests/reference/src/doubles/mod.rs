//! Doubles by their 64 bits, document 02's Q-5: one taken 1,000 times and
//! rounded, the difference of two, and the double of a whole number.
//!
//! All of it is done with whole numbers, and nothing is calculated in doubles:
//! each finite one is a whole number of least doubles, 2^−1074 each.

mod difference;
mod parts;
mod reading;
mod whole;
mod wide;

pub use difference::difference;
pub use parts::{Double, Finite};
pub use reading::{reading, Reading, MOST};
pub use whole::double_of;

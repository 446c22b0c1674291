//! How what a take and an add take grows with the blocks held, and what random
//! directions hide.

use crate::paths::Path;
use crate::work::Work;
use crate::{Measured, PATHS};

/// The planner's work with so many blocks held.
pub const HELD: [(&str, Work); 5] = [
    ("2 held", Work::Planner(2)),
    ("8 held", Work::Planner(8)),
    ("16 held", Work::Planner(16)),
    ("32 held", Work::Planner(32)),
    ("64 held", Work::Planner(64)),
];

/// A path that no planner should be measured on.
pub const RANDOM: (&str, Path) = ("random", Path::Random);

/// Prints instructions and time of one take and one add of mould and straight for
/// each number held, and of random directions with 64. False where the sides found
/// other numbers.
pub fn report() -> bool {
    let paths = PATHS[..2].iter();
    let grown = paths.flat_map(|path| HELD.map(|held| (*path, held)));
    let rows = grown.chain([(RANDOM, HELD[4])]);
    rows.fold(true, |agree, (path, held)| row(path, held) && agree)
}

/// Prints the row of a path and a number held. False where the sides found other
/// numbers.
fn row(path: (&str, Path), held: (&str, Work)) -> bool {
    Measured::of(held, path).print(&format!("{}, {}", held.0, path.0))
}

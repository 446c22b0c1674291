//! What held tapes back: the figures of one tape and of all that were accepted
//! since a fresh report, and the text of `planreport`.

mod figures;
mod held;
mod sums;
mod text;

pub use figures::{figures_of, held_by, held_of, Figures};
pub use held::{HeldBy, JunctionCaps};
pub use sums::{Report, MOST_TAPES};
pub use text::{all_line, planreport, tape_line, HEADER};

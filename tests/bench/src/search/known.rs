//! The dearest cases known, from longer searches and from reading the machine code
//! of the long division: every search begins with them.

use std::iter::repeat_n;

use reference::generate::machine_m;
use reference::line::PLACES;
use reference::machine::{Block, Limits};

use super::case::Case;
use super::Goal;

/// The cases known for a call.
pub fn cases(goal: Goal) -> Vec<Case> {
    match goal {
        Goal::Add => vec![dearest_add(), sharp_corner()],
        Goal::Take => Vec::new(),
    }
}

/// An add that drops all 62 stairs before its junction, has a root of three steps,
/// is held by the speed and the acceleration of each axis more than by those of the
/// axis before, and needs the long division for its chord and for its corner, whose
/// two digits are lowered three times. The blocks before it go straight on, twice as
/// fast as it, so that no junction of theirs is dropped earlier.
fn dearest_add() -> Case {
    let limits = Limits {
        accel: [20_000_000, 12_000, 3_000],
        speed: [500_000, 200_000, 150_000],
        jump: 856_298,
        chord: 2,
        tick: 6_000,
    };
    let short = block([54, 20, 12], 0);
    let before = block([340_426, 126_089, 75_640], 0);
    let last = block([989_729, 604_282, 969_640], 10_000_000);
    Case {
        limits,
        steps: Vec::new(),
        window: PLACES,
        blocks: repeat_n(short, PLACES - 2).chain([before, last]).collect(),
    }
}

/// An add that drops all 62 stairs of a straight line of short blocks, by going
/// back.
fn sharp_corner() -> Case {
    let on = block([3, 0, 0], 0);
    let back = block([-3, 0, 0], 0);
    Case {
        limits: machine_m(),
        steps: Vec::new(),
        window: PLACES,
        blocks: repeat_n(on, PLACES - 1).chain([back]).collect(),
    }
}

/// A block at 1,000,000 µm/s.
fn block(moves: [i64; 3], radius: u64) -> Block {
    Block {
        moves,
        feed: 1_000_000,
        radius,
        mark: 0,
    }
}

#[cfg(test)]
mod tests {
    use super::super::run::alike;
    use super::*;
    use compare::ring::Ring;
    use reference::line::LookAhead;
    use reference::trace::Call;

    /// Stairs before that of the line's end, before and after a case's last add.
    fn stairs(case: &Case) -> [u64; 2] {
        let mut ring = Ring::fresh(&case.limits, &case.steps).expect("limits that pass");
        let mut numbers = [0; 2];
        for call in case.calls(Goal::Add) {
            let Call::Add(block) = call else {
                panic!("a take in a case of 64 blocks");
            };
            numbers[0] = ring.stairs_before();
            ring.add(&block).expect("a block that passes");
            numbers[1] = ring.stairs_before();
        }
        numbers
    }

    /// The last add finds 63 blocks held and drops all stairs, and both planners
    /// agree.
    #[test]
    fn the_known_adds_drop_all_stairs() {
        for case in cases(Goal::Add) {
            assert_eq!(case.calls(Goal::Add).len(), PLACES);
            assert_eq!(stairs(&case), [62, 1]);
            assert!(alike(&case, Goal::Add));
        }
    }
}

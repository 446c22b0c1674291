//! The most that one single add and one single take take on each path, with 64
//! blocks held: of the library, and of the reference by both of its planners.

use std::env;
use std::process::Stdio;

use reference::line::PLACES;

use crate::callgrind::single_calls;
use crate::work::{Side, Work, ONE_ADD, ONE_TAKE};
use crate::{line, line_without_ratio, PATHS, PLANNERS};

/// What the calls of one function took over a path.
#[derive(Debug, PartialEq)]
struct Calls {
    mean: f64,
    most: u64,
    /// Place of the first call that took the most, from 1.
    place: usize,
}

impl Calls {
    fn of(counts: &[u64]) -> Option<Calls> {
        let most = *counts.iter().max()?;
        let first = counts.iter().position(|count| *count == most)?;
        Some(Calls {
            mean: counts.iter().sum::<u64>() as f64 / counts.len() as f64,
            most,
            place: first + 1,
        })
    }
}

/// A call: its name, its function in the library, that of the reference, and how
/// many calls of it fill the planner before the first take.
const CALLS: [(&str, &str, &str, usize); 2] = [
    ("add", "fullerecru_add", ONE_ADD, PLACES),
    ("take", "fullerecru_take", ONE_TAKE, 0),
];

/// Prints mean and most of the instructions of single calls, and which call took
/// the most. False where other calls were counted than the path has.
pub fn report() -> bool {
    let mut agree = true;
    for (path, _) in &PATHS[..2] {
        for (call, library, reference, filling) in CALLS {
            let counts = PLANNERS.map(|(side, by)| {
                let function = match by {
                    Side::Proved => library,
                    Side::Reference | Side::Walk => reference,
                };
                let all = counted([path, side], function)?;
                Some(all[filling..].to_vec())
            });
            print(&format!("one {call}, {path}"), &counts);
            let expected = Work::Planner(PLACES).counted();
            agree &= counts.iter().flatten().all(|all| all.len() == expected);
        }
    }
    agree
}

/// Instructions of each call of a function in the planner's work on a path by a
/// side.
fn counted([path, side]: [&str; 2], function: &str) -> Option<Vec<u64>> {
    let own = env::current_exe().expect("a program");
    let words = ["count", "planner", path, side];
    single_calls(&own, &words, Stdio::null(), [function; 2])
}

/// Prints what the calls of each side took.
fn print(name: &str, counts: &[Option<Vec<u64>>]) {
    let calls = counts.iter().map(|all| Calls::of(all.as_deref()?));
    let calls: Vec<Option<Calls>> = calls.collect();
    let numbers = |number: fn(&Calls) -> f64| -> Vec<Option<f64>> {
        calls.iter().map(|side| side.as_ref().map(number)).collect()
    };
    line(name, "mean", &numbers(|calls| calls.mean));
    line("", "most", &numbers(|calls| calls.most as f64));
    line_without_ratio("", "at call", &numbers(|calls| calls.place as f64));
}

#[cfg(test)]
mod tests {
    use super::*;

    #[test]
    fn the_first_of_the_most_is_told() {
        let calls = Calls::of(&[3, 9, 1, 9, 8]);
        let expected = Calls {
            mean: 6.0,
            most: 9,
            place: 2,
        };
        assert_eq!(calls, Some(expected));
        assert_eq!(Calls::of(&[]), None);
    }
}

//! The plan is the highest lawful profile.

use reference::generate::{calls, limits, path, steps, tiny_block, tiny_limits};
use reference::line::{Line, LookAhead};
use reference::machine::Machine;
use reference::plan::*;
use reference::quick::plan_of;
use reference::rng::Rng;
use reference::trace::Call;

/// The plan is among the lawful profiles and none of them is above it
/// anywhere; without a lawful profile there is no plan.
fn confirm(course: &Course) -> usize {
    let all = every_lawful(course);
    match highest(course) {
        None => assert!(all.is_empty()),
        Some(plan) => {
            assert!(all.contains(&plan));
            let below = |profile: &Vec<u64>| profile.iter().zip(&plan).all(|(a, b)| a <= b);
            assert!(all.iter().all(below));
        }
    }
    all.len()
}

/// Every course of 0 to 3 blocks with small numbers.
#[test]
fn brute_force_on_every_small_course() {
    let mut courses = 0;
    for blocks in 0..=3usize {
        let numbers = if blocks == 0 { 1 } else { 2 * blocks };
        for code in 0..4u64.pow(numbers as u32) {
            let digit = |place: usize| code / 4u64.pow(place as u32) % 4;
            let course = Course {
                committed: digit(0),
                caps: (1..blocks).map(|i| digit(i) * 2).collect(),
                reaches: (blocks.max(1)..numbers).map(digit).collect(),
            };
            assert_eq!(course.reaches.len(), blocks);
            confirm(&course);
            courses += 1;
        }
    }
    assert_eq!(courses, 4 + 16 + 256 + 4_096);
}

/// What held the junctions of the lines tried.
#[derive(Default, Debug)]
struct Held {
    profiles: usize,
    moving_starts: usize,
    by_cap: usize,
    by_reach: usize,
}

impl Held {
    /// Confirms the line's plan and counts what held it.
    fn count(&mut self, line: &Line) {
        let course = line.course();
        let found = confirm(&course);
        assert!(found > 0, "each line has a lawful profile");
        let plan = line.profile();
        let inner = 1..course.last().max(1);
        let at_cap = inner.clone().filter(|i| plan[*i] == course.caps[i - 1]);
        let at_cap = at_cap.count();
        self.profiles += found;
        self.moving_starts += usize::from(line.committed() > 0);
        self.by_cap += at_cap;
        self.by_reach += inner.len() - at_cap;
    }
}

/// Lines of real blocks on slow machines, after each of many adds and takes.
#[test]
fn brute_force_on_tiny_lines() {
    let mut held = Held::default();
    for seed in 0..400 {
        let mut rng = Rng::new(seed);
        let mut line = Line::fresh(&tiny_limits(&mut rng), &steps(&mut rng)).unwrap();
        for _ in 0..25 {
            if line.told() == 6 || rng.once_in(3) {
                let _ = line.take();
            } else {
                line.add(&tiny_block(&mut rng)).unwrap();
            }
            held.count(&line);
        }
    }
    println!("{held:?}");
    assert!(held.profiles > 100_000 && held.moving_starts > 1_000);
    assert!(held.by_cap > 1_000 && held.by_reach > 1_000);
}

/// The two passes agree with the least sum over all junctions, on lines of
/// ordinary size and with a committed speed.
#[test]
fn passes_agree_with_sums() {
    for seed in 0..60 {
        let mut rng = Rng::new(seed);
        let mut line = Line::fresh(&limits(&mut rng), &steps(&mut rng)).unwrap();
        for call in calls(&mut rng, 150) {
            match call {
                Call::Take => drop(line.take()),
                Call::Add(block) => drop(line.add(&block)),
            }
            if rng.once_in(10) {
                let course = line.course();
                assert_eq!(highest(&course), Some(highest_by_sums(&course)));
            }
        }
    }
}

/// The same for whole paths from rest to rest, and with numbers by division.
#[test]
fn whole_paths_agree_with_sums() {
    for seed in 0..100 {
        let mut rng = Rng::new(seed);
        let machine = Machine::of(&limits(&mut rng), &steps(&mut rng)).unwrap();
        let count = rng.within(0, 150) as usize;
        let blocks = path(&mut rng, count);
        let course = Course::of(&machine, &blocks, 0);
        assert_eq!(highest(&course), Some(highest_by_sums(&course)));
        assert_eq!(plan_of(&machine, &blocks), highest(&course));
        assert_eq!(highest(&course), Some(from_rest(&machine, &blocks)));
    }
}

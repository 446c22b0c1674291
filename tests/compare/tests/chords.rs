//! Blocks on curves whose radius is near the chord tolerance: below it, at it
//! and above it.

use std::cmp::Ordering;

use compare::lines::{compare_planners, compare_tapes};
use compare::programs::{planlist, run};
use compare::proved::Planner;
use compare::{report, seeds, Trying};
use reference::circle::middle_is_within;
use reference::generate::{machine_m, steps, tight_path, tight_radius, with_chord};
use reference::line::LookAhead;
use reference::machine::{Block, Limits};
use reference::rng::Rng;
use reference::tape::Tape;

/// The greatest feed, µm/s, and its square: no cap is above it.
const MOST_FEED: u64 = 1_000_000;
const MOST_CAP: u64 = MOST_FEED * MOST_FEED;

/// A block along X of a length, µm, at a feed, µm/s, on a curve of a radius, µm.
fn chord(length: i64, feed: u64, radius: u64, mark: u64) -> Block {
    Block {
        moves: [length, 0, 0],
        feed,
        radius,
        mark,
    }
}

/// Two blocks of 1 m, straight on, as fast as the curve lets them.
fn pair(radius: u64) -> Vec<Block> {
    vec![chord(1_000_000, MOST_FEED, radius, 0); 2]
}

/// The squared speed between the two, (µm/s)², in the planner's plan.
fn between(limits: &Limits, radius: u64) -> u64 {
    let mut planner = Planner::fresh(limits, &[]).expect("limits that pass");
    for block in pair(radius) {
        planner.add(&block).expect("a block that passes");
    }
    let mut plan = [77; 3];
    planner.shown(&mut plan).expect("a list of three numbers");
    plan[1]
}

#[test]
fn a_tight_radius_is_the_speed_of_its_chord_cap() {
    let caps = [1, 2, 3, 1_000].map(|radius| between(&machine_m(), radius));
    assert_eq!(caps, [1_000_000, 3_000_000, 5_000_000, 1_999_000_000]);
    assert_eq!(between(&with_chord(1_000, 100), 1), 400_000_000);
    assert_eq!(between(&with_chord(1, 10_000), 1), 40_000);
}

/// What planlist writes for blocks of a length, µm, along X on curves of these
/// radii, µm, at 20,000 µm/s, marked from 1; without the header.
fn listed(limits: Limits, length: i64, radii: &[u64]) -> Vec<String> {
    let marked = (1..).zip(radii);
    let blocks = marked.map(|(mark, radius)| chord(length, 20_000, *radius, mark));
    let tape = Tape {
        limits,
        blocks: blocks.collect(),
    };
    let text = run(&planlist(), &tape.pack());
    text.lines().skip(1).map(str::to_string).collect()
}

#[test]
fn planlist_has_the_speeds_of_tight_radii() {
    let tight = [
        "1 10 200000 0 1000000 1000000 2 8 0",
        "2 10 200000 1000000 1000000 1000000 0 10 0",
        "3 10 200000 1000000 2500000 0 4 0 6",
    ];
    assert_eq!(listed(machine_m(), 10, &[1, 1, 0]), tight);
    let below = [
        "1 100 200000 0 9000000 9000000 22 78 0",
        "2 100 200000 9000000 9000000 0 0 77 23",
    ];
    assert_eq!(listed(with_chord(5, 2_000), 100, &[3, 3]), below);
}

/// Limits of a machine so strong that two blocks of 1 m reach every cap, and a
/// radius, µm, most often near the tolerance.
fn tight(rng: &mut Rng) -> (Limits, u64) {
    let limits = Limits {
        accel: [20_000_000; 3],
        ..with_chord(rng.spread(1, 1_000), rng.spread(100, 10_000))
    };
    let radius = if rng.once_in(4) {
        rng.spread(1, 10_000_000)
    } else {
        tight_radius(rng, limits.chord)
    };
    (limits, radius)
}

/// The plan goes as fast as the tolerance allows, and not faster. Radii below
/// the tolerance, at it and above it hold the plan often.
#[test]
fn the_middle_of_a_chord_stays_within_the_tolerance() {
    let mut held = [0; 3];
    for seed in seeds(40_000) {
        let _trying = Trying::seed(seed);
        let (limits, radius) = tight(&mut Rng::new(seed));
        let input = format!("{limits:?} radius {radius}");
        let squared = between(&limits, radius);
        assert!(middle_is_within(&limits, radius, squared), "{input}");
        if squared < MOST_CAP {
            assert!(!middle_is_within(&limits, radius, squared + 1), "{input}");
            held[match radius.cmp(&limits.chord) {
                Ordering::Less => 0,
                Ordering::Equal => 1,
                Ordering::Greater => 2,
            }] += 1;
        }
    }
    assert!(held.iter().all(|times| *times > 1_000), "{held:?}");
    report(held.iter().sum(), "plans held by the chord rule");
}

/// Paths over tight curves, in the planner and on tape.
#[test]
fn paths_over_tight_curves_have_the_same_plan() {
    for seed in seeds(1_000) {
        let _trying = Trying::seed(seed);
        let mut rng = Rng::new(seed);
        let count = rng.within(1, 64) as usize;
        let (limits, blocks) = tight_path(&mut rng, count);
        let steps = steps(&mut rng);
        compare_planners(seed, &limits, &steps, &blocks);
        compare_tapes(seed, &limits, &steps, &blocks);
    }
    report(2_000, "paths over tight curves");
}

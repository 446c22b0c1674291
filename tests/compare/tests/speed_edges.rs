//! Block speeds at the edges of the torque steps, and at the ends of their
//! range: at each edge, one below it and one above, under built-in steps and
//! under loaded ones.

use std::collections::BTreeSet;

use compare::lines::{compare_planners, compare_tapes};
use compare::proved::Planner;
use compare::ring::Ring;
use compare::{report, same, seeds, Trying};
use reference::generate::{block_of_speed, edge_speeds, path_at_edges, steps, CAUSES, WAYS};
use reference::line::LookAhead;
use reference::machine::{length_of, speed_of};
use reference::rng::Rng;

/// Each edge speed, straight along an axis and oblique, by the feed and by the
/// limit of an axis: one block, and the same block twice and three times, where
/// the plan has the block's reach at a junction.
#[test]
fn every_edge_speed_gives_the_same_numbers() {
    let mut count = 0;
    for seed in seeds(20) {
        let _trying = Trying::seed(seed);
        let mut rng = Rng::new(seed);
        for speed in edge_speeds() {
            for (way, cause) in WAYS
                .iter()
                .flat_map(|way| CAUSES.map(|cause| (*way, cause)))
            {
                let (limits, block) = block_of_speed(&mut rng, speed, way, cause);
                let steps = steps(&mut rng);
                for times in 1..=3 {
                    compare_planners(seed, &limits, &steps, &vec![block; times]);
                    compare_tapes(seed, &limits, &steps, &vec![block; times]);
                    count += 2;
                }
            }
        }
    }
    report(count, "lines of an edge speed");
}

/// Paths whose blocks have edge speeds, in the planner and on tape.
#[test]
fn paths_at_edge_speeds_have_the_same_plan() {
    let (edges, mut met) = (edge_speeds(), BTreeSet::new());
    for seed in seeds(600) {
        let _trying = Trying::seed(seed);
        let mut rng = Rng::new(seed);
        let count = rng.within(1, 40) as usize;
        let (limits, blocks) = path_at_edges(&mut rng, count);
        let steps = steps(&mut rng);
        compare_planners(seed, &limits, &steps, &blocks);
        compare_tapes(seed, &limits, &steps, &blocks);
        met.extend(blocks.iter().map(|b| speed_of(&limits, b, length_of(b))));
    }
    let missed = edges.iter().filter(|edge| !met.contains(edge));
    assert_eq!(missed.count(), 0, "of {edges:?}");
    report(1_200, "paths at edge speeds");
}

/// The memory of a planner has the acceleration and the reach of a block at an
/// edge speed as the promise's definitions say.
#[test]
fn the_memory_holds_the_numbers_of_edge_speeds() {
    let mut count = 0;
    for seed in seeds(40) {
        let _trying = Trying::seed(seed);
        let mut rng = Rng::new(seed);
        for speed in edge_speeds() {
            let (way, cause) = (rng.pick(&WAYS), rng.pick(&CAUSES));
            let (limits, block) = block_of_speed(&mut rng, speed, way, cause);
            let steps = steps(&mut rng);
            let mut planner = Planner::fresh(&limits, &steps).expect("limits and steps that pass");
            let mut ring = Ring::of_memory(planner.memory().try_into().expect("848 numbers"));
            let input = || format!("{limits:?} {steps:?} {block:?}");
            same(seed, input, planner.add(&block), ring.add(&block));
            same(seed, input, planner.memory(), &ring.memory()[..]);
            count += 1;
        }
    }
    report(count, "edge speeds in memory");
}

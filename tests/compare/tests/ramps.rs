//! Ramps of blocks given out, where the length of speeding up or of braking is
//! exactly half way between two µm.

use compare::proved::Planner;
use compare::{report, same, seeds, Trying};
use reference::generate::{limits, machine_m, steps};
use reference::line::{Line, LookAhead};
use reference::machine::{Block, Given, Limits};
use reference::machine_cases::block;
use reference::rng::Rng;

/// What is given out of a fresh planner that the blocks were added to.
fn given<P: LookAhead>(limits: &Limits, steps: &[u8], blocks: &[Block]) -> Vec<Given> {
    let mut planner = P::fresh(limits, steps).expect("limits and steps that pass");
    for block in blocks {
        planner.add(block).expect("a block that passes");
    }
    let taken = blocks.iter().map(|_| planner.take().expect("a block held"));
    taken.collect()
}

/// Up, cruise and down of each block, µm, on machine M.
fn ramps(blocks: &[Block]) -> Vec<[u64; 3]> {
    let given = given::<Planner>(&machine_m(), &[], blocks);
    let ramps = given
        .iter()
        .map(|g| [g.ramp.up, g.ramp.cruise, g.ramp.down]);
    ramps.collect()
}

#[test]
fn a_half_goes_down_for_up_and_up_for_down() {
    let pair = [block(1_000, 0, 0), block(0, 1_000, 0)];
    assert_eq!(ramps(&pair), [[502, 0, 498], [497, 0, 503]]);
    assert_eq!(ramps(&[block(1, 0, 0)]), [[0, 0, 1]]);
    assert_eq!(ramps(&[block(3, 0, 0)]), [[1, 0, 2]]);
    assert_eq!(ramps(&[block(5, 0, 0)]), [[2, 0, 3]]);
    assert_eq!(ramps(&[block(1_001, 0, 0)]), [[500, 0, 501]]);
}

/// Limits, and one to four blocks along one axis, straight on: any feed and up
/// to 2 mm each, or an odd multiple of an odd acceleration as the feed, which is
/// reached after a number of µm and a half, and up to 10 mm each.
fn straight_on(rng: &mut Rng) -> (Limits, Vec<Block>) {
    let (limits, feed, longest) = if rng.once_in(2) {
        (limits(rng), rng.spread(1, 1_000_000), 2_000)
    } else {
        let [accel, times] = [rng.below(50), rng.below(5)].map(|k| 2 * k + 1);
        let weak = Limits {
            accel: [accel; 3],
            ..machine_m()
        };
        (weak, times * accel, 10_000)
    };
    let axis = rng.below(3) as usize;
    let blocks = (0..rng.within(1, 4)).map(|mark| {
        let mut moves = [0; 3];
        moves[axis] = rng.spread(1, longest) as i64;
        Block {
            moves,
            feed,
            radius: 0,
            mark,
        }
    });
    (limits, blocks.collect())
}

/// Whether a change of squared speed, (µm/s)², takes a number of µm and a half.
fn is_half(change: u64, accel: u64) -> bool {
    change % (2 * accel) == accel
}

/// Up alone is an exact half, down alone is, and both are, each often.
#[test]
fn exact_halves_are_rounded_alike() {
    let mut met = [0; 4];
    for seed in seeds(20_000) {
        let _trying = Trying::seed(seed);
        let mut rng = Rng::new(seed);
        let (limits, blocks) = straight_on(&mut rng);
        let steps = steps(&mut rng);
        let found = given::<Planner>(&limits, &steps, &blocks);
        let known = given::<Line>(&limits, &steps, &blocks);
        let input = || format!("{limits:?} {steps:?} {blocks:?}");
        same(seed, input, &found, &known);
        for g in found {
            let up = is_half(g.ramp.peak - g.entry, g.accel);
            let down = is_half(g.ramp.peak - g.exit, g.accel);
            met[usize::from(up) + 2 * usize::from(down)] += 1;
        }
    }
    assert!(met.iter().all(|times| *times > 1_000), "{met:?}");
    report(met[1..].iter().sum(), "ramps of a number of µm and a half");
}

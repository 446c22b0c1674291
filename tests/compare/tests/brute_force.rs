//! On tiny lines every lawful profile is tried: the plan that the proved code
//! gives is one of them, and none of them is above it anywhere. Lawful is what
//! is so under the torque steps in force.

use compare::proved::{self, Planner};
use compare::{report, seeds, Trying};
use reference::generate::{loaded_steps, steps, tiny_block, tiny_limits};
use reference::line::{Line, LookAhead};
use reference::machine::{Block, Limits, Machine};
use reference::plan::{every_lawful, from_rest, Course};
use reference::rng::Rng;
use reference::tape::Tape;

/// Most blocks of a line.
const MOST: usize = 6;

/// Sees that the plan is lawful and that no lawful profile is above it; gives
/// the number of profiles tried.
fn confirm(seed: u64, course: &Course, plan: &[u64]) -> usize {
    let all = every_lawful(course);
    assert!(
        all.iter().any(|profile| profile == plan),
        "seed {seed}: {plan:?} is not lawful on {course:?}"
    );
    for profile in &all {
        let below = profile.iter().zip(plan).all(|(a, b)| a <= b);
        assert!(
            below,
            "seed {seed}: {profile:?} is above {plan:?} on {course:?}"
        );
    }
    all.len()
}

#[test]
fn no_lawful_profile_is_above_the_plan_shown() {
    let (mut lines, mut profiles, mut moving) = (0, 0, 0);
    for seed in seeds(2_000) {
        let _trying = Trying::seed(seed);
        let mut rng = Rng::new(seed);
        let (limits, steps) = (tiny_limits(&mut rng), steps(&mut rng));
        let mut proved = Planner::fresh(&limits, &steps).expect("limits and steps that pass");
        let mut line = Line::fresh(&limits, &steps).expect("limits and steps that pass");
        for _ in 0..25 {
            if line.told() == MOST || rng.once_in(3) {
                let given = proved.take();
                assert_eq!(given, line.take(), "seed {seed}");
            } else {
                let block = tiny_block(&mut rng);
                assert_eq!(proved.add(&block), line.add(&block), "seed {seed}");
            }
            let mut plan = vec![0; line.told() + 1];
            assert_eq!(proved.shown(&mut plan), Ok(()), "seed {seed}");
            profiles += confirm(seed, &line.course(), &plan);
            moving += usize::from(plan[0] > 0);
            lines += 1;
        }
    }
    assert!(moving > 5_000, "{moving}");
    report(profiles, &format!("lawful profiles of {lines} lines"));
}

/// The machine of limits and steps.
fn machine(limits: &Limits, steps: &[u8]) -> Machine {
    Machine::of(limits, steps).expect("limits and steps that pass")
}

/// The plan of the blocks on a tape.
fn plan_on_tape(limits: &Limits, steps: &[u8], blocks: &[Block]) -> Vec<u64> {
    let mut plan = vec![0; blocks.len() + 1];
    let (limits, blocks) = (*limits, blocks.to_vec());
    let tape = Tape { limits, blocks }.pack();
    proved::plan_tape(&tape, steps, &mut plan).expect("an accepted tape");
    plan
}

#[test]
fn no_lawful_profile_is_above_a_tapes_plan() {
    let mut profiles = 0;
    for seed in seeds(4_000) {
        let _trying = Trying::seed(seed);
        let mut rng = Rng::new(seed);
        let (limits, steps) = (tiny_limits(&mut rng), steps(&mut rng));
        let count = rng.within(0, MOST as u64) as usize;
        let blocks: Vec<_> = (0..count).map(|_| tiny_block(&mut rng)).collect();
        let course = Course::of(&machine(&limits, &steps), &blocks, 0);
        profiles += confirm(seed, &course, &plan_on_tape(&limits, &steps, &blocks));
    }
    report(profiles, "lawful profiles of 4000 tapes");
}

/// The plan that a planner with the blocks shows.
fn plan_shown(limits: &Limits, steps: &[u8], blocks: &[Block]) -> Vec<u64> {
    let mut planner = Planner::fresh(limits, steps).expect("limits and steps that pass");
    let mut plan = vec![0; blocks.len() + 1];
    for block in blocks {
        planner.add(block).expect("a block that passes");
    }
    planner
        .shown(&mut plan)
        .expect("a list of the right length");
    plan
}

/// Loaded steps on machines so strong, with corners so soft, that percentages
/// tell: many of the plans are others under the built-in steps.
#[test]
fn no_lawful_profile_is_above_a_plan_under_loaded_steps() {
    let (mut profiles, mut others) = (0, 0);
    for seed in seeds(2_000) {
        let _trying = Trying::seed(seed);
        let mut rng = Rng::new(seed);
        let limits = Limits {
            accel: [(); 3].map(|_| rng.within(2, 6)),
            speed: [4; 3],
            jump: rng.within(5, 20),
            ..tiny_limits(&mut rng)
        };
        let steps = loaded_steps(&mut rng);
        let block = |_| Block {
            feed: 4,
            ..tiny_block(&mut rng)
        };
        let blocks: Vec<_> = (0..1 + seed % 4).map(block).collect();
        let plan = plan_on_tape(&limits, &steps, &blocks);
        assert_eq!(plan_shown(&limits, &steps, &blocks), plan, "seed {seed}");
        let course = Course::of(&machine(&limits, &steps), &blocks, 0);
        profiles += confirm(seed, &course, &plan);
        others += usize::from(from_rest(&machine(&limits, &[]), &blocks) != plan);
    }
    assert!(others > 300, "{others}");
    report(profiles, "lawful profiles of 2000 lines under loaded steps");
}

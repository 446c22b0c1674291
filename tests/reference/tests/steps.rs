//! The owner's torque steps: which lists are accepted, what comes first where
//! several refusals hold, and the plan under loaded steps.

use std::collections::BTreeSet;

use reference::generate::*;
use reference::incremental::Planner;
use reference::line::{Line, LookAhead};
use reference::listing::{planlist, planreplay, planreplay_by};
use reference::machine::*;
use reference::machine_cases::block;
use reference::plan::{every_lawful, highest_by_sums, Course};
use reference::refusal::{Fault, Refusal};
use reference::rng::Rng;
use reference::tape::*;
use reference::trace::{pack_trace, Call};

/// Steps that fall by 10 from 100.
const TENS: [u8; 8] = [100, 90, 80, 70, 60, 50, 40, 30];

/// A block of 100 mm at 300,000 µm/s, which is in step 2.
fn long() -> Block {
    Block {
        feed: 300_000,
        ..block(100_000, 0, 0)
    }
}

/// The tape of blocks on machine M.
fn on_m(blocks: &[Block]) -> Vec<u8> {
    let (limits, blocks) = (machine_m(), blocks.to_vec());
    Tape { limits, blocks }.pack()
}

/// What a planner with these steps gives out of two long blocks.
fn taken<P: LookAhead>(steps: &[u8]) -> Vec<[u64; 3]> {
    let mut planner = P::fresh(&machine_m(), steps).unwrap();
    planner.add(&long()).unwrap();
    planner.add(&long()).unwrap();
    let mut take = || planner.take().unwrap();
    let given = [take(), take()];
    given.map(|g| [g.accel, g.entry, g.exit]).to_vec()
}

/// Two long blocks straight on: accelerations, µm/s², and the plan, (µm/s)².
#[test]
fn accelerations_and_plans_of_four_lists() {
    let lists: [(&[u8], u64, u64); 4] = [
        (&[], 180_000, 36_000_000_000),
        (&[100; 8], 200_000, 40_000_000_000),
        (&TENS, 160_000, 32_000_000_000),
        (&[1; 8], 2_000, 400_000_000),
    ];
    for (steps, accel, middle) in lists {
        let machine = Machine::of(&machine_m(), steps).unwrap();
        assert_eq!(Numbers::of(&machine, &long()).accel, accel);
        let tape = on_m(&[long(), long()]);
        let mut list = [5; 3];
        assert_eq!(plan_tape(&tape, steps, &mut list), Ok(()));
        assert_eq!(list, [0, middle, 0]);
        let given = vec![[accel, 0, middle], [accel, middle, 0]];
        assert_eq!(taken::<Line>(steps), given);
        assert_eq!(taken::<Planner>(steps), given);
        let listed = format!("\n0 100000 {accel} 0 {middle} {middle} 100000 0 0\n");
        assert!(planlist(&tape, steps).contains(&listed), "{listed}");
    }
}

/// Lists that are not eight bytes, and eight with one byte out of range or one
/// rise.
fn refused_lists() -> Vec<Vec<u8>> {
    let changed = |place: usize, percent: u8| {
        let mut steps = TENS.to_vec();
        steps[place] = percent;
        steps
    };
    let mut lists: Vec<Vec<u8>> = (1..8).map(|count| TENS[..count].to_vec()).collect();
    lists.extend([9, 16, 264].map(|count| vec![50; count]));
    lists.extend((0..8).map(|place| changed(place, 0)));
    lists.extend((0..8).map(|place| changed(place, 101)));
    lists.extend([[0; 8], [101; 8], [255; 8]].map(Vec::from));
    lists.extend((2..8).map(|place| changed(place, TENS[place - 1] + 1)));
    lists.push(vec![99, 100, 80, 70, 60, 50, 40, 30]);
    lists
}

#[test]
fn refused_by_14_wherever_steps_are_fixed() {
    assert_eq!(Refusal::Steps.number(), 14);
    assert_eq!(Refusal::Steps.word(), "steps");
    let tape = on_m(&[long()]);
    let trace = pack_trace(&machine_m(), &[Call::Take]);
    let fault = Refusal::Steps.at_no_record();
    for steps in refused_lists() {
        let limits = machine_m();
        assert_eq!(read_steps(&steps), Err(Refusal::Steps), "{steps:?}");
        assert_eq!(Machine::of(&limits, &steps), Err(Refusal::Steps));
        assert_eq!(Line::fresh(&limits, &steps), Err(Refusal::Steps));
        assert_eq!(Planner::fresh(&limits, &steps).err(), Some(Refusal::Steps));
        let mut list = [5; 2];
        assert_eq!(plan_tape(&tape, &steps, &mut list), Err(fault));
        assert_eq!(list, [5; 2]);
        assert_eq!(planlist(&tape, &steps), "refused 14 at 0\n");
        assert_eq!(planreplay(&trace, &steps), "refused 14 at 0\n");
    }
}

/// The request's words place by place: none loaded, or eight bytes of 1 to 100
/// of which none exceeds the one before it.
fn in_words(steps: &[u8]) -> bool {
    if steps.len() != 8 {
        return steps.is_empty();
    }
    for place in 0..8 {
        if steps[place] < 1 || steps[place] > 100 {
            return false;
        }
        if place > 0 && steps[place] > steps[place - 1] {
            return false;
        }
    }
    true
}

/// Checks a list against the words; an accepted one is in force as it is.
fn judge(steps: &[u8]) -> bool {
    let built_in = [100, 100, 90, 80, 70, 60, 50, 40];
    let good = in_words(steps);
    let in_force: &[u8] = if steps.is_empty() { &built_in } else { steps };
    match read_steps(steps) {
        Ok(percents) => assert!(good && percents == in_force, "{steps:?}"),
        Err(refusal) => assert!(!good && refusal == Refusal::Steps, "{steps:?}"),
    }
    good
}

/// Lists at random: any bytes of any length up to 12, and eight that are in
/// range, falling, or falling but for one byte.
#[test]
fn accepted_as_the_request_says() {
    let mut rng = Rng::new(0);
    let (mut accepted, mut refused) = (0, 0);
    for _ in 0..200_000 {
        let mut steps = match rng.below(4) {
            0 => (0..rng.within(0, 12)).map(|_| rng.word() as u8).collect(),
            1 => (0..8).map(|_| rng.spread(1, 100) as u8).collect(),
            _ => loaded_steps(&mut rng),
        };
        if rng.once_in(2) && !steps.is_empty() {
            let place = rng.below(steps.len() as u64) as usize;
            let near = steps[place].wrapping_add(rng.pick(&[1, 255]));
            steps[place] = rng.pick(&[0, 1, 100, 101, 255, near]);
        }
        let count = if judge(&steps) {
            &mut accepted
        } else {
            &mut refused
        };
        *count += 1;
    }
    assert!(accepted > 50_000 && refused > 50_000, "{accepted}");
}

/// Every two bytes at every two neighbouring places, 100 before and 1 after.
#[test]
fn every_pair_of_neighbours() {
    let mut accepted = 0;
    for place in 0..7 {
        for pair in 0..=u16::MAX {
            let mut steps = [1; 8];
            steps[..place].fill(100);
            steps[place..place + 2].copy_from_slice(&pair.to_be_bytes());
            accepted += u64::from(judge(&steps));
        }
    }
    assert_eq!(accepted, 7 * (100 * 101 / 2));
}

/// A tape or trace at fault in its length or limits is refused by that and not
/// by 14; steps at fault come before a record and before the lent list.
#[test]
fn order_by_hand() {
    let bad_steps = [0; 8];
    let bad_limits = Limits {
        tick: 99,
        ..machine_m()
    };
    let fresh = (
        Line::fresh(&bad_limits, &bad_steps).err(),
        Planner::fresh(&bad_limits, &bad_steps).err(),
    );
    assert_eq!(fresh, (Some(Refusal::Limits), Some(Refusal::Limits)));
    let tape = on_m(&[long(), block(0, 0, 0)]);
    let mut last_bit = tape.clone();
    last_bit[23] |= 1;
    let planned = |tape: &[u8], steps: &[u8], length: usize| {
        let mut list = vec![5; length];
        let fault = plan_tape(tape, steps, &mut list).unwrap_err();
        assert_eq!(list, vec![5; length]);
        (fault.refusal.number(), fault.place)
    };
    assert_eq!(planned(&[0; 32_793], &bad_steps, 1), (10, 0));
    assert_eq!(planned(&tape[..39], &bad_steps, 1), (9, 0));
    assert_eq!(planned(&[0; 24], &bad_steps, 1), (1, 0));
    assert_eq!(planned(&last_bit, &bad_steps, 3), (1, 0));
    assert_eq!(planned(&tape, &bad_steps, 3), (14, 0));
    assert_eq!(planned(&tape[..40], &bad_steps, 5), (14, 0));
    assert_eq!(planned(&tape, &TENS, 5), (2, 2));
    assert_eq!(planned(&tape[..40], &TENS, 5), (11, 0));
    let trace = pack_trace(&machine_m(), &[Call::Add(long()), Call::Take]);
    let bad_trace = pack_trace(&bad_limits, &[Call::Take]);
    assert_eq!(planreplay(&trace[..23], &bad_steps), "refused 9 at 0\n");
    assert_eq!(planreplay(&bad_trace, &bad_steps), "refused 1 at 0\n");
    assert_eq!(planreplay(&trace[..25], &bad_steps), "refused 14 at 0\n");
}

/// What planning a tape into a list of some length answers: 10, 9, 1, 14, the
/// records, 11. Only a record has a place of its own.
fn planned_in_words(tape: &[u8], steps: &[u8], length: usize) -> Result<(), Fault> {
    match read_tape(tape) {
        Err(fault) if fault.place == 0 => Err(fault),
        _ if !in_words(steps) => Err(Refusal::Steps.at_no_record()),
        Err(fault) => Err(fault),
        Ok(tape) if length != tape.blocks.len() + 1 => Err(Refusal::List.at_no_record()),
        Ok(_) => Ok(()),
    }
}

/// Good and faulty tapes, steps and lists together; reading the tape alone has
/// nothing to do with steps.
#[test]
fn order_at_random() {
    let mut met = BTreeSet::new();
    for seed in 0..3_000 {
        let mut rng = Rng::new(seed);
        let count = rng.below(4) as usize;
        let (limits, blocks) = limits_and_path(&mut rng, count);
        let tape = match rng.below(3) {
            0 => faulty_tape(&mut rng),
            _ => Tape { limits, blocks }.pack(),
        };
        let steps = match rng.below(3) {
            0 => faulty_steps(&mut rng),
            _ => steps(&mut rng),
        };
        let right = tape.len().saturating_sub(LIMITS_BYTES) / RECORD_BYTES + 1;
        let length = rng.pick(&[right, right, right + 1, right - 1]);
        let mut list = vec![5; length];
        let answer = plan_tape(&tape, &steps, &mut list);
        assert_eq!(answer, planned_in_words(&tape, &steps, length), "{seed}");
        let read = read_to_plan(&tape, &steps).map(|(_, blocks)| blocks.len());
        assert_eq!(read.err(), planned_in_words(&tape, &steps, right).err());
        met.insert(answer.err().map(|fault| fault.refusal.number()));
    }
    let numbers = [1, 2, 3, 4, 5, 9, 10, 11, 14].map(Some);
    assert_eq!(met, numbers.into_iter().chain([None]).collect());
}

/// Acceleration of a block, µm/s²: the percentage of its speed's step of what
/// the axes allow, rounded down but at least 1.
fn accel_in_words(limits: &Limits, steps: &[u8], block: &Block) -> u64 {
    let length = length_of(block);
    let moving = (0..3).filter(|axis| block.moves[*axis] != 0);
    let allowed = moving.map(|k| limits.accel[k] * length / block.moves[k].unsigned_abs());
    let step = (speed_of(limits, block, length) as usize - 1) / 125_000;
    let built_in = [100, 100, 90, 80, 70, 60, 50, 40];
    let percents: &[u8] = if steps.is_empty() { &built_in } else { steps };
    let full = allowed.min().expect("a moving axis");
    (full * u64::from(percents[step]) / 100).max(1)
}

/// Course of checked blocks under a list of steps.
fn course_in_words(limits: &Limits, steps: &[u8], blocks: &[Block], committed: u64) -> Course {
    let cap = |pair: &[Block]| junction_cap(limits, &pair[0], &pair[1]);
    let reach = |block: &Block| 2 * accel_in_words(limits, steps, block) * length_of(block);
    Course {
        committed,
        caps: blocks.windows(2).map(cap).collect(),
        reaches: blocks.iter().map(reach).collect(),
    }
}

/// The plan that a planner shows.
fn shown<P: LookAhead>(planner: &P) -> Vec<u64> {
    let mut plan = vec![0; planner.told() + 1];
    planner.shown(&mut plan).unwrap();
    plan
}

/// Slow lines after each of many adds and takes: both planners show a lawful
/// profile under their steps, and none of all lawful ones is above it anywhere.
/// Under built-in steps many of the plans would be others.
#[test]
fn highest_of_every_lawful_profile() {
    let mut others = 0;
    for seed in 0..200 {
        let mut rng = Rng::new(seed);
        let limits = Limits {
            accel: [(); 3].map(|_| rng.within(2, 6)),
            speed: [4; 3],
            jump: rng.within(1, 20),
            ..tiny_limits(&mut rng)
        };
        let steps = loaded_steps(&mut rng);
        let mut line = Line::fresh(&limits, &steps).unwrap();
        let mut planner = Planner::fresh(&limits, &steps).unwrap();
        for _ in 0..20 {
            if line.told() == 4 || rng.once_in(3) {
                assert_eq!(planner.take(), line.take());
            } else {
                let block = tiny_block(&mut rng);
                assert_eq!((planner.add(&block), line.add(&block)), (Ok(()), Ok(())));
            }
            let course = |steps| course_in_words(&limits, steps, line.blocks(), line.committed());
            let (plan, all) = (shown(&line), every_lawful(&course(&steps)));
            let below = |profile: &Vec<u64>| profile.iter().zip(&plan).all(|(a, b)| a <= b);
            assert!(all.contains(&plan) && all.iter().all(below), "{seed}");
            assert_eq!(shown(&planner), plan);
            others += u64::from(highest_by_sums(&course(&[])) != plan);
        }
    }
    assert!(others > 500, "{others}");
}

/// Tapes at the edges of the torque steps: the plan is the least sum under the
/// loaded steps, on every step, and often another than under the built-in ones.
#[test]
fn tapes_have_the_highest_plan_under_their_steps() {
    let mut others = 0;
    let mut met = [0; 8];
    for seed in 0..400 {
        let mut rng = Rng::new(seed);
        let (limits, blocks) = path_at_edges(&mut rng, 30);
        let steps = loaded_steps(&mut rng);
        let speed = |block: &Block| speed_of(&limits, block, length_of(block));
        blocks
            .iter()
            .for_each(|block| met[(speed(block) as usize - 1) / 125_000] += 1);
        let plan = |steps| highest_by_sums(&course_in_words(&limits, steps, &blocks, 0));
        let (loaded, built_in) = (plan(&steps), plan(&[]));
        others += u64::from(loaded != built_in);
        let tape = Tape { limits, blocks }.pack();
        let mut list = [0; 31];
        assert_eq!(plan_tape(&tape, &steps, &mut list), Ok(()));
        assert_eq!(list[..], loaded, "{seed}");
        assert_eq!(plan_tape(&tape, &[], &mut list), Ok(()));
        assert_eq!(list[..], built_in, "{seed}");
    }
    assert!(others > 200, "{others}");
    assert!(met.iter().all(|times| *times > 200), "{met:?}");
}

/// Takes blocks of many speeds through a planner whose places are used again
/// and again, beside one with other steps: each keeps its own.
fn keeps_its_steps<P: LookAhead>() {
    let mut rng = Rng::new(4);
    let limits = machine_m();
    let lists: [&[u8]; 3] = [&TENS, &[], &[99, 77, 55, 44, 33, 22, 11, 1]];
    let mut planners = lists.map(|steps| P::fresh(&limits, steps).unwrap());
    let mut told = BTreeSet::new();
    for call in 0..600 {
        let block = Block {
            feed: rng.pick(&edge_speeds()),
            ..block(1_000, 0, 0)
        };
        for (planner, steps) in planners.iter_mut().zip(lists) {
            planner.add(&block).unwrap();
            if call >= 40 {
                let given = planner.take().unwrap();
                assert_eq!(given.accel, accel_in_words(&limits, steps, &given.block));
                told.insert(given.accel);
            }
        }
    }
    // the built-in percentages are all among those of the first list
    assert_eq!(told.len(), 8 + 8);
}

#[test]
fn a_fresh_planner_keeps_its_steps() {
    keeps_its_steps::<Line>();
    keeps_its_steps::<Planner>();
}

/// Loaded steps reach each line of a replay by either planner.
#[test]
fn replay_under_loaded_steps() {
    let calls = [Call::Add(long()), Call::Add(long()), Call::Take];
    let trace = pack_trace(&machine_m(), &calls);
    let row = "0 100000 160000 0 32000000000 32000000000 100000 0 0";
    let text = format!("added\nadded\n{row}\nheld 1\nplan 32000000000 0\n");
    assert_eq!(planreplay(&trace, &TENS), text);
    assert_eq!(planreplay_by::<Planner>(&trace, &TENS), text);
    assert_ne!(planreplay(&trace, &[]), text);
}

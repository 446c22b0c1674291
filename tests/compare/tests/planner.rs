//! The planner on lent memory, call by call.

use std::collections::BTreeSet;

use compare::library::NUMBERS;
use compare::proved::Planner;
use compare::words::{any_block, any_limits, some_steps};
use compare::{hex, report, same, seeds, Trying};
use reference::anew;
use reference::generate::*;
use reference::line::{Line, LookAhead, PLACES};
use reference::machine::Limits;
use reference::refusal::Refusal;
use reference::rng::Rng;
use reference::trace::{pack_call, pack_trace, Call};

/// The answer to a call: what a take gives, or nothing for an add.
type Answer = Result<Option<reference::machine::Given>, Refusal>;

fn answer<P: LookAhead>(planner: &mut P, call: &Call) -> Answer {
    match call {
        Call::Take => planner.take().map(Some),
        Call::Add(block) => planner.add(block).map(|()| None),
    }
}

/// The plan in a list of a length, and the answer.
fn plan<P: LookAhead>(planner: &P, length: usize) -> (Result<(), Refusal>, Vec<u64>) {
    let mut list = vec![77; length];
    (planner.shown(&mut list), list)
}

/// Runs the calls through the proved planner and another, both made with the
/// steps, comparing answers, numbers told and plans shown in lists of right and
/// of wrong length. Gives the numbers on the display that were met.
fn compare_with<P: LookAhead>(
    seed: u64,
    (limits, steps): (&Limits, &[u8]),
    calls: &[Call],
) -> BTreeSet<u64> {
    let mut rng = Rng::new(seed);
    let mut met = BTreeSet::new();
    let mut proved = Planner::fresh(limits, steps).expect("limits and steps that pass");
    let mut other = P::fresh(limits, steps).expect("limits and steps that pass");
    for (place, call) in calls.iter().enumerate() {
        let trace = || hex(&pack_trace(limits, calls));
        let input = || format!("{} under {} at call {place}", trace(), hex(steps));
        let expected = answer(&mut other, call);
        met.insert(expected.map_or_else(|refusal| refusal.number(), |_| 0));
        same(seed, input, answer(&mut proved, call), expected);
        same(seed, input, proved.told(), other.told());
        if rng.once_in(8) || place + 1 == calls.len() {
            let right = other.told() + 1;
            same(seed, input, plan(&proved, right), plan(&other, right));
            let wrong = (right + rng.within(1, 70) as usize) % 71;
            same(seed, input, plan(&proved, wrong), plan(&other, wrong));
        }
    }
    met
}

#[test]
fn every_call_is_answered_as_the_line_of_blocks_says() {
    let (mut met, mut count) = (BTreeSet::new(), 0);
    for seed in seeds(3_000) {
        let _trying = Trying::seed(seed);
        let mut rng = Rng::new(seed);
        let (limits, steps) = (limits(&mut rng), steps(&mut rng));
        let length = rng.within(1, 300) as usize;
        let calls = calls(&mut rng, length);
        count += calls.len();
        met.extend(compare_with::<Line>(seed, (&limits, &steps), &calls));
    }
    assert_eq!(met, BTreeSet::from([0, 2, 3, 4, 5, 6, 7, 8]));
    report(count, "calls against the line of blocks");
}

/// Runs a long list of calls through the proved planner and the one that plans its
/// line anew: every number of every answer, the number told after each call, and
/// the plan after one call in sixteen. Gives the numbers on the display that were
/// met, and how often 64 blocks were held.
fn compare_anew(
    seed: u64,
    (limits, steps): (&Limits, &[u8]),
    calls: &[Call],
) -> (BTreeSet<u64>, usize) {
    let (mut met, mut full) = (BTreeSet::new(), 0);
    let mut proved = Planner::fresh(limits, steps).expect("limits and steps that pass");
    let mut other = anew::Planner::fresh(limits, steps).expect("limits and steps that pass");
    for (place, call) in calls.iter().enumerate() {
        let input = || format!("{limits:?} {steps:?}, call {place} of the list: {call:?}");
        let expected = answer(&mut other, call);
        met.insert(expected.map_or_else(|refusal| refusal.number(), |_| 0));
        same(seed, input, answer(&mut proved, call), expected);
        let told = other.told();
        same(seed, input, proved.told(), told);
        full += usize::from(told == PLACES);
        if place % 16 == 0 || place + 1 == calls.len() {
            same(seed, input, plan(&proved, told + 1), plan(&other, told + 1));
        }
    }
    (met, full)
}

/// A million calls on one planner, under built-in steps at one seed and loaded ones
/// at the next: places and stairs go round thousands of times, full for long,
/// filled and emptied, and by chance, on mould, on straight steps and on paths of
/// every kind, with refused calls among them.
#[test]
fn a_million_calls_are_answered_as_by_planning_anew() {
    let mut count = 0;
    for seed in seeds(4) {
        let _trying = Trying::seed(seed);
        let mut rng = Rng::new(seed);
        let (limits, steps) = match seed % 2 {
            0 => (machine_m(), Vec::new()),
            _ => (limits(&mut rng), loaded_steps(&mut rng)),
        };
        let calls = traffic(&mut rng, 1_000_000, work(Rng::new(!seed)));
        let (met, full) = compare_anew(seed, (&limits, &steps), &calls);
        assert_eq!(met, BTreeSet::from([0, 2, 3, 4, 5, 6, 7, 8]));
        assert!(full > 100_000, "{full} times 64 held");
        count += calls.len();
    }
    report(count, "calls against planning anew");
}

/// Both bench paths, with each number of blocks held from 1 to 64.
#[test]
fn each_number_of_blocks_held_gives_the_same_speeds() {
    let mut count = 0;
    for (held, seed) in (1..=64).zip(seeds(64)) {
        let _trying = Trying::seed(seed);
        let steps = steps(&mut Rng::new(!seed));
        for blocks in [short_steps(seed, 300), straight_steps(seed, 300)] {
            let (first, rest) = blocks.split_at(held);
            let mut list: Vec<Call> = first.iter().map(|b| Call::Add(*b)).collect();
            list.extend(rest.iter().flat_map(|b| [Call::Take, Call::Add(*b)]));
            count += list.len();
            compare_with::<Line>(seed, (&machine_m(), &steps), &list);
        }
    }
    report(count, "calls with 1 to 64 held");
}

/// A planner is filled past 64 blocks and emptied past its last, over and over,
/// from each of its places on.
#[test]
fn full_and_empty_planners_are_answered_as_the_line_of_blocks_says() {
    let mut count = 0;
    for seed in seeds(64) {
        let _trying = Trying::seed(seed);
        let mut rng = Rng::new(seed);
        let (limits, steps) = (limits(&mut rng), steps(&mut rng));
        let turns = (seed % 64) as usize;
        let mut list = Vec::new();
        for block in path(&mut rng, turns) {
            list.extend([Call::Add(block), Call::Take]);
        }
        for _ in 0..2 {
            list.extend(path(&mut rng, 66).into_iter().map(Call::Add));
            list.extend([Call::Take; 66]);
        }
        count += list.len();
        let met = compare_with::<Line>(seed, (&limits, &steps), &list);
        assert_eq!(met, BTreeSet::from([0, 7, 8]), "seed {seed}");
    }
    report(count, "calls of full and empty planners");
}

/// Limits at and beyond the ends of their ranges, and of any words, with steps
/// that pass and steps that do not.
#[test]
fn fresh_planners_are_made_from_the_same_limits_and_steps() {
    let mut made = 0;
    for seed in seeds(20_000) {
        let _trying = Trying::seed(seed);
        let mut rng = Rng::new(seed);
        let limits = match rng.below(4) {
            0 => any_limits(&mut rng),
            1 => faulty_limits(&mut rng),
            _ => limits(&mut rng),
        };
        let steps = some_steps(&mut rng);
        let expected = Line::fresh(&limits, &steps).map(|line| line.profile());
        let proved = Planner::fresh(&limits, &steps);
        made += usize::from(proved.is_ok());
        let shown = proved.map(|planner| {
            assert_eq!(planner.told(), 0);
            plan(&planner, 1).1
        });
        same(seed, || format!("{limits:?} {steps:?}"), shown, expected);
    }
    assert!(made > 5_000, "{made}");
    report(20_000, "fresh planners");
}

/// Blocks of any 64-bit words are refused alike, also by a full planner, and
/// leave the memory as it was (the call itself sees to that).
#[test]
fn adds_of_any_words_are_answered_alike() {
    let mut count = 0;
    for seed in seeds(200) {
        let _trying = Trying::seed(seed);
        let mut rng = Rng::new(seed);
        let steps = steps(&mut rng);
        let mut proved = Planner::fresh(&machine_m(), &steps).expect("steps that pass");
        let mut line = Line::fresh(&machine_m(), &steps).expect("steps that pass");
        for block in short_steps(seed, rng.within(0, 64) as usize) {
            proved.add(&block).expect("room");
            line.add(&block).expect("room");
        }
        for _ in 0..200 {
            let block = any_block(&mut rng);
            let expected = line.add(&block);
            same(seed, || format!("{block:?}"), proved.add(&block), expected);
            count += 1;
        }
        same(seed, String::new, proved.told(), line.told());
    }
    report(count, "adds of any words");
}

/// Two planners run in turn, one of them moved to other memory each time: a
/// planner is its 848 numbers and nothing else.
#[test]
fn planners_do_not_disturb_one_another() {
    let mut count = 0;
    for seed in seeds(100) {
        let _trying = Trying::seed(seed);
        let mut rng = Rng::new(seed);
        let both = [(); 2].map(|_| (limits(&mut rng), steps(&mut rng)));
        let lists = [calls(&mut rng, 200), calls(&mut rng, 200)];
        let passing = "limits and steps that pass";
        let mut lines = both
            .each_ref()
            .map(|(l, s)| Line::fresh(l, s).expect(passing));
        let mut planners = both
            .each_ref()
            .map(|(l, s)| Planner::fresh(l, s).expect(passing));
        for (first, second) in lists[0].iter().zip(&lists[1]) {
            for (i, call) in [first, second].into_iter().enumerate() {
                let expected = answer(&mut lines[i], call);
                let found = answer(&mut planners[i], call);
                same(seed, || hex(&pack_call(call)), found, expected);
                count += 1;
            }
            let memory: [u64; NUMBERS] = planners[1].memory().try_into().expect("848 numbers");
            planners[1] = Planner::of_memory(&memory);
        }
    }
    report(count, "calls on two planners");
}

//! Every number of a planner's memory, and every answer, as the promise of the
//! calls says for that memory: on noise, on memories of planners with numbers
//! changed, the torque among them, or with stairs at the ends of what a call
//! compares, and on those that calls alone have made.

use std::collections::{BTreeMap, BTreeSet};

use compare::library::NUMBERS;
use compare::memories::{any_memory, at_the_ends_of_a_drop, at_the_ends_of_a_take, left_by_calls};
use compare::proved::Planner;
use compare::ring::{Ring, COUNT, FIRST, FIRST_STAIR, HEAD, TORQUE};
use compare::words::{any_block, any_limits, some_steps};
use compare::{report, same, seeds, Trying};
use reference::generate::*;
use reference::line::LookAhead;
use reference::machine::{Block, Given, Limits};
use reference::refusal::Refusal;
use reference::rng::Rng;
use reference::trace::Call;

/// A call that may write the memory.
#[derive(Clone, Debug)]
enum Writes {
    Fresh(Limits, Vec<u8>),
    Add(Block),
    Take,
}

/// Kinds of answers that calls on a planner's own memory can meet.
const ANSWERS: [&str; 10] = [
    "fresh 0",
    "add 0",
    "add 2",
    "add 3",
    "add 4",
    "add 5",
    "add 6",
    "add 7",
    "take 8",
    "take with a ramp",
];

/// The answer to it: what a take gives, else nothing.
type Answer = Result<Option<Given>, Refusal>;

fn by_the_library(planner: &mut Planner, call: &Writes) -> Answer {
    match call {
        Writes::Fresh(limits, steps) => planner.freshen(limits, steps).map(|()| None),
        Writes::Add(block) => planner.add(block).map(|()| None),
        Writes::Take => planner.take().map(Some),
    }
}

fn by_the_promise(ring: &mut Ring, call: &Writes) -> Answer {
    match call {
        Writes::Fresh(limits, steps) => ring.freshen(limits, steps).map(|()| None),
        Writes::Add(block) => ring.add(block).map(|()| None),
        Writes::Take => ring.take().map(Some),
    }
}

/// Where two memories first differ, with both numbers there.
fn difference(planner: &Planner, ring: &Ring) -> Option<(usize, u64, u64)> {
    let both = planner.memory().iter().zip(ring.memory());
    let mut places = (0..).zip(both).filter(|(_, (ours, other))| ours != other);
    places.next().map(|(k, (ours, other))| (k, *ours, *other))
}

/// Compares the number told and the plan in a list of a length.
fn compare_shown(seed: u64, planner: &Planner, ring: &Ring, length: usize) {
    let input = || format!("{:?} in {length}", ring.memory());
    let (mut ours, mut other) = (vec![77; length], vec![77; length]);
    let answers = (planner.shown(&mut ours), ring.shown(&mut other));
    same(seed, input, answers.0, answers.1);
    same(seed, input, ours, other);
    same(seed, input, planner.told(), ring.told());
}

/// A planner of the library and the promise's ring on the same memory.
struct Both {
    seed: u64,
    planner: Planner,
    ring: Ring,
    /// How often each kind of answer was met.
    met: BTreeMap<String, usize>,
}

impl Both {
    fn on(seed: u64, memory: &[u64; NUMBERS]) -> Both {
        Both {
            seed,
            planner: Planner::of_memory(memory),
            ring: Ring::of_memory(memory),
            met: BTreeMap::new(),
        }
    }

    /// Runs a call on both: the answers and all numbers of the memory are the
    /// same afterwards, and so are the number told and the plan.
    fn run(&mut self, call: &Writes, length: usize) {
        let before = self.ring.clone();
        let input = || format!("{call:?} on {:?}", before.memory());
        let expected = by_the_promise(&mut self.ring, call);
        let found = by_the_library(&mut self.planner, call);
        same(self.seed, input, found, expected);
        same(
            self.seed,
            input,
            difference(&self.planner, &self.ring),
            None,
        );
        compare_shown(self.seed, &self.planner, &self.ring, self.ring.told() + 1);
        compare_shown(self.seed, &self.planner, &self.ring, length);
        *self.met.entry(kind(call, &expected)).or_default() += 1;
    }
}

/// The kind of an answer: the call, its number, and of a block given out
/// whether it has a ramp.
fn kind(call: &Writes, answer: &Answer) -> String {
    let name = match call {
        Writes::Fresh(..) => "fresh",
        Writes::Add(_) => "add",
        Writes::Take => "take",
    };
    match answer {
        Err(refusal) => format!("{name} {}", refusal.number()),
        Ok(None) => format!("{name} 0"),
        Ok(Some(given)) if given.ramp.peak > 0 => format!("{name} with a ramp"),
        Ok(Some(_)) => format!("{name} with none"),
    }
}

/// Calls as they come, with a fresh planner at times.
fn some_calls(rng: &mut Rng, count: usize) -> Vec<Writes> {
    let mut list = Vec::new();
    for call in calls(rng, count) {
        list.push(match call {
            _ if rng.once_in(20) => Writes::Fresh(limits(rng), steps(rng)),
            _ if rng.once_in(30) => Writes::Fresh(limits(rng), faulty_steps(rng)),
            _ if rng.once_in(30) => Writes::Fresh(faulty_limits(rng), some_steps(rng)),
            _ if rng.once_in(30) => Writes::Fresh(any_limits(rng), some_steps(rng)),
            _ if rng.once_in(20) => Writes::Add(any_block(rng)),
            Call::Add(block) => Writes::Add(block),
            Call::Take => Writes::Take,
        });
    }
    list
}

/// Sees that each of the kinds of answers was met at least so often.
fn confirm_met(met: &BTreeMap<String, usize>, kinds: &[&str], least: usize) {
    for kind in kinds {
        let times = met.get(*kind).copied().unwrap_or(0);
        assert!(times >= least, "{kind}: {times} times in {met:?}");
    }
}

fn add_up(all: &mut BTreeMap<String, usize>, met: BTreeMap<String, usize>) {
    met.into_iter()
        .for_each(|(kind, times)| *all.entry(kind).or_default() += times);
}

/// Memory of every kind: uniform noise, small numbers, numbers beside powers of
/// 2, and memories of planners with numbers changed. Counts and first places
/// above 64 are among them.
#[test]
fn every_memory_is_answered_and_left_as_promised() {
    let (mut met, mut count) = (BTreeMap::new(), 0);
    for seed in seeds(12_000) {
        let _trying = Trying::seed(seed);
        let mut rng = Rng::new(seed);
        let mut both = Both::on(seed, &any_memory(&mut rng));
        for call in some_calls(&mut rng, 12) {
            both.run(&call, rng.below(70) as usize);
            count += 1;
        }
        add_up(&mut met, both.met);
    }
    confirm_met(&met, &ANSWERS, 100);
    confirm_met(&met, &["fresh 1", "fresh 14", "take with none"], 100);
    report(count, "calls on memory of any kind");
}

/// Long runs on memory that calls alone have made, fresh planners on used
/// memory among them.
#[test]
fn a_planners_memory_is_left_as_promised() {
    let (mut met, mut count) = (BTreeMap::new(), 0);
    for seed in seeds(200) {
        let _trying = Trying::seed(seed);
        let mut rng = Rng::new(seed);
        let memory = [(); NUMBERS].map(|_| rng.word());
        let mut both = Both::on(seed, &memory);
        both.run(&Writes::Fresh(limits(&mut rng), steps(&mut rng)), 1);
        for call in calls(&mut rng, 400) {
            let call = match call {
                _ if rng.once_in(100) => Writes::Fresh(limits(&mut rng), steps(&mut rng)),
                Call::Add(block) => Writes::Add(block),
                Call::Take => Writes::Take,
            };
            both.run(&call, rng.below(70) as usize);
            count += 1;
        }
        add_up(&mut met, both.met);
    }
    confirm_met(&met, &ANSWERS, 20);
    report(count, "calls of planners, with all their memory");
}

/// A memory with room for one block more, and with one held.
fn with_room(rng: &mut Rng) -> [u64; NUMBERS] {
    let mut memory = left_by_calls(rng);
    memory[COUNT] = memory[COUNT].clamp(1, 63);
    memory
}

/// Adds that drop none of the stairs, some, or all 63 at once: caps at what is seen
/// from them and beside it, sums that pass a word, and takes behind each.
#[test]
fn stairs_at_the_ends_of_a_drop_are_answered_as_promised() {
    let (mut dropped, mut count) = (BTreeMap::new(), 0);
    for seed in seeds(6_000) {
        let _trying = Trying::seed(seed);
        let mut rng = Rng::new(seed);
        let (mut memory, block) = (with_room(&mut rng), block(&mut rng));
        let cap = Ring::of_memory(&memory).new_junction(&block);
        at_the_ends_of_a_drop(&mut rng, &mut memory, cap);
        let mut both = Both::on(seed, &memory);
        let before = both.ring.stairs_before() % 64;
        both.run(&Writes::Add(block), rng.below(70) as usize);
        let after = both.ring.stairs_before();
        *dropped.entry(before + 1 - after).or_insert(0) += 1;
        for _ in 0..rng.below(4) {
            both.run(&Writes::Take, rng.below(70) as usize);
            count += 1;
        }
        count += 1;
    }
    let often = |number: u64| dropped.get(&number).is_some_and(|times| *times >= 50);
    assert!([0, 1, 2, 63].into_iter().all(often), "{dropped:?}");
    assert!(dropped.len() > 40, "{dropped:?}");
    report(count, "calls that meet stairs at the ends of a drop");
}

/// Takes whose first block ends at the first stair, before it and behind it, and
/// totals beside what the stair says.
#[test]
fn stairs_at_the_ends_of_a_take_are_answered_as_promised() {
    let (mut moved, mut count) = (0, 0);
    for seed in seeds(6_000) {
        let _trying = Trying::seed(seed);
        let mut rng = Rng::new(seed);
        let mut memory = with_room(&mut rng);
        at_the_ends_of_a_take(&mut rng, &mut memory);
        let mut both = Both::on(seed, &memory);
        both.run(&Writes::Take, rng.below(70) as usize);
        moved += usize::from(both.ring.memory()[FIRST_STAIR] != memory[FIRST_STAIR]);
        both.run(&Writes::Add(block(&mut rng)), rng.below(70) as usize);
        count += 2;
    }
    assert!((1_000..5_000).contains(&moved), "{moved}");
    report(count, "calls that meet a stair at the ends of a take");
}

/// The torque that the scope document's percentages and each list of loaded ones
/// make in memory: a byte for each, the first most significant.
fn torque_of(steps: &[u8]) -> u64 {
    let built_in = [100, 100, 90, 80, 70, 60, 50, 40];
    u64::from_be_bytes(steps.try_into().unwrap_or(built_in))
}

/// A fresh planner on used memory: the numbers of the head are new, and the
/// places and the stairs keep what they held.
#[test]
fn a_fresh_planner_leaves_places_and_stairs_as_they_were() {
    for seed in seeds(2_000) {
        let _trying = Trying::seed(seed);
        let mut rng = Rng::new(seed);
        let before = left_by_calls(&mut rng);
        let steps = steps(&mut rng);
        let mut both = Both::on(seed, &before);
        both.run(&Writes::Fresh(limits(&mut rng), steps.clone()), 1);
        let after = both.planner.memory();
        assert_eq!(after[HEAD..], before[HEAD..], "seed {seed}");
        assert_eq!(after[FIRST..TORQUE], [0; 3], "seed {seed}");
        assert_eq!(after[FIRST_STAIR..HEAD], [0; 3], "seed {seed}");
        assert_eq!(after[TORQUE], torque_of(&steps), "seed {seed}");
    }
    report(2_000, "fresh planners on used memory");
}

/// A torque that no list of steps makes: no percentage at all, the greatest of a
/// byte, one too great, rising ones, or noise.
fn unmade_torque(rng: &mut Rng) -> u64 {
    match rng.below(6) {
        0 => 0,
        1 => u64::MAX,
        2 => u64::from_be_bytes([101; 8]),
        3 => u64::from_be_bytes([1, 2, 3, 4, 5, 6, 7, 8]),
        _ => rng.word(),
    }
}

/// Blocks of each edge speed of the steps, added to a planner with such a torque
/// and given out: acceleration, reach and speeds are as the promise says, and a
/// take is answered with a ramp.
#[test]
fn a_torque_that_no_steps_make_is_answered_as_promised() {
    let (mut met, mut percents, mut count) = (BTreeMap::new(), BTreeSet::new(), 0);
    for seed in seeds(60) {
        let _trying = Trying::seed(seed);
        let mut rng = Rng::new(seed);
        for speed in edge_speeds() {
            let (way, cause) = (rng.pick(&WAYS), rng.pick(&CAUSES));
            let (limits, block) = block_of_speed(&mut rng, speed, way, cause);
            let made = Planner::fresh(&limits, &steps(&mut rng)).expect("both pass");
            let mut memory: [u64; NUMBERS] = made.memory().try_into().expect("848 numbers");
            memory[TORQUE] = unmade_torque(&mut rng);
            percents.insert(memory[TORQUE].to_be_bytes()[(speed as usize - 1) / 125_000]);
            let mut both = Both::on(seed, &memory);
            let (add, take) = (Writes::Add(block), Writes::Take);
            for call in [&add, &add, &take, &add, &take, &take] {
                both.run(call, 2);
                count += 1;
            }
            add_up(&mut met, both.met);
        }
    }
    assert_eq!(met.len(), 2, "{met:?}");
    confirm_met(&met, &["add 0", "take with a ramp"], count / 2);
    let beyond = percents.iter().filter(|percent| **percent > 100);
    assert!(beyond.count() > 50 && percents.contains(&0), "{percents:?}");
    report(count, "calls with a torque that no steps make");
}

/// A planner whose first block lies at each of the 64 places in turn: 64 blocks
/// are held, the next is refused by 7, and takes go on until it is empty.
#[test]
fn sixty_four_blocks_are_held_from_every_place_on() {
    let (mut met, mut count) = (BTreeMap::new(), 0);
    for seed in seeds(64) {
        let _trying = Trying::seed(seed);
        let mut rng = Rng::new(seed);
        let mut both = Both::on(seed, &[rng.word(); NUMBERS]);
        both.run(&Writes::Fresh(limits(&mut rng), steps(&mut rng)), 0);
        let blocks = path(&mut rng, 200);
        let (before, rest) = blocks.split_at((seed % 64) as usize);
        let turn = before.iter().flat_map(|b| [Writes::Add(*b), Writes::Take]);
        let adds = rest[..66].iter().map(|b| Writes::Add(*b));
        for call in turn.chain(adds).chain(vec![Writes::Take; 66]) {
            both.run(&call, 66);
            count += 1;
        }
        add_up(&mut met, both.met);
    }
    confirm_met(&met, &["add 7", "take 8"], 2 * 64);
    report(count, "calls of full and empty planners");
}

//! The owner's own torque steps, wherever they are taken: by a fresh planner, a
//! whole tape's plan, a report, a trace and the programs (planreport.rs has those
//! of planreport). Worked accelerations and plans;
//! which lists are accepted, and that a refused one changes nothing; which of
//! several refusals comes first; that steps are fixed when they are taken; and
//! the acceleration at each edge of the eight steps.
//!
//! Numbers on the display and the rule for a list stand here as the request has
//! them: they are not the reference's. What a torque in memory answers that no
//! steps make, `memory` tries.

use std::collections::BTreeSet;
use std::hint::black_box;

use compare::library::{fullerecru_fresh, LISTED, NUMBERS, PLAN, ROW};
use compare::programs::{planlist, planorders, planreplay, run, run_under, run_with_steps};
use compare::proved::{self, Planner, Report};
use compare::ring::TORQUE;
use compare::traces::rows;
use compare::words::limit_words;
use compare::{hex, report, same, seeds, Trying};
use reference::generate::*;
use reference::line::{Line, LookAhead};
use reference::listing;
use reference::machine::{Block, Given, Limits, Machine, Numbers};
use reference::orders::{pack_orders, Event};
use reference::refusal::{Fault, Refusal};
use reference::rng::Rng;
use reference::tape::{Tape, LIMITS_BYTES, MOST_BLOCKS, RECORD_BYTES};
use reference::trace::{pack_trace, Call, CALL_BYTES};

/// What planlist, planreplay and planorders write for steps at fault.
const REFUSED: &str = "refused 14 at 0\n";

/// The steps where none are loaded.
const BUILT_IN: [u8; 8] = [100, 100, 90, 80, 70, 60, 50, 40];

/// Steps that fall by 10 from 100.
const TENS: [u8; 8] = [100, 90, 80, 70, 60, 50, 40, 30];

/// Steps of which each has a percentage that no other has.
const PRIMES: [u8; 8] = [97, 89, 83, 71, 59, 43, 29, 13];

/// Lists of steps; the acceleration, µm/s², of a block of 100 mm at 300,000 µm/s
/// under each on machine M; and the squared speed, (µm/s)², between two of them.
const WORKED: [(&[u8], u64, u64); 4] = [
    (&[], 180_000, 36_000_000_000),
    (&[100; 8], 200_000, 40_000_000_000),
    (&TENS, 160_000, 32_000_000_000),
    (&[1; 8], 2_000, 400_000_000),
];

/// The block of 100 mm along X at 300,000 µm/s.
fn long() -> Block {
    Block {
        moves: [100_000, 0, 0],
        feed: 300_000,
        radius: 0,
        mark: 0,
    }
}

/// A tape of two such blocks on machine M.
fn tape_of_two() -> Vec<u8> {
    let (limits, blocks) = (machine_m(), vec![long(); 2]);
    Tape { limits, blocks }.pack()
}

/// A trace that adds the two and takes one.
fn trace_of_two() -> Vec<u8> {
    let calls = [Call::Add(long()), Call::Add(long()), Call::Take];
    pack_trace(&machine_m(), &calls)
}

/// Orders of the same two and a take.
fn orders_of_two() -> Vec<u8> {
    let to = |x: f64| Event::feed([x, 0.0, 0.0], 300.0);
    pack_orders(&machine_m(), &[to(100.0), to(200.0), Event::take()])
}

/// A planner on limits and steps that pass.
fn fresh<P: LookAhead>(limits: &Limits, steps: &[u8]) -> P {
    P::fresh(limits, steps).unwrap_or_else(|refusal| panic!("{limits:?} {steps:?}: {refusal:?}"))
}

#[test]
fn a_planner_has_the_worked_accelerations_and_plans() {
    for (steps, accel, middle) in WORKED {
        let mut planner: Planner = fresh(&machine_m(), steps);
        assert_eq!([planner.add(&long()), planner.add(&long())], [Ok(()); 2]);
        let mut plan = [77; 3];
        assert_eq!(planner.shown(&mut plan), Ok(()));
        assert_eq!(plan, [0, middle, 0], "{steps:?}");
        let taken = [(); 2].map(|_| planner.take().expect("a block held"));
        let speeds = taken.map(|given| [given.accel, given.entry, given.exit]);
        assert_eq!(speeds, [[accel, 0, middle], [accel, middle, 0]]);
    }
    report(4, "worked lists of steps in a planner");
}

#[test]
fn tapes_and_traces_have_the_worked_accelerations_and_plans() {
    for (steps, accel, middle) in WORKED {
        let mut list = [77; 3];
        assert_eq!(proved::plan_tape(&tape_of_two(), steps, &mut list), Ok(()));
        assert_eq!(list, [0, middle, 0], "{steps:?}");
        let (mut answers, mut plan) = ([77; 3 * ROW], [88; PLAN]);
        let told = proved::replay(&trace_of_two(), steps, &mut answers, &mut plan);
        assert_eq!((told, &plan[..2]), (Ok(1), &[middle, 0][..]), "{steps:?}");
        let taken = &answers[2 * ROW..];
        // length, acceleration, entry and exit come after number, moves and fields
        assert_eq!(taken[7..11], [100_000, accel, 0, middle]);
    }
    report(8, "worked lists of steps with a tape and a trace");
}

/// At one seed none loaded is no file, at the next an empty one.
#[test]
fn the_programs_have_the_worked_accelerations_and_plans() {
    for (steps, accel, middle) in WORKED {
        let first = format!("0 100000 {accel} 0 {middle} {middle} 100000 0 0\n");
        let second = format!("0 100000 {accel} {middle} {middle} 0 0 0 100000\n");
        let listing = format!("{}\n{first}{second}", listing::HEADER);
        let replayed = format!("added\nadded\n{first}held 1\nplan {middle} 0\n");
        // an order's mark is its place, and the host ends at 200,000 µm
        let ordered = replayed.replacen("\n0 ", "\n1 ", 1);
        let ordered = format!("{ordered}point {} 0 0\n", 200_000_f64.to_bits());
        for seed in 0..2 {
            let listed = run_under(seed, &planlist(), steps, &tape_of_two());
            assert_eq!(listed, listing, "{steps:?}");
            let text = run_under(seed, &planreplay(), steps, &trace_of_two());
            assert_eq!(text, replayed, "{steps:?}");
            let text = run_under(seed, &planorders(), steps, &orders_of_two());
            assert_eq!(text, ordered, "{steps:?}");
        }
    }
    report(4 * 2 * 3, "worked lists of steps in the programs");
}

/// Good bytes that are not eight; 264 and 65,544 are eight to who counts in one
/// byte or in two.
fn wrong_lengths() -> Vec<Vec<u8>> {
    let mut longest = TENS.to_vec();
    longest.resize(65_544, 30);
    let lengths = (1..8).chain(9..=300).chain([longest.len()]);
    lengths.map(|length| longest[..length].to_vec()).collect()
}

/// Eight steps of one percentage, from a place on of another.
fn from_place_on(most: u8, place: usize, percent: u8) -> Vec<u8> {
    let mut steps = vec![most; 8];
    steps[place..].fill(percent);
    steps
}

/// Eight steps of one percentage, at one place of another.
fn at_place(most: u8, place: usize, percent: u8) -> Vec<u8> {
    let mut steps = vec![most; 8];
    steps[place] = percent;
    steps
}

/// A 0 at each place, with 0 behind it and without; each byte above 100 at the
/// first place, with good ones behind it and without.
fn out_of_range() -> Vec<Vec<u8>> {
    let zeros = (0..8).flat_map(|place| [from_place_on(50, place, 0), at_place(50, place, 0)]);
    let above = (101..=255).flat_map(|byte| [at_place(100, 0, byte), vec![byte; 8]]);
    zeros.chain(above).collect()
}

/// A rise by 1 at each of the seven places after the first, for good and for one
/// step.
fn rising() -> Vec<Vec<u8>> {
    let rises = |place| [from_place_on(50, place, 51), at_place(99, place, 100)];
    (1..8).flat_map(rises).collect()
}

/// Every list above.
fn refused_lists() -> Vec<Vec<u8>> {
    [wrong_lengths(), out_of_range(), rising()].concat()
}

/// The number of an answer; 0 says accepted.
fn number<T>(answer: &Result<T, Refusal>) -> u64 {
    answer.as_ref().map_or_else(|r| r.number(), |_| 0)
}

/// The number and the place of a tape planned under steps in a list of `n`
/// numbers, which a refusal leaves as it is.
fn tape_number(tape: &[u8], steps: &[u8], n: usize) -> (u64, u64) {
    let mut list = vec![77; n];
    match proved::plan_tape(tape, steps, &mut list) {
        Ok(()) => (0, 0),
        Err(Fault { refusal, place }) => {
            assert_eq!(list, vec![77; n], "refused by {refusal:?}");
            (refusal.number(), place)
        }
    }
}

/// The number and the place of a tape under steps in a report, which a refusal
/// leaves as it is.
fn report_number(tape: &[u8], steps: &[u8]) -> (u64, u64) {
    let before = [7, 1, 2, 3, 4, 5, 6, 9];
    let mut own = Report::of_numbers(&before);
    match own.add(tape, steps) {
        Ok(_) => (0, 0),
        Err(Fault { refusal, place }) => {
            assert_eq!(own.numbers(), before, "refused by {refusal:?}");
            (refusal.number(), place)
        }
    }
}

/// The number and the place of a tape under steps of which is told what held it
/// in a list of `n` numbers, which a refusal leaves as it is.
fn held_number(tape: &[u8], steps: &[u8], n: usize) -> (u64, u64) {
    let mut list = vec![77; n];
    match proved::held_by(tape, steps, &mut list) {
        Ok(()) => (0, 0),
        Err(Fault { refusal, place }) => {
            assert_eq!(list, vec![77; n], "refused by {refusal:?}");
            (refusal.number(), place)
        }
    }
}

/// The number and the place of a tape under steps listed in `n` numbers, which a
/// refusal leaves as they are.
fn list_number(tape: &[u8], steps: &[u8], n: usize) -> (u64, u64) {
    let mut rows = vec![77; n];
    match proved::list_tape(tape, steps, &mut rows) {
        Ok(()) => (0, 0),
        Err(Fault { refusal, place }) => {
            assert_eq!(rows, vec![77; n], "refused by {refusal:?}");
            (refusal.number(), place)
        }
    }
}

/// The number of a trace run under steps in lists of these lengths, which a
/// refusal leaves as they are.
fn trace_number(trace: &[u8], steps: &[u8], [numbers, junctions]: [usize; 2]) -> u64 {
    let (mut answers, mut plan) = (vec![77; numbers], vec![88; junctions]);
    let answer = proved::replay(trace, steps, &mut answers, &mut plan);
    if answer.is_err() {
        assert_eq!((answers, plan), (vec![77; numbers], vec![88; junctions]));
    }
    number(&answer)
}

/// Both planners on the same limits and steps, after the same calls.
fn used(rng: &mut Rng) -> (Planner, Line) {
    let (limits, steps) = (limits(rng), steps(rng));
    let (mut planner, mut line): (Planner, Line) = (fresh(&limits, &steps), fresh(&limits, &steps));
    for block in path(rng, 8) {
        planner.add(&block).expect("room");
        line.add(&block).expect("room");
    }
    assert_eq!(planner.take(), line.take());
    (planner, line)
}

/// A planner whose fresh start is refused keeps its 848 numbers and goes on as
/// the line of blocks does that knows of no such call. The lists that are lent
/// with a tape and with a trace, and a report, hold what they held.
#[test]
fn refused_lists_change_nothing() {
    let lists = refused_lists();
    for (refused, seed) in lists.iter().zip(seeds(lists.len() as u64)) {
        let _trying = Trying::seed(seed);
        let mut rng = Rng::new(seed);
        let (mut planner, mut line) = used(&mut rng);
        let before = planner.memory().to_vec();
        let answer = planner.freshen(&limits(&mut rng), refused);
        assert_eq!(number(&answer), 14, "{refused:?}");
        assert_eq!(planner.memory(), before, "{refused:?}");
        for _ in 0..8 {
            same(seed, || hex(refused), planner.take(), line.take());
        }
        let told = tape_number(&tape_of_two(), refused, 3);
        assert_eq!(told, (14, 0), "{refused:?}");
        let told = [
            report_number(&tape_of_two(), refused),
            held_number(&tape_of_two(), refused, 1),
            list_number(&tape_of_two(), refused, 2 * LISTED),
        ];
        assert_eq!(told, [(14, 0); 3], "{refused:?}");
        let lengths = [3 * ROW, PLAN];
        let told = trace_number(&trace_of_two(), refused, lengths);
        assert_eq!(told, 14, "{refused:?}");
    }
    report(6 * lists.len(), "calls with refused lists of steps");
}

#[test]
fn the_programs_refuse_the_same_lists() {
    let lists = refused_lists();
    let (tape, trace, orders) = (tape_of_two(), trace_of_two(), orders_of_two());
    for steps in &lists {
        let listed = run_with_steps(&planlist(), steps, &tape, usize::MAX);
        assert_eq!(listed, REFUSED, "{steps:?}");
        let replayed = run_with_steps(&planreplay(), steps, &trace, usize::MAX);
        assert_eq!(replayed, REFUSED, "{steps:?}");
        let ordered = run_with_steps(&planorders(), steps, &orders, usize::MAX);
        assert_eq!(ordered, REFUSED, "{steps:?}");
    }
    report(3 * lists.len(), "refused lists of steps in the programs");
}

/// The request's words: none loaded, or eight bytes, each 1 to 100 and none
/// above the one before it.
fn in_words(steps: &[u8]) -> bool {
    let within = |place: usize| 1 <= steps[place] && steps[place] <= 100;
    let not_above = |place: usize| steps[place] <= steps[place - 1];
    let eight = steps.len() == 8 && (0..8).all(within) && (1..8).all(not_above);
    steps.is_empty() || eight
}

/// Sees that a fresh planner is made with the steps if the words accept them,
/// and then has them, or the built-in ones, in memory, the first most
/// significant. Says whether it is made.
fn judge(planner: &mut Planner, steps: &[u8]) -> bool {
    let good = in_words(steps);
    let answer = planner.freshen(&machine_m(), steps);
    assert_eq!(number(&answer), if good { 0 } else { 14 }, "{steps:?}");
    if good {
        let in_force = steps.try_into().unwrap_or(BUILT_IN);
        let torque = planner.memory()[TORQUE];
        assert_eq!(torque.to_be_bytes(), in_force, "{steps:?}");
    }
    good
}

/// Every pair of bytes at each two neighbouring places, the greatest before them
/// and the least behind.
#[test]
fn every_pair_of_neighbours_is_judged_by_the_words() {
    let mut planner: Planner = fresh(&machine_m(), &[]);
    let mut met = [0; 2];
    for place in 0..7 {
        let mut steps = from_place_on(100, place, 1);
        for pair in 0..=u16::MAX {
            steps[place..place + 2].copy_from_slice(&pair.to_be_bytes());
            met[usize::from(judge(&mut planner, &steps))] += 1;
        }
    }
    // the pairs of 1 to 100 of which the second is not above the first
    assert_eq!(met[1], 7 * 5_050);
    report(met[0] + met[1], "pairs of neighbouring steps");
}

/// Puts one byte on the border of what its neighbour or its range allows, or one
/// beyond.
fn move_to_border(rng: &mut Rng, steps: &mut [u8]) {
    let place = rng.below(steps.len() as u64) as usize;
    let before = if place == 0 { 100 } else { steps[place - 1] };
    let own = steps[place];
    let near = [before, before.wrapping_add(1), own.wrapping_add(1)];
    let ends = [own.wrapping_sub(1), 0, 1, 100, 101];
    steps[place] = rng.pick(&[&near[..], &ends].concat());
}

/// Lists near the border: falling ones and others in range, of which a byte or
/// two are moved there; a byte more or less; and noise.
fn near_the_border(rng: &mut Rng) -> Vec<u8> {
    let mut steps: Vec<u8> = match rng.below(6) {
        0 => (0..rng.within(0, 12)).map(|_| rng.word() as u8).collect(),
        1 => (0..8).map(|_| rng.spread(1, 100) as u8).collect(),
        _ => loaded_steps(rng),
    };
    for _ in 0..rng.below(3) {
        if !steps.is_empty() {
            move_to_border(rng, &mut steps);
        }
    }
    match rng.below(12) {
        0 => steps.truncate(7),
        1 => steps.extend(steps.last().copied()),
        _ => {}
    }
    steps
}

/// Exactly the lists that the words accept are accepted, by each function alike.
#[test]
fn lists_near_the_border_are_judged_by_the_words() {
    let (tape, trace) = (tape_of_two(), trace_of_two());
    let mut met = [0; 2];
    for seed in seeds(40_000) {
        let _trying = Trying::seed(seed);
        let steps = near_the_border(&mut Rng::new(seed));
        let mut planner: Planner = fresh(&machine_m(), &[]);
        let good = judge(&mut planner, &steps);
        let expected = if good { 0 } else { 14 };
        let told = tape_number(&tape, &steps, 3);
        assert_eq!(told, (expected, 0), "{steps:?}");
        let told = trace_number(&trace, &steps, [3 * ROW, PLAN]);
        assert_eq!(told, expected, "{steps:?}");
        met[usize::from(good)] += 1;
    }
    assert!(met.iter().all(|times| *times > 8_000), "{met:?}");
    report(3 * 40_000, "calls with lists near the border");
}

/// The programs judge as the words do: a refusal's line, or another text.
#[test]
fn the_programs_judge_by_the_words() {
    let (tape, trace, orders) = (tape_of_two(), trace_of_two(), orders_of_two());
    let mut met = [0; 2];
    for seed in seeds(300) {
        let steps = near_the_border(&mut Rng::new(seed));
        let good = in_words(&steps);
        let listed = run_under(seed, &planlist(), &steps, &tape);
        assert_eq!(listed != REFUSED, good, "{steps:?}");
        let replayed = run_under(seed, &planreplay(), &steps, &trace);
        assert_eq!(replayed != REFUSED, good, "{steps:?}");
        let ordered = run_under(seed, &planorders(), &steps, &orders);
        assert_eq!(ordered != REFUSED, good, "{steps:?}");
        met[usize::from(good)] += 1;
    }
    assert!(met.iter().all(|times| *times > 40), "{met:?}");
    report(900, "lists near the border in the programs");
}

/// What a whole tape, and what a trace, can be refused by, first check first; 2
/// stands for any fault of a record.
const TAPE_CHECKS: [u64; 6] = [10, 9, 1, 14, 2, 11];
const TRACE_CHECKS: [u64; 4] = [9, 1, 14, 11];

/// Each set of the checks: those that fail.
fn every_set(checks: &[u64]) -> Vec<BTreeSet<u64>> {
    let chosen = |set: u64| {
        (0..)
            .zip(checks)
            .filter(move |(bit, _)| set >> bit & 1 == 1)
    };
    let set = |set| chosen(set).map(|(_, check)| *check).collect();
    (0..1 << checks.len()).map(set).collect()
}

/// The first check of an order that fails.
fn first_of(checks: &[u64], failing: &BTreeSet<u64>) -> Option<u64> {
    checks.iter().copied().find(|check| failing.contains(check))
}

/// Limits, bad ones where check 1 is to fail, and steps, bad ones for 14.
fn limits_and_steps(rng: &mut Rng, failing: &BTreeSet<u64>) -> (Limits, Vec<u8>) {
    let limits = match failing.contains(&1) {
        true => faulty_limits(rng),
        false => limits(rng),
    };
    let steps = match failing.contains(&14) {
        true => faulty_steps(rng),
        false => steps(rng),
    };
    (limits, steps)
}

/// A tape and steps at fault, as the order of the checks says them.
struct FaultyTape {
    bytes: Vec<u8>,
    steps: Vec<u8>,
    /// Length of the lent list, of one for what held the inner junctions, and of
    /// one for the rows.
    junctions: usize,
    inner: usize,
    listed: usize,
    /// Number and place that are to be told.
    expected: (u64, u64),
}

/// A tape, steps and a list for which just these checks fail.
fn faulty(rng: &mut Rng, failing: &BTreeSet<u64>) -> FaultyTape {
    let (limits, steps) = limits_and_steps(rng, failing);
    let too_many = if failing.contains(&10) {
        MOST_BLOCKS
    } else {
        0
    };
    let records = too_many + rng.within(1, 6) as usize;
    let blocks = path(rng, records);
    let mut bytes = Tape { limits, blocks }.pack();
    let (place, faults) = (rng.within(1, records as u64), rng.pick(&TAPE_FAULTS));
    if failing.contains(&2) {
        spoil_record(rng, &mut bytes, place as usize, faults);
    }
    if failing.contains(&9) {
        bytes.truncate(bytes.len() - rng.within(1, RECORD_BYTES as u64 - 1) as usize);
    }
    let wrong = rng.pick(&[0, records, records + 2]);
    let more = rng.within(1, 2) as usize;
    let (junctions, inner, listed) = match failing.contains(&11) {
        true => (wrong, records - 1 + more, LISTED * records - more),
        false => (records + 1, records - 1, LISTED * records),
    };
    FaultyTape {
        bytes,
        steps,
        junctions,
        inner,
        listed,
        expected: match first_of(&TAPE_CHECKS, failing) {
            Some(2) => (faults[0], place),
            told => (told.unwrap_or(0), 0),
        },
    }
}

/// Each set of faults that a tape can have at once: the first in the order 10, 9,
/// 1, 14, records, 11 is told; a report has no list, so it never gives 11.
#[test]
fn of_a_tapes_faults_the_first_is_told() {
    let mut count = 0;
    for seed in seeds(20) {
        let _trying = Trying::seed(seed);
        let mut rng = Rng::new(seed);
        for failing in every_set(&TAPE_CHECKS) {
            let tape = faulty(&mut rng, &failing);
            let told = tape_number(&tape.bytes, &tape.steps, tape.junctions);
            let input = || format!("{failing:?} {} {}", hex(&tape.steps), hex(&tape.bytes));
            same(seed, input, told, tape.expected);
            let told = held_number(&tape.bytes, &tape.steps, tape.inner);
            same(seed, input, told, tape.expected);
            let told = list_number(&tape.bytes, &tape.steps, tape.listed);
            same(seed, input, told, tape.expected);
            let told = report_number(&tape.bytes, &tape.steps);
            let expected = match tape.expected {
                (11, _) => (0, 0),
                expected => expected,
            };
            same(seed, input, told, expected);
            count += 4;
        }
    }
    report(count, "sets of a tape's faults");
}

/// The same by planlist, which lends the right list.
#[test]
fn of_a_tapes_faults_planlist_tells_the_first() {
    let mut count = 0;
    for seed in seeds(4) {
        let mut rng = Rng::new(seed);
        for failing in every_set(&TAPE_CHECKS[..5]) {
            let tape = faulty(&mut rng, &failing);
            let text = run_under(seed, &planlist(), &tape.steps, &tape.bytes);
            let expected = match tape.expected {
                (0, _) => listing::planlist(&tape.bytes, &tape.steps),
                (number, place) => format!("refused {number} at {place}\n"),
            };
            let input = || format!("{failing:?} {} {}", hex(&tape.steps), hex(&tape.bytes));
            same(seed, input, text, expected);
            count += 1;
        }
    }
    report(count, "sets of a tape's faults in planlist");
}

/// Each set of faults of a trace: 9, 1, 14, 11; and of a fresh planner: 1, 14.
#[test]
fn of_a_traces_and_a_planners_faults_the_first_is_told() {
    let mut count = 0;
    for seed in seeds(100) {
        let _trying = Trying::seed(seed);
        let mut rng = Rng::new(seed);
        for failing in every_set(&TRACE_CHECKS) {
            let (limits, steps) = limits_and_steps(&mut rng, &failing);
            let mut trace = pack_trace(&limits, &calls(&mut rng, 9));
            let right = rows(&trace);
            if failing.contains(&9) {
                let cut = [1, CALL_BYTES - 1, 9 * CALL_BYTES + 1];
                trace.truncate(trace.len() - rng.pick(&cut));
            }
            let wrong = [[right - ROW, PLAN], [right, PLAN - 1], [0, 0]];
            let lengths = match failing.contains(&11) {
                true => rng.pick(&wrong),
                false => [right, PLAN],
            };
            let input = || format!("{failing:?} {} {}", hex(&steps), hex(&trace));
            let expected = first_of(&TRACE_CHECKS, &failing).unwrap_or(0);
            let told = trace_number(&trace, &steps, lengths);
            same(seed, input, told, expected);
            let expected = first_of(&[1, 14], &failing).unwrap_or(0);
            let told = number(&Planner::fresh(&limits, &steps));
            same(seed, input, told, expected);
            count += 2;
        }
    }
    report(count, "sets of a trace's and a planner's faults");
}

/// planreplay tells limits that are cut short, then bad ones, then bad steps,
/// each alone; only then it looks at calls, of which the last is cut short here.
#[test]
fn of_a_traces_faults_planreplay_tells_the_first() {
    let mut count = 0;
    for seed in seeds(12) {
        let mut rng = Rng::new(seed);
        for failing in every_set(&[9, 1, 14]) {
            let (limits, steps) = limits_and_steps(&mut rng, &failing);
            let mut trace = pack_trace(&limits, &calls(&mut rng, 9));
            trace.truncate(match failing.contains(&9) {
                true => rng.below(LIMITS_BYTES as u64) as usize,
                false => trace.len() - 1,
            });
            let text = run_under(seed, &planreplay(), &steps, &trace);
            let expected = match first_of(&[9, 1, 14], &failing) {
                Some(number) => format!("refused {number} at 0\n"),
                None => listing::planreplay(&trace, &steps),
            };
            let input = || format!("{failing:?} {} {}", hex(&steps), hex(&trace));
            same(seed, input, text, expected);
            count += 1;
        }
    }
    report(count, "sets of a trace's faults in planreplay");
}

/// Adds the blocks to both planners, which have the same limits and steps, and
/// takes from both while more than 20 are held; `meanwhile` runs before each
/// call. Gives what was taken.
fn run_both(
    seed: u64,
    (planner, line): (&mut Planner, &mut Line),
    blocks: &[Block],
    mut meanwhile: impl FnMut(),
) -> Vec<Given> {
    let mut taken = Vec::new();
    for block in blocks {
        meanwhile();
        same(seed, String::new, planner.add(block), line.add(block));
        meanwhile();
        if line.told() > 20 {
            let given = planner.take();
            same(seed, || format!("{block:?}"), given, line.take());
            taken.extend(given);
        }
    }
    taken
}

/// How many of the blocks given out have another acceleration under other steps.
fn others(limits: &Limits, steps: &[u8], given: &[Given]) -> usize {
    let machine = Machine::of(limits, steps).expect("limits and steps that pass");
    let differs = |given: &&Given| Numbers::of(&machine, &given.block).accel != given.accel;
    given.iter().filter(differs).count()
}

/// The list of steps is read while a planner is made, and not later: its owner
/// writes other steps over it before each of the planner's calls.
#[test]
fn a_list_of_steps_may_be_written_over_afterwards() {
    let (mut count, mut telling) = (0, 0);
    for seed in seeds(200) {
        let mut rng = Rng::new(seed);
        let (limits, blocks) = path_at_edges(&mut rng, 60);
        let lists = [loaded_steps(&mut rng), loaded_steps(&mut rng)];
        let mut lent = lists[0].clone();
        let (mut memory, words) = ([seed; NUMBERS], limit_words(&limits));
        let to = memory.as_mut_ptr();
        let number = unsafe { fullerecru_fresh(to, words.as_ptr(), lent.as_ptr(), lent.len()) };
        assert_eq!(number, 0, "{limits:?} {lists:?}");
        let (mut planner, mut line) = (Planner::of_memory(&memory), fresh(&limits, &lists[0]));
        let overwrite = || black_box(&mut lent).copy_from_slice(&lists[1]);
        let both = (&mut planner, &mut line);
        let taken = run_both(seed, both, &blocks, overwrite);
        telling += others(&limits, &lists[1], &taken);
        count += taken.len();
    }
    assert!(telling > count / 4, "{telling} of {count}");
    report(count, "blocks given out while the steps are written over");
}

/// A planner made fresh with some steps, in memory that held one with others,
/// keeps to its own; with none, to the built-in ones.
#[test]
fn a_planner_made_fresh_has_its_own_steps() {
    let (mut count, mut telling) = (0, 0);
    for seed in seeds(200) {
        let _trying = Trying::seed(seed);
        let mut rng = Rng::new(seed);
        let (limits, blocks) = path_at_edges(&mut rng, 60);
        let lists = [loaded_steps(&mut rng), Vec::new(), loaded_steps(&mut rng)];
        let mut planner: Planner = fresh(&limits, &PRIMES);
        let mut before: &[u8] = &PRIMES;
        for steps in &lists {
            planner.freshen(&limits, steps).expect("both pass");
            let mut line: Line = fresh(&limits, steps);
            let taken = run_both(seed, (&mut planner, &mut line), &blocks, || ());
            telling += others(&limits, before, &taken);
            count += taken.len();
            before = steps;
        }
    }
    assert!(telling > count / 4, "{telling} of {count}");
    report(count, "blocks given out of memory with other steps");
}

/// A tape that no plan is made of, as its steps are at fault, is read part by
/// part and written back byte by byte: both take no steps. (That no bytes and no
/// block give 14 to them, `tape_calls` sees.)
#[test]
fn a_tape_whose_steps_are_refused_is_read_and_written() {
    let mut count = 0;
    for seed in seeds(300) {
        let _trying = Trying::seed(seed);
        let mut rng = Rng::new(seed);
        let (bytes, refused) = (tape(&mut rng), faulty_steps(&mut rng));
        assert_eq!(tape_number(&bytes, &refused, 0), (14, 0), "seed {seed}");
        let mut written = vec![7; bytes.len()];
        let (head, records) = written.split_at_mut(LIMITS_BYTES);
        let limits = proved::read_limits(&bytes).expect("limits that pass");
        assert_eq!(proved::write_limits(&limits, head), Ok(()));
        let places = bytes[LIMITS_BYTES..].chunks(RECORD_BYTES);
        for (record, place) in places.zip(records.chunks_mut(RECORD_BYTES)) {
            let block = proved::read_record(record).expect("a record that passes");
            assert_eq!(proved::write_record(&block, place), Ok(()));
            count += 1;
        }
        assert_eq!(written, bytes, "seed {seed}");
    }
    report(300 + count, "parts of tapes with steps at fault");
}

/// The acceleration, µm/s², of a block in a planner and in a trace.
fn accelerations(limits: &Limits, steps: &[u8], block: &Block) -> [u64; 2] {
    let mut planner: Planner = fresh(limits, steps);
    planner.add(block).expect("a block that passes");
    let trace = pack_trace(limits, &[Call::Add(*block), Call::Take]);
    let (mut answers, mut plan) = ([77; 2 * ROW], [88; PLAN]);
    proved::replay(&trace, steps, &mut answers, &mut plan).expect("a whole trace");
    let given = planner.take().expect("a block held");
    [given.accel, answers[ROW + 8]]
}

/// The plan of a block twice on a tape.
fn plan_twice(limits: &Limits, steps: &[u8], block: &Block) -> [u64; 3] {
    let (limits, blocks) = (*limits, vec![*block; 2]);
    let mut list = [77; 3];
    let tape = Tape { limits, blocks }.pack();
    proved::plan_tape(&tape, steps, &mut list).expect("a tape that passes");
    list
}

/// Each edge speed, straight and oblique, by the feed and by the limit of an
/// axis, under steps of eight percentages and under others: the acceleration is
/// the reference's, and it is the percentage at the speed's place in the list of
/// what eight times 100 percent leave, rounded down, but at least 1. A tape has
/// its reach between two such blocks.
#[test]
fn every_edge_speed_has_the_acceleration_of_its_step() {
    let mut count = 0;
    let ways = WAYS
        .iter()
        .flat_map(|way| CAUSES.map(|cause| (*way, cause)));
    for ((way, cause), seed) in ways.cycle().zip(seeds(60)) {
        let _trying = Trying::seed(seed);
        let mut rng = Rng::new(seed);
        for speed in edge_speeds() {
            let (limits, block) = block_of_speed(&mut rng, speed, way, cause);
            let full = accelerations(&limits, &[100; 8], &block)[0];
            for steps in [PRIMES.to_vec(), loaded_steps(&mut rng)] {
                let machine = Machine::of(&limits, &steps).expect("both pass");
                let numbers = Numbers::of(&machine, &block);
                let input = || format!("{limits:?} {steps:?} {block:?}");
                let percent = u64::from(steps[(speed as usize - 1) / 125_000]);
                let accel = (full * percent / 100).max(1);
                assert_eq!(numbers.accel, accel, "{}", input());
                let found = accelerations(&limits, &steps, &block);
                same(seed, input, found, [accel; 2]);
                let middle = numbers.reach.min(numbers.cap);
                let found = plan_twice(&limits, &steps, &block);
                same(seed, input, found, [0, middle, 0]);
                count += 3;
            }
        }
    }
    report(count, "edge speeds under loaded steps");
}

/// Paths at edge speeds under loaded steps, in planlist and planreplay; without
/// the steps most of the texts are others.
#[test]
fn the_programs_have_the_accelerations_of_edge_speeds() {
    let mut telling = 0;
    for seed in seeds(60) {
        let mut rng = Rng::new(seed);
        let (limits, blocks) = path_at_edges(&mut rng, 60);
        let steps = loaded_steps(&mut rng);
        let adds = blocks.iter().map(|block| Call::Add(*block));
        let calls: Vec<Call> = adds.chain([Call::Take; 60]).collect();
        let trace = pack_trace(&limits, &calls);
        let tape = Tape { limits, blocks }.pack();
        let input = || format!("{} under {}", hex(&trace), hex(&steps));
        let listed = run_with_steps(&planlist(), &steps, &tape, usize::MAX);
        let replayed = run_with_steps(&planreplay(), &steps, &trace, usize::MAX);
        telling += usize::from(run(&planlist(), &tape) != listed);
        same(seed, input, listed, listing::planlist(&tape, &steps));
        same(seed, input, replayed, listing::planreplay(&trace, &steps));
    }
    assert!(telling > 30, "{telling}");
    report(120, "paths at edge speeds in the programs");
}

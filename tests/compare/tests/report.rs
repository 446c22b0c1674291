//! What held tapes back: the figures of a tape, a report over many, and what held
//! each inner junction, through the library and by the reference.

use std::collections::BTreeSet;

use compare::library::REPORT;
use compare::proved::{self, Report};
use compare::tapes::{cut_tapes, examples_and_longest, filled, some_tape};
use compare::words::{any_word, some_steps};
use compare::{first_seed, hex, report, same, seeds, Trying};
use reference::examples::{right_angle, what_held};
use reference::generate::*;
use reference::machine::{Block, Machine};
use reference::plan::from_rest;
use reference::refusal::Fault;
use reference::report::{self as known, Figures, JunctionCaps};
use reference::rng::Rng;
use reference::tape::{pack_limits, read_to_plan, Tape, LIMITS_BYTES, MOST_BYTES};

/// The number on the display and the place of an answer; 0 and 0 if accepted.
fn number<T>(answer: &Result<T, Fault>) -> (u64, u64) {
    match answer {
        Ok(_) => (0, 0),
        Err(fault) => (fault.refusal.number(), fault.place),
    }
}

/// A fresh report's answer to a tape, and its numbers after it.
type Reported = (Result<Figures, Fault>, [u64; REPORT]);

fn reported(tape: &[u8], steps: &[u8]) -> Reported {
    let mut own = Report::fresh();
    (own.add(tape, steps), own.numbers())
}

/// The same by the reference.
fn expected(tape: &[u8], steps: &[u8]) -> Reported {
    let mut own = known::Report::fresh();
    (own.add(tape, steps), own.numbers())
}

/// Inner junctions of a tape of so many bytes.
fn inner(bytes: usize) -> usize {
    (bytes.saturating_sub(LIMITS_BYTES) / 16).saturating_sub(1)
}

/// How often a list has each of the numbers 0 to 3, and nothing else.
fn counts(list: &[u64]) -> [u64; 4] {
    let mut counts = [0; 4];
    list.iter().for_each(|by| counts[*by as usize] += 1);
    counts
}

/// Compares figures, report and list of a tape, the list of `n` numbers too; the
/// counts are the list's. Gives the numbers of report and list, and the counts.
fn compare(seed: u64, (tape, steps): (&[u8], &[u8]), n: usize) -> ([u64; 2], [u64; 4]) {
    let input = || format!("{} under {} in {n} numbers", hex(tape), hex(steps));
    let found = reported(tape, steps);
    same(seed, input, found, expected(tape, steps));
    let listed = filled(proved::held_by, (tape, steps), n);
    same(
        seed,
        input,
        &listed,
        &filled(known::held_by, (tape, steps), n),
    );
    let numbers = [number(&found.0).0, number(&listed.0).0];
    let (Ok(figures), Ok(())) = (found.0, listed.0) else {
        return (numbers, [0; 4]);
    };
    let own = counts(&listed.1);
    let all = figures.numbers();
    same(seed, input, own, [all[3], all[4], all[5], all[6]]);
    assert_eq!(own.iter().sum::<u64>(), all[0].saturating_sub(1));
    assert_eq!(found.1, [&[1][..], &all].concat()[..], "seed {seed}");
    (numbers, own)
}

#[test]
fn accepted_tapes_have_the_same_figures() {
    let mut met = [0; 4];
    for seed in seeds(4_000) {
        let _trying = Trying::seed(seed);
        let (tape, steps) = some_tape(seed);
        let (numbers, own) = compare(seed, (&tape, &steps), inner(tape.len()));
        assert_eq!(numbers, [0; 2], "seed {seed}");
        met = [0, 1, 2, 3].map(|by| met[by] + own[by]);
    }
    assert!(met.iter().all(|count| *count > 5_000), "{met:?}");
    report(4_000, "accepted tapes");
}

/// Refusals with their places, one or two faults at once, steps at fault among
/// them, in lists of right and wrong length: 11 comes from a list alone.
#[test]
fn faulty_tapes_have_the_same_refusal_and_place() {
    let mut met = [BTreeSet::new(), BTreeSet::new()];
    for seed in seeds(8_000) {
        let _trying = Trying::seed(seed);
        let mut rng = Rng::new(seed);
        let (tape, steps) = (faulty_tape(&mut rng), some_steps(&mut rng));
        let right = inner(tape.len());
        let wrong = (right + rng.within(1, 9) as usize) % (right + 5);
        for n in [right, wrong] {
            let (numbers, _) = compare(seed, (&tape, &steps), n);
            met[0].insert(numbers[0]);
            met[1].insert(numbers[1]);
        }
    }
    let mut numbers = BTreeSet::from([0, 1, 2, 3, 4, 5, 9, 10, 14]);
    assert_eq!(met[0], numbers);
    numbers.insert(11);
    assert_eq!(met[1], numbers);
    report(2 * 8_000, "faulty tapes");
}

/// Each length of an accepted tape, byte by byte, and around the longest.
#[test]
fn cut_and_lengthened_tapes_are_answered_alike() {
    let (bytes, lengths) = cut_tapes();
    for (length, seed) in lengths.iter().zip(seeds(lengths.len() as u64)) {
        let _trying = Trying::seed(seed);
        let steps = some_steps(&mut Rng::new(seed));
        compare(seed, (&bytes[..*length], &steps), inner(*length));
    }
    report(lengths.len(), "cut tapes");
}

/// Tapes of 0 to 6 blocks in lists of 0 to 8 numbers.
#[test]
fn lists_of_every_length_are_answered_alike() {
    let mut count = 0;
    for seed in seeds(20) {
        let _trying = Trying::seed(seed);
        let mut rng = Rng::new(seed);
        for blocks in 0..=6 {
            let (limits, path) = tied_path(&mut rng, blocks);
            let blocks = path;
            let right = blocks.len().saturating_sub(1);
            let tape = Tape { limits, blocks }.pack();
            for n in 0..=8 {
                let (numbers, _) = compare(seed, (&tape, &steps(&mut rng)), n);
                assert_eq!(numbers, [0, if n == right { 0 } else { 11 }], "{n}");
                count += 1;
            }
        }
    }
    report(count, "lists of 0 to 8 numbers");
}

#[test]
fn examples_and_longest_tapes_have_the_same_figures() {
    let tapes = examples_and_longest();
    let mut rng = Rng::new(first_seed());
    for (tape, seed) in tapes.iter().zip(seeds(tapes.len() as u64)) {
        let _trying = Trying::seed(seed);
        let bytes = tape.pack();
        for steps in [Vec::new(), loaded_steps(&mut rng)] {
            let (numbers, _) = compare(seed, (&bytes, &steps), inner(bytes.len()));
            assert_eq!(numbers, [0; 2], "seed {seed}");
        }
    }
    report(2 * tapes.len(), "example and longest tapes");
}

/// Which of a junction's three caps are its least, as bits 1, 2 and 4, and
/// whether the plan is that.
fn tied(caps: &JunctionCaps, plan: u64) -> (u64, bool) {
    let least = caps.least();
    let equal = [Some(caps.feed), caps.corner, caps.chord].map(|cap| cap == Some(least));
    let bits = (0..3).map(|k| u64::from(equal[k]) << k).sum();
    (bits, u128::from(plan) == least)
}

/// Paths about ties: every set of the three caps is the least at some junction
/// whose plan is that and at some whose plan is below it.
#[test]
fn ties_are_told_alike() {
    let mut met = BTreeSet::new();
    for seed in seeds(3_000) {
        let _trying = Trying::seed(seed);
        let mut rng = Rng::new(seed);
        let (tape, steps) = (tied_tape(&mut rng), steps(&mut rng));
        compare(seed, (&tape, &steps), inner(tape.len()));
        let (machine, blocks) = read_to_plan(&tape, &steps).expect("a tape that passes");
        let plan = from_rest(&machine, &blocks);
        for (pair, plan) in blocks.windows(2).zip(&plan[1..]) {
            let caps = JunctionCaps::of(&machine.limits, &pair[0], &pair[1]);
            met.insert(tied(&caps, *plan));
        }
    }
    let every = (1..8).flat_map(|bits| [(bits, false), (bits, true)]);
    assert_eq!(met, every.collect());
    report(3_000, "tapes about ties");
}

/// Pairs of blocks of few and small numbers, one after the other straight, back,
/// at a right angle: equal caps are frequent, corner caps of 0 among them.
#[test]
fn small_pairs_are_told_alike() {
    let mut met = BTreeSet::new();
    for seed in seeds(6_000) {
        let _trying = Trying::seed(seed);
        let mut rng = Rng::new(seed);
        let limits = tiny_limits(&mut rng);
        let count = rng.within(2, 4);
        let blocks: Vec<Block> = (0..count).map(|_| tiny_block(&mut rng)).collect();
        let tape = Tape { limits, blocks }.pack();
        let (_, own) = compare(seed, (&tape, &[]), inner(tape.len()));
        met.insert(own);
    }
    assert!(met.len() > 8, "{met:?}");
    report(6_000, "tapes of small numbers");
}

/// Lists of tapes with refused ones between, until past 100 accepted.
#[test]
fn long_lists_of_tapes_have_the_same_report() {
    let mut count = 0;
    for seed in seeds(12) {
        let _trying = Trying::seed(seed);
        let mut rng = Rng::new(seed);
        let mut own = Report::of_numbers(&[(); REPORT].map(|_| any_word(&mut rng)));
        own.freshen();
        assert_eq!(own.numbers(), [0; REPORT], "seed {seed}");
        let mut expected = known::Report::fresh();
        let (mut closed, mut turns) = (0, 0);
        while closed < 8 {
            let (tape, steps) = match rng.below(5) {
                0 => (faulty_tape(&mut rng), steps(&mut rng)),
                1 => (tied_tape(&mut rng), faulty_steps(&mut rng)),
                2 => some_tape(rng.word()),
                _ => (tied_tape(&mut rng), steps(&mut rng)),
            };
            let input = || format!("{} under {}", hex(&tape), hex(&steps));
            closed += u64::from(expected.tapes == 100);
            let found = own.add(&tape, &steps);
            same(seed, input, found, expected.add(&tape, &steps));
            same(seed, input, own.numbers(), expected.numbers());
            turns += 1;
        }
        assert_eq!(own.numbers()[0], 100, "seed {seed}");
        count += turns;
    }
    report(count, "tapes of long lists");
}

/// Reports of any content: sums begin at 0 again past 64 bits, the peak is the
/// greater, and from 100 tapes on every tape is refused by 10 at 0.
#[test]
fn any_content_of_a_report_is_answered_alike() {
    let mut met = BTreeSet::new();
    for seed in seeds(5_000) {
        let _trying = Trying::seed(seed);
        let mut rng = Rng::new(seed);
        let mut numbers = [(); REPORT].map(|_| any_word(&mut rng));
        if !rng.once_in(4) {
            numbers[0] = rng.pick(&[0, 1, 50, 98, 99, 99, 100, 101]);
        }
        if rng.once_in(2) {
            let place = rng.within(1, 7) as usize;
            numbers[place] = u64::MAX - rng.below(3);
        }
        let (tape, steps) = match rng.below(6) {
            0 => (faulty_tape(&mut rng), some_steps(&mut rng)),
            _ => (tied_tape(&mut rng), some_steps(&mut rng)),
        };
        let (mut own, mut expected) = (
            Report::of_numbers(&numbers),
            known::Report::of_numbers(numbers),
        );
        let input = || format!("{numbers:?} {} under {}", hex(&tape), hex(&steps));
        let found = own.add(&tape, &steps);
        same(seed, input, found, expected.add(&tape, &steps));
        same(seed, input, own.numbers(), expected.numbers());
        met.insert((numbers[0].min(101), number(&found).0 == 10));
    }
    for tapes in [100, 101] {
        let both = [true, false].map(|closed| met.contains(&(tapes, closed)));
        assert_eq!(both, [true, false], "{tapes}");
    }
    assert!(met.contains(&(99, false)));
    report(5_000, "reports of any content");
}

/// A block on machine M without curve or mark, feed 20,000 µm/s.
fn block(moves: [i64; 3]) -> Block {
    Block {
        moves,
        feed: 20_000,
        radius: 0,
        mark: 0,
    }
}

/// A tape of blocks on machine M.
fn on_m(blocks: &[Block]) -> Vec<u8> {
    let (limits, blocks) = (machine_m(), blocks.to_vec());
    Tape { limits, blocks }.pack()
}

/// (1000,0,0) there and back with a feed, µm/s, and a radius, µm.
fn there_and_back(feed: u64, radius: u64) -> Vec<u8> {
    let along = |moves| Block {
        feed,
        radius,
        ..block(moves)
    };
    on_m(&[along([1_000, 0, 0]), along([-1_000, 0, 0])])
}

/// A tape, its figures, and what held each inner junction.
type Worked = (Vec<u8>, [u64; 7], Vec<u64>);

/// A block there and back: the three caps of the junction are 1,000,000 (µm/s)²,
/// but for a feed other than 1,000 µm/s and without a radius.
fn worked_tie(feed: u64, radius: u64, by: usize) -> Worked {
    let mut figures = [2, 2_000, 1_000_000, 0, 0, 0, 0];
    figures[3 + by] = 1;
    (there_and_back(feed, radius), figures, vec![by as u64])
}

/// Tapes whose figures were worked out by hand.
fn worked() -> Vec<Worked> {
    let (east, short) = (block([1_000, 0, 0]), block([10, 0, 0]));
    let curved = Block { radius: 1, ..short };
    let straight = [2, 2_000, 400_000_000, 1, 0, 0, 0];
    let tight = [3, 30, 2_500_000, 0, 0, 2, 0];
    let mixed = [7, 3_210, 400_000_000, 1, 1, 3, 1];
    vec![
        (on_m(&[]), [0; 7], vec![]),
        (on_m(&[east]), [1, 1_000, 200_000_000, 0, 0, 0, 0], vec![]),
        (on_m(&[east; 2]), straight, vec![0]),
        (
            on_m(&[short; 3]),
            [3, 30, 6_000_000, 0, 0, 0, 2],
            vec![3; 2],
        ),
        (on_m(&[curved, curved, short]), tight, vec![2; 2]),
        (what_held().pack(), mixed, vec![0, 1, 2, 2, 2, 3]),
        worked_tie(1_000, 0, 0),
        worked_tie(1_000, 1, 0),
        worked_tie(1_001, 1, 1),
        worked_tie(20_000, 1, 1),
    ]
}

/// Panics unless a tape has the figures, and its junctions are held so.
fn expect_worked((tape, figures, junctions): &Worked, steps: &[u8]) {
    let (answer, numbers) = reported(tape, steps);
    assert_eq!(answer.map(|own| own.numbers()), Ok(*figures));
    assert_eq!(numbers, [&[1][..], figures].concat()[..]);
    let listed = filled(proved::held_by, (tape, steps), junctions.len());
    assert_eq!(listed, (Ok(()), junctions.clone()));
}

#[test]
fn worked_tapes_have_these_figures() {
    let all = worked();
    all.iter().for_each(|tape| expect_worked(tape, &[]));
    for (steps, peak) in [(&[][..], 201_000_000), (&[50; 8], 101_000_000)] {
        let figures = [2, 2_000, peak, 0, 1, 0, 0];
        expect_worked(&(right_angle().pack(), figures, vec![1]), steps);
    }
    report(all.len() + 2, "worked tapes");
}

/// Pair, mixed, pair under half the torque, two refused, limits only, two more
/// refused.
#[test]
fn the_worked_list_has_these_sums() {
    let (pair, mixed) = (right_angle().pack(), what_held().pack());
    let still = [pack_limits(&machine_m(), 0), vec![0; 16]].concat();
    let mut own = Report::fresh();
    for (tape, steps, expected) in [
        (&pair[..], &[][..], (0, 0)),
        (&mixed, &[], (0, 0)),
        (&pair, &[50; 8], (0, 0)),
        (&pair, &[100; 7], (14, 0)),
        (&pair[..23], &[], (9, 0)),
        (&pair[..24], &[], (0, 0)),
        (&still, &[], (2, 1)),
        (&[], &[], (9, 0)),
    ] {
        assert_eq!(number(&own.add(tape, steps)), expected);
    }
    assert_eq!(own.numbers(), [4, 11, 7_210, 400_000_000, 1, 3, 3, 1]);
    report(8, "tapes of the worked list");
}

/// 100 pairs, then one more, five bytes, and what is refused otherwise.
#[test]
fn after_100_tapes_all_are_refused_by_10() {
    let pair = right_angle().pack();
    let mut own = Report::fresh();
    for _ in 0..100 {
        assert_eq!(number(&own.add(&pair, &[])), (0, 0));
    }
    let full = [100, 200, 200_000, 201_000_000, 0, 100, 0, 0];
    assert_eq!(own.numbers(), full);
    let bad = pack_limits(&machine_m(), 1);
    let many = vec![0; MOST_BYTES + 1];
    for (tape, steps) in [
        (&pair[..], &[][..]),
        (&pair[..5], &[]),
        (&bad, &[1]),
        (&pair[..24], &[1]),
        (&[], &[]),
        (&many, &[]),
        (&[&pair[..], &[0; 16]].concat(), &[]),
    ] {
        assert_eq!(number(&own.add(tape, steps)), (10, 0));
        assert_eq!(own.numbers(), full);
    }
    own.freshen();
    assert_eq!(own.numbers(), [0; REPORT]);
    assert_eq!(number(&own.add(&pair, &[])), (0, 0));
    report(109, "tapes of a report that is closed");
}

/// The plan of a tape and what held it go together: at every junction that a cap
/// held, the plan is that cap, and below it at every other.
#[test]
fn lists_fit_the_plan() {
    let mut count = 0;
    for seed in seeds(400) {
        let _trying = Trying::seed(seed);
        let (tape, steps) = some_tape(seed);
        let (machine, blocks): (Machine, Vec<Block>) = read_to_plan(&tape, &steps).expect("a tape");
        let mut plan = vec![77; blocks.len() + 1];
        proved::plan_tape(&tape, &steps, &mut plan).expect("a tape that passes");
        let (_, list) = filled(proved::held_by, (&tape, &steps), inner(tape.len()));
        for ((pair, plan), by) in blocks.windows(2).zip(&plan[1..]).zip(&list) {
            let caps = JunctionCaps::of(&machine.limits, &pair[0], &pair[1]);
            let own = [Some(caps.feed), caps.corner, caps.chord];
            let plan = u128::from(*plan);
            let fits = match own.get(*by as usize) {
                Some(cap) => *cap == Some(plan) && plan == caps.least(),
                None => plan < caps.least(),
            };
            assert!(fits, "seed {seed}: {caps:?} {plan} {by}");
            count += 1;
        }
    }
    report(count, "junctions beside their plan");
}

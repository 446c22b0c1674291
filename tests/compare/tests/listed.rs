//! The list of a tape, a row of 13 numbers a block, through the library and by the
//! reference; and the library's version.

use std::collections::BTreeSet;

use compare::library::{LISTED, VERSION};
use compare::proved::{self, Planner};
use compare::tapes::{cut_tapes, examples_and_longest, filled, some_tape};
use compare::words::{given_words, some_steps};
use compare::{first_seed, hex, report, same, seeds, Trying};
use reference::examples::{example_steps, right_angle, STEP_NAMES};
use reference::generate::*;
use reference::line::{LookAhead, PLACES};
use reference::machine::Block;
use reference::rng::Rng;
use reference::tape::{
    pack_limits, read_limits, read_tape, Tape, LIMITS_BYTES, MOST_BLOCKS, RECORD_BYTES,
};
use reference::tape_list;

/// Places of a row's numbers.
const ENTRY: usize = 5;
const EXIT: usize = 6;
const JUNCTION_CAP: usize = 12;

/// Whole records of a tape of so many bytes.
fn records(bytes: usize) -> usize {
    bytes.saturating_sub(LIMITS_BYTES) / RECORD_BYTES
}

/// Compares answer, place and rows of a tape in a list of `n` numbers, which a
/// refusal leaves as it was; gives number and place, 0 and 0 if accepted.
fn compare(seed: u64, (tape, steps): (&[u8], &[u8]), n: usize) -> (u64, u64) {
    let input = || format!("{} under {} in {n} numbers", hex(tape), hex(steps));
    let found = filled(proved::list_tape, (tape, steps), n);
    let known = filled(tape_list::list_tape, (tape, steps), n);
    same(seed, input, &found, &known);
    let Err(fault) = found.0 else {
        return (0, 0);
    };
    same(seed, input, found.1, vec![77; n]);
    (fault.refusal.number(), fault.place)
}

/// The rows of a tape that passes.
fn rows(tape: &[u8], steps: &[u8]) -> Vec<[u64; LISTED]> {
    let n = LISTED * records(tape.len());
    let (answer, numbers) = filled(proved::list_tape, (tape, steps), n);
    assert_eq!(answer, Ok(()));
    let row = |row: &[u64]| row.try_into().expect("13 numbers");
    numbers.chunks(LISTED).map(row).collect()
}

/// A list length that is not the right one: near it, or that of another count.
fn wrong_size(rng: &mut Rng, right: usize) -> usize {
    let blocks = right / LISTED;
    let sizes = [right + 1, right + LISTED, blocks + 1, 11 * blocks + 1];
    let size = match rng.below(6) {
        0 => right.saturating_sub(1),
        1 => right.saturating_sub(LISTED),
        _ => rng.pick(&sizes),
    };
    if size == right {
        right + 1
    } else {
        size
    }
}

#[test]
fn the_library_has_the_header_s_version() {
    assert_eq!(proved::version(), VERSION);
    report(1, "version");
}

#[test]
fn accepted_tapes_have_the_same_rows() {
    let mut count = 0;
    for seed in seeds(4_000) {
        let _trying = Trying::seed(seed);
        let (tape, steps) = some_tape(seed);
        let n = LISTED * records(tape.len());
        let told = compare(seed, (&tape, &steps), n);
        assert_eq!(told, (0, 0), "seed {seed}");
        let wrong = wrong_size(&mut Rng::new(seed), n);
        let told = compare(seed, (&tape, &steps), wrong);
        assert_eq!(told, (11, 0), "seed {seed}: {wrong} numbers");
        count += 2;
    }
    report(count, "accepted tapes");
}

/// Refusals with their places, one or two faults at once, steps at fault among
/// them, in lists of right and wrong length.
#[test]
fn faulty_tapes_have_the_same_refusal_and_place() {
    let mut met = BTreeSet::new();
    for seed in seeds(8_000) {
        let _trying = Trying::seed(seed);
        let mut rng = Rng::new(seed);
        let (tape, steps) = (faulty_tape(&mut rng), some_steps(&mut rng));
        let right = LISTED * records(tape.len());
        for n in [right, wrong_size(&mut rng, right)] {
            let (number, place) = compare(seed, (&tape, &steps), n);
            met.insert((number, place > 0));
        }
    }
    let whole = [0, 1, 9, 10, 11, 14].map(|number| (number, false));
    let placed = [2, 3, 4, 5].map(|number| (number, true));
    assert_eq!(met, whole.into_iter().chain(placed).collect());
    report(2 * 8_000, "faulty tapes");
}

/// One fault at each place of the longest tape, every refusal in turn, in lists of
/// the right size and of others, which are looked at after the records.
#[test]
fn each_place_of_the_longest_tape_is_told() {
    for seed in seeds(1) {
        let _trying = Trying::seed(seed);
        let mut rng = Rng::new(seed);
        let (limits, blocks) = (limits(&mut rng), path(&mut rng, MOST_BLOCKS));
        let whole = Tape { limits, blocks }.pack();
        for place in 1..=MOST_BLOCKS {
            let faults = TAPE_FAULTS[place % TAPE_FAULTS.len()];
            let mut bytes = whole.clone();
            spoil_record(&mut rng, &mut bytes, place, faults);
            let n = rng.pick(&[LISTED * MOST_BLOCKS, MOST_BLOCKS + 1, 0]);
            let (answer, rows) = filled(proved::list_tape, (&bytes, &steps(&mut rng)), n);
            let told = answer.map_err(|fault| (fault.refusal.number(), fault.place));
            assert_eq!(told, Err((faults[0], place as u64)), "seed {seed}");
            assert!(rows.iter().all(|number| *number == 77), "seed {seed}");
        }
    }
    report(MOST_BLOCKS, "places of the longest tape");
}

/// Each length of an accepted tape, byte by byte, and around the longest.
#[test]
fn cut_and_lengthened_tapes_are_answered_alike() {
    let (bytes, lengths) = cut_tapes();
    let mut met = BTreeSet::new();
    for (length, seed) in lengths.iter().zip(seeds(lengths.len() as u64)) {
        let _trying = Trying::seed(seed);
        let steps = some_steps(&mut Rng::new(seed));
        let n = LISTED * records(*length);
        met.insert(compare(seed, (&bytes[..*length], &steps), n).0);
    }
    assert!([0, 9, 10].iter().all(|number| met.contains(number)));
    report(lengths.len(), "cut tapes");
}

/// Tapes of 0 to 4 blocks in lists of 0 to 66 numbers: one length of each is right.
#[test]
fn lists_of_every_length_are_answered_alike() {
    let mut count = 0;
    for seed in seeds(20) {
        let _trying = Trying::seed(seed);
        let mut rng = Rng::new(seed);
        for blocks in 0..=4 {
            let (limits, path) = tied_path(&mut rng, blocks);
            let (right, blocks) = (LISTED * path.len(), path);
            let tape = Tape { limits, blocks }.pack();
            for n in 0..=66 {
                let (number, place) = compare(seed, (&tape, &steps(&mut rng)), n);
                let expected = if n == right { 0 } else { 11 };
                assert_eq!((number, place), (expected, 0), "{n}");
                count += 1;
            }
        }
    }
    report(count, "lists of 0 to 66 numbers");
}

/// All example tapes and tapes of 2,047 and 2,048 blocks, under the built-in and
/// the example's steps and loaded ones.
#[test]
fn examples_and_longest_tapes_have_the_same_rows() {
    let tapes = examples_and_longest();
    let mut rng = Rng::new(first_seed());
    let soft = example_steps(STEP_NAMES[0]).expect("steps of that name");
    for (tape, seed) in tapes.iter().zip(seeds(tapes.len() as u64)) {
        let _trying = Trying::seed(seed);
        let bytes = tape.pack();
        assert_eq!(read_tape(&bytes).as_ref(), Ok(tape));
        for steps in [Vec::new(), soft.to_vec(), loaded_steps(&mut rng)] {
            let n = LISTED * tape.blocks.len();
            assert_eq!(compare(seed, (&bytes, &steps), n), (0, 0), "seed {seed}");
        }
    }
    report(3 * tapes.len(), "example and longest tapes");
}

/// Limits alone have no row, and a list of any number is refused.
#[test]
fn a_tape_without_blocks_has_no_row() {
    let _trying = Trying::seed(first_seed());
    let limits = pack_limits(&machine_m(), 0);
    for steps in [&[][..], &[100; 8], &[50; 7]] {
        for n in 0..=2 * LISTED {
            let expected = match (steps.len(), n) {
                (7, _) => 14,
                (_, 0) => 0,
                _ => 11,
            };
            let told = compare(first_seed(), (&limits, steps), n);
            assert_eq!(told, (expected, 0), "{n} numbers");
        }
    }
    report(3 * 27, "tapes without blocks");
}

/// Loaded steps of each kind, good and bad, of 0 to 12 bytes, over a tape that
/// runs through every torque step.
#[test]
fn loaded_steps_are_answered_alike() {
    let mut met = BTreeSet::new();
    for seed in seeds(3_000) {
        let _trying = Trying::seed(seed);
        let mut rng = Rng::new(seed);
        let (limits, blocks) = path_at_edges(&mut rng, 12);
        let (tape, n) = (Tape { limits, blocks }.pack(), LISTED * 12);
        let length = rng.below(13) as usize;
        let steps = match rng.below(4) {
            0 => faulty_steps(&mut rng),
            1 => (0..length).map(|_| rng.below(103) as u8).collect(),
            _ => loaded_steps(&mut rng),
        };
        met.insert(compare(seed, (&tape, &steps), n));
    }
    assert_eq!(met, BTreeSet::from([(0, 0), (14, 0)]));
    report(3_000, "loaded steps");
}

/// Pairs and more of blocks of few and small numbers: equal caps are frequent,
/// corner caps of 0 among them.
#[test]
fn small_pairs_have_the_same_rows() {
    let mut zeros = 0;
    for seed in seeds(6_000) {
        let _trying = Trying::seed(seed);
        let mut rng = Rng::new(seed);
        let limits = tiny_limits(&mut rng);
        let count = rng.within(1, 4);
        let blocks: Vec<Block> = (0..count).map(|_| tiny_block(&mut rng)).collect();
        let n = LISTED * blocks.len();
        let tape = Tape { limits, blocks }.pack();
        assert_eq!(compare(seed, (&tape, &[]), n), (0, 0), "seed {seed}");
        let rows = rows(&tape, &[]);
        zeros += rows[1..]
            .iter()
            .filter(|row| row[JUNCTION_CAP] == 0)
            .count();
    }
    assert!(zeros > 100, "{zeros}");
    report(6_000, "tapes of small numbers");
}

/// The rows go with the library's other answers: entries and exits are the plan's,
/// a junction is held by the reach exactly where its entry is below its cap, and a
/// planner that is given up to 64 of the blocks hands out the same eleven numbers.
#[test]
fn rows_fit_plan_holds_and_planner() {
    let mut count = 0;
    for seed in seeds(1_000) {
        let _trying = Trying::seed(seed);
        let (tape, steps) = some_tape(seed);
        let rows = rows(&tape, &steps);
        let mut plan = vec![77; rows.len() + 1];
        proved::plan_tape(&tape, &steps, &mut plan).expect("a tape that passes");
        let mut held = vec![77; rows.len().saturating_sub(1)];
        proved::held_by(&tape, &steps, &mut held).expect("a tape that passes");
        for (k, row) in rows.iter().enumerate() {
            assert_eq!([row[ENTRY], row[EXIT]], plan[k..k + 2], "seed {seed}");
            let below = row[ENTRY] < row[JUNCTION_CAP];
            let reach = k > 0 && held[k - 1] == 3;
            assert_eq!(below, reach, "seed {seed}: block {k}");
        }
        if rows.len() <= PLACES {
            assert_eq!(given_out(&tape, &steps), first_eleven(&rows), "seed {seed}");
        }
        count += rows.len();
    }
    report(count, "rows beside plan, holds and planner");
}

/// What a planner hands out of a tape's blocks, added before the first take.
fn given_out(tape: &[u8], steps: &[u8]) -> Vec<[u64; 11]> {
    let limits = read_limits(tape).expect("limits that pass");
    let mut planner = Planner::fresh(&limits, steps).expect("limits and steps that pass");
    let blocks = read_tape(tape).expect("a tape that passes").blocks;
    for block in &blocks {
        planner.add(block).expect("a block that passes");
    }
    let mut taken = || planner.take().expect("a block held");
    blocks.iter().map(|_| given_words(&taken())).collect()
}

/// The numbers of each row without its caps.
fn first_eleven(rows: &[[u64; LISTED]]) -> Vec<[u64; 11]> {
    let eleven = |row: &[u64; LISTED]| row[..11].try_into().expect("11 numbers");
    rows.iter().map(eleven).collect()
}

/// The pair worked out in the rules, number by number.
#[test]
fn the_right_angle_has_these_rows() {
    let _trying = Trying::seed(first_seed());
    let (feed, corner, peak) = (400_000_000, 2_000_000, 201_000_000);
    let [first, second] = rows(&right_angle().pack(), &[])[..] else {
        panic!("two rows");
    };
    let fields = |mark| [20_000, 0, mark, 1_000, 200_000];
    assert_eq!(first[..5], fields(7));
    assert_eq!(first[5..], [0, corner, peak, 502, 0, 498, feed, 0]);
    assert_eq!(second[..5], fields(8));
    assert_eq!(second[5..], [corner, 0, peak, 497, 0, 503, feed, corner]);
    report(2, "worked rows");
}

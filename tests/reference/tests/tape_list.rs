//! The list of a tape: rows worked out by hand, refusals, and drawn rows beside
//! the plan, the caps that theirs are the least of, and the listing.

use reference::examples::{example, right_angle, what_held, NAMES};
use reference::generate::*;
use reference::listing::{planlist, HEADER};
use reference::machine::{chord_cap, length_of, speed_of, Block, Limits};
use reference::plan::from_rest;
use reference::report::JunctionCaps;
use reference::rng::Rng;
use reference::tape::{pack_limits, read_to_plan, Tape, LIMITS_BYTES, MOST_BYTES, RECORD_BYTES};
use reference::tape_list::*;

/// A million.
const M: u64 = 1_000_000;

/// The rows of a tape that passes.
fn rows(tape: &[u8], steps: &[u8]) -> Vec<[u64; LISTED]> {
    let mut numbers = vec![77; LISTED * ((tape.len() - LIMITS_BYTES) / RECORD_BYTES)];
    list_tape(tape, steps, &mut numbers).expect("a tape that passes");
    let row = |row: &[u64]| row.try_into().expect("13 numbers");
    numbers.chunks(LISTED).map(row).collect()
}

/// A row at feed 20,000 µm/s and acceleration 200,000 µm/s²: radius, mark and
/// length; entry, exit and peak; up, cruise and down; the two caps.
fn row(block: [u64; 3], speeds: [u64; 3], ramp: [u64; 3], caps: [u64; 2]) -> [u64; LISTED] {
    let [radius, mark, length] = block;
    let first = [20_000, radius, mark, length, 200_000];
    let all = [&first[..], &speeds, &ramp, &caps].concat();
    all.try_into().expect("13 numbers")
}

/// The pair of the rules' third example: two halves to be rounded in each block.
#[test]
fn the_right_angle() {
    let (feed, corner, peak) = (400 * M, 2 * M, 201 * M);
    let expected = [
        row([0, 7, 1_000], [0, corner, peak], [502, 0, 498], [feed, 0]),
        row(
            [0, 8, 1_000],
            [corner, 0, peak],
            [497, 0, 503],
            [feed, corner],
        ),
    ];
    assert_eq!(rows(&right_angle().pack(), &[]), expected);
}

/// The tape of the rules' eighth example: a straight run held by the feed, a right
/// angle, two chords of radius 1, and two blocks of 5 µm, by whose reach the last
/// junction is held.
#[test]
fn the_mixed_tape() {
    let (v, c, h) = (400 * M, 2 * M, M);
    let expected = [
        row([0, 1, 1_000], [0, v, v], [1_000, 0, 0], [v, 0]),
        row([0, 2, 1_000], [v, c, v], [0, 5, 995], [v, v]),
        row([0, 3, 1_000], [c, h, 201_500_000], [499, 0, 501], [v, c]),
        row([1, 4, 100], [h, h, h], [0, 100, 0], [h, h]),
        row([1, 5, 100], [h, h, h], [0, 100, 0], [h, h]),
        row([0, 6, 5], [h, 2 * M, 2_500_000], [4, 0, 1], [v, h]),
        row([0, 7, 5], [2 * M, 0, 2 * M], [0, 0, 5], [v, v]),
    ];
    assert_eq!(rows(&what_held().pack(), &[]), expected);
}

/// Half the torque halves the acceleration and leaves the caps.
#[test]
fn the_right_angle_under_half_the_torque() {
    let found = rows(&right_angle().pack(), &[50; 8]);
    assert_eq!(found[0][4..8], [100_000, 0, 2 * M, 101 * M]);
    assert_eq!([found[0][11], found[1][11]], [400 * M; 2]);
    assert_eq!([found[0][12], found[1][12]], [0, 2 * M]);
}

/// The number and place of the answer to a tape in so many numbers, which a
/// refusal leaves as they were.
fn answered(tape: &[u8], steps: &[u8], numbers: usize) -> (u64, u64) {
    let mut rows = vec![77; numbers];
    let Err(fault) = list_tape(tape, steps, &mut rows) else {
        return (0, 0);
    };
    assert_eq!(rows, vec![77; numbers]);
    (fault.refusal.number(), fault.place)
}

#[test]
fn refusals_in_their_order() {
    let pair = right_angle().pack();
    let bad = pack_limits(&machine_m(), 1);
    let still = [&pair[..], &[0; 16]].concat();
    for (tape, steps, numbers, expected) in [
        (&vec![0; MOST_BYTES + 1][..], &[0][..], 0, (10, 0)),
        (&pair[..23], &[0], 0, (9, 0)),
        (&bad, &[0], 1, (1, 0)),
        (&still, &[0], 1, (14, 0)),
        (&still, &[], 1, (2, 3)),
        (&pair, &[], 25, (11, 0)),
        (&pair, &[], 27, (11, 0)),
        (&pair, &[], 3, (11, 0)),
        (&pair, &[], 0, (11, 0)),
        (&pair, &[], 26, (0, 0)),
        (&pair[..24], &[], 0, (0, 0)),
        (&pair[..24], &[], 1, (11, 0)),
    ] {
        assert_eq!(answered(tape, steps, numbers), expected, "{numbers}");
    }
}

/// Block cap by its two conditions: v squared, and with a radius the chord cap.
fn block_cap(limits: &Limits, block: &Block) -> u128 {
    let squared = (speed_of(limits, block, length_of(block)) as u128).pow(2);
    chord_cap(limits, block).map_or(squared, |chord| chord.min(squared))
}

/// Drawn tapes: entries and exits are the plan's, the caps the least of those that
/// there are, and no speed is above its cap.
#[test]
fn rows_fit_the_plan_and_the_caps() {
    for seed in 0..600 {
        let mut rng = Rng::new(seed);
        let (tape, steps) = (tied_tape(&mut rng), steps(&mut rng));
        let (machine, blocks) = read_to_plan(&tape, &steps).expect("a tape that passes");
        let plan = from_rest(&machine, &blocks);
        let rows = rows(&tape, &steps);
        assert_eq!(rows.len(), blocks.len());
        for (k, row) in rows.iter().enumerate() {
            let [entry, exit, peak] = [row[5], row[6], row[7]];
            assert_eq!([entry, exit], [plan[k], plan[k + 1]], "seed {seed}");
            let cap = block_cap(&machine.limits, &blocks[k]);
            assert_eq!(u128::from(row[11]), cap, "seed {seed}");
            let junction = match k {
                0 => 0,
                _ => JunctionCaps::of(&machine.limits, &blocks[k - 1], &blocks[k]).least(),
            };
            assert_eq!(u128::from(row[12]), junction, "seed {seed}");
            assert!(entry.max(exit) <= peak && peak <= row[11], "seed {seed}");
            assert!(entry <= row[12], "seed {seed}");
            assert_eq!(row[8] + row[9] + row[10], row[3], "seed {seed}");
        }
    }
}

/// The listing's nine numbers are those of the rows.
#[test]
fn rows_have_the_numbers_of_the_listing() {
    let tapes: Vec<Tape> = NAMES.iter().filter_map(|name| example(name)).collect();
    assert_eq!(tapes.len(), NAMES.len());
    for tape in tapes {
        let line = |row: &[u64; LISTED]| {
            let numbers = [2, 3, 4, 5, 7, 6, 8, 9, 10].map(|place| row[place].to_string());
            numbers.join(" ") + "\n"
        };
        let bytes = tape.pack();
        let lines: String = rows(&bytes, &[]).iter().map(line).collect();
        assert_eq!(planlist(&bytes, &[]), format!("{HEADER}\n{lines}"));
    }
}

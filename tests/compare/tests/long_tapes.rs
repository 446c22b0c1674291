//! Faults on tapes of up to 2,048 records: each place, each refusal, several at
//! once, and what comes before and after the records in the order of checks,
//! under built-in and loaded torque steps.

use std::collections::BTreeSet;

use compare::words::some_steps;
use compare::{hex, proved, report, same, seeds, Trying};
use reference::generate::*;
use reference::refusal::Fault;
use reference::rng::Rng;
use reference::tape::{self, Tape, LIMITS_BYTES, MOST_BLOCKS, MOST_BYTES, RECORD_BYTES};

/// Numbers of records around those at which a counter could end.
const COUNTS: [usize; 14] = [
    1, 2, 3, 31, 63, 64, 65, 255, 256, 257, 1_023, 1_024, 2_047, 2_048,
];

/// The bytes of an accepted tape of `count` blocks.
fn accepted(rng: &mut Rng, count: usize) -> Vec<u8> {
    let limits = limits(rng);
    let blocks = path(rng, count);
    Tape { limits, blocks }.pack()
}

/// The number on the display, the place, and what a list of `n` numbers holds
/// afterwards.
fn answered(
    plan: impl Fn(&[u8], &[u8], &mut [u64]) -> Result<(), Fault>,
    (bytes, steps): (&[u8], &[u8]),
    n: usize,
) -> (u64, u64, Vec<u64>) {
    let mut list = vec![77; n];
    let (number, place) = match plan(bytes, steps, &mut list) {
        Ok(()) => (0, 0),
        Err(fault) => (fault.refusal.number(), fault.place),
    };
    (number, place, list)
}

/// Compares with the reference under the steps in a list of `n` numbers; gives
/// number and place.
fn compare_in(seed: u64, bytes: &[u8], steps: &[u8], n: usize) -> (u64, u64) {
    let expected = answered(tape::plan_tape, (bytes, steps), n);
    let known = (expected.0, expected.1);
    let input = || format!("{} under {} in {n} numbers", hex(bytes), hex(steps));
    let found = answered(proved::plan_tape, (bytes, steps), n);
    same(seed, input, found, expected);
    known
}

/// Sees that the tape, under steps that pass, is refused by the number at the
/// place where the test has put the fault.
fn confirm_refused(seed: u64, rng: &mut Rng, bytes: &[u8], n: usize, expected: (u64, usize)) {
    let steps = steps(rng);
    let (number, place, list) = answered(proved::plan_tape, (bytes, &steps), n);
    let input = || format!("{} under {} in {n} numbers", hex(bytes), hex(&steps));
    same(seed, input, (number, place as usize), expected);
    same(seed, input, list, vec![77; n]);
}

/// One fault at each place of the longest tape, every refusal in turn; lists of
/// the right length and of others, which are looked at after the records.
#[test]
fn each_place_of_the_longest_tape_is_told() {
    let mut count = 0;
    for seed in seeds(2) {
        let _trying = Trying::seed(seed);
        let mut rng = Rng::new(seed);
        let whole = accepted(&mut rng, MOST_BLOCKS);
        for place in 1..=MOST_BLOCKS {
            let faults = TAPE_FAULTS[(place + (seed % 10) as usize) % TAPE_FAULTS.len()];
            let mut bytes = whole.clone();
            spoil_record(&mut rng, &mut bytes, place, faults);
            let n = rng.pick(&[MOST_BLOCKS + 1, MOST_BLOCKS + 1, MOST_BLOCKS, 0]);
            confirm_refused(seed, &mut rng, &bytes, n, (faults[0], place));
            count += 1;
        }
    }
    report(count, "places of the longest tape");
}

/// One fault at the first, the last, the middle and some other record, every
/// set of refusals, on tapes of many lengths.
#[test]
fn one_fault_is_told_on_tapes_of_every_size() {
    let (mut met, mut count) = (BTreeSet::new(), 0);
    for seed in seeds(1) {
        let _trying = Trying::seed(seed);
        let mut rng = Rng::new(seed);
        for records in COUNTS {
            let whole = accepted(&mut rng, records);
            for faults in TAPE_FAULTS {
                let other = rng.within(1, records as u64) as usize;
                for place in [1, records, records.div_ceil(2), other] {
                    let mut bytes = whole.clone();
                    spoil_record(&mut rng, &mut bytes, place, faults);
                    let told = compare_in(seed, &bytes, &steps(&mut rng), records + 1);
                    assert_eq!(told, (faults[0], place as u64), "seed {seed}");
                    met.insert(told.0);
                    count += 1;
                }
            }
        }
    }
    assert_eq!(met, BTreeSet::from([2, 3, 4, 5]));
    report(count, "tapes of many lengths with a fault");
}

/// Several records at fault, at times the limits or the steps too, a length that
/// is none, or a list of another length: the first in the order of checks is
/// told.
#[test]
fn the_first_of_several_faults_is_told() {
    let mut met = BTreeSet::new();
    for seed in seeds(300) {
        let _trying = Trying::seed(seed);
        let mut rng = Rng::new(seed);
        let records = rng.pick(&[2, 30, 300, 1_500, 2_047, 2_048]);
        let mut bytes = accepted(&mut rng, records);
        for _ in 0..rng.within(1, 5) {
            let (place, faults) = (rng.within(1, records as u64), rng.pick(&TAPE_FAULTS));
            spoil_record(&mut rng, &mut bytes, place as usize, faults);
        }
        match rng.below(8) {
            0 => set_last_bit(&mut rng, &mut bytes),
            1 => bytes.truncate(bytes.len() - rng.within(1, 15) as usize),
            2 => bytes.resize(MOST_BYTES + rng.within(1, 40) as usize, 0),
            _ => {}
        }
        let n = rng.pick(&[records + 1, records + 1, records, records + 2, 0]);
        met.insert(compare_in(seed, &bytes, &some_steps(&mut rng), n).0);
    }
    assert_eq!(met, BTreeSet::from([1, 2, 3, 4, 5, 9, 10, 14]));
    report(300, "tapes with several faults");
}

/// The longest tape, accepted and with a fault in its last record, some bytes
/// shorter and longer, in lists of every length from two too few to two too
/// many.
#[test]
fn the_longest_tape_ends_where_it_should() {
    let (mut met, mut count) = (BTreeSet::new(), 0);
    for seed in seeds(1) {
        let _trying = Trying::seed(seed);
        let mut rng = Rng::new(seed);
        let whole = accepted(&mut rng, MOST_BLOCKS + 2);
        let mut faulty = whole.clone();
        spoil_record(&mut rng, &mut faulty, MOST_BLOCKS, &[4]);
        let near = [0, 1, 15, 16, 17, 32].map(|more| MOST_BYTES + more);
        let below = [1, 15, 16, 17].map(|less| MOST_BYTES - less);
        for length in near.into_iter().chain(below) {
            let records = (length - LIMITS_BYTES) / RECORD_BYTES;
            for (bytes, n) in (records - 1..=records + 3).flat_map(|n| [(&whole, n), (&faulty, n)])
            {
                met.insert(compare_in(seed, &bytes[..length], &steps(&mut rng), n).0);
                count += 1;
            }
        }
    }
    assert_eq!(met, BTreeSet::from([0, 4, 9, 10, 11]));
    report(count, "tapes about the longest");
}

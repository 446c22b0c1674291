//! Limits and records, read and written alone.

use std::collections::BTreeSet;

use compare::words::{any_block, any_limits, limit_words};
use compare::{hex, proved, report, same, seeds, Trying};
use reference::generate::*;
use reference::machine::{Block, Limits};
use reference::rng::Rng;
use reference::tape::{self, pack_limits, pack_record, LIMITS_BYTES, RECORD_BYTES, ZERO_BITS};

const SEEDS: u64 = 20_000;

/// Noise of up to `most` bytes.
fn noise(rng: &mut Rng, most: u64) -> Vec<u8> {
    let count = rng.within(0, most);
    (0..count).map(|_| rng.word() as u8).collect()
}

/// Bytes with more or fewer behind them than a reader needs.
fn lent(rng: &mut Rng, mut bytes: Vec<u8>) -> Vec<u8> {
    match rng.below(8) {
        0 => bytes.truncate(rng.below(bytes.len() as u64) as usize),
        1 => bytes.truncate(bytes.len() - 1),
        2 => {}
        _ => bytes.extend(noise(rng, 40)),
    }
    bytes
}

/// Limits within their ranges, outside, and of any words.
fn some_limits(rng: &mut Rng) -> Limits {
    match rng.below(4) {
        0 => any_limits(rng),
        1 => faulty_limits(rng),
        _ => limits(rng),
    }
}

/// A block that passes, that meets one or several refusals, or of any words.
fn some_block(rng: &mut Rng, on_tape: bool) -> Block {
    match rng.below(4) {
        0 => any_block(rng),
        1 => {
            let faults = rng.pick(&BLOCK_FAULTS);
            faulty_block(rng, faults, on_tape)
        }
        _ => block(rng),
    }
}

/// The number on the display of each answer met, 0 for accepted.
#[derive(Default)]
struct Met(BTreeSet<u64>);

impl Met {
    fn count<T>(&mut self, answer: &Result<T, reference::refusal::Refusal>) {
        let number = answer
            .as_ref()
            .map_or_else(|refusal| refusal.number(), |_| 0);
        self.0.insert(number);
    }
}

#[test]
fn limits_are_read_as_the_reference_reads_them() {
    let mut met = Met::default();
    for seed in seeds(SEEDS) {
        let _trying = Trying::seed(seed);
        let mut rng = Rng::new(seed);
        let bytes = match rng.below(8) {
            0 => noise(&mut rng, 48),
            1 => pack_limits(&limits(&mut rng), 1 << rng.below(ZERO_BITS as u64)),
            _ => pack_limits(&some_limits(&mut rng), 0),
        };
        let bytes = if bytes.is_empty() {
            bytes
        } else {
            lent(&mut rng, bytes)
        };
        let expected = tape::read_limits(&bytes);
        met.count(&expected);
        same(seed, || hex(&bytes), proved::read_limits(&bytes), expected);
    }
    assert_eq!(met.0, BTreeSet::from([0, 1, 9]));
    report(SEEDS as usize, "limits read");
}

#[test]
fn records_are_read_as_the_reference_reads_them() {
    let mut met = Met::default();
    for seed in seeds(SEEDS) {
        let _trying = Trying::seed(seed);
        let mut rng = Rng::new(seed);
        let bytes = match rng.below(4) {
            0 => noise(&mut rng, 32),
            _ => pack_record(&some_block(&mut rng, true)),
        };
        let bytes = if bytes.is_empty() {
            bytes
        } else {
            lent(&mut rng, bytes)
        };
        let expected = tape::read_record(&bytes);
        met.count(&expected);
        same(seed, || hex(&bytes), proved::read_record(&bytes), expected);
    }
    assert_eq!(met.0, BTreeSet::from([0, 2, 3, 4, 5, 9]));
    report(SEEDS as usize, "records read");
}

/// The number and all lent bytes; those beyond 24 stay.
#[test]
fn limits_are_written_as_the_reference_writes_them() {
    let mut met = Met::default();
    for seed in seeds(SEEDS) {
        let _trying = Trying::seed(seed);
        let mut rng = Rng::new(seed);
        let limits = some_limits(&mut rng);
        let mut expected_part = noise(&mut rng, 40);
        if rng.once_in(4) {
            expected_part = vec![0xff; LIMITS_BYTES - 1 + rng.below(3) as usize];
        }
        let mut part = expected_part.clone();
        let expected = tape::write_limits(&limits, &mut expected_part);
        met.count(&expected);
        let input = || format!("{:?} {}", limit_words(&limits), expected_part.len());
        same(
            seed,
            input,
            proved::write_limits(&limits, &mut part),
            expected,
        );
        same(seed, input, hex(&part), hex(&expected_part));
    }
    assert_eq!(met.0, BTreeSet::from([0, 1, 9]));
    report(SEEDS as usize, "limits written");
}

/// The number and all lent bytes; those beyond 16 stay.
#[test]
fn records_are_written_as_the_reference_writes_them() {
    let mut met = Met::default();
    for seed in seeds(SEEDS) {
        let _trying = Trying::seed(seed);
        let mut rng = Rng::new(seed);
        let block = some_block(&mut rng, false);
        let mut expected_part = noise(&mut rng, 32);
        if rng.once_in(4) {
            expected_part = vec![0xff; RECORD_BYTES - 1 + rng.below(3) as usize];
        }
        let mut part = expected_part.clone();
        let expected = tape::write_record(&block, &mut expected_part);
        met.count(&expected);
        let input = || format!("{block:?} {}", expected_part.len());
        same(
            seed,
            input,
            proved::write_record(&block, &mut part),
            expected,
        );
        same(seed, input, hex(&part), hex(&expected_part));
    }
    assert_eq!(met.0, BTreeSet::from([0, 2, 3, 4, 5, 6, 9]));
    report(SEEDS as usize, "records written");
}

/// Each set of refusals that a block can meet, with bytes enough and too few:
/// a writer gives the block's refusal before 9, a reader 9 first.
#[test]
fn refusals_come_in_document_01s_order() {
    let mut count = 0;
    for seed in seeds(40) {
        let _trying = Trying::seed(seed);
        let mut rng = Rng::new(seed);
        for faults in BLOCK_FAULTS {
            for lent in [0, RECORD_BYTES - 1, RECORD_BYTES, RECORD_BYTES + 1] {
                let block = faulty_block(&mut rng, faults, false);
                let input = || format!("{block:?} {lent}");
                let wrote = proved::write_record(&block, &mut vec![7; lent]);
                let number = wrote.map_or_else(|refusal| refusal.number(), |()| 0);
                same(seed, input, number, faults[0]);
                let record = [pack_record(&faulty_block(&mut rng, faults, true)), vec![7]].concat();
                let read = proved::read_record(&record[..lent]);
                same(
                    seed,
                    || hex(&record),
                    read,
                    tape::read_record(&record[..lent]),
                );
                count += 2;
            }
        }
        for lent in [0, LIMITS_BYTES - 1, LIMITS_BYTES, LIMITS_BYTES + 1] {
            let limits = faulty_limits(&mut rng);
            let wrote = proved::write_limits(&limits, &mut vec![7; lent]);
            let number = wrote.map_or_else(|refusal| refusal.number(), |()| 0);
            same(seed, || format!("{limits:?} {lent}"), number, 1);
            count += 1;
        }
    }
    report(count, "refusals in order");
}

#[test]
fn what_is_written_is_read_back_whole() {
    for seed in seeds(SEEDS) {
        let _trying = Trying::seed(seed);
        let mut rng = Rng::new(seed);
        let (block, limits) = (block(&mut rng), limits(&mut rng));
        let mut part = [0xa5; 30];
        let wrote = proved::write_record(&block, &mut part);
        same(seed, || format!("{block:?}"), wrote, Ok(()));
        let read = proved::read_record(&part);
        same(seed, || format!("{block:?}"), read, Ok(block));
        let wrote = proved::write_limits(&limits, &mut part);
        same(seed, || format!("{limits:?}"), wrote, Ok(()));
        let read = proved::read_limits(&part);
        same(seed, || format!("{limits:?}"), read, Ok(limits));
    }
    report(2 * SEEDS as usize, "round trips");
}

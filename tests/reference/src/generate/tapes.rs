//! Tapes: accepted ones, and ones with each refusal and pairs of refusals.

use super::blocks::{faulty_block, BLOCK_FAULTS};
use super::curves::limits_and_path;
use super::limits::faulty_limits;
use crate::rng::Rng;
use crate::tape::{pack_limits, pack_record, Tape, LIMITS_BYTES, MOST_BLOCKS, RECORD_BYTES};

/// Sets of refusals that one record of a tape can meet at once.
pub const TAPE_FAULTS: [&[u64]; 10] = [
    &[2],
    &[3],
    &[4],
    &[5],
    &[2, 4],
    &[2, 5],
    &[3, 4],
    &[3, 5],
    &[4, 5],
    &[3, 4, 5],
];

/// Bytes of an accepted tape of 0 to 200 blocks, at times of 2,047 or 2,048.
pub fn tape(rng: &mut Rng) -> Vec<u8> {
    let count = match rng.below(64) {
        0 => MOST_BLOCKS,
        1 => MOST_BLOCKS - 1,
        _ => rng.spread(0, 200) as usize,
    };
    whole(rng, count)
}

/// Bytes of an accepted tape of `count` blocks.
fn whole(rng: &mut Rng, count: usize) -> Vec<u8> {
    let (limits, blocks) = limits_and_path(rng, count);
    Tape { limits, blocks }.pack()
}

/// Bytes of a tape with one or two faults, or noise.
pub fn faulty_tape(rng: &mut Rng) -> Vec<u8> {
    let count = rng.within(1, 30) as usize;
    let mut bytes = whole(rng, count);
    match rng.below(10) {
        0 => bytes.truncate(rng.below(LIMITS_BYTES as u64) as usize),
        1 => bytes.extend(vec![0; rng.within(1, 15) as usize]),
        2 => lengthen(rng, &mut bytes),
        3 => noise(rng, &mut bytes),
        _ => spoil(rng, &mut bytes),
    }
    if rng.once_in(3) {
        spoil(rng, &mut bytes);
    }
    bytes
}

/// Makes the tape longer than 32,792 bytes, by whole records or not.
fn lengthen(rng: &mut Rng, bytes: &mut Vec<u8>) {
    let most = LIMITS_BYTES + RECORD_BYTES * MOST_BLOCKS;
    let more = rng.pick(&[1, 15, 16, 17, 1_600]);
    let record = bytes[LIMITS_BYTES..LIMITS_BYTES + RECORD_BYTES].to_vec();
    while bytes.len() < most + more {
        bytes.extend(&record);
    }
    bytes.truncate(most + more);
}

/// Replaces all bytes, or those after the limits, by noise.
fn noise(rng: &mut Rng, bytes: &mut [u8]) {
    let first = rng.pick(&[0, LIMITS_BYTES]);
    let after = &mut bytes[first..];
    after.iter_mut().for_each(|byte| *byte = rng.word() as u8);
}

/// Spoils the limits, one of their last 13 bits, or a record, where the tape
/// is long enough to have it.
fn spoil(rng: &mut Rng, bytes: &mut [u8]) {
    let records = bytes.len().saturating_sub(LIMITS_BYTES) / RECORD_BYTES;
    match rng.below(6) {
        _ if bytes.len() < LIMITS_BYTES => {}
        0 => bytes[..LIMITS_BYTES].copy_from_slice(&pack_limits(&faulty_limits(rng), 0)),
        1 => set_last_bit(rng, bytes),
        _ if records == 0 => {}
        _ => {
            let k = rng.below(records as u64) as usize;
            let faults = rng.pick(&BLOCK_FAULTS);
            spoil_record(rng, bytes, k + 1, faults);
        }
    }
}

/// Makes the record at a place counted from 1 meet each refusal of the set.
pub fn spoil_record(rng: &mut Rng, bytes: &mut [u8], place: usize, faults: &[u64]) {
    let record = pack_record(&faulty_block(rng, faults, true));
    let end = LIMITS_BYTES + RECORD_BYTES * place;
    bytes[end - RECORD_BYTES..end].copy_from_slice(&record);
}

/// Sets one of the 13 bits that must be zero.
pub fn set_last_bit(rng: &mut Rng, bytes: &mut [u8]) {
    let bit = rng.within(179, 191) as usize;
    bytes[bit / 8] |= 0x80 >> (bit % 8);
}

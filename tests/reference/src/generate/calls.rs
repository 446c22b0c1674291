//! Lists of calls, and traces with whole, cut and faulty bytes.

use super::blocks::{faulty_block, path, BLOCK_FAULTS};
use super::curves::limits_and_path;
use super::limits::faulty_limits;
use crate::machine::Block;
use crate::rng::Rng;
use crate::tape::pack_limits;
use crate::trace::{pack_call, pack_trace, Call};

/// A list of `count` calls with the blocks of a path.
pub fn calls(rng: &mut Rng, count: usize) -> Vec<Call> {
    let blocks = path(rng, count);
    adds_and_takes(rng, blocks)
}

/// A call for each block: its add, a take or a faulty add. The share of takes
/// changes from stretch to stretch, so that the line fills past 64, runs empty,
/// and stays in between.
fn adds_and_takes(rng: &mut Rng, blocks: Vec<Block>) -> Vec<Call> {
    let mut takes_in_hundred = rng.pick(&[5, 30, 50, 60, 90]);
    let mut list = Vec::new();
    for block in blocks {
        if rng.once_in(60) {
            takes_in_hundred = rng.pick(&[0, 5, 30, 50, 60, 100]);
        }
        list.push(if rng.below(100) < takes_in_hundred {
            Call::Take
        } else if rng.once_in(20) {
            let faults = rng.pick(&BLOCK_FAULTS);
            Call::Add(faulty_block(rng, faults, false))
        } else {
            Call::Add(block)
        });
    }
    list
}

/// Bytes of a trace: most whole; some cut short, with faulty limits, with
/// calls of noise, or of noise alone.
pub fn trace(rng: &mut Rng) -> Vec<u8> {
    let count = rng.spread(0, 400) as usize;
    let (limits, blocks) = limits_and_path(rng, count);
    let mut bytes = pack_trace(&limits, &adds_and_takes(rng, blocks));
    match rng.below(16) {
        0 => cut(rng, &mut bytes),
        1 => bytes.truncate(rng.below(25) as usize),
        2 => bytes
            .splice(..24, pack_limits(&faulty_limits(rng), 0))
            .for_each(drop),
        3 => bytes[23] |= 1 << rng.below(8),
        4 => noise(rng, &mut bytes),
        6 => noise(rng, &mut bytes[24..]),
        5 => spoil_takes(rng, &mut bytes),
        _ => {}
    }
    bytes
}

/// Replaces each byte by noise.
fn noise(rng: &mut Rng, bytes: &mut [u8]) {
    bytes.iter_mut().for_each(|byte| *byte = rng.word() as u8);
}

/// Cuts the trace inside a call where it has one.
fn cut(rng: &mut Rng, bytes: &mut Vec<u8>) {
    let last = (bytes.len() - 24) / 28 * 28;
    bytes.truncate(24 + last.saturating_sub(28) + rng.within(1, 27) as usize);
}

/// Fills the words of each take that play no part, and gives adds another
/// kind than 1.
fn spoil_takes(rng: &mut Rng, bytes: &mut [u8]) {
    let take = pack_call(&Call::Take);
    for call in bytes[24..].chunks_exact_mut(28) {
        if call == take {
            noise(rng, &mut call[4..]);
        } else {
            call[rng.below(4) as usize] = rng.within(1, 255) as u8;
        }
    }
}

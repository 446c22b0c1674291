//! The tape: limits, records, and the check and plan of a whole tape.

use crate::bits::{BitReader, BitWriter};
use crate::machine::{check_block, check_limits, Block, Limits, Machine};
use crate::plan::from_rest;
use crate::refusal::{Fault, Refusal};

/// Bytes of the limits at the tape's begin.
pub const LIMITS_BYTES: usize = 24;
/// Bytes of one record.
pub const RECORD_BYTES: usize = 16;
/// Greatest number of blocks on a tape.
pub const MOST_BLOCKS: usize = 2_048;
/// Greatest number of bytes of a tape.
pub const MOST_BYTES: usize = LIMITS_BYTES + RECORD_BYTES * MOST_BLOCKS;

const ACCEL_BITS: usize = 25;
const SPEED_BITS: usize = 20;
const JUMP_BITS: usize = 20;
const CHORD_BITS: usize = 10;
const TICK_BITS: usize = 14;
/// Zero bits at the end of the limits.
pub const ZERO_BITS: usize = 13;
/// Bits of a move in a record.
pub const MOVE_BITS: usize = 21;
const FEED_BITS: usize = 20;
const RADIUS_BITS: usize = 24;
const MARK_BITS: usize = 21;

/// An accepted tape.
#[derive(Clone, Debug, PartialEq, Eq)]
pub struct Tape {
    pub limits: Limits,
    pub blocks: Vec<Block>,
}

/// The 24 bytes of limits and 13 last bits, whatever their values; each field
/// keeps its lowest bits.
pub fn pack_limits(limits: &Limits, last_bits: u64) -> Vec<u8> {
    let mut out = BitWriter::default();
    for accel in limits.accel {
        out.unsigned(accel, ACCEL_BITS);
    }
    for speed in limits.speed {
        out.unsigned(speed, SPEED_BITS);
    }
    out.unsigned(limits.jump, JUMP_BITS);
    out.unsigned(limits.chord, CHORD_BITS);
    out.unsigned(limits.tick, TICK_BITS);
    out.unsigned(last_bits, ZERO_BITS);
    out.bytes()
}

/// Limits and last bits that 24 bytes denote, unchecked.
pub fn unpack_limits(bytes: &[u8]) -> (Limits, u64) {
    let mut bits = BitReader::new(bytes);
    let limits = Limits {
        accel: [(); 3].map(|_| bits.unsigned(ACCEL_BITS)),
        speed: [(); 3].map(|_| bits.unsigned(SPEED_BITS)),
        jump: bits.unsigned(JUMP_BITS),
        chord: bits.unsigned(CHORD_BITS),
        tick: bits.unsigned(TICK_BITS),
    };
    (limits, bits.unsigned(ZERO_BITS))
}

/// The 16 bytes of a record, whatever its values; each field keeps its lowest
/// bits.
pub fn pack_record(block: &Block) -> Vec<u8> {
    let mut out = BitWriter::default();
    for signed in block.moves {
        out.signed(signed, MOVE_BITS);
    }
    out.unsigned(block.feed, FEED_BITS);
    out.unsigned(block.radius, RADIUS_BITS);
    out.unsigned(block.mark, MARK_BITS);
    out.bytes()
}

/// Block that 16 bytes denote, unchecked.
pub fn unpack_record(bytes: &[u8]) -> Block {
    let mut bits = BitReader::new(bytes);
    Block {
        moves: [(); 3].map(|_| bits.signed(MOVE_BITS)),
        feed: bits.unsigned(FEED_BITS),
        radius: bits.unsigned(RADIUS_BITS),
        mark: bits.unsigned(MARK_BITS),
    }
}

/// Reads the limits from the first 24 bytes: check 9, then 1.
pub fn read_limits(bytes: &[u8]) -> Result<Limits, Refusal> {
    let own = bytes.get(..LIMITS_BYTES).ok_or(Refusal::Ragged)?;
    let (limits, last_bits) = unpack_limits(own);
    if last_bits != 0 {
        return Err(Refusal::Limits);
    }
    check_limits(&limits)?;
    Ok(limits)
}

/// Reads one record from the first 16 bytes: check 9, then 2 to 6.
pub fn read_record(bytes: &[u8]) -> Result<Block, Refusal> {
    let own = bytes.get(..RECORD_BYTES).ok_or(Refusal::Ragged)?;
    let block = unpack_record(own);
    check_block(&block)?;
    Ok(block)
}

/// Writes the limits into the first 24 bytes: check 1, then 9.
pub fn write_limits(limits: &Limits, part: &mut [u8]) -> Result<(), Refusal> {
    check_limits(limits)?;
    store(&pack_limits(limits, 0), part)
}

/// Writes a record into the first 16 bytes of the part that begins at it:
/// checks 2 to 6, then 9.
pub fn write_record(block: &Block, part: &mut [u8]) -> Result<(), Refusal> {
    check_block(block)?;
    store(&pack_record(block), part)
}

/// Writes record k of a tape, k counted from 0: checks 2 to 6, then 9 where the
/// tape ends before the record does.
pub fn write_record_at(block: &Block, tape: &mut [u8], k: u64) -> Result<(), Refusal> {
    check_block(block)?;
    let from = LIMITS_BYTES as u128 + RECORD_BYTES as u128 * u128::from(k);
    let begins = usize::try_from(from).map_err(|_| Refusal::Ragged)?;
    let part = tape.get_mut(begins..).ok_or(Refusal::Ragged)?;
    write_record(block, part)
}

/// Copies `bytes` to the begin of `part`, or refuses by 9.
fn store(bytes: &[u8], part: &mut [u8]) -> Result<(), Refusal> {
    let own = part.get_mut(..bytes.len()).ok_or(Refusal::Ragged)?;
    own.copy_from_slice(bytes);
    Ok(())
}

/// Reads a whole tape: checks 10, 9, 1, then each record in turn.
pub fn read_tape(tape: &[u8]) -> Result<Tape, Fault> {
    let limits = read_head(tape)?;
    let blocks = read_records(tape)?;
    Ok(Tape { limits, blocks })
}

/// Reads a whole tape that is to be planned with loaded torque steps, none if
/// the list is empty: checks 10, 9, 1, 14, then each record in turn.
pub fn read_to_plan(tape: &[u8], steps: &[u8]) -> Result<(Machine, Vec<Block>), Fault> {
    let limits = read_head(tape)?;
    let machine = Machine::of(&limits, steps).map_err(Refusal::at_no_record)?;
    let blocks = read_records(tape)?;
    Ok((machine, blocks))
}

/// The limits of a whole tape: checks 10, 9, 1.
fn read_head(tape: &[u8]) -> Result<Limits, Fault> {
    if tape.len() > MOST_BYTES {
        return Err(Refusal::Many.at_no_record());
    }
    if tape.len() < LIMITS_BYTES || !(tape.len() - LIMITS_BYTES).is_multiple_of(RECORD_BYTES) {
        return Err(Refusal::Ragged.at_no_record());
    }
    read_limits(tape).map_err(Refusal::at_no_record)
}

/// The blocks of a tape of at least 24 bytes: each record in turn.
fn read_records(tape: &[u8]) -> Result<Vec<Block>, Fault> {
    let records = tape[LIMITS_BYTES..].chunks(RECORD_BYTES);
    records.zip(1..).map(read_at).collect()
}

/// Reads the record at a place counted from 1.
fn read_at((record, place): (&[u8], u64)) -> Result<Block, Fault> {
    read_record(record).map_err(|refusal| Fault { refusal, place })
}

/// Plans a whole tape under loaded torque steps, none if the list of them is
/// empty, from rest to rest into a lent list of exactly one number more than
/// blocks: the checks of `read_to_plan`, then 11.
pub fn plan_tape(tape: &[u8], steps: &[u8], list: &mut [u64]) -> Result<(), Fault> {
    let (machine, blocks) = read_to_plan(tape, steps)?;
    if list.len() != blocks.len() + 1 {
        return Err(Refusal::List.at_no_record());
    }
    list.copy_from_slice(&from_rest(&machine, &blocks));
    Ok(())
}

impl Tape {
    /// The bytes of the tape, unchecked.
    pub fn pack(&self) -> Vec<u8> {
        let mut bytes = pack_limits(&self.limits, 0);
        for block in &self.blocks {
            bytes.extend(pack_record(block));
        }
        bytes
    }
}

//! Tapes: 24 bytes of limits, then 16 bytes for each block.

use crate::block::{Block, Listed};
use crate::machine::{Limits, Steps};
use crate::numbers::{LIMITS, LIMITS_BYTES, LISTED, MOST_BLOCKS, MOVES, RECORD, RECORD_BYTES};
use crate::refusal::{Fault, Refusal};
use crate::sys;

/// Reads limits from the first 24 bytes; later bytes play no part.
///
/// # Errors
///
/// Refuses by 9 (ragged), then 1 (limits).
///
/// ```
/// use fullerecru::{read_limits, write_limits, Limits, Refusal, LIMITS_BYTES};
/// # let limits = Limits {
/// #     accel_x: 200_000, accel_y: 200_000, accel_z: 200_000,
/// #     speed_x: 1_000_000, speed_y: 1_000_000, speed_z: 1_000_000,
/// #     corner_jump: 2_000, chord_tolerance: 1, tick: 2_000,
/// # };
/// let mut bytes = [0; LIMITS_BYTES];
/// write_limits(&limits, &mut bytes)?;
/// assert_eq!(read_limits(&bytes), Ok(limits));
/// assert_eq!(read_limits(&bytes[1..]), Err(Refusal::Ragged));
/// # Ok::<(), Refusal>(())
/// ```
pub fn read_limits(bytes: &[u8]) -> Result<Limits, Refusal> {
    let mut numbers = [0; LIMITS];
    Refusal::judged(sys::read_limits(bytes, &mut numbers))?;
    Ok(Limits::of(&numbers))
}

/// Writes limits into the first 24 of the lent bytes, and into no other.
///
/// # Errors
///
/// Refuses by 1 (limits), then 9 (ragged) where fewer than 24 bytes are lent.
pub fn write_limits(limits: &Limits, bytes: &mut [u8]) -> Result<(), Refusal> {
    Refusal::judged(sys::write_limits(&limits.numbers(), bytes))
}

/// Reads one block from the first 16 bytes; later bytes play no part. Record k of a tape, from 0,
/// begins at byte 24 + 16 × k.
///
/// # Errors
///
/// Refuses by 9 (ragged), then 2 (still), 3 (long), 4 (feed), 5 (radius), in that order.
///
/// ```
/// use fullerecru::{read_record, write_record, Block, Refusal, RECORD_BYTES};
///
/// let block = Block { x: -3, y: 4, z: 0, feed: 20_000, radius: 3_000, mark: 17 };
/// let mut bytes = [0; RECORD_BYTES];
/// assert_eq!(read_record(&bytes), Err(Refusal::Still));
/// write_record(&block, &mut bytes)?;
/// assert_eq!(read_record(&bytes), Ok(block));
/// # Ok::<(), Refusal>(())
/// ```
pub fn read_record(bytes: &[u8]) -> Result<Block, Refusal> {
    let (mut moves, mut numbers) = ([0; MOVES], [0; RECORD]);
    Refusal::judged(sys::read_record(bytes, &mut moves, &mut numbers))?;
    Ok(Block::of(moves, &numbers))
}

/// Writes one block into the first 16 of the lent bytes, and into no other.
///
/// # Errors
///
/// Refuses by 2 (still), 3 (long), 4 (feed), 5 (radius), 6 (mark), in that order, then by 9 (ragged)
/// where fewer than 16 bytes are lent.
pub fn write_record(block: &Block, bytes: &mut [u8]) -> Result<(), Refusal> {
    let moves = block.moves();
    Refusal::judged(sys::write_record(
        moves,
        block.feed,
        block.radius,
        block.mark,
        bytes,
    ))
}

/// Writes a whole tape, by [`write_limits`] and a [`write_record`] for each block.
///
/// # Errors
///
/// Refuses by 10 (many) where there are more than [`MOST_BLOCKS`] blocks, and by 1 (limits), both at
/// place 0; then by the first block at fault, 2 to 6, at its place counted from 1.
///
/// ```
/// use fullerecru::{write_tape, Block, Fault, Limits, Refusal};
/// # let limits = Limits {
/// #     accel_x: 200_000, accel_y: 200_000, accel_z: 200_000,
/// #     speed_x: 1_000_000, speed_y: 1_000_000, speed_z: 1_000_000,
/// #     corner_jump: 2_000, chord_tolerance: 1, tick: 2_000,
/// # };
/// let along_x = Block { x: 1_000, feed: 20_000, mark: 7, ..Block::default() };
/// let along_y = Block { y: 1_000, feed: 20_000, mark: 8, ..Block::default() };
/// let tape = write_tape(&limits, &[along_x, along_y])?;
/// assert_eq!(tape.len(), 24 + 2 * 16);
///
/// let fast = Block { feed: 1_000_001, ..along_y };
/// let fault = write_tape(&limits, &[along_x, fast]).unwrap_err();
/// assert_eq!(fault, Fault { refusal: Refusal::Feed, place: 2 });
/// # Ok::<(), Fault>(())
/// ```
pub fn write_tape(limits: &Limits, blocks: &[Block]) -> Result<Vec<u8>, Fault> {
    if blocks.len() > MOST_BLOCKS {
        return Err(Refusal::Many.into());
    }
    let mut tape = vec![0; LIMITS_BYTES + RECORD_BYTES * blocks.len()];
    write_limits(limits, &mut tape)?;
    let records = tape[LIMITS_BYTES..].chunks_exact_mut(RECORD_BYTES);
    for (place, (block, record)) in (1..).zip(blocks.iter().zip(records)) {
        write_record(block, record).map_err(|refusal| Fault { refusal, place })?;
    }
    Ok(tape)
}

/// Blocks on a tape, for the size of a list. A tape that is ragged or too long is refused before its
/// list is judged, so the number is cut at the most that a tape has.
pub(crate) fn blocks_on(tape: &[u8]) -> usize {
    (tape.len().saturating_sub(LIMITS_BYTES) / RECORD_BYTES).min(MOST_BLOCKS)
}

/// Plans a whole tape of 0 to 2,048 blocks from rest to rest: the squared speed, (µm/s)², at each
/// junction, one number more than there are blocks. Needs under 34 kB of stack.
///
/// # Errors
///
/// Refuses by 10 (many), 9 (ragged), 1 (limits), 14 (steps), then by the first record at fault (2, 3,
/// 4, 5), whose place from 1 the fault has; it has place 0 else.
///
/// ```
/// use fullerecru::{plan_tape, write_tape, Block, Fault, Limits, Refusal, Steps};
/// # let limits = Limits {
/// #     accel_x: 200_000, accel_y: 200_000, accel_z: 200_000,
/// #     speed_x: 1_000_000, speed_y: 1_000_000, speed_z: 1_000_000,
/// #     corner_jump: 2_000, chord_tolerance: 1, tick: 2_000,
/// # };
/// let along_x = Block { x: 1_000, feed: 20_000, mark: 7, ..Block::default() };
/// let along_y = Block { y: 1_000, feed: 20_000, mark: 8, ..Block::default() };
/// let mut tape = write_tape(&limits, &[along_x, along_y])?;
/// assert_eq!(plan_tape(&tape, &Steps::BuiltIn)?, [0, 2_000_000, 0]);
///
/// tape[40..].fill(0); // the second block no longer moves
/// let fault = plan_tape(&tape, &Steps::BuiltIn).unwrap_err();
/// assert_eq!(fault, Fault { refusal: Refusal::Still, place: 2 });
/// # Ok::<(), Fault>(())
/// ```
pub fn plan_tape(tape: &[u8], steps: &Steps<'_>) -> Result<Vec<u64>, Fault> {
    let mut list = vec![0; blocks_on(tape) + 1];
    let mut place = [0];
    let number = sys::plan_tape(tape, steps.bytes(), &mut list, &mut place);
    Fault::judged(number, place)?;
    Ok(list)
}

/// Lists a tape that is planned as by [`plan_tape`]: a row for each block, in order. Needs under 180 kB
/// of stack.
///
/// # Errors
///
/// Refuses as [`plan_tape`] does.
///
/// ```
/// use fullerecru::{list_tape, write_tape, Block, Fault, Limits, Steps};
/// # let limits = Limits {
/// #     accel_x: 200_000, accel_y: 200_000, accel_z: 200_000,
/// #     speed_x: 1_000_000, speed_y: 1_000_000, speed_z: 1_000_000,
/// #     corner_jump: 2_000, chord_tolerance: 1, tick: 2_000,
/// # };
/// let along_x = Block { x: 1_000, feed: 20_000, mark: 7, ..Block::default() };
/// let along_y = Block { y: 1_000, feed: 20_000, mark: 8, ..Block::default() };
/// let rows = list_tape(&write_tape(&limits, &[along_x, along_y])?, &Steps::BuiltIn)?;
/// let second = rows[1];
/// assert_eq!(second.given.block, along_y);
/// assert_eq!((second.given.entry, second.given.peak), (2_000_000, 201_000_000));
/// assert_eq!((second.cap, second.junction_cap), (400_000_000, 2_000_000));
/// # Ok::<(), Fault>(())
/// ```
pub fn list_tape(tape: &[u8], steps: &Steps<'_>) -> Result<Vec<Listed>, Fault> {
    let mut rows = vec![0; LISTED * blocks_on(tape)];
    let mut place = [0];
    let number = sys::list_tape(tape, steps.bytes(), &mut rows, &mut place);
    Fault::judged(number, place)?;
    // An accepted tape has as many records as rows, and each can be read.
    let records = tape[LIMITS_BYTES..].chunks_exact(RECORD_BYTES);
    let listed = (1..).zip(rows.chunks_exact(LISTED).zip(records));
    listed
        .map(|(place, (numbers, record))| {
            let block = read_record(record).map_err(|refusal| Fault { refusal, place })?;
            Ok(Listed::of(block.moves(), numbers))
        })
        .collect()
}

//! Programs in RS-274 text.

use crate::machine::Limits;
use crate::numbers::{LIMITS_BYTES, MOST_BLOCKS, MOST_TAPE, RECORD_BYTES};
use crate::refusal::Fault;
use crate::sys;
use crate::tape::write_limits;

/// Writes the blocks of a program in RS-274 text as tape records into the lent bytes, 16 for each from
/// the first on, and tells how many blocks there are. Needs under 34 kB of stack.
///
/// Lines end in a line feed and hold the words N, G0, G1, G20, G21, G90, G91, X, Y, Z and F: a capital,
/// an optional sign, 1 to 5 digits, and optionally a point with 1 to 4 digits. It begins in G21, G90, G1
/// at zero with no feed. A block is the difference of two positions, each rounded to the nearest µm; its
/// mark is the line's number from 1.
///
/// # Errors
///
/// Refuses line by line by 12 (word) or 13 (number), by 3 (long), 4 (feed) or 6 (mark) of its block,
/// then by 10 (many), at the line's place from 1; and after all lines by 9 (ragged) at place 0 where
/// too few bytes are lent. Refused, it writes nothing.
///
/// ```
/// use fullerecru::{text_records_into, Fault, Refusal, RECORD_BYTES};
///
/// let mut records = [0; 2 * RECORD_BYTES];
/// assert_eq!(text_records_into(b"F1200\nX1\nY1\n", &mut records), Ok(2));
/// let fault = text_records_into(b"F1200 X1\nX2\nX3\n", &mut records).unwrap_err();
/// assert_eq!(fault, Fault { refusal: Refusal::Ragged, place: 0 });
/// ```
pub fn text_records_into(text: &[u8], records: &mut [u8]) -> Result<usize, Fault> {
    let (mut blocks, mut place) = ([0], [0]);
    let number = sys::text(text, records, &mut blocks, &mut place);
    Fault::judged(number, place)?;
    Ok(blocks[0] as usize)
}

/// The tape records of a program in RS-274 text, as [`text_records_into`] writes them.
///
/// # Errors
///
/// Refuses as [`text_records_into`] does, but never by 9 (ragged).
///
/// ```
/// use fullerecru::{read_record, text_records, Block, Fault, RECORD_BYTES};
///
/// // 1 mm along X and 1 mm along Y at 20 mm/s, then a quarter of an inch up.
/// let records = text_records(b"N1 F1200 X1\nN2 Y1\nN3 G0 G20 Z0.25\n")?;
/// let blocks: Result<Vec<Block>, _> =
///     records.chunks_exact(RECORD_BYTES).map(read_record).collect();
/// assert_eq!(
///     blocks?,
///     [
///         Block { x: 1_000, feed: 20_000, mark: 1, ..Block::default() },
///         Block { y: 1_000, feed: 20_000, mark: 2, ..Block::default() },
///         Block { z: 6_350, feed: 1_000_000, mark: 3, ..Block::default() },
///     ]
/// );
/// # Ok::<(), Fault>(())
/// ```
pub fn text_records(text: &[u8]) -> Result<Vec<u8>, Fault> {
    let mut records = vec![0; RECORD_BYTES * MOST_BLOCKS];
    let blocks = text_records_into(text, &mut records)?;
    records.truncate(RECORD_BYTES * blocks);
    Ok(records)
}

/// The tape of a program in RS-274 text: limits, then its records.
///
/// # Errors
///
/// Refuses by 1 (limits) at place 0, then as [`text_records`] does.
///
/// ```
/// use fullerecru::{plan_tape, text_tape, Fault, Limits, Steps};
/// # let limits = Limits {
/// #     accel_x: 200_000, accel_y: 200_000, accel_z: 200_000,
/// #     speed_x: 1_000_000, speed_y: 1_000_000, speed_z: 1_000_000,
/// #     corner_jump: 2_000, chord_tolerance: 1, tick: 2_000,
/// # };
/// let tape = text_tape(b"N1 F1200 X1\nN2 Y1\nN3 G0 G20 Z0.25\n", &limits)?;
/// assert_eq!(plan_tape(&tape, &Steps::BuiltIn)?, [0, 2_000_000, 2_000_000, 0]);
/// # Ok::<(), Fault>(())
/// ```
pub fn text_tape(text: &[u8], limits: &Limits) -> Result<Vec<u8>, Fault> {
    let mut tape = vec![0; MOST_TAPE];
    write_limits(limits, &mut tape)?;
    let blocks = text_records_into(text, &mut tape[LIMITS_BYTES..])?;
    tape.truncate(LIMITS_BYTES + RECORD_BYTES * blocks);
    Ok(tape)
}

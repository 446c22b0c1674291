//! Programs in RS-274 text, document 02's Q-1: the blocks of a text, the same as
//! tape records, and the tape that the program `ngctape` writes.
//!
//! Each line is cut into words, the words change what holds from line to line,
//! and the block is what the rounded position has moved by.

mod lines;
mod modal;
mod words;

pub use lines::lines;
pub use modal::{rounded, Modal};
pub use words::{pieces, read_words, ten_thousandths, Word};

use crate::listing::fault_line;
use crate::machine::{check_block, Block};
use crate::refusal::{Fault, Refusal};
use crate::tape::{pack_record, read_limits, LIMITS_BYTES, MOST_BLOCKS};

/// Most bytes of a text that the program `ngctape` takes.
pub const MOST_TEXT_BYTES: usize = 393_216;

/// The blocks of a text of any bytes and any length, or the refusal of its
/// first faulty line, counted from 1: 12 or 13, then 3, 4, 6 of the line's
/// block, then 10 for a block past 2,048.
pub fn text_blocks(text: &[u8]) -> Result<Vec<Block>, Fault> {
    let mut blocks = Vec::new();
    let mut modal = Modal::default();
    for (line, place) in lines(text).zip(1..) {
        let at = |refusal| Fault { refusal, place };
        let next = modal.after(&read_words(line).map_err(at)?);
        if let Some(block) = next.block_from(&modal, place) {
            check_block(&block).map_err(at)?;
            if blocks.len() == MOST_BLOCKS {
                return Err(at(Refusal::Many));
            }
            blocks.push(block);
        }
        modal = next;
    }
    Ok(blocks)
}

/// Writes the blocks of a text as records from the first lent byte, all or
/// none, and gives their number: the refusals of `text_blocks`, then 9 at place
/// 0 if fewer than 16 bytes a block are lent.
pub fn text_records(text: &[u8], lent: &mut [u8]) -> Result<usize, Fault> {
    let blocks = text_blocks(text)?;
    let records: Vec<u8> = blocks.iter().flat_map(pack_record).collect();
    let part = lent.get_mut(..records.len());
    let part = part.ok_or(Refusal::Ragged.at_no_record())?;
    part.copy_from_slice(&records);
    Ok(blocks.len())
}

/// The tape of a text under the limits in the first 24 bytes of `limits`: 9 and
/// 1 at place 0, then the refusals of `text_blocks`.
pub fn text_tape(limits: &[u8], text: &[u8]) -> Result<Vec<u8>, Fault> {
    read_limits(limits).map_err(Refusal::at_no_record)?;
    let mut tape = limits[..LIMITS_BYTES].to_vec();
    tape.extend(text_blocks(text)?.iter().flat_map(pack_record));
    Ok(tape)
}

/// What `ngctape` writes for limits and a text: the tape, or the refusal line.
pub fn ngctape(limits: &[u8], text: &[u8]) -> Vec<u8> {
    text_tape(limits, text).unwrap_or_else(|fault| fault_line(&fault).into_bytes())
}

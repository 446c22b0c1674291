//! A text in the library and in the reference: the answer, its place, the number
//! of blocks and every lent byte.

use reference::refusal::Fault;
use reference::tape::RECORD_BYTES;
use reference::text::text_records;

use crate::{proved, same};

/// Bytes of a text that are shown at each end, where it is long.
const SHOWN: usize = 400;

/// A text as it is shown where answers differ.
fn shown(text: &[u8]) -> String {
    if text.len() <= 2 * SHOWN {
        return text.escape_ascii().to_string();
    }
    let (begin, end) = (&text[..SHOWN], &text[text.len() - SHOWN..]);
    let length = text.len();
    format!(
        "{} .. {}, {length} bytes",
        begin.escape_ascii(),
        end.escape_ascii()
    )
}

/// Lent bytes before a call: no two neighbours are alike, and those of one seed
/// are not those of the next.
fn pattern(seed: u64, room: usize) -> Vec<u8> {
    let first = seed.wrapping_mul(101) as u8;
    let byte = |k: usize| first.wrapping_add((k as u8).wrapping_mul(37));
    (0..room).map(byte).collect()
}

/// The first place where two lists differ, with the bytes there.
fn difference(proved: &[u8], reference: &[u8]) -> Option<(usize, u8, u8)> {
    let place = proved.iter().zip(reference).position(|(p, r)| p != r)?;
    Some((place, proved[place], reference[place]))
}

/// Compares the records of a text in `room` lent bytes; gives the answer.
pub fn compare_text(seed: u64, text: &[u8], room: usize) -> Result<usize, Fault> {
    let mut expected = pattern(seed, room);
    let mut records = expected.clone();
    let known = text_records(text, &mut expected);
    let found = proved::text_records(text, &mut records);
    let input = || format!("{} in {room} bytes", shown(text));
    same(seed, input, found, known);
    same(seed, input, difference(&records, &expected), None);
    known
}

/// The number on the display of an answer, 0 for accepted.
pub fn number<T>(answer: &Result<T, Fault>) -> u64 {
    let of_fault = |fault: &Fault| fault.refusal.number();
    answer.as_ref().map_or_else(of_fault, |_| 0)
}

/// Bytes of so many records.
pub fn bytes_of(blocks: usize) -> usize {
    blocks * RECORD_BYTES
}

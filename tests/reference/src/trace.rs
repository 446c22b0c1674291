//! A trace: the 24 bytes of limits, then 28 bytes for each call.

use crate::machine::{Block, Limits};
use crate::tape::pack_limits;

/// Bytes of one call: seven 32-bit words, most significant byte first.
pub const CALL_BYTES: usize = 28;

/// A call that changes a planner.
#[derive(Clone, Copy, Debug, PartialEq, Eq)]
pub enum Call {
    Take,
    Add(Block),
}

/// The call that 28 bytes denote: kind 0 is a take, any other kind an add.
pub fn read_call(bytes: &[u8; CALL_BYTES]) -> Call {
    if word(bytes, 0) == 0 {
        return Call::Take;
    }
    Call::Add(Block {
        moves: [1, 2, 3].map(|place| word(bytes, place) as i32 as i64),
        feed: word(bytes, 4) as u64,
        radius: word(bytes, 5) as u64,
        mark: word(bytes, 6) as u64,
    })
}

/// The word at a place counted from 0.
fn word(bytes: &[u8; CALL_BYTES], place: usize) -> u32 {
    let own = &bytes[4 * place..4 * place + 4];
    own.iter().fold(0, |value, byte| value << 8 | *byte as u32)
}

/// The 28 bytes of a call; an add has kind 1, and each field must fit 32 bits.
pub fn pack_call(call: &Call) -> Vec<u8> {
    let words = match call {
        Call::Take => [0; 7],
        Call::Add(block) => {
            let [x, y, z] = block.moves.map(|m| m as u32);
            let [feed, radius, mark] = [block.feed, block.radius, block.mark].map(|f| f as u32);
            [1, x, y, z, feed, radius, mark]
        }
    };
    words.iter().flat_map(|word| word.to_be_bytes()).collect()
}

/// The bytes of a trace, unchecked.
pub fn pack_trace(limits: &Limits, calls: &[Call]) -> Vec<u8> {
    let mut bytes = pack_limits(limits, 0);
    for call in calls {
        bytes.extend(pack_call(call));
    }
    bytes
}

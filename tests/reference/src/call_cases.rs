//! The cases of the test program `calls_run`: calls of the tape and of the
//! machine, as bytes, and what is answered.

use crate::machine::{Block, Limits};
use crate::machine_cases;
use crate::tape_cases;

/// Bytes of the buffer of which every case lends the first ones.
pub const BUFFER_BYTES: usize = 40_000;
/// Words of the limits and of a block.
pub(crate) const LIMIT_WORDS: usize = 9;
pub(crate) const BLOCK_WORDS: usize = 6;
/// Words of a case's head: kind, bytes lent, bytes stored, and the values.
const HEAD_WORDS: usize = 3 + LIMIT_WORDS;
pub(crate) const WORD_BYTES: usize = 8;

/// Calls on a lent part of the tape, on a whole one, or of a machine.
#[derive(Clone, Copy, Debug, PartialEq, Eq)]
pub enum Kind {
    ReadLimits = 0,
    ReadRecord = 1,
    WriteLimits = 2,
    WriteRecord = 3,
    Check = 4,
    WriteRecordAt = 5,
    Machine = 6,
}

const KINDS: [Kind; 7] = [
    Kind::ReadLimits,
    Kind::ReadRecord,
    Kind::WriteLimits,
    Kind::WriteRecord,
    Kind::Check,
    Kind::WriteRecordAt,
    Kind::Machine,
];

/// One call: what is stored at the buffer's begin, then the bytes lent.
#[derive(Clone, Debug, PartialEq, Eq)]
pub struct Case {
    pub kind: Kind,
    pub lent: usize,
    pub values: [u64; LIMIT_WORDS],
    pub stored: Vec<u8>,
}

impl Case {
    /// A call without values on `lent` bytes of the buffer.
    pub(crate) fn lending(kind: Kind, stored: &[u8], lent: usize) -> Case {
        assert!(stored.len() <= lent && lent <= BUFFER_BYTES);
        Case {
            kind,
            lent,
            values: [0; LIMIT_WORDS],
            stored: stored.to_vec(),
        }
    }

    /// A call that lends just the bytes stored.
    pub(crate) fn reading(kind: Kind, stored: &[u8]) -> Case {
        Case::lending(kind, stored, stored.len())
    }

    /// The case as bytes: its head, most significant byte first, then what is
    /// stored.
    pub fn bytes(&self) -> Vec<u8> {
        let head = [self.kind as u64, self.lent as u64, self.stored.len() as u64];
        let words: Vec<u64> = head.into_iter().chain(self.values).collect();
        let mut bytes = word_bytes(&words);
        bytes.extend(&self.stored);
        bytes
    }

    /// The answer as a line; the buffer keeps what is stored and written.
    fn answer(&self, buffer: &mut [u8]) -> String {
        buffer[..self.stored.len()].copy_from_slice(&self.stored);
        let part = &mut buffer[..self.lent];
        match self.kind {
            Kind::Machine => machine_cases::Case::of_call(&self.values, part).answer(),
            kind => tape_cases::answer(kind, &self.values, part),
        }
    }
}

/// All cases: the tape's, then the machine's.
pub fn cases() -> Vec<Case> {
    let mut all = tape_cases::cases();
    all.extend(machine_cases::cases().iter().map(machine_cases::Case::call));
    all
}

/// The cases one after the other as bytes.
pub fn bytes_of(cases: &[Case]) -> Vec<u8> {
    cases.iter().flat_map(Case::bytes).collect()
}

/// The cases that such bytes denote.
pub fn cases_of(stdin: &[u8]) -> Vec<Case> {
    let mut rest = stdin;
    let mut cases = Vec::new();
    while !rest.is_empty() {
        let (head, after) = rest.split_at(HEAD_WORDS * WORD_BYTES);
        let words = words_of(head);
        let (stored, next) = after.split_at(words[2] as usize);
        cases.push(Case {
            values: words[3..].try_into().expect("nine words"),
            ..Case::lending(KINDS[words[0] as usize], stored, words[1] as usize)
        });
        rest = next;
    }
    cases
}

/// The answers to such bytes, a line for each case.
pub fn answers(stdin: &[u8]) -> String {
    let mut buffer = vec![0; BUFFER_BYTES];
    let cases = cases_of(stdin);
    let lines = cases.iter().map(|case| case.answer(&mut buffer) + "\n");
    lines.collect()
}

/// Words of 8 bytes, most significant byte first.
pub(crate) fn words_of(bytes: &[u8]) -> Vec<u64> {
    let word = |bytes: &[u8]| u64::from_be_bytes(bytes.try_into().expect("eight bytes"));
    bytes.chunks(WORD_BYTES).map(word).collect()
}

/// The bytes of such words.
pub(crate) fn word_bytes(words: &[u64]) -> Vec<u8> {
    words.iter().flat_map(|w| w.to_be_bytes()).collect()
}

/// Acceleration X, Y, Z, speed X, Y, Z, J, E, T.
pub(crate) fn limit_words(l: &Limits) -> [u64; LIMIT_WORDS] {
    let [ax, ay, az] = l.accel;
    let [sx, sy, sz] = l.speed;
    [ax, ay, az, sx, sy, sz, l.jump, l.chord, l.tick]
}

/// The limits of such words.
pub(crate) fn limits_of(words: &[u64; LIMIT_WORDS]) -> Limits {
    let [ax, ay, az, sx, sy, sz, jump, chord, tick] = *words;
    Limits {
        accel: [ax, ay, az],
        speed: [sx, sy, sz],
        jump,
        chord,
        tick,
    }
}

/// Moves X, Y, Z in two's complement, feed, radius, mark.
pub(crate) fn block_words(block: &Block) -> [u64; BLOCK_WORDS] {
    let [x, y, z] = block.moves.map(|m| m as u64);
    [x, y, z, block.feed, block.radius, block.mark]
}

/// The block that such words begin with.
pub(crate) fn block_of(words: &[u64]) -> Block {
    let [x, y, z, feed, radius, mark] = words[..BLOCK_WORDS].try_into().expect("six words");
    Block {
        moves: [x as i64, y as i64, z as i64],
        feed,
        radius,
        mark,
    }
}

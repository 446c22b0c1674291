//! Cases for the tape's calls: bytes lent or values to write, and what is answered.

use std::ops::RangeInclusive;

use crate::call_cases::{
    block_of, block_words, limit_words, limits_of, Case, Kind, BLOCK_WORDS, BUFFER_BYTES,
    LIMIT_WORDS,
};
use crate::generate::{faulty_block, faulty_limits, limits, machine_m, path, BLOCK_FAULTS};
use crate::machine::{range, Block, Limits};
use crate::machine_cases::spaced;
use crate::refusal::Refusal;
use crate::rng::Rng;
use crate::tape::{
    pack_limits, pack_record, read_limits, read_record, read_tape, unpack_limits, unpack_record,
    write_limits, write_record, write_record_at, Tape, LIMITS_BYTES, MOST_BLOCKS, MOST_BYTES,
    MOVE_BITS, RECORD_BYTES, ZERO_BITS,
};

/// Byte that a part of the tape holds before it is written.
const FILLER: u8 = 0xa5;
/// Faulty blocks drawn for each set of refusals.
const DRAWS: usize = 4;

impl Case {
    /// The limits written into a part of `lent` filler bytes.
    fn writing_limits(limits: &Limits, lent: usize) -> Case {
        Case {
            values: limit_words(limits),
            ..Case::reading(Kind::WriteLimits, &vec![FILLER; lent])
        }
    }

    /// The block written into a part of `lent` filler bytes.
    fn writing_record(block: &Block, lent: usize) -> Case {
        Case {
            values: record_values(block, 0),
            ..Case::reading(Kind::WriteRecord, &vec![FILLER; lent])
        }
    }

    /// The block written as record k, from 0, of a tape of `lent` filler bytes.
    fn writing_at(block: &Block, k: u64, lent: usize) -> Case {
        Case {
            values: record_values(block, k),
            ..Case::reading(Kind::WriteRecordAt, &vec![FILLER; lent])
        }
    }
}

/// The answer to a call on a lent part of the tape, which keeps what is written.
pub(crate) fn answer(kind: Kind, values: &[u64; LIMIT_WORDS], part: &mut [u8]) -> String {
    match kind {
        Kind::ReadLimits => {
            let shown = |l| format!("limits {}", spaced(&limit_words(&l)));
            read_limits(part).map_or_else(refused, shown)
        }
        Kind::ReadRecord => read_record(part).map_or_else(refused, record_line),
        Kind::WriteLimits => {
            let answer = write_limits(&limits_of(values), part);
            written(answer, part)
        }
        Kind::WriteRecord => {
            let answer = write_record(&block_of(values), part);
            written(answer, part)
        }
        Kind::WriteRecordAt => {
            let answer = write_record_at(&block_of(values), part, values[BLOCK_WORDS]);
            written(answer, part)
        }
        Kind::Check => match read_tape(part) {
            Ok(tape) => format!("accepted {}", tape.blocks.len()),
            Err(fault) => format!("{} at {}", refused(fault.refusal), fault.place),
        },
        Kind::Machine => panic!("no call of the tape"),
    }
}

fn refused(refusal: Refusal) -> String {
    format!("refused {}", refusal.number())
}

/// The record that was read.
fn record_line(block: Block) -> String {
    let rest = [block.feed, block.radius, block.mark];
    format!("record {} {}", spaced(&block.moves), spaced(&rest))
}

/// How a write ended, and the lent bytes after it.
fn written(answer: Result<(), Refusal>, part: &[u8]) -> String {
    let hex: String = part.iter().map(|byte| format!("{byte:02x}")).collect();
    let end = answer.map_or_else(refused, |()| "written".to_string());
    format!("{end} {hex}")
}

/// The values of a record that is written: the block's words, then the number of
/// the record on the tape, 0 if it is written alone; the rest 0.
fn record_values(block: &Block, k: u64) -> [u64; LIMIT_WORDS] {
    let mut values = [0; LIMIT_WORDS];
    values[..BLOCK_WORDS].copy_from_slice(&block_words(block));
    values[BLOCK_WORDS] = k;
    values
}

/// All cases, in the order of the groups below.
pub fn cases() -> Vec<Case> {
    let mut rng = Rng::new(4);
    let mut all = limits_read(&mut rng);
    all.extend(records_read(&mut rng));
    all.extend(limits_written(&mut rng));
    all.extend(records_written(&mut rng));
    all.extend(written_then_read(&mut rng));
    all.extend(short_tapes(&mut rng));
    all.extend(faulty_records(&mut rng));
    all.extend(long_tapes(&mut rng));
    all.extend(records_written_at(&mut rng));
    all
}

/// A block that passes, with a sign and a value in every field.
fn plain() -> Block {
    Block {
        moves: [3, -4, 5],
        feed: 20_000,
        radius: 1_000,
        mark: 7,
    }
}

/// A range's ends, one beyond each, the same in the lowest 32 bits as the low
/// end, and the greatest word.
fn ends(range: RangeInclusive<u64>) -> Vec<u64> {
    let (low, high) = (*range.start(), *range.end());
    let alias = low + (1 << u32::BITS);
    let mut values = vec![low, high, high + 1, alias, u64::MAX];
    values.extend(low.checked_sub(1));
    values
}

/// Each limit at its ends and beyond, the others being machine M's.
fn limit_ends() -> Vec<Limits> {
    let ranges = [
        [range::ACCEL; 3],
        [range::SPEED; 3],
        [range::JUMP, range::CHORD, range::TICK],
    ];
    let mut all = Vec::new();
    for (field, range) in ranges.into_iter().flatten().enumerate() {
        for value in ends(range) {
            let mut words = limit_words(&machine_m());
            words[field] = value;
            all.push(limits_of(&words));
        }
    }
    all
}

/// Moves at the ends of the range and of the tape's field, and beyond.
fn move_ends() -> Vec<i64> {
    let (low, high) = (*range::MOVE.start(), *range::MOVE.end());
    let field = 1 << (MOVE_BITS - 1);
    let alias = 1 << u32::BITS;
    let mut values = vec![-1, 0, 1, low, high, low - 1, high + 1];
    values.extend([-field - 1, -field, field - 1, field]);
    values.extend([-alias, alias, alias + 1, i64::MIN, i64::MAX]);
    values
}

/// Each field of a block at its ends and beyond; a move also on its own.
fn block_ends() -> Vec<Block> {
    let mut all = Vec::new();
    for others in [plain().moves, [0; 3]] {
        for axis in 0..3 {
            for value in move_ends() {
                let mut moves = others;
                moves[axis] = value;
                all.push(Block { moves, ..plain() });
            }
        }
    }
    let fed = |feed| Block { feed, ..plain() };
    let curved = |radius| Block { radius, ..plain() };
    let marked = |mark| Block { mark, ..plain() };
    all.extend(ends(range::FEED).into_iter().map(fed));
    all.extend(ends(range::RADIUS).into_iter().map(curved));
    all.extend(ends(range::MARK).into_iter().map(marked));
    all
}

/// Blocks with each set of refusals that can hold at once.
fn faulty_blocks(rng: &mut Rng, on_tape: bool) -> Vec<Block> {
    let mark = Refusal::Mark.number();
    let kept = |faults: &&&[u64]| !on_tape || !faults.contains(&mark);
    let sets = BLOCK_FAULTS.iter().filter(kept);
    sets.flat_map(|faults| [*faults; DRAWS])
        .map(|faults| faulty_block(rng, faults, on_tape))
        .collect()
}

/// Limits read alone: 9 first, then 1, later bytes playing no part.
fn limits_read(rng: &mut Rng) -> Vec<Case> {
    let fits = |l: &Limits| unpack_limits(&pack_limits(l, 0)).0 == *l;
    let ends = limit_ends().into_iter().filter(fits);
    let mut tapes: Vec<Vec<u8>> = ends.map(|l| pack_limits(&l, 0)).collect();
    for field in 0..LIMIT_WORDS {
        let mut words = limit_words(&machine_m());
        words[field] = u64::MAX; // all bits of the field set
        tapes.push(pack_limits(&limits_of(&words), 0));
    }
    tapes.extend((0..ZERO_BITS).map(|bit| pack_limits(&machine_m(), 1 << bit)));
    tapes.push(pack_limits(&machine_m(), u64::MAX));
    tapes.push(pack_limits(&faulty_limits(rng), 1));
    tapes.extend((0..8).map(|_| pack_limits(&limits(rng), 0)));
    let mut cases: Vec<Case> = tapes
        .iter()
        .map(|tape| Case::reading(Kind::ReadLimits, tape))
        .collect();
    let whole = |l: &Limits, last_bits| [pack_limits(l, last_bits), vec![FILLER; RECORD_BYTES]];
    for lent in [0, 23, 24, 25, 40] {
        let good = whole(&machine_m(), 0);
        let bad = whole(&faulty_limits(rng), 0);
        let last_bit = whole(&machine_m(), 1);
        for tape in [good, bad, last_bit] {
            cases.push(Case::reading(Kind::ReadLimits, &tape.concat()[..lent]));
        }
    }
    cases
}

/// Records read alone: 9 first, then 2 to 5; every mark of 21 bits passes.
fn records_read(rng: &mut Rng) -> Vec<Case> {
    let fits = |block: &Block| unpack_record(&pack_record(block)) == *block;
    let mut blocks: Vec<Block> = block_ends().into_iter().filter(fits).collect();
    blocks.extend([u64::MAX].map(|feed| Block { feed, ..plain() }));
    blocks.extend([u64::MAX].map(|radius| Block { radius, ..plain() }));
    blocks.extend(path(rng, 8));
    blocks.extend(faulty_blocks(rng, true));
    let mut cases: Vec<Case> = blocks
        .iter()
        .map(|block| Case::reading(Kind::ReadRecord, &pack_record(block)))
        .collect();
    for lent in [0, 15, 16, 17, 32] {
        for block in
            std::iter::once(plain()).chain(faulty_blocks(rng, true).into_iter().step_by(DRAWS))
        {
            let tape = [pack_record(&block), vec![FILLER; RECORD_BYTES]].concat();
            cases.push(Case::reading(Kind::ReadRecord, &tape[..lent]));
        }
    }
    cases
}

/// Limits written: 1 first, then 9; other bytes and a refused part stay.
fn limits_written(rng: &mut Rng) -> Vec<Case> {
    let tried = |l: &Limits| Case::writing_limits(l, LIMITS_BYTES + 1);
    let mut cases: Vec<Case> = limit_ends().iter().map(tried).collect();
    cases.extend((0..8).map(|_| tried(&limits(rng))));
    for lent in [0, 23, 24, 25, 30] {
        cases.push(Case::writing_limits(&machine_m(), lent));
        cases.push(Case::writing_limits(&faulty_limits(rng), lent));
    }
    cases
}

/// Records written: 2 to 6 first, then 9; other bytes and a refused part stay.
fn records_written(rng: &mut Rng) -> Vec<Case> {
    let tried = |block: &Block| Case::writing_record(block, RECORD_BYTES + 1);
    let mut cases: Vec<Case> = block_ends().iter().map(tried).collect();
    cases.extend(path(rng, 8).iter().map(tried));
    cases.extend(faulty_blocks(rng, false).iter().map(tried));
    for lent in [0, 15, 16, 17, 20] {
        cases.push(Case::writing_record(&plain(), lent));
        let faulty = faulty_blocks(rng, false).into_iter().step_by(DRAWS);
        cases.extend(faulty.map(|block| Case::writing_record(&block, lent)));
    }
    cases
}

/// Records written in their place on a tape: 2 to 6 first, then 9 where the tape
/// ends before the record does. Some k have their first byte beyond 64 bits.
fn records_written_at(rng: &mut Rng) -> Vec<Case> {
    let beyond = [1 << 59, (1 << 60) - 1, 1 << 60, u64::MAX];
    let three = LIMITS_BYTES + 3 * RECORD_BYTES;
    let mut cases = Vec::new();
    for lent in [0, 23, 24, 39, 40, three - 1, three, three + 1] {
        for k in [0, 1, 2, 3].into_iter().chain(beyond) {
            cases.push(Case::writing_at(&plain(), k, lent));
        }
    }
    for block in faulty_blocks(rng, false).into_iter().step_by(DRAWS) {
        for k in [1, 3, 1 << 60] {
            cases.push(Case::writing_at(&block, k, three));
        }
    }
    cases
}

/// What a write leaves in the buffer is read back, a refused one's too.
fn written_then_read(rng: &mut Rng) -> Vec<Case> {
    let mut cases = Vec::new();
    for lent in [LIMITS_BYTES - 1, LIMITS_BYTES, LIMITS_BYTES + 1] {
        cases.push(Case::writing_limits(&limits(rng), lent));
        cases.push(Case::lending(Kind::ReadLimits, &[], LIMITS_BYTES));
        cases.push(Case::lending(Kind::Check, &[], LIMITS_BYTES));
    }
    for lent in [RECORD_BYTES - 1, RECORD_BYTES, RECORD_BYTES + 1] {
        cases.push(Case::writing_record(&path(rng, 1)[0], lent));
        cases.push(Case::lending(Kind::ReadRecord, &[], RECORD_BYTES));
    }
    cases
}

/// A tape of these limits and blocks, unchecked.
fn tape(limits: Limits, blocks: &[Block]) -> Vec<u8> {
    let blocks = blocks.to_vec();
    Tape { limits, blocks }.pack()
}

/// Tapes of up to two records: every length, limits and records at fault.
fn short_tapes(rng: &mut Rng) -> Vec<Case> {
    let good = path(rng, 2);
    let bad = faulty_block(rng, &[Refusal::Feed.number()], true);
    let mut last_bit = pack_limits(&machine_m(), 1);
    last_bit.extend(pack_record(&bad));
    let tapes = [
        tape(machine_m(), &good),
        tape(machine_m(), &[bad, bad]),
        tape(faulty_limits(rng), &good),
        tape(faulty_limits(rng), &[bad, bad]),
        last_bit,
    ];
    let mut cases = Vec::new();
    for tape in tapes {
        cases.push(Case::lending(
            Kind::Check,
            &tape,
            LIMITS_BYTES + 2 * RECORD_BYTES,
        ));
        for lent in [0, 1, 16, 23, 24, 25, 39, 40, 41, 55, 57] {
            cases.push(Case::lending(Kind::Check, &[], lent));
        }
    }
    cases
}

/// Each set of refusals at places 1, 2 and 3 of three, alone and with a record
/// of the next set after it.
fn faulty_records(rng: &mut Rng) -> Vec<Case> {
    let good = path(rng, 3);
    let bad = faulty_blocks(rng, true);
    let mut cases = Vec::new();
    for (k, block) in bad.iter().enumerate().step_by(DRAWS) {
        let other = bad[(k + DRAWS) % bad.len()];
        for place in 0..good.len() {
            let mut blocks = good.clone();
            blocks[place] = *block;
            cases.push(Case::reading(Kind::Check, &tape(machine_m(), &blocks)));
            let after = blocks.iter_mut().skip(place + 1);
            after.for_each(|block| *block = other);
            cases.push(Case::reading(Kind::Check, &tape(machine_m(), &blocks)));
        }
    }
    cases
}

/// Tapes about as long as may be: lengths, then faults at the begin and at
/// the last place. The long tape is stored twice, good and with its last
/// record at fault.
fn long_tapes(rng: &mut Rng) -> Vec<Case> {
    let check = |stored: &[u8], lent| Case::lending(Kind::Check, stored, lent);
    let over = [MOST_BYTES + 1, MOST_BYTES + RECORD_BYTES, BUFFER_BYTES];
    let mut blocks = path(rng, MOST_BLOCKS);
    let bad = faulty_block(rng, &[Refusal::Radius.number()], true);
    let still = faulty_block(rng, &[Refusal::Still.number()], true);
    let bad_limits = tape(faulty_limits(rng), &[]);
    let good_start = tape(machine_m(), &blocks[..2]);
    let mut cases = vec![check(&tape(machine_m(), &blocks), MOST_BYTES)];
    cases.extend(over.map(|lent| check(&[], lent)));
    cases.push(check(&[], MOST_BYTES - 1));
    cases.push(check(&[], MOST_BYTES - RECORD_BYTES));
    cases.push(check(&bad_limits, MOST_BYTES));
    cases.push(check(&[], MOST_BYTES - 1));
    cases.extend(over.map(|lent| check(&[], lent)));
    cases.push(check(&tape(machine_m(), &[bad]), MOST_BYTES));
    cases.push(check(&[], MOST_BYTES - 1));
    cases.extend(over.map(|lent| check(&[], lent)));
    cases.push(check(&tape(machine_m(), &[blocks[0], bad]), MOST_BYTES));
    cases.push(check(&good_start, MOST_BYTES));
    blocks[MOST_BLOCKS - 1] = still;
    cases.push(check(&tape(machine_m(), &blocks), MOST_BYTES));
    cases.push(check(&[], MOST_BYTES - RECORD_BYTES));
    cases.push(check(&tape(machine_m(), &[bad]), MOST_BYTES));
    cases.push(check(&tape(machine_m(), &[blocks[0], bad]), MOST_BYTES));
    cases.push(check(&bad_limits, MOST_BYTES));
    cases
}

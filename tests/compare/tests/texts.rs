//! Programs in RS-274 text through the library, as the reference answers them:
//! seeded texts of every sort in lists of every length, the tapes that their
//! records make, and the longest texts.
//!
//! text_words.rs has the words of a line in every form.

use std::collections::BTreeSet;

use compare::guarded::{lend_at, SIDES};
use compare::texts::{bytes_of, compare_text, number};
use compare::{proved, report, same, seeds, Trying};
use reference::generate::*;
use reference::machine::{Block, Machine};
use reference::quick;
use reference::refusal::Fault;
use reference::rng::Rng;
use reference::tape::{LIMITS_BYTES, MOST_BLOCKS, RECORD_BYTES};
use reference::text::text_blocks;

/// Bytes of 2,048 records.
const MOST_RECORDS: usize = RECORD_BYTES * MOST_BLOCKS;

/// The last line that a mark can name.
const LAST_MARK: usize = 2_097_151;

/// Bytes of a long text.
const MEGABYTE: usize = 1 << 20;

/// Two lengths of a list for a text: as many bytes as its records have, and
/// another, too short or too long. A refused text has as many as 16 for each
/// of its lines before the fault.
fn two_rooms(rng: &mut Rng, text: &[u8]) -> [usize; 2] {
    let lines = |fault: Fault| fault.place as usize - 1;
    let exact = bytes_of(text_blocks(text).map_or_else(lines, |blocks| blocks.len()));
    let short = [0, 1, 15, 16, exact.saturating_sub(1), exact / 2];
    let long = [exact + 1, exact + 15, exact + 16, exact + 4_096];
    let most = [MOST_RECORDS - 1, MOST_RECORDS, MOST_RECORDS + 1, 40_000];
    let others = rng.pick(&[&short[..], &long, &most]);
    [exact, rng.pick(others)]
}

/// Compares so many seeded texts, each in two lists; they meet the numbers.
fn compare_seeded(texts: fn(&mut Rng) -> Vec<u8>, count: u64, expected: &[u64], what: &str) {
    let mut met = BTreeSet::new();
    for seed in seeds(count) {
        let _trying = Trying::seed(seed);
        let mut rng = Rng::new(seed);
        let text = texts(&mut rng);
        for room in two_rooms(&mut rng, &text) {
            met.insert(number(&compare_text(seed, &text, room)));
        }
    }
    assert!(met.iter().eq(expected), "{what}: {met:?}");
    report(2 * count as usize, what);
}

#[test]
fn texts_of_every_sort_have_the_same_records() {
    let met = [0, 3, 4, 9, 10, 12, 13];
    compare_seeded(any_text, 3_000, &met, "texts of every sort");
}

#[test]
fn accepted_texts_have_the_same_records() {
    compare_seeded(text, 4_000, &[0, 9], "accepted texts");
}

#[test]
fn faulty_texts_have_the_same_refusal_and_place() {
    let met = [0, 3, 4, 9, 12, 13];
    compare_seeded(faulty_text, 12_000, &met, "faulty texts");
}

#[test]
fn noisy_texts_have_the_same_answer() {
    let met = [0, 3, 4, 9, 12, 13];
    compare_seeded(noisy_text, 12_000, &met, "noisy texts");
}

#[test]
fn long_texts_have_the_same_answer() {
    let met = [0, 3, 4, 9, 10, 12, 13];
    compare_seeded(many_text, 500, &met, "texts of about 2048 blocks");
}

/// Every length that a list for some records could be taken for.
fn rooms(blocks: usize) -> Vec<usize> {
    let exact = bytes_of(blocks);
    let near = [exact.saturating_sub(16), exact.saturating_sub(1), exact];
    let more = [exact + 1, exact + 15, exact + 16, 100_000];
    let ends = [MOST_RECORDS - 1, MOST_RECORDS, MOST_RECORDS + 1];
    let all = [&[0, 1, 15, 16, 17][..], &near, &more, &ends].concat();
    let set: BTreeSet<usize> = all.into_iter().collect();
    set.into_iter().collect()
}

/// Accepted and faulty texts, a guard page before the lists and one behind them.
#[test]
fn lists_of_every_length_are_answered_alike() {
    let mut count = 0;
    for seed in seeds(120) {
        let _trying = Trying::seed(seed);
        let mut rng = Rng::new(seed);
        let (good, blocks) = text_with_blocks(&mut rng);
        let faulty = faulty_text(&mut rng);
        for side in SIDES {
            lend_at(side);
            for room in rooms(blocks.len()) {
                let expected = if room < bytes_of(blocks.len()) { 9 } else { 0 };
                let found = number(&compare_text(seed, &good, room));
                assert_eq!(found, expected, "seed {seed}, {room} bytes");
                let _ = compare_text(seed, &faulty, room);
                count += 2;
            }
        }
    }
    report(count, "texts in lists of many lengths");
}

/// Sees that records are the blocks, each by the library's own reader, and that
/// behind limits they are a tape, by the library's own plan.
fn expect_tape(seed: u64, rng: &mut Rng, records: &[u8], blocks: &[Block]) {
    let own: Vec<_> = records
        .chunks(RECORD_BYTES)
        .map(proved::read_record)
        .collect();
    let known: Vec<_> = blocks.iter().map(|block| Ok(*block)).collect();
    same(seed, String::new, own, known);
    let (limits, steps) = (limits(rng), steps(rng));
    let mut tape = vec![0; LIMITS_BYTES];
    proved::write_limits(&limits, &mut tape).expect("limits that pass");
    tape.extend(records);
    let mut plan = vec![77; blocks.len() + 1];
    let found = proved::plan_tape(&tape, &steps, &mut plan);
    let machine = Machine::of(&limits, &steps).expect("limits and steps that pass");
    let known = quick::plan_of(&machine, blocks);
    same(seed, String::new, (found, Some(plan)), (Ok(()), known));
}

/// The records of a text, alone in their list.
fn records_of(text: &[u8], blocks: usize) -> Vec<u8> {
    let mut records = vec![0xee; bytes_of(blocks)];
    let found = proved::text_records(text, &mut records);
    assert_eq!(found, Ok(blocks));
    records
}

/// The blocks are those that the text was written for.
#[test]
fn the_records_of_a_text_are_a_tape() {
    for seed in seeds(1_500) {
        let _trying = Trying::seed(seed);
        let mut rng = Rng::new(seed);
        let (text, blocks) = text_with_blocks(&mut rng);
        let records = records_of(&text, blocks.len());
        expect_tape(seed, &mut rng, &records, &blocks);
    }
    report(1_500, "tapes of texts");
}

#[test]
fn the_records_of_a_long_text_are_a_tape() {
    let mut count = 0;
    for seed in seeds(60) {
        let _trying = Trying::seed(seed);
        let mut rng = Rng::new(seed);
        let text = many_text(&mut rng);
        if let Ok(blocks) = text_blocks(&text) {
            let records = records_of(&text, blocks.len());
            expect_tape(seed, &mut rng, &records, &blocks);
            count += 1;
        }
    }
    assert!(count >= 10, "{count} texts were accepted");
    report(count, "tapes of long texts");
}

/// A text whose first line sets G0, with so many lines of one block each behind
/// it, the last without a line feed.
fn to_and_fro(blocks: usize) -> Vec<u8> {
    let mut text = b"G0".to_vec();
    for k in 0..blocks {
        text.extend([b"\nX1", b"\nX0"][k % 2]);
    }
    text
}

/// Compares a text in a list of a length; the number and the place are these.
fn expect(text: &[u8], room: usize, expected: (u64, usize)) {
    let answer = compare_text(room as u64, text, room);
    let place = answer.map_or_else(|fault| fault.place as usize, |_| 0);
    assert_eq!((number(&answer), place), expected, "{room} bytes");
}

/// 2,048 blocks are accepted in as many bytes as they need, 2,049 in no list.
#[test]
fn a_block_past_2048_is_refused_by_10_at_its_line() {
    for side in SIDES {
        lend_at(side);
        let most = to_and_fro(MOST_BLOCKS);
        let more = to_and_fro(MOST_BLOCKS + 1);
        for room in [0, 16, MOST_RECORDS - 1] {
            expect(&most, room, (9, 0));
            expect(&more, room, (10, 2_050));
        }
        for room in [0, 1, 16, 8_192].map(|more| MOST_RECORDS + more) {
            expect(&most, room, (0, 0));
            expect(&more, room, (10, 2_050));
        }
    }
    report(2 * 14, "texts of 2048 and 2049 blocks");
}

/// What else can stand on the line after 2,048 blocks and behind it.
#[test]
fn lines_behind_2048_blocks_are_looked_at() {
    let cases: [(&str, (u64, usize)); 12] = [
        ("", (0, 0)),
        ("\n", (0, 0)),
        ("\nX0\n\n N9", (0, 0)),
        ("\nX0.0004", (0, 0)),
        ("\nX0.0005", (10, 2_050)),
        ("\nN9\nX1", (10, 2_051)),
        ("\nM1X1", (12, 2_050)),
        ("\nX.1", (13, 2_050)),
        ("\nX1001", (3, 2_050)),
        ("\nG1X1", (4, 2_050)),
        ("\nX1\nX.1", (10, 2_050)),
        ("\nN9\n?\nX1", (12, 2_051)),
    ];
    for (end, expected) in cases {
        let text = [&to_and_fro(MOST_BLOCKS), end.as_bytes()].concat();
        expect(&text, MOST_RECORDS + 16, expected);
        let short = match expected {
            (0, 0) => (9, 0),
            other => other,
        };
        expect(&text, MOST_RECORDS - 1, short);
    }
    report(2 * cases.len(), "texts with lines behind 2048 blocks");
}

#[test]
fn late_texts_have_the_same_answer() {
    for seed in seeds(12) {
        let _trying = Trying::seed(seed);
        let text = late_text(&mut Rng::new(seed));
        let _ = compare_text(seed, &text, 200);
    }
    report(12, "texts of about 2097151 lines");
}

/// A text of so many blocks whose last line, after empty ones, is the line of
/// the number.
fn late(blocks: usize, line: usize, last: &str) -> Vec<u8> {
    let mut text = to_and_fro(blocks);
    text.extend(vec![b'\n'; line - 1 - blocks]);
    text.extend(last.as_bytes());
    text
}

/// The mark is the line's number: line 2,097,151 has a block, and none behind it
/// does; what else is wrong with a line comes before its mark, and its mark
/// before a block too many.
#[test]
fn a_block_past_the_last_mark_is_refused_by_6() {
    let beyond = LAST_MARK + 1;
    let cases = [
        (late(0, LAST_MARK, "X1"), (0, 0)),
        (late(2, LAST_MARK, "X1\n\nX1\nF1"), (0, 0)),
        (late(0, beyond, "X1"), (6, beyond)),
        (late(1, LAST_MARK, "X2\nX2\n X3"), (6, LAST_MARK + 2)),
        (late(0, beyond, "X1 X"), (13, beyond)),
        (late(0, beyond, "X1;"), (12, beyond)),
        (late(0, beyond, "X-1000.0005"), (3, beyond)),
        (late(0, beyond, "G1 X1"), (4, beyond)),
        (late(MOST_BLOCKS, LAST_MARK, "X1"), (10, LAST_MARK)),
        (late(MOST_BLOCKS, beyond, "X1"), (6, beyond)),
    ];
    for (text, expected) in &cases {
        expect(text, MOST_RECORDS, *expected);
    }
    report(cases.len(), "texts with blocks at the last mark");
}

/// A megabyte of some bytes, picked one by one.
fn noise(rng: &mut Rng, bytes: &[u8]) -> Vec<u8> {
    (0..MEGABYTE).map(|_| rng.pick(bytes)).collect()
}

/// Any bytes, and bytes that words are made of, with line feeds and without.
#[test]
fn a_megabyte_of_noise_is_answered_alike() {
    let any: Vec<u8> = (0..=255).collect();
    let kinds: [&[u8]; 5] = [&any, b"NGXYZF0123456789.+- \n", b"\n\n\n ", b"N1\n", b"X01"];
    let mut count = 0;
    for seed in seeds(4) {
        let _trying = Trying::seed(seed);
        let mut rng = Rng::new(seed);
        for bytes in kinds {
            let text = noise(&mut rng, bytes);
            let _ = compare_text(seed, &text, 64);
            count += 1;
        }
    }
    report(count, "megabytes of noise");
}

/// One line of a megabyte: spaces around a word, one word, and words.
#[test]
fn a_line_of_a_megabyte_is_answered_alike() {
    let spaces = vec![b' '; MEGABYTE];
    let long = |first: &[u8], byte: u8| [first, &vec![byte; MEGABYTE]].concat();
    let cases = [
        (spaces.clone(), (0, 0)),
        ([&spaces[..], b"G0X1"].concat(), (0, 0)),
        (
            [b"G0", &spaces[..], b"X1", &spaces[..], b"X1"].concat(),
            (12, 1),
        ),
        (long(b"G0X", b'0'), (13, 1)),
        (long(b"G0X1.", b'0'), (13, 1)),
        (long(b"G0X", b'-'), (13, 1)),
        (long(b"X1", b'.'), (13, 1)),
        (long(b"G0", b'G'), (13, 1)),
        (long(b"", b'x'), (12, 1)),
        (b"X1".repeat(MEGABYTE / 2), (12, 1)),
        (b" G0".repeat(MEGABYTE / 3), (12, 1)),
    ];
    for (text, expected) in &cases {
        expect(text, 16, *expected);
    }
    report(cases.len(), "lines of a megabyte");
}

/// Line feeds alone, and lines that are accepted and yield no block.
#[test]
fn a_megabyte_of_idle_lines_has_no_block() {
    let idle: [&[u8]; 6] = [
        b"\n",
        b" \n",
        b"N1\n",
        b"G91G20F1\n",
        b"X0Y0Z0\n",
        b"G91 X+0 F-5\n",
    ];
    for line in idle {
        let text = line.repeat(MEGABYTE / line.len());
        for room in [0, 16] {
            expect(&text, room, (0, 0));
        }
        let faulty = [&text[..], b"X"].concat();
        expect(&faulty, 0, (13, MEGABYTE / line.len() + 1));
    }
    report(3 * idle.len(), "megabytes of lines without a block");
}

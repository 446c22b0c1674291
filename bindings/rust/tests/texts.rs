//! Texts in RS-274 words: the example program, and the worked texts of docs/RULES.md.

mod common;

use common::{block, blocks_of, bytes, MACHINE};
use fullerecru::{
    list_tape, plan_tape, read_limits, read_record, text_records, text_records_into, text_tape,
    Block, Fault, Refusal, Steps, LIMITS_BYTES, MOST_BLOCKS, MOST_TAPE, RECORD_BYTES,
};

/// The blocks of a text.
fn blocks(text: &[u8]) -> Vec<Block> {
    let records = text_records(text).expect("a text that passes");
    records
        .chunks_exact(RECORD_BYTES)
        .map(|record| read_record(record).unwrap())
        .collect()
}

/// The refusal and the place of a text at fault.
fn fault(text: &[u8]) -> (Refusal, u64) {
    let Fault { refusal, place } = text_records(text).expect_err("a text at fault");
    (refusal, place)
}

#[test]
fn example_program_is_a_tape_of_334_blocks() {
    let text = bytes("examples/text/pocket-with-boss.ngc");
    let limits = read_limits(&bytes("examples/tapes/square-pocket.tape")).unwrap();
    let tape = text_tape(&text, &limits).unwrap();
    assert_eq!(read_limits(&tape), Ok(limits));
    assert_eq!(tape[LIMITS_BYTES..], text_records(&text).unwrap());
    let read = blocks_of(&tape);
    assert_eq!(read.len(), 334);
    assert!(
        read.windows(2).all(|pair| pair[0].mark < pair[1].mark),
        "marks are line numbers"
    );
    // Its first line is a rapid of 5 mm up, its second one of 10.2 mm along X.
    assert_eq!(
        read[0],
        Block {
            feed: 1_000_000,
            mark: 1,
            ..block(0, 0, 5_000)
        }
    );
    assert_eq!(
        read[1],
        Block {
            feed: 1_000_000,
            mark: 2,
            ..block(10_200, 0, 0)
        }
    );
    assert_eq!(list_tape(&tape, &Steps::BuiltIn).unwrap().len(), 334);
    assert_eq!(plan_tape(&tape, &Steps::BuiltIn).unwrap().len(), 335);
}

#[test]
fn worked_texts() {
    let (along_x, along_y) = (block(1_000, 0, 0), block(0, 1_000, 0));
    let marked = [Block { mark: 2, ..along_x }, Block { mark: 3, ..along_y }];
    assert_eq!(blocks(b"F1200\nX1\nY1"), marked);
    assert_eq!(
        blocks(b"G20 F1 X1"),
        [Block {
            feed: 423,
            mark: 1,
            ..block(25_400, 0, 0)
        }]
    );
    let ways = |text: &[u8]| blocks(text).iter().map(|block| block.x).collect::<Vec<_>>();
    assert_eq!(ways(b"F60\nX0.0005\nX-0.0005"), [1, -2]);
    assert_eq!(
        ways(b"G91 G20 F60 X0.0001\nX0.0001\nX0.0001\nX0.0001"),
        [3, 2, 3, 2]
    );
    assert_eq!(fault(b"X1"), (Refusal::Feed, 1));
    assert_eq!(fault(b"X1X"), (Refusal::Number, 1));
    assert_eq!(fault(b"X1X2"), (Refusal::Word, 1));
    assert_eq!(fault(b"X 1"), (Refusal::Number, 1));
}

#[test]
fn empty_text_has_no_block() {
    assert_eq!(text_records(b""), Ok(vec![]));
    assert_eq!(text_records_into(b"", &mut []), Ok(0));
    assert_eq!(text_tape(b"", &MACHINE).unwrap().len(), LIMITS_BYTES);
}

/// A text of as many blocks as a tape has fills a tape; one more is refused at its line.
#[test]
fn longest_text() {
    let lines = |count| {
        let ways = (0..count).map(|line| if line % 2 == 0 { "X1\n" } else { "X0\n" });
        "F60\n"
            .chars()
            .chain(ways.flat_map(str::chars))
            .collect::<String>()
    };
    let tape = text_tape(lines(MOST_BLOCKS).as_bytes(), &MACHINE).unwrap();
    assert_eq!(tape.len(), MOST_TAPE);
    assert!(plan_tape(&tape, &Steps::BuiltIn).is_ok());
    let line = 1 + MOST_BLOCKS as u64 + 1;
    assert_eq!(
        fault(lines(MOST_BLOCKS + 1).as_bytes()),
        (Refusal::Many, line)
    );
}

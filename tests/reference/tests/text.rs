//! Programs in RS-274 text: worked results, the orders of refusals, and what is
//! lent.

use reference::examples::right_angle;
use reference::generate::*;
use reference::listing::planlist;
use reference::machine::Block;
use reference::refusal::{Fault, Refusal};
use reference::rng::Rng;
use reference::tape::*;
use reference::text::*;

/// The block of moves in µm, a feed in µm/s and a mark.
fn block(moves: [i64; 3], feed: u64, mark: u64) -> Block {
    Block {
        moves,
        feed,
        radius: 0,
        mark,
    }
}

/// Checks that a text has these blocks: moves, feed, mark.
fn gives(text: &str, blocks: &[([i64; 3], u64, u64)]) {
    let expected = blocks.iter().map(|(m, f, k)| block(*m, *f, *k)).collect();
    assert_eq!(text_blocks(text.as_bytes()), Ok(expected), "{text:?}");
}

/// Checks that a text has these moves along X, µm.
fn runs(text: &str, moves: &[i64]) {
    let blocks = text_blocks(text.as_bytes()).unwrap();
    let along: Vec<[i64; 3]> = blocks.iter().map(|b| b.moves).collect();
    let expected: Vec<[i64; 3]> = moves.iter().map(|x| [*x, 0, 0]).collect();
    assert_eq!(along, expected, "{text:?}");
}

/// Checks that a text of one block has this feed, µm/s.
fn feeds(text: &str, feed: u64) {
    let blocks = text_blocks(text.as_bytes()).unwrap();
    assert_eq!(blocks.len(), 1, "{text:?}");
    assert_eq!(blocks[0].feed, feed, "{text:?}");
}

/// The number and the place of a text's refusal.
fn fault_of(text: &[u8]) -> (u64, u64) {
    let fault = text_blocks(text).unwrap_err();
    (fault.refusal.number(), fault.place)
}

/// Checks that each text is refused by a number at line 1.
fn refused(number: u64, texts: &[&str]) {
    for text in texts {
        assert_eq!(fault_of(text.as_bytes()), (number, 1), "{text:?}");
    }
}

/// Checks that each text is accepted and has no block.
fn idle(texts: &[&str]) {
    texts.iter().for_each(|text| gives(text, &[]));
}

#[test]
fn numbers_and_words_on_the_display() {
    assert_eq!((Refusal::Word.number(), Refusal::Word.word()), (12, "word"));
    assert_eq!(Refusal::Number.number(), 13);
    assert_eq!(Refusal::Number.word(), "number");
    assert!(Refusal::List < Refusal::Word && Refusal::Word < Refusal::Number);
    assert!(Refusal::Number < Refusal::Steps);
}

#[test]
fn small_programs() {
    gives(
        "F1200\nX1\nY1\n",
        &[([1_000, 0, 0], 20_000, 2), ([0, 1_000, 0], 20_000, 3)],
    );
    gives(
        "N10 G1 X1 Y2 F600\nG0 Z-0.5\nG91 X0.5\n",
        &[
            ([1_000, 2_000, 0], 10_000, 1),
            ([0, 0, -500], 1_000_000, 2),
            ([500, 0, 0], 1_000_000, 3),
        ],
    );
}

/// The records of the first program after machine M's limits, by hand.
#[test]
fn tape_of_a_small_program() {
    let limits = right_angle().pack();
    let tape = ngctape(&limits, b"F1200\nX1\nY1\n");
    let hex: String = tape.iter().map(|byte| format!("{byte:02x}")).collect();
    assert_eq!(tape[..LIMITS_BYTES], limits[..LIMITS_BYTES]);
    assert_eq!(hex[44..48], *"0000");
    assert_eq!(
        hex[48..],
        *"001f40000000000009c400000000000200000000fa00000009c4000000000003"
    );
}

#[test]
fn listing_of_a_small_program() {
    let text = b"N1 G21 G90 F1200\nN2 G1 X1 Y0\nN3 Y1\nN4 G0 Z-0.25\n";
    let tape = ngctape(&right_angle().pack(), text);
    let listing = "mark length accel entry peak exit up cruise down\n\
                   2 1000 200000 0 201000000 2000000 502 0 498\n\
                   3 1000 200000 2000000 202000000 2000000 500 0 500\n\
                   4 250 80000 2000000 21000000 0 119 0 131\n";
    assert_eq!(planlist(&tape, &[]), listing);
}

#[test]
fn inches() {
    gives("G20 F1 X1", &[([25_400, 0, 0], 423, 1)]);
    runs("X1 F1 G20", &[25_400]);
    runs("G0 G20 X1\nG21 X1", &[25_400, -24_400]);
    runs("G0 G20 G91 X1\nG21 X1", &[25_400, 1_000]);
    runs(
        "G91 G20 F60 X0.0001\nX0.0001\nX0.0001\nX0.0001",
        &[3, 2, 3, 2],
    );
}

/// A feed is turned into µm/s in the unit of its own line, wherever it stands
/// there, and stays when the unit changes.
#[test]
fn feeds_and_units() {
    feeds("G20 F10\nG21 X1", 4_233);
    feeds("F10 G20\nG21 X1", 4_233);
    feeds("F10\nG20 X1", 166);
    feeds("F0.06X1", 1);
    feeds("F59999.9999X1", 999_999);
    feeds("F60000.0001X1", 1_000_000);
    feeds("F60000.0599X1", 1_000_000);
    feeds("X1 F60", 1_000);
    feeds("F120\nX1 F60", 1_000);
    feeds("G20 F2362.207 X1", 1_000_000);
    feeds("G20 F0.0024 X1", 1);
    refused(4, &["G20 F2362.2071 X1", "G20 F0.0023 X1", "F60000.06 X1"]);
}

/// G0 has a feed of its own and leaves F as it is; F on its line serves later
/// ones.
#[test]
fn rapids_and_feeds() {
    feeds("G0 X1", 1_000_000);
    feeds("F60 G0 X1", 1_000_000);
    let along = |feed, mark| ([1_000, 0, 0], feed, mark);
    gives(
        "G91 F60\nX1\nG0 X1\nX1 F120\nG1 X1",
        &[
            along(1_000, 2),
            along(1_000_000, 3),
            along(1_000_000, 4),
            along(2_000, 5),
        ],
    );
    gives("G0 F-1 X1\n", &[along(1_000_000, 1)]);
    assert_eq!(fault_of(b"G91 G0 X1\nG1 X1"), (4, 2));
}

/// 4 comes only with a block of G1: a feed of 0, by itself or by rounding, of
/// less than 0, too high, or none.
#[test]
fn feed_refusals() {
    refused(
        4,
        &["X1", "F0.0599X1", "F60006X1", "F0X1", "F-60X1", "F-0X1"],
    );
    refused(4, &["F-0.0001X1", "F-99999X1", "F99999.9999X1", "G1X1"]);
    idle(&[
        "F0",
        "F-1",
        "F99999",
        "F0X0",
        "F-1X0.0004",
        "X0.0004",
        "G1X0",
    ]);
    assert_eq!(fault_of(b"F60 X1\nF-60\nX2"), (4, 3));
    assert_eq!(fault_of(b"F60 X1\nF0.01\n\nX2"), (4, 4));
    runs("F0\nF-5\nF60 X1", &[1_000]);
}

#[test]
fn rounding() {
    gives(
        "G91F60\nX0.0004\nX0.0004\nX0.0004\n",
        &[([1, 0, 0], 1_000, 3)],
    );
    runs("F60\nX0.0005\nX-0.0005", &[1, -2]);
    runs("F60\nX0.0004\nX-0.0004\nX-0.0005", &[-1]);
    runs("F60\nX0.0015\nX0.0025\nX0.0024\nX0.0034", &[2, 1, -1, 1]);
    runs("F60\nX-0.0015\nX-0.0025\nX-0.0034", &[-2, -1]);
    assert_eq!([49, 50, 149, 150, 250].map(rounded), [0, 1, 1, 2, 3]);
    assert_eq!(
        [-49, -50, -149, -150, -250].map(rounded),
        [0, -1, -1, -2, -3]
    );
}

/// Moves end at 1,000,000 µm; positions go further.
#[test]
fn long_moves() {
    refused(
        3,
        &["F60X1001", "F60X-1001", "F60Y1000.0005", "F60Z1000.001"],
    );
    refused(3, &["X1001", "G0 X1001", "F-1 X1001", "G20 G0 Y39.3701"]);
    runs("G0X1000.0004", &[1_000_000]);
    runs("G0X-1000.0004", &[-1_000_000]);
    runs("G0G20X39.37", &[999_998]);
    runs(
        "G0X1000\nX2000\nX1000.0",
        &[1_000_000, 1_000_000, -1_000_000],
    );
    runs("G0X500\nX-500", &[500_000, -1_000_000]);
    assert_eq!(fault_of(b"G0X500\nX-500.001"), (3, 2));
    assert_eq!(fault_of(b"F60\nX0.0005\nX-1000.0005"), (3, 3));
}

#[test]
fn refused_words() {
    refused(
        12,
        &["x", "M3", "X1X2", "X1\r\n", "X1 2", "1", "-", ".", "X1\tY1"],
    );
    refused(
        12,
        &["G-1", "G1.5", "G2", "G1G1", "G0G1", "G20G21", "G90G90"],
    );
    refused(
        12,
        &["G91 X1 G90", "G1 X1 G01", "N1N1", "F1 X1 F1", "%", "(X1)"],
    );
    refused(
        12,
        &["G1.0001", "G-20", "G0.5", "G100", "G00091.0001", "O1", "H0"],
    );
    refused(
        12,
        &["X1,Y1", "X1\u{b5}", "X1\u{a0}", "X1;", "/X1", "X1[", "X1@"],
    );
    refused(
        12,
        &["\0", "\u{b}", "\u{1f}", "g1", "n1", "X1 Y1 z1", "X1*2"],
    );
}

/// Every two words of one letter but G, and of one pair of G words, in either
/// order; no other two exclude each other.
#[test]
fn repetitions() {
    let kinds = [
        &["N1", "N2"][..],
        &["X0", "X-0.0"],
        &["Y0", "Y+0"],
        &["Z0", "Z00"],
        &["F60", "F70"],
        &["G0", "G1", "G00", "G01.0"],
        &["G20", "G21", "G+20"],
        &["G90", "G91", "G91.000"],
    ];
    for one in &kinds {
        for two in &kinds {
            let pairs = one.iter().flat_map(|a| two.iter().map(move |b| (a, b)));
            let texts: Vec<String> = pairs.map(|(a, b)| format!("{a}{b}")).collect();
            let texts: Vec<&str> = texts.iter().map(String::as_str).collect();
            if one == two {
                refused(12, &texts);
            } else {
                idle(&texts);
            }
        }
    }
}

#[test]
fn refused_numbers() {
    refused(
        13,
        &[
            "M", "X 1", "X1A", "X1X", "X.5", "X5.", "X123456", "X1.23456",
        ],
    );
    refused(
        13,
        &["X+", "X-", "X.", "X--1", "X+-1", "X1-", "X1-2", "X1.2.3"],
    );
    refused(
        13,
        &["X-.5", "X000001", "X0.00000", "X1.+2", "XY1", "G", "GX1"],
    );
    refused(
        13,
        &["M.5", "G1G", "G90.", "F", "N", "N1.", "G.0", "G000000"],
    );
    refused(13, &["X\r\n", "X,1", "X\n", "X1Y", "X1 Y"]);
}

#[test]
fn accepted_words() {
    idle(&[
        "", "\n\n", "\n", " ", "   \n", "N-1.5", "G1.0", "G+1", "G-0",
    ]);
    idle(&[
        "G01",
        "G00001.0000",
        "G0020",
        "G-0.0",
        "G0G20G90",
        "N99999.9999",
    ]);
    idle(&["X0", "X-0Y+0Z00000.0000", "G1 G21 G91 N1 X0 Y0 Z0 F60"]);
    runs("G0X+1", &[1_000]);
    runs("G0X00001.2000", &[1_200]);
    runs("   G0   X1   ", &[1_000]);
    runs("X1G0", &[1_000]);
    runs("N7X1F60G1", &[1_000]);
    gives("F60Z3Y2X1", &[([1_000, 2_000, 3_000], 1_000, 1)]);
}

/// On one line the leftmost fault decides, 13 before 12 in one word.
#[test]
fn leftmost_fault() {
    refused(12, &["x X", "G2 X", "X1 X1 X", "M3 M", "%X", "X1 X2 M"]);
    refused(13, &["X x", "X. G2", "X X1", "M M3", "X%", "X1. X1"]);
    refused(13, &["Q.", "X1 X1.", "G1 G1.", "G0 G", "N1 N"]);
    refused(12, &["X1001 x", "X1 Q1", "G0X5000 G2"]);
    refused(13, &["X1001 Y", "X1 F", "F0 X1 Z."]);
}

/// The first faulty line decides; 3 is before 4 on one line.
#[test]
fn first_faulty_line() {
    assert_eq!(fault_of(b"F60\nX1\nM\nX"), (13, 3));
    assert_eq!(fault_of(b"X1\nQ"), (4, 1));
    assert_eq!(fault_of(b"\n\n\nX1001"), (3, 4));
    assert_eq!(fault_of(b"N1\r\nX"), (12, 1));
    assert_eq!(fault_of(b"F60\n\nX1\n\n X1X1\nX"), (12, 5));
    assert_eq!(fault_of(b"F0\nX1001\n"), (3, 2));
}

/// A line is no longer than its line feed, and the last needs none.
#[test]
fn lines_of_a_text() {
    let of = |text: &'static str| -> Vec<&[u8]> { lines(text.as_bytes()).collect() };
    assert!(of("").is_empty());
    assert_eq!(of("\n"), [b""]);
    assert_eq!(of("a"), [b"a"]);
    assert_eq!(of("a\n"), [b"a"]);
    assert_eq!(of("a\n\nb"), [&b"a"[..], b"", b"b"]);
    assert_eq!(of("\n\na \n\n"), [&b""[..], b"", b"a ", b""]);
    assert_eq!(fault_of(b"X\nF1\n"), (13, 1));
    gives("\n\n  \nG0X1", &[([1_000, 0, 0], 1_000_000, 4)]);
}

/// `G91G0` and as many lines of 1 µm as asked for.
fn steps(count: usize) -> Vec<u8> {
    [&b"G91G0\n"[..], &b"X0.001\n".repeat(count)].concat()
}

#[test]
fn most_blocks() {
    let full = steps(2_048);
    let blocks = text_blocks(&full).unwrap();
    assert_eq!((blocks.len(), blocks[2_047].mark), (2_048, 2_049));
    assert_eq!(fault_of(&steps(2_049)), (10, 2_050));
    let with = |more: &[u8]| fault_of(&[&full[..], more].concat());
    assert_eq!(with(b"X0\nX1"), (10, 2_051));
    assert_eq!(with(b"X1\nX"), (10, 2_050));
    assert_eq!(with(b"X1 Q"), (13, 2_050));
    assert_eq!(with(b"X1 q"), (12, 2_050));
    assert_eq!(with(b"X1001"), (3, 2_050));
    assert_eq!(with(b"G1 X1"), (4, 2_050));
    assert_eq!(with(b"X0\nX"), (13, 2_051));
    let idle = [&full[..], b"X0\nN1\n X0.0004\n\n"].concat();
    assert_eq!(text_blocks(&idle), Ok(blocks));
}

/// Marks end at line 2,097,151; lines after it are read on.
#[test]
fn latest_marks() {
    let late = |first: &str, line: usize, last: &str| {
        let empty = "\n".repeat(line - 1);
        format!("{first}{empty}{last}").into_bytes()
    };
    let good = text_blocks(&late("G0X1", 2_097_151, "X2")).unwrap();
    let marks: Vec<u64> = good.iter().map(|b| b.mark).collect();
    assert_eq!(marks, [1, 2_097_151]);
    assert_eq!(fault_of(&late("G0X1", 2_097_152, "X2")), (6, 2_097_152));
    assert_eq!(fault_of(&late("G0X1", 2_097_152, "X2X")), (13, 2_097_152));
    assert_eq!(fault_of(&late("G0X1", 2_097_152, "X2000")), (3, 2_097_152));
    assert_eq!(fault_of(&late("F9X1", 2_097_152, "F0X2")), (4, 2_097_152));
    assert_eq!(fault_of(&late("G0X1", 2_097_152, "X1\nX2")), (6, 2_097_153));
    assert_eq!(fault_of(&late("G0X1", 2_097_152, "\nX")), (13, 2_097_153));
    let full = String::from_utf8(steps(2_048)).unwrap();
    let past = late(&full, 2_097_152 - 2_049, "X1");
    assert_eq!(fault_of(&past), (6, 2_097_152));
    assert_eq!(text_blocks(&late("", 3_000_000, "N1")), Ok(vec![]));
}

#[test]
fn too_little_lent() {
    let full = steps(2_048);
    let mut lent = vec![0xa5; 32_768];
    let ragged = Err(Refusal::Ragged.at_no_record());
    assert_eq!(text_records(&full, &mut lent[..32_767]), ragged);
    assert_eq!(text_records(&full, &mut []), ragged);
    assert!(lent == [0xa5; 32_768]);
    assert_eq!(text_records(&full, &mut lent), Ok(2_048));
    assert_eq!(text_records(b"\nN1", &mut []), Ok(0));
    let early = Fault {
        refusal: Refusal::Word,
        place: 3,
    };
    assert_eq!(text_records(b"G0X1\nX2\nx", &mut [0; 31]), Err(early));
}

/// Records that are written read back as the blocks, and no other byte changes;
/// of a refused text none does.
#[test]
fn records_read_back() {
    for seed in 0..600 {
        let rng = &mut Rng::new(seed);
        let text = any_text(rng);
        let answer = text_blocks(&text);
        let count = answer.as_ref().map_or(3, Vec::len);
        let spare = rng.pick(&[0, 1, 15, 16, 40]);
        let mut lent = vec![0xa5; RECORD_BYTES * count + spare];
        assert_eq!(
            text_records(&text, &mut lent),
            answer.as_ref().map(Vec::len).map_err(|f| *f)
        );
        let Ok(blocks) = answer else {
            assert!(lent.iter().all(|byte| *byte == 0xa5), "seed {seed}");
            continue;
        };
        let (records, rest) = lent.split_at(RECORD_BYTES * count);
        let read: Vec<Block> = records
            .chunks(RECORD_BYTES)
            .map(|record| read_record(record).unwrap())
            .collect();
        assert_eq!(read, blocks, "seed {seed}");
        assert!(rest.iter().all(|byte| *byte == 0xa5), "seed {seed}");
        let short = rng.below(1 + RECORD_BYTES as u64 * count as u64) as usize;
        too_short(&text, short, count);
    }
}

/// Checks 9 for a text of `count` blocks where fewer bytes are lent.
fn too_short(text: &[u8], lent: usize, count: usize) {
    if lent < RECORD_BYTES * count {
        let mut lent = vec![0x5a; lent];
        let ragged = Err(Refusal::Ragged.at_no_record());
        assert_eq!(text_records(text, &mut lent), ragged);
        assert!(lent.iter().all(|byte| *byte == 0x5a));
    }
}

/// The program's tape reads back as limits and blocks; limits are refused before
/// anything of the text.
#[test]
fn tapes_of_texts() {
    let limits = right_angle().pack();
    for seed in 0..300 {
        let text = any_text(&mut Rng::new(seed));
        match (text_blocks(&text), text_tape(&limits, &text)) {
            (Ok(blocks), Ok(tape)) => {
                assert_eq!(ngctape(&limits, &text), tape);
                assert_eq!(read_tape(&tape).unwrap().blocks, blocks);
                assert_eq!(tape[..LIMITS_BYTES], limits[..LIMITS_BYTES]);
            }
            (Err(one), Err(two)) => assert_eq!(one, two),
            _ => panic!("seed {seed}"),
        }
        assert_eq!(ngctape(&limits[..23], &text), b"refused 9 at 0\n");
        assert_eq!(ngctape(&[0; 24], &text), b"refused 1 at 0\n");
    }
    assert_eq!(ngctape(&limits, b"\nX"), b"refused 13 at 2\n");
    assert_eq!(ngctape(&limits, b""), limits[..LIMITS_BYTES]);
}

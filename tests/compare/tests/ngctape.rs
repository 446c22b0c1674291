//! The program ngctape writes what the reference writes: the tape of a text under
//! the limits of a file, or the refusal's line.
//!
//! Its arguments are in arguments.rs, inputs that break off in broken_input.rs.

use std::collections::BTreeSet;
use std::ffi::OsStr;
use std::fs::{self, File};
use std::io::Write;
use std::path::PathBuf;
use std::process::{Command, Stdio};

use compare::programs::*;
use compare::{hex, report, same, seeds};
use reference::examples::example;
use reference::generate::*;
use reference::listing;
use reference::rng::Rng;
use reference::tape::{pack_limits, read_tape, LIMITS_BYTES, MOST_BLOCKS, MOST_BYTES, ZERO_BITS};
use reference::text::{self, MOST_TEXT_BYTES};

/// The limits of machine M as a file has them.
fn good_limits() -> Vec<u8> {
    pack_limits(&machine_m(), 0)
}

/// A file of limits: such that pass, alone, before other bytes or as a whole tape;
/// cut short; and such that do not pass.
fn some_limits(rng: &mut Rng) -> Vec<u8> {
    let mut bytes = pack_limits(&limits(rng), 0);
    match rng.below(10) {
        0 => bytes.truncate(rng.below(LIMITS_BYTES as u64) as usize),
        1 => bytes.truncate(LIMITS_BYTES - 1),
        2 => bytes = pack_limits(&faulty_limits(rng), 0),
        3 => bytes = pack_limits(&limits(rng), 1 << rng.below(ZERO_BITS as u64)),
        4 => bytes.extend((0..rng.within(1, 40)).map(|_| 0xff)),
        5 | 6 => bytes = tape(rng),
        _ => {}
    }
    bytes
}

/// Compares what is written for a text in pieces under the limits of a file;
/// gives the first word, or `tape` for a tape.
fn compare(seed: u64, limits: &[u8], text: &[u8], piece: usize) -> String {
    let expected = text::ngctape(limits, text);
    let input = || format!("{} {}", hex(limits), text.escape_ascii());
    same(
        seed,
        input,
        hex(&tape_of(limits, text, piece)),
        hex(&expected),
    );
    match expected.starts_with(b"refused ") {
        true => String::from_utf8_lossy(&expected[..10]).trim().to_string(),
        false => "tape".to_string(),
    }
}

/// Texts of every sort under limits that pass and such that do not.
#[test]
fn ngctape_writes_the_reference_s_bytes() {
    let mut met = BTreeSet::new();
    for seed in seeds(900) {
        let mut rng = Rng::new(seed);
        let limits = some_limits(&mut rng);
        let text = any_text(&mut rng);
        met.insert(compare(seed, &limits, &text, usize::MAX));
    }
    let numbers = [1, 10, 12, 13, 3, 4, 9].map(|n| format!("refused {n}"));
    let expected: BTreeSet<String> = numbers.into_iter().chain(["tape".into()]).collect();
    assert_eq!(met, expected);
    report(900, "texts of every sort under limits of every sort");
}

/// Under limits that pass each text decides; the tape is the reference's to read.
#[test]
fn ngctape_writes_tapes_that_are_read() {
    for seed in seeds(300) {
        let mut rng = Rng::new(seed);
        let limits = limits(&mut rng);
        let (text, blocks) = text_with_blocks(&mut rng);
        let bytes = tape_of(&pack_limits(&limits, 0), &text, usize::MAX);
        let tape = read_tape(&bytes).expect("a tape");
        same(
            seed,
            || hex(&text),
            (tape.limits, tape.blocks),
            (limits, blocks),
        );
    }
    report(300, "tapes of texts");
}

/// Limits of each length up to two more than they need, and files that end at
/// once or never.
#[test]
fn limits_of_each_length_are_answered_alike() {
    let whole = example("right-angle").expect("an example").pack();
    for (length, text) in (0..=LIMITS_BYTES + 2).flat_map(|n| [(n, "G0X1"), (n, "X")]) {
        compare(length as u64, &whole[..length], text.as_bytes(), usize::MAX);
    }
    for (name, expected) in [
        ("/dev/null", "refused 9 at 0\n"),
        ("/dev/zero", "refused 1 at 0\n"),
    ] {
        let text = run_with(&ngctape(), &[OsStr::new(name)], b"X", usize::MAX);
        assert_eq!(text, expected, "{name}");
    }
    report(2 * 27 + 2, "limits of 0 to 26 bytes, and devices");
}

/// 9 and 1 of the limits come before anything of the text, too long or at fault.
#[test]
fn refused_limits_come_first() {
    let good = good_limits();
    let mut bad = good.clone();
    bad[LIMITS_BYTES - 1] = 1;
    let long = vec![b' '; MOST_TEXT_BYTES + 1];
    let texts: [&[u8]; 4] = [b"", b"G0X1", b"?", &long];
    for text in texts {
        for (limits, expected) in [
            (&good[..23], "refused 9 at 0\n"),
            (&bad, "refused 1 at 0\n"),
        ] {
            let found = tape_of(limits, text, usize::MAX);
            assert_eq!(
                String::from_utf8_lossy(&found),
                expected,
                "{} bytes",
                text.len()
            );
        }
    }
    report(2 * texts.len(), "refused limits with texts of every sort");
}

/// Panics unless the program tells in one line that a text is too long, and
/// writes nothing.
fn expect_too_long(output: Output) {
    let told = "ngctape: the text on standard input has more than 393216 bytes\n";
    assert_eq!(output.errors, told);
    assert_eq!(output.bytes, b"");
}

/// Texts of a length: spaces behind a block, line feeds before one, and a fault
/// in the last byte or in the first.
fn texts_of(length: usize) -> [Vec<u8>; 4] {
    let filled = |byte: u8| vec![byte; length - 4];
    [
        [&b"G0X1"[..], &filled(b' ')].concat(),
        [&filled(b'\n')[..], b"G0X1"].concat(),
        [&b"G0X1"[..], &filled(b'\n')[1..], b"?"].concat(),
        [&b"?0X1"[..], &filled(b' ')].concat(),
    ]
}

/// A text of 393,216 bytes is taken, and of one more told, whatever it holds.
#[test]
fn the_longest_text_is_taken_and_a_longer_one_told() {
    let limits = good_limits();
    let file = OwnFile::of(&limits);
    let words = [file.path.as_os_str()];
    for length in [MOST_TEXT_BYTES - 1, MOST_TEXT_BYTES] {
        for (k, text) in (0..).zip(texts_of(length)) {
            compare(k, &limits, &text, usize::MAX);
            compare(k, &limits, &text, 65_521);
        }
    }
    for length in [
        MOST_TEXT_BYTES + 1,
        MOST_TEXT_BYTES + 2,
        2 * MOST_TEXT_BYTES,
        3_000_000,
    ] {
        for text in texts_of(length) {
            let output = output_for(&ngctape(), &words, (&text, usize::MAX), Stdio::piped());
            expect_too_long(output);
        }
    }
    report(4 * 4 + 4 * 4, "texts of about 393216 bytes");
}

/// A text too long is told without reading it to its end.
#[test]
fn ngctape_ends_on_endless_input() {
    let file = OwnFile::of(&good_limits());
    let words = [file.path.as_os_str()];
    let zeros = File::open("/dev/zero").expect("/dev/zero");
    let child = start_with(&ngctape(), &words, Stdio::from(zeros), Stdio::piped());
    expect_too_long(output_of(child));
    let mut child = start_with(&ngctape(), &words, Stdio::piped(), Stdio::piped());
    let mut pipe = child.stdin.take().expect("piped");
    let lines = b"N1\n".repeat(10_000);
    // until ngctape has closed the pipe, which stays open on this side
    let taken = (0..2_000).take_while(|_| pipe.write_all(&lines).is_ok());
    assert!(taken.count() < 2_000, "ngctape does not stop reading");
    expect_too_long(output_of(child));
    report(2, "endless inputs");
}

/// A text that comes in pieces, cut inside words, numbers and lines.
#[test]
fn ngctape_takes_a_text_in_pieces() {
    let limits = good_limits();
    let text = pocket_with_boss();
    for piece in [1, 7, 100, 4_096] {
        compare(piece as u64, &limits, &text, piece);
    }
    report(4, "texts in pieces");
}

/// The example text as it is stored.
fn pocket_with_boss() -> Vec<u8> {
    let examples = PathBuf::from(env!("CARGO_MANIFEST_DIR")).join("../../examples");
    fs::read(examples.join("text/pocket-with-boss.ngc")).expect("an example")
}

/// `ngctape LIMITS < text | planlist`.
#[test]
fn the_tape_of_the_example_is_listed() {
    let text = pocket_with_boss();
    for name in ["square-pocket", "right-angle"] {
        let limits = example(name).expect("an example").pack();
        let file = OwnFile::of(&limits);
        let words = [file.path.as_os_str()];
        let input = OwnFile::of(&text);
        let input = File::open(&input.path).expect("a text");
        let mut first = start_with(&ngctape(), &words, Stdio::from(input), Stdio::piped());
        let tape = first.stdout.take().expect("piped");
        let listed = text_of(start(&planlist(), Stdio::from(tape), Stdio::piped()));
        assert_eq!(output_of(first).errors, "", "{name}");
        let expected = listing::planlist(&text::ngctape(&limits, &text), &[]);
        assert!(expected.lines().count() > 100, "{name}");
        assert_eq!(listed, expected, "{name}");
    }
    report(2, "listings of the example text");
}

/// A text of 2,048 blocks, and one of one more.
#[test]
fn the_longest_tape_is_written_whole() {
    let limits = good_limits();
    let lines =
        |blocks: usize| [&b"G0\n"[..], &b"X1\nX0\n".repeat(MOST_BLOCKS)[..3 * blocks]].concat();
    let longest = tape_of(&limits, &lines(MOST_BLOCKS), usize::MAX);
    assert_eq!(longest.len(), MOST_BYTES);
    assert_eq!(
        hex(&longest),
        hex(&text::ngctape(&limits, &lines(MOST_BLOCKS)))
    );
    let more = tape_of(&limits, &lines(MOST_BLOCKS + 1), usize::MAX);
    assert_eq!(String::from_utf8_lossy(&more), "refused 10 at 2050\n");
    report(2, "texts of 2048 and 2049 blocks");
}

/// What is told on standard error where a result cannot be written.
fn expect_untaken(what: &str, errors: &str) {
    let told = errors.lines().count() == 1 && errors.contains("did not take");
    assert!(
        told && errors.starts_with("ngctape: "),
        "{what}: {errors:?}"
    );
}

/// Every write to /dev/full fails, and to an output that is closed: told once,
/// whether it is a refusal, a tape without blocks or the longest one.
#[test]
fn a_failed_write_is_told_on_standard_error() {
    let file = OwnFile::of(&good_limits());
    let words = [file.path.as_os_str()];
    let long = [&b"G0\n"[..], &b"X1\nX0\n".repeat(MOST_BLOCKS / 2)].concat();
    let texts: [&[u8]; 4] = [b"?", b"", b"G0X1", &long];
    for text in texts {
        let full = File::create("/dev/full").expect("/dev/full");
        let output = output_for(&ngctape(), &words, (text, usize::MAX), Stdio::from(full));
        expect_untaken("/dev/full", &output.errors);
        let input = OwnFile::of(text);
        let child = Command::new("sh")
            .args(["-c", "exec \"$0\" \"$1\" < \"$2\" >&-"])
            .args([ngctape(), file.path.clone(), input.path.clone()])
            .stderr(Stdio::piped())
            .spawn();
        expect_untaken("closed", &output_of(child.expect("sh")).errors);
    }
    report(2 * texts.len(), "results that could not be written");
}

//! The program `ngctape_ref`: its arguments, its refusals and the tape that it
//! writes.

use std::ffi::OsString;
use std::fs;
use std::io::Write;
use std::path::PathBuf;
use std::process::{Command, Output, Stdio};

use reference::examples::{example_text, right_angle, square_pocket};
use reference::generate::any_text;
use reference::options::{named, Named};
use reference::rng::Rng;
use reference::tape::{read_tape, LIMITS_BYTES};
use reference::text::{ngctape, text_blocks, MOST_TEXT_BYTES};

const NGCTAPE: &str = env!("CARGO_BIN_EXE_ngctape_ref");
const USAGE: &str = "ngctape_ref LIMITS < text\n";

/// The name of a file of these bytes, which no other test uses.
fn file(name: &str, bytes: &[u8]) -> String {
    let path = PathBuf::from(env!("CARGO_TARGET_TMPDIR")).join(format!("ngctape-{name}"));
    fs::write(&path, bytes).unwrap();
    path.to_str().unwrap().to_owned()
}

/// Runs the program on a text. It need not read it all.
fn run(arguments: &[&str], text: &[u8]) -> Output {
    let mut child = Command::new(NGCTAPE)
        .args(arguments)
        .stdin(Stdio::piped())
        .stdout(Stdio::piped())
        .stderr(Stdio::piped())
        .spawn()
        .unwrap();
    let _ = child.stdin.take().unwrap().write_all(text);
    child.wait_with_output().unwrap()
}

/// Checks that the program writes the bytes and nothing on standard error.
fn writes(arguments: &[&str], text: &[u8], bytes: &[u8]) {
    let output = run(arguments, text);
    assert!(output.stdout == bytes, "{arguments:?}");
    assert!(output.stderr.is_empty() && output.status.success());
}

/// Checks that the program ends with status 1 and one line on standard error
/// that names it and holds `part`, and writes nothing else.
fn tells(arguments: &[&str], text: &[u8], part: &str) {
    let output = run(arguments, text);
    let told = String::from_utf8(output.stderr).unwrap();
    assert!(
        told.starts_with("ngctape_ref: ") && told.contains(part),
        "{told}"
    );
    assert_eq!(told.find('\n'), Some(told.len() - 1), "{told}");
    assert!(output.stdout.is_empty());
    assert_eq!(output.status.code(), Some(1));
}

/// A file of limits alone, and a tape whose limits serve; the same tape comes.
#[test]
fn limits_of_a_file() {
    let pair = right_angle().pack();
    let (alone, tape) = (file("alone", &pair[..24]), file("tape", &pair));
    let text = b"F1200\nX1\nY1\n";
    let expected = ngctape(&pair, text);
    writes(&[&alone], text, &expected);
    writes(&[&tape], text, &expected);
    assert_eq!(expected.len(), LIMITS_BYTES + 32);
    writes(&[&alone], b"", &pair[..LIMITS_BYTES]);
    writes(&[&alone], b"X1", b"refused 4 at 1\n");
    writes(&[&alone], b"F60\nX1\r\n", b"refused 12 at 2\n");
}

/// 9 and 1 of the limits come before anything of the text, too long or faulty.
#[test]
fn refused_limits() {
    let pair = right_angle().pack();
    let mut spoiled = pair.clone();
    spoiled[23] = 1;
    let faulty = [b"X\n".to_vec(), vec![b' '; MOST_TEXT_BYTES + 1]];
    for text in [&b"F60X1"[..], &faulty[0], &faulty[1]] {
        writes(&[&file("empty", b"")], text, b"refused 9 at 0\n");
        writes(&[&file("short", &pair[..23])], text, b"refused 9 at 0\n");
        writes(&[&file("zeros", &[0; 24])], text, b"refused 1 at 0\n");
        writes(&[&file("last-bit", &spoiled)], text, b"refused 1 at 0\n");
    }
}

/// A text of 393,216 bytes is taken, one byte more is told.
#[test]
fn longest_text() {
    let pair = right_angle().pack();
    let limits = file("longest", &pair);
    let mut text = b"G0X1".to_vec();
    text.resize(MOST_TEXT_BYTES, b' ');
    writes(&[&limits], &text, &ngctape(&pair, &text));
    assert_eq!(ngctape(&pair, &text).len(), LIMITS_BYTES + 16);
    text.push(b'\n');
    tells(&[&limits], &text, "393216 bytes");
    text[0] = b'x';
    tells(&[&limits], &text, "393216 bytes");
    tells(&[&limits], &text.repeat(3), "393216 bytes");
    writes(&[&limits], &text[..MOST_TEXT_BYTES], b"refused 12 at 1\n");
}

#[test]
fn help_and_wrong_use() {
    let limits = file("once", &right_angle().pack());
    writes(&["--help"], b"F60X1", USAGE.as_bytes());
    writes(&["--help", &limits], b"F60X1", USAGE.as_bytes());
    let usage = USAGE.trim_end();
    tells(&[], b"F60X1", usage);
    tells(&["--help", "--help"], b"", usage);
    tells(&[&limits, "--help"], b"", usage);
    tells(&[&limits, &limits], b"", usage);
    tells(&["--help", &limits, &limits], b"", usage);
    tells(&["--steps", &limits], b"", usage);
    tells(&["--", &limits], b"", usage);
    tells(&["no/such/file"], b"F60X1", "no/such/file");
    tells(&[env!("CARGO_TARGET_TMPDIR")], b"F60X1", "");
    tells(&[""], b"F60X1", "");
}

#[test]
fn what_arguments_ask_for() {
    let of = |words: &[&str]| named(words.iter().map(OsString::from));
    let limits = |name: &str| Ok(Named::Limits(OsString::from(name)));
    assert_eq!(of(&["a"]), limits("a"));
    assert_eq!(of(&["./-x"]), limits("./-x"));
    assert_eq!(of(&["a b"]), limits("a b"));
    assert_eq!(of(&["--help"]), Ok(Named::Help));
    assert_eq!(of(&["--help", "a"]), Ok(Named::Help));
    for wrong in [
        &[][..],
        &["--helps"],
        &["-"],
        &["-x"],
        &["a", "b"],
        &["a", "--help"],
    ] {
        assert!(of(wrong).is_err(), "{wrong:?}");
    }
}

/// The example's tape has a few hundred blocks; the planner lists it.
#[test]
fn tape_of_the_example() {
    let limits = square_pocket().pack();
    let text = example_text("pocket-with-boss").unwrap().into_bytes();
    let output = run(&[&file("pocket", &limits)], &text);
    let tape = read_tape(&output.stdout).unwrap();
    assert_eq!(tape.limits, square_pocket().limits);
    assert_eq!(tape.blocks, text_blocks(&text).unwrap());
}

#[test]
fn seeded_texts() {
    let pair = right_angle().pack();
    let limits = file("seeded", &pair);
    for seed in 0..60 {
        let text = any_text(&mut Rng::new(seed));
        writes(&[&limits], &text, &ngctape(&pair, &text));
    }
}

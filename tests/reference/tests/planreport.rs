//! The program `planreport_ref`: its arguments, files of every sort, and the text
//! that it writes.

use std::ffi::{OsStr, OsString};
use std::fs;
use std::os::unix::ffi::OsStrExt;
use std::path::{Path, PathBuf};
use std::process::{Command, Output, Stdio};

use reference::examples::{mould_row, right_angle, to_and_fro, what_held};
use reference::options::{reported, tape_of, Reported};
use reference::report::{planreport, HEADER};
use reference::tape::MOST_BYTES;

const PROGRAM: &str = env!("CARGO_BIN_EXE_planreport_ref");

/// A folder of its own for each test, with these files in it.
fn folder(name: &str, files: &[(&[u8], &[u8])]) -> PathBuf {
    let folder = PathBuf::from(env!("CARGO_TARGET_TMPDIR")).join(name);
    fs::create_dir_all(&folder).unwrap();
    for (name, bytes) in files {
        fs::write(folder.join(OsStr::from_bytes(name)), bytes).unwrap();
    }
    folder
}

/// Runs the program in a folder.
fn run(folder: &Path, words: &[&[u8]]) -> Output {
    Command::new(PROGRAM)
        .args(words.iter().map(|word| OsStr::from_bytes(word)))
        .current_dir(folder)
        .stdin(Stdio::null())
        .output()
        .unwrap()
}

/// Checks that it writes the text and nothing on standard error.
fn writes(folder: &Path, words: &[&[u8]], text: &[u8]) {
    let output = run(folder, words);
    assert_eq!(
        output.stdout.escape_ascii().to_string(),
        text.escape_ascii().to_string()
    );
    assert!(output.stderr.is_empty() && output.status.success());
}

/// Checks that it fails with so many lines on standard error, each of which names
/// it, and writes the text.
fn tells(folder: &Path, words: &[&[u8]], lines: usize, text: &[u8]) {
    let output = run(folder, words);
    let told = String::from_utf8(output.stderr).unwrap();
    assert!(told
        .lines()
        .all(|line| line.starts_with("planreport_ref: ")));
    assert_eq!(told.lines().count(), lines, "{told}");
    assert!(told.ends_with('\n') && !output.status.success());
    assert_eq!(
        output.stdout.escape_ascii().to_string(),
        text.escape_ascii().to_string()
    );
}

#[test]
fn files_in_their_order() {
    let (pair, mixed) = (right_angle().pack(), what_held().pack());
    let files: [(&[u8], &[u8]); 6] = [
        (b"a pair.tape", &pair),
        (b"mixed", &mixed),
        (b"cut", &pair[..23]),
        (b"empty", &[]),
        (b"no text: \xff\xfe\n", &mixed),
        (b"long", &[7; 2 * MOST_BYTES]),
    ];
    let own = folder("in-order", &files);
    fs::write(own.join("half.steps"), [50; 8]).unwrap();
    fs::write(own.join("none.steps"), []).unwrap();
    fs::write(own.join("bad.steps"), [0; 8]).unwrap();
    let names = files.map(|(name, _)| name);
    writes(&own, &names, &planreport(&files, &[]));
    let with = |file: &'static [u8]| [&[&b"--steps"[..], file], &names[..]].concat();
    writes(&own, &with(b"half.steps"), &planreport(&files, &[50; 8]));
    writes(&own, &with(b"none.steps"), &planreport(&files, &[]));
    writes(&own, &with(b"bad.steps"), &planreport(&files, &[0; 8]));
    let twice = [files[0], files[0]];
    writes(&own, &[names[0]; 2], &planreport(&twice, &[]));
}

/// A file that cannot be opened or read has no line and counts nowhere.
#[test]
fn files_that_cannot_be_read() {
    let pair = right_angle().pack();
    let own = folder("unread", &[(b"pair", &pair), (b"-pair", &pair)]);
    let whole = planreport(&[(b"pair", &pair), (b"./-pair", &pair)], &[]);
    tells(
        &own,
        &[b"pair", b"absent", b".", b"", b"./-pair"],
        3,
        &whole,
    );
    let none = format!("{HEADER}\n0 0 0 0 0 0 0 all\n");
    tells(&own, &[b"absent"], 1, none.as_bytes());
    tells(&own, &[b".", b"pair/x"], 2, none.as_bytes());
    tells(&own, &[b"--steps", b"absent", b"pair"], 1, b"");
    tells(&own, &[b"--steps", b".", b"pair"], 1, b"");
}

/// A file is read up to one byte more than the longest tape, and no further.
#[test]
fn long_files() {
    let own = folder("long-files", &[(b"more", &[1; MOST_BYTES + 2])]);
    assert_eq!(tape_of(own.join("more").as_os_str()).unwrap().len(), 32_793);
    let text = format!("{HEADER}\nrefused 10 at 0 /dev/zero\n0 0 0 0 0 0 0 all\n");
    writes(&own, &[b"/dev/zero"], text.as_bytes());
}

/// 101 files that pass: the last is refused by 10, as is one behind it that would
/// be refused otherwise; one that cannot be read still has no line.
#[test]
fn more_than_100_files() {
    let (line, row) = (to_and_fro().pack(), mould_row().pack());
    let own = folder(
        "hundred",
        &[(b"line", &line), (b"row", &row), (b"cut", &row[..7])],
    );
    let mut files: Vec<(&[u8], &[u8])> = vec![(b"line", &line); 99];
    files.insert(40, (b"cut", &row[..7]));
    files.extend([(&b"row"[..], &row[..]), (b"row", &row), (b"cut", &row[..7])]);
    let text = planreport(&files, &[]);
    let lines: Vec<&[u8]> = text.split(|byte| *byte == b'\n').collect();
    assert_eq!(lines[41], b"refused 9 at 0 cut");
    assert_eq!(lines[102], b"refused 10 at 0 row");
    assert_eq!(lines[103], b"refused 10 at 0 cut");
    let mut names: Vec<&[u8]> = files.iter().map(|(name, _)| *name).collect();
    writes(&own, &names, &text);
    names.push(b"absent");
    tells(&own, &names, 1, &text);
}

#[test]
fn help_and_wrong_use() {
    let pair = right_angle().pack();
    let own = folder("words", &[(b"pair", &pair), (b"none.steps", &[])]);
    let (steps, file, pair) = (&b"--steps"[..], &b"none.steps"[..], &b"pair"[..]);
    let usage = b"planreport_ref [--steps FILE] TAPE...\n";
    writes(&own, &[b"--help"], usage);
    writes(&own, &[b"--help", pair], usage);
    writes(&own, &[steps, file, b"--help", pair, b"absent"], usage);
    let wrong: [&[&[u8]]; 12] = [
        &[],
        &[steps],
        &[steps, file],
        &[steps, file, steps, file, pair],
        &[b"--help", b"--help"],
        &[b"--width", b"1", pair],
        &[b"-"],
        &[b"--", pair],
        &[pair, b"--help"],
        &[pair, steps, file],
        &[pair, b"-x"],
        &[b"--help", pair, b"-"],
    ];
    for words in wrong {
        tells(&own, words, 1, b"");
    }
}

#[test]
fn what_arguments_ask_for() {
    let of = |words: &[&str]| reported(words.iter().map(OsString::from));
    let tapes = |steps: Option<&str>, names: &[&str]| {
        let names = names.iter().map(OsString::from).collect();
        Ok(Reported::Tapes(steps.map(OsString::from), names))
    };
    assert_eq!(of(&["a"]), tapes(None, &["a"]));
    assert_eq!(of(&["a", "", "a"]), tapes(None, &["a", "", "a"]));
    assert_eq!(
        of(&["--steps", "--help", "a"]),
        tapes(Some("--help"), &["a"])
    );
    assert_eq!(
        of(&["--steps", "-", "b", "a"]),
        tapes(Some("-"), &["b", "a"])
    );
    assert_eq!(of(&["--help"]), Ok(Reported::Help));
    assert_eq!(of(&["--help", "--steps", "a", "b"]), Ok(Reported::Help));
    assert!(of(&[]).is_err() && of(&["--steps", "a"]).is_err());
}

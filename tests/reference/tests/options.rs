//! The programs `planlist_ref`, `planreplay_ref` and `planorders_ref` with a file
//! of torque steps.

use std::ffi::OsString;
use std::fs;
use std::io::Write;
use std::path::PathBuf;
use std::process::{Command, Output, Stdio};

use reference::examples::{example_orders, example_trace, mould_row};
use reference::listing::{planlist, planreplay};
use reference::options::{asked, steps_of, Asked};
use reference::order_listing::planorders;

const PLANLIST: &str = env!("CARGO_BIN_EXE_planlist_ref");
const PLANREPLAY: &str = env!("CARGO_BIN_EXE_planreplay_ref");
const PLANORDERS: &str = env!("CARGO_BIN_EXE_planorders_ref");
const TENS: [u8; 8] = [100, 90, 80, 70, 60, 50, 40, 30];

/// A file of these bytes, under a name that no other test uses.
fn file(name: &str, bytes: &[u8]) -> PathBuf {
    let path = PathBuf::from(env!("CARGO_TARGET_TMPDIR")).join(name);
    fs::write(&path, bytes).unwrap();
    path
}

/// Runs a program on an input. It need not read it all.
fn run(program: &str, arguments: &[&str], input: &[u8]) -> Output {
    let mut child = Command::new(program)
        .args(arguments)
        .stdin(Stdio::piped())
        .stdout(Stdio::piped())
        .stderr(Stdio::piped())
        .spawn()
        .unwrap();
    let _ = child.stdin.take().unwrap().write_all(input);
    child.wait_with_output().unwrap()
}

/// Checks that a program writes the text and nothing on standard error.
fn writes(program: &str, arguments: &[&str], input: &[u8], text: &str) {
    let output = run(program, arguments, input);
    assert_eq!(String::from_utf8(output.stdout).unwrap(), text);
    assert!(output.stderr.is_empty() && output.status.success());
}

/// Checks that a program fails with one line on standard error that names it,
/// and writes nothing else.
fn tells(program: &str, arguments: &[&str]) {
    let output = run(program, arguments, &[]);
    let told = String::from_utf8(output.stderr).unwrap();
    let name = PathBuf::from(program);
    assert!(told.starts_with(name.file_name().unwrap().to_str().unwrap()));
    assert_eq!(told.find('\n'), Some(told.len() - 1), "{told}");
    assert!(output.stdout.is_empty() && !output.status.success());
}

/// The programs with the file's whole content as the list of steps.
fn with_file(name: &str, steps: &[u8]) {
    let path = file(name, steps);
    let arguments = ["--steps", path.to_str().unwrap()];
    let (tape, trace) = (mould_row().pack(), example_trace("shop-traffic").unwrap());
    writes(PLANLIST, &arguments, &tape, &planlist(&tape, steps));
    writes(PLANREPLAY, &arguments, &trace, &planreplay(&trace, steps));
    let orders = example_orders("cam-host").unwrap();
    writes(PLANORDERS, &arguments, &orders, &planorders(&orders, steps));
}

#[test]
fn the_file_is_the_list() {
    with_file("tens", &TENS);
    with_file("empty", &[]);
    with_file("seven", &TENS[..7]);
    with_file("nine", &[9; 9]);
    with_file("line-feed", &[&TENS[..], b"\n"].concat());
    with_file("long", &[1; 70_000]);
}

#[test]
fn a_part_of_a_long_file_is_looked_at() {
    let looked_at = |length: usize| {
        let path = file(&format!("of-{length}"), &vec![1; length]);
        steps_of(path.as_os_str()).unwrap()
    };
    assert!(looked_at(65_535) == [1; 65_535]);
    assert!(looked_at(65_536) == [1; 65_536]);
    assert!(looked_at(70_000) == [1; 65_536]);
}

/// Without options the built-in steps serve; loaded ones give another listing.
#[test]
fn without_options() {
    let (tape, trace) = (mould_row().pack(), example_trace("shop-traffic").unwrap());
    writes(PLANLIST, &[], &tape, &planlist(&tape, &[]));
    writes(PLANREPLAY, &[], &trace, &planreplay(&trace, &[]));
    assert_ne!(planlist(&tape, &TENS), planlist(&tape, &[]));
    assert_ne!(planreplay(&trace, &TENS), planreplay(&trace, &[]));
    let orders = example_orders("cam-host").unwrap();
    writes(PLANORDERS, &[], &orders, &planorders(&orders, &[]));
    assert_ne!(planorders(&orders, &[50; 8]), planorders(&orders, &[]));
}

#[test]
fn help_and_wrong_use() {
    let path = file("once", &TENS);
    let name = path.to_str().unwrap();
    for (program, usage) in [
        (PLANLIST, "planlist_ref [--steps FILE] < tape\n"),
        (PLANREPLAY, "planreplay_ref [--steps FILE] < trace\n"),
        (PLANORDERS, "planorders_ref [--steps FILE] < orders\n"),
    ] {
        writes(program, &["--help"], &[], usage);
        tells(program, &["--steps"]);
        tells(program, &["--steps", "no/such/file"]);
        tells(program, &["--steps", env!("CARGO_TARGET_TMPDIR")]);
        tells(program, &["--steps", name, "--steps", name]);
        tells(program, &["--steps", name, "more"]);
        tells(program, &["--width", "1"]);
        tells(program, &["tape"]);
    }
}

#[test]
fn what_arguments_ask_for() {
    let of = |words: &[&str]| asked(words.iter().map(OsString::from));
    let work = |name: &str| Ok(Asked::Work(Some(OsString::from(name))));
    assert_eq!(of(&[]), Ok(Asked::Work(None)));
    assert_eq!(of(&["--steps", "a"]), work("a"));
    assert_eq!(of(&["--steps", "--help"]), work("--help"));
    assert_eq!(of(&["--steps", "--steps"]), work("--steps"));
    assert_eq!(of(&["--help", "--steps", "a"]), Ok(Asked::Help));
    assert_eq!(of(&["--steps", "a", "--help"]), Ok(Asked::Help));
    assert!(of(&["--help", "--help"]).is_err());
}

//! The programs answer on the stack that the README says they need, and write
//! what they write on any larger one.

use std::ffi::OsStr;
use std::path::PathBuf;
use std::process::{Command, Stdio};

use compare::programs::*;
use compare::tapes::examples_and_longest;
use reference::examples::example;
use reference::tape::{Tape, LIMITS_BYTES, MOST_BLOCKS, RECORD_BYTES};

/// Kilobytes of stack, of 1,024 bytes, as the README says.
const PLANLIST: u64 = 220;
const PLANREPORT: u64 = 240;
const NGCTAPE: u64 = 512;

/// What the program, started with arguments on so small a stack, writes for an
/// input; panics if it ends otherwise than by itself. The environment is empty,
/// since it lies on the stack too.
fn on_stack(kilobytes: u64, program: &PathBuf, words: &[&OsStr], input: &[u8]) -> Vec<u8> {
    let file = OwnFile::of(input);
    let limit = format!("ulimit -s {kilobytes} && exec \"$0\" \"$@\"");
    let output = Command::new("/bin/sh")
        .env_clear()
        .args(["-c", &limit])
        .arg(program)
        .args(words)
        .stdin(std::fs::File::open(&file.path).expect("a file"))
        .stderr(Stdio::piped())
        .output()
        .expect("a shell");
    let errors = String::from_utf8_lossy(&output.stderr);
    assert!(output.status.success(), "{} {errors}", output.status);
    assert_eq!(errors, "");
    output.stdout
}

/// The tapes of the greatest number of blocks, as bytes.
fn longest() -> Vec<Vec<u8>> {
    let tapes = examples_and_longest();
    let longest = tapes.iter().filter(|tape| tape.blocks.len() == MOST_BLOCKS);
    longest.map(Tape::pack).collect()
}

#[test]
fn planlist_lists_the_longest_tapes() {
    let tapes = longest();
    assert!(!tapes.is_empty());
    for tape in tapes {
        let text = on_stack(PLANLIST, &planlist(), &[], &tape);
        assert_eq!(text, run(&planlist(), &tape).into_bytes());
    }
}

#[test]
fn planreport_reports_on_the_longest_tapes() {
    let files: Vec<OwnFile> = longest().iter().map(|tape| OwnFile::of(tape)).collect();
    let words: Vec<&OsStr> = files.iter().map(|file| file.path.as_os_str()).collect();
    let text = on_stack(PLANREPORT, &planreport(), &words, &[]);
    assert_eq!(text, run_with(&planreport(), &words, &[], 1).into_bytes());
}

#[test]
fn ngctape_takes_the_longest_text() {
    let limits = OwnFile::of(&example("right-angle").expect("an example").pack());
    let words = [limits.path.as_os_str()];
    let line = |k: usize| format!("{:<191}\n", if k == 0 { "G91 G1 F600 X1" } else { "X1" });
    let text: Vec<u8> = (0..MOST_BLOCKS).map(line).collect::<String>().into_bytes();
    assert_eq!(text.len(), 393_216);
    let output = output_for(&ngctape(), &words, (&text, usize::MAX), Stdio::piped());
    assert_eq!(output.bytes.len(), LIMITS_BYTES + MOST_BLOCKS * RECORD_BYTES);
    assert_eq!(on_stack(NGCTAPE, &ngctape(), &words, &text), output.bytes);
}

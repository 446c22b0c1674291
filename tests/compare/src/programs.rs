//! The programs planlist, planreplay, planorders, ngctape and planreport.

use std::env;
use std::ffi::OsStr;
use std::fs;
use std::io::{Read, Write};
use std::path::{Path, PathBuf};
use std::process::{self, Child, Command, ExitStatus, Stdio};
use std::sync::atomic::{AtomicU64, Ordering};
use std::thread::{self, JoinHandle};
use std::time::{Duration, Instant};

/// Longest time that one run may take.
const LONGEST_RUN: Duration = Duration::from_secs(20);

/// The program that an environment variable names, else the one of the name
/// that the project has built.
fn path(variable: &str, name: &str) -> PathBuf {
    match env::var_os(variable) {
        Some(path) => PathBuf::from(path),
        None => PathBuf::from(env!("CARGO_MANIFEST_DIR"))
            .join("../../target/bin")
            .join(name),
    }
}

/// planlist, or what PLANLIST names.
pub fn planlist() -> PathBuf {
    path("PLANLIST", "planlist")
}

/// planreplay, or what PLANREPLAY names.
pub fn planreplay() -> PathBuf {
    path("PLANREPLAY", "planreplay")
}

/// planorders, or what PLANORDERS names.
pub fn planorders() -> PathBuf {
    path("PLANORDERS", "planorders")
}

/// ngctape, or what NGCTAPE names.
pub fn ngctape() -> PathBuf {
    path("NGCTAPE", "ngctape")
}

/// planreport, or what PLANREPORT names.
pub fn planreport() -> PathBuf {
    path("PLANREPORT", "planreport")
}

/// The version that the header has, by tools/version.
pub fn header_version() -> String {
    let tool = PathBuf::from(env!("CARGO_MANIFEST_DIR")).join("../../tools/version");
    let output = Command::new(tool).output().expect("tools/version");
    assert!(output.status.success(), "tools/version fails");
    String::from_utf8(output.stdout)
        .expect("text")
        .trim_end()
        .to_string()
}

/// Starts the program with its input and output; what it complains of is read.
pub fn start(program: &PathBuf, input: Stdio, output: Stdio) -> Child {
    start_with(program, &[], input, output)
}

/// Starts the program with arguments.
pub fn start_with(program: &PathBuf, words: &[&OsStr], input: Stdio, output: Stdio) -> Child {
    let mut command = Command::new(program);
    command
        .args(words)
        .stdin(input)
        .stdout(output)
        .stderr(Stdio::piped())
        .spawn()
        .unwrap_or_else(|error| panic!("{}: {error}", program.display()))
}

/// What a program wrote until it ended, a tape or a text.
#[derive(Debug)]
pub struct Output {
    /// To standard output, as far as that is a pipe.
    pub bytes: Vec<u8>,
    /// To standard error; bytes that are no text are kept as U+FFFD.
    pub errors: String,
}

/// What a program that writes text wrote until it ended.
#[derive(Debug)]
pub struct Written {
    pub text: String,
    pub errors: String,
}

/// What the program writes until it ends by itself; panics if it does not end
/// in time or ends with another status than 0.
pub fn output_of(mut child: Child) -> Output {
    let own = child.stdout.take().map(reader_of);
    let errors = child.stderr.take().map(reader_of);
    let status = status_of(child);
    let bytes = |reader: Option<JoinHandle<Vec<u8>>>| match reader {
        Some(reader) => reader.join().expect("no panic"),
        None => Vec::new(),
    };
    let output = Output {
        bytes: bytes(own),
        errors: String::from_utf8_lossy(&bytes(errors)).into_owned(),
    };
    assert!(status.success(), "{status} after {output:?}");
    output
}

/// The same of a program that writes text.
pub fn written_by(child: Child) -> Written {
    let Output { bytes, errors } = output_of(child);
    Written {
        text: String::from_utf8(bytes).expect("text"),
        errors,
    }
}

/// Reads a pipe to its end.
fn reader_of(mut pipe: impl Read + Send + 'static) -> JoinHandle<Vec<u8>> {
    thread::spawn(move || {
        let mut bytes = Vec::new();
        pipe.read_to_end(&mut bytes).expect("bytes");
        bytes
    })
}

/// What the program writes until it ends by itself; panics if it complains.
pub fn text_of(child: Child) -> String {
    let written = written_by(child);
    assert_eq!(written.errors, "", "after {:?}", written.text);
    written.text
}

/// The status with which the program ends by itself; panics if it does not end
/// in time.
fn status_of(mut child: Child) -> ExitStatus {
    let begin = Instant::now();
    let mut pause = Duration::from_micros(100);
    loop {
        if let Some(status) = child.try_wait().expect("a child that runs") {
            return status;
        }
        if begin.elapsed() > LONGEST_RUN {
            let _ = child.kill();
            panic!("the program does not end");
        }
        thread::sleep(pause);
        pause = (pause * 2).min(Duration::from_millis(5));
    }
}

/// Writes the input into the program's pipe, in pieces of some bytes. A program
/// that has seen enough closes the pipe: that ends the writing.
fn feed(child: &mut Child, input: &[u8], piece: usize) -> JoinHandle<usize> {
    let mut pipe = child.stdin.take().expect("piped");
    let input = input.to_vec();
    thread::spawn(move || {
        let pieces = input.chunks(piece.max(1));
        pieces
            .take_while(|part| pipe.write_all(part).is_ok())
            .count()
    })
}

/// What the program writes for an input that comes in pieces of some bytes.
pub fn run_in_pieces(program: &PathBuf, input: &[u8], piece: usize) -> String {
    run_with(program, &[], input, piece)
}

/// What the program, started with arguments, writes for such an input.
pub fn run_with(program: &PathBuf, words: &[&OsStr], input: &[u8], piece: usize) -> String {
    let output = output_for(program, words, (input, piece), Stdio::piped());
    let text = String::from_utf8(output.bytes).expect("text");
    assert_eq!(output.errors, "", "after {text:?}");
    text
}

/// What the program, started with arguments and an output, writes for an input
/// that comes in pieces of some bytes.
pub fn output_for(
    program: &PathBuf,
    words: &[&OsStr],
    (input, piece): (&[u8], usize),
    output: Stdio,
) -> Output {
    let mut child = start_with(program, words, Stdio::piped(), output);
    let writer = feed(&mut child, input, piece);
    let output = output_of(child);
    writer.join().expect("no panic");
    output
}

/// What the program writes to standard error for an input when its text goes
/// to the output.
pub fn complaint(program: &PathBuf, input: &[u8], output: Stdio) -> String {
    output_for(program, &[], (input, usize::MAX), output).errors
}

/// What the program writes for an input.
pub fn run(program: &PathBuf, input: &[u8]) -> String {
    run_in_pieces(program, input, usize::MAX)
}

/// A name of so many bytes: that of a file, by a long way.
pub fn long_name(file: &[u8], length: usize) -> Vec<u8> {
    let mut name = b"./".repeat((length - file.len()) / 2);
    name.resize(length - file.len(), b'/');
    name.extend(file);
    name
}

/// The arguments by which a program loads a file of torque steps.
pub fn steps_words(file: &Path) -> [&OsStr; 2] {
    [OsStr::new("--steps"), file.as_os_str()]
}

/// A file of torque steps or limits, which is there as long as this value.
pub struct OwnFile {
    pub path: PathBuf,
}

impl OwnFile {
    /// A new file of these bytes.
    pub fn of(bytes: &[u8]) -> OwnFile {
        static MADE: AtomicU64 = AtomicU64::new(0);
        let number = MADE.fetch_add(1, Ordering::Relaxed);
        let name = format!("compare.{}.{number}", process::id());
        let path = env::temp_dir().join(name);
        fs::write(&path, bytes).expect("a place for a file");
        OwnFile { path }
    }
}

impl Drop for OwnFile {
    fn drop(&mut self) {
        let _ = fs::remove_file(&self.path);
    }
}

/// What the program writes for an input in pieces of some bytes when it loads a
/// file of these steps, which is empty where they are.
pub fn run_with_steps(program: &PathBuf, steps: &[u8], input: &[u8], piece: usize) -> String {
    let file = OwnFile::of(steps);
    run_with(program, &steps_words(&file.path), input, piece)
}

/// What the program writes for an input under loaded steps. Where there are none
/// it is started without a file at one seed and with an empty one at the next.
pub fn run_under(seed: u64, program: &PathBuf, steps: &[u8], input: &[u8]) -> String {
    if steps.is_empty() && seed.is_multiple_of(2) {
        run(program, input)
    } else {
        run_with_steps(program, steps, input, usize::MAX)
    }
}

/// What ngctape writes for a text in pieces of some bytes when its file of limits
/// has these bytes; panics if it complains.
pub fn tape_of(limits: &[u8], text: &[u8], piece: usize) -> Vec<u8> {
    let file = OwnFile::of(limits);
    let words = [file.path.as_os_str()];
    let output = output_for(&ngctape(), &words, (text, piece), Stdio::piped());
    assert_eq!(output.errors, "", "after {:?}", output.bytes);
    output.bytes
}

//! An input that cannot be read to its end is told on standard error, wherever
//! its reads begin to fail: planlist and ngctape then write nothing, planreplay
//! and planorders only the lines of the chunks of calls or events that they
//! have read whole. planreport.rs has files of tapes that break off.

use std::ffi::OsStr;
use std::fs::File;
use std::io::{self, Read, Write};
use std::net::{TcpListener, TcpStream};
use std::os::fd::OwnedFd;
use std::os::unix::net::UnixStream;
use std::path::PathBuf;
use std::process::{Child, Command, Stdio};

use compare::devices::{wait_for_read, Terminal};
use compare::programs::*;
use compare::report;
use reference::examples::{example, example_text};
use reference::generate::{calls, events, limits, machine_m};
use reference::listing;
use reference::order_listing;
use reference::orders::{pack_orders, EVENT_BYTES};
use reference::rng::Rng;
use reference::tape::{pack_limits, LIMITS_BYTES, MOST_BYTES};
use reference::text::{self, MOST_TEXT_BYTES};
use reference::trace::{pack_trace, CALL_BYTES};

/// Calls that planreplay reads and runs at a time, and their bytes; the same of
/// planorders' events.
const CHUNK_CALLS: usize = 300;
const CHUNK_BYTES: usize = CHUNK_CALLS * CALL_BYTES;
const CHUNK_EVENTS: usize = 300;
const CHUNK_EVENT_BYTES: usize = CHUNK_EVENTS * EVENT_BYTES;

/// A program, an input for it, and where the input is broken off.
struct Reading {
    name: &'static str,
    program: PathBuf,
    /// A file that is named to it.
    file: Option<OwnFile>,
    input: Vec<u8>,
    /// Each a list of places: the input is handed over up to the first, then,
    /// when that is read, up to the next; when all is read, the reads fail.
    breaks: Vec<Vec<usize>>,
    /// How many bytes the program asks for when it has read so many.
    room: fn(usize) -> usize,
    /// How many lines it writes for so many bytes and a read that fails.
    lines: fn(usize) -> usize,
    /// What it writes for the whole input.
    result: Vec<u8>,
}

fn planlist_reading() -> Reading {
    let input = example("square-pocket").expect("an example").pack();
    let all = input.len();
    Reading {
        name: "planlist",
        program: planlist(),
        file: None,
        breaks: vec![
            vec![],
            vec![1],
            vec![LIMITS_BYTES],
            vec![72],
            vec![30, 72, 79],
            vec![72, all],
            vec![all],
        ],
        room: |got| MOST_BYTES + 1 - got,
        lines: |_| 0,
        result: listing::planlist(&input, &[]).into_bytes(),
        input,
    }
}

fn planreplay_reading() -> Reading {
    let mut rng = Rng::new(21);
    let limits = limits(&mut rng);
    let input = pack_trace(&limits, &calls(&mut rng, 2 * CHUNK_CALLS + 20));
    let border = LIMITS_BYTES + CHUNK_BYTES;
    let all = input.len();
    Reading {
        name: "planreplay",
        program: planreplay(),
        file: None,
        breaks: vec![
            vec![],
            vec![7],
            vec![LIMITS_BYTES],
            vec![10, LIMITS_BYTES, 500, 1_000],
            vec![border],
            vec![1_000, border + 3],
            vec![border + CHUNK_BYTES],
            vec![border, all],
            vec![all],
        ],
        room: |got| match got.checked_sub(LIMITS_BYTES) {
            None => LIMITS_BYTES - got,
            Some(calls) => CHUNK_BYTES - calls % CHUNK_BYTES,
        },
        lines: |got| got.saturating_sub(LIMITS_BYTES) / CHUNK_BYTES * CHUNK_CALLS,
        result: listing::planreplay(&input, &[]).into_bytes(),
        input,
    }
}

fn planorders_reading() -> Reading {
    let mut rng = Rng::new(22);
    let limits = limits(&mut rng);
    let input = pack_orders(&limits, &events(&mut rng, 2 * CHUNK_EVENTS + 20));
    let border = LIMITS_BYTES + CHUNK_EVENT_BYTES;
    let all = input.len();
    Reading {
        name: "planorders",
        program: planorders(),
        file: None,
        breaks: vec![
            vec![],
            vec![7],
            vec![LIMITS_BYTES],
            vec![10, LIMITS_BYTES, 500, 4_000],
            vec![border],
            vec![1_000, border + 3],
            vec![border + CHUNK_EVENT_BYTES],
            vec![border, all],
            vec![all],
        ],
        room: |got| match got.checked_sub(LIMITS_BYTES) {
            None => LIMITS_BYTES - got,
            Some(events) => CHUNK_EVENT_BYTES - events % CHUNK_EVENT_BYTES,
        },
        lines: |got| got.saturating_sub(LIMITS_BYTES) / CHUNK_EVENT_BYTES * CHUNK_EVENTS,
        result: order_listing::planorders(&input, &[]).into_bytes(),
        input,
    }
}

/// The breaks lie inside words and lines, at their ends and in pieces.
fn ngctape_reading() -> Reading {
    let input = example_text("pocket-with-boss").expect("an example");
    let input = input.into_bytes();
    let limits = pack_limits(&machine_m(), 0);
    let line = 1 + input.iter().position(|byte| *byte == b'\n').expect("lines");
    let all = input.len();
    Reading {
        name: "ngctape",
        program: ngctape(),
        file: Some(OwnFile::of(&limits)),
        breaks: vec![
            vec![],
            vec![1],
            vec![line - 1],
            vec![line],
            vec![5, line, line + 7],
            vec![1_000, all],
            vec![all],
        ],
        room: |got| MOST_TEXT_BYTES + 1 - got,
        lines: |_| 0,
        result: text::ngctape(&limits, &input),
        input,
    }
}

fn readings() -> [Reading; 4] {
    [
        planlist_reading(),
        planreplay_reading(),
        planorders_reading(),
        ngctape_reading(),
    ]
}

impl Reading {
    /// Panics unless the program has told that its input broke off after so
    /// many bytes, and has written no more than the lines that it may.
    fn expect_broken(&self, got: usize, output: Output) {
        let lines = self.result.split_inclusive(|byte| *byte == b'\n');
        let part: Vec<&[u8]> = lines.take((self.lines)(got)).collect();
        let told = format!(
            "{}: standard input could not be read to its end\n",
            self.name
        );
        assert_eq!(output.errors, told, "{} after {got} bytes", self.name);
        assert!(
            output.bytes == part.concat(),
            "{} after {got} bytes: {}",
            self.name,
            output.bytes.escape_ascii()
        );
    }

    /// The names of its files, as its words.
    fn words(&self) -> Vec<&OsStr> {
        self.file.iter().map(|file| file.path.as_os_str()).collect()
    }

    /// The program with an input.
    fn start(&self, input: Stdio) -> Child {
        start_with(&self.program, &self.words(), input, Stdio::piped())
    }

    /// Runs the program on the far end of a line; the near end hands over the
    /// input up to each place in turn, when what is before it is read, and is
    /// closed when all is read.
    fn run(&self, (mut near, far): Line, places: &[usize]) -> Output {
        let child = self.start(Stdio::from(far));
        wait_for_read(child.id(), Some(0), (self.room)(0));
        let mut got = 0;
        for place in places {
            near.write_all(&self.input[got..*place]).expect("a reader");
            got = *place;
            wait_for_read(child.id(), Some(0), (self.room)(got));
        }
        drop(near);
        output_of(child)
    }
}

/// Two ends: what is written at the first is read at the second. When the first
/// is dropped, the next read at the second fails, once, and those after it say
/// that the input has ended.
type Line = (Box<dyn Write>, OwnedFd);

/// A socket that is closed while bytes wait in it to be read resets the other.
fn reset_pair() -> Line {
    let (near, mut far) = UnixStream::pair().expect("a pair of sockets");
    far.write_all(b"unread").expect("room");
    (Box::new(near), far.into())
}

/// The same by TCP.
fn reset_connection() -> Line {
    let listener = TcpListener::bind("127.0.0.1:0").expect("a port");
    let place = listener.local_addr().expect("bound");
    let mut far = TcpStream::connect(place).expect("a listener");
    let (near, _) = listener.accept().expect("a connection");
    far.write_all(b"unread").expect("room");
    near.peek(&mut [0]).expect("bytes to be read");
    (Box::new(near), far.into())
}

/// A terminal whose controlling side is closed is hung up.
fn terminal() -> Line {
    let terminal = Terminal::open().expect("a pseudo-terminal");
    (Box::new(terminal.near), terminal.far.into())
}

/// Breaks the lines of each reading wherever it says.
fn break_all(line: fn() -> Line, what: &str) {
    let mut count = 0;
    for reading in readings() {
        for places in &reading.breaks {
            let got = places.last().copied().unwrap_or(0);
            reading.expect_broken(got, reading.run(line(), places));
            count += 1;
        }
    }
    report(count, what);
}

#[test]
fn a_socket_that_is_reset_has_not_ended() {
    break_all(reset_pair, "sockets that were reset");
}

#[test]
fn a_connection_that_is_reset_has_not_ended() {
    break_all(reset_connection, "connections that were reset");
}

#[test]
fn a_terminal_that_is_hung_up_has_not_ended() {
    break_all(terminal, "terminals that were hung up");
}

/// The lines above fail as they say: an error once, and then the end.
#[test]
fn a_broken_line_fails_once() {
    for line in [reset_pair, reset_connection] {
        let (mut near, far) = line();
        near.write_all(b"abc").expect("a reader");
        drop(near);
        let mut far = File::from(far);
        let mut bytes = [0; 8];
        assert_eq!(far.read(&mut bytes).expect("bytes"), 3);
        let error = far.read(&mut bytes).expect_err("a reset");
        assert_eq!(error.kind(), io::ErrorKind::ConnectionReset);
        assert_eq!(far.read(&mut bytes).expect("the end"), 0);
    }
}

/// The same lines, ended and not broken, are read whole.
#[test]
fn a_socket_that_ends_is_read_whole() {
    for reading in readings() {
        for places in [vec![reading.input.len()], vec![100, reading.input.len()]] {
            let (near, far) = UnixStream::pair().expect("a pair of sockets");
            let output = reading.run((Box::new(near), far.into()), &places);
            assert_eq!(output.errors, "", "{}", reading.name);
            assert!(output.bytes == reading.result, "{}", reading.name);
        }
    }
    report(8, "sockets that ended");
}

/// A read that would have to wait, where the input is set not to, fails each
/// time, and the other side is still open.
#[test]
fn a_read_that_would_wait_is_no_end() {
    let mut count = 0;
    for reading in readings() {
        for places in &reading.breaks {
            let got = places.last().copied().unwrap_or(0);
            let (mut near, far) = UnixStream::pair().expect("a pair of sockets");
            near.write_all(&reading.input[..got]).expect("room");
            far.set_nonblocking(true).expect("a socket");
            let child = reading.start(Stdio::from(OwnedFd::from(far)));
            reading.expect_broken(got, output_of(child));
            count += 1;
        }
    }
    report(count, "inputs that would have to wait");
}

/// Where the first read fails there is no input, which is not an empty one: a
/// folder is open and cannot be read, standard input may be open for writing
/// only, or not at all.
#[test]
fn an_input_that_cannot_be_read_is_told() {
    for reading in readings() {
        let folder = File::open("/").expect("a folder");
        let sink = File::create("/dev/null").expect("/dev/null");
        for input in [folder, sink] {
            let child = reading.start(Stdio::from(input));
            reading.expect_broken(0, output_of(child));
        }
        let mut closed = Command::new("sh");
        closed
            .args(["-c", "exec \"$0\" \"$@\" <&-"])
            .arg(&reading.program)
            .args(reading.words())
            .stdout(Stdio::piped())
            .stderr(Stdio::piped());
        reading.expect_broken(0, output_of(closed.spawn().expect("sh")));
    }
    report(12, "inputs that could not be read");
}

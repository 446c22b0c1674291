//! What planlist, ngctape and planorders take, as processes.

use std::ffi::OsStr;
use std::fs::File;
use std::path::{Path, PathBuf};
use std::process::Stdio;
use std::time::Instant;

use compare::programs::{ngctape, planlist, planorders, run, start_with, tape_of, OwnFile};
use reference::generate::machine_m;
use reference::listing;
use reference::machine::Block;
use reference::order_listing::planorders_by;
use reference::stairs::Planner;
use reference::tape::{pack_limits, Tape, MOST_BLOCKS};
use reference::text;

use crate::callgrind::instructions;
use crate::orders::events_of;
use crate::texts::text_of;
use crate::{line, paths, PATHS};

/// Processes that are timed one after the other; the shortest time counts.
const PROCESSES: usize = 500;

/// A program and the names that it is started with.
struct Tool {
    program: PathBuf,
    words: Vec<String>,
}

/// What one process takes: instructions, and time in ns.
struct Cost {
    instructions: Option<u64>,
    time: u64,
}

/// Prints what planlist takes for each record of the longest tape of each path,
/// beyond what it takes for a tape without blocks. False where a listing is not
/// the reference's.
pub fn report() -> bool {
    let tool = Tool {
        program: planlist(),
        words: Vec::new(),
    };
    let empty = tool.cost(&bytes_of(Vec::new()));
    let mut agree = true;
    for (name, path) in PATHS {
        let tape = bytes_of(path.blocks(MOST_BLOCKS));
        rows(
            &format!("planlist, {name}"),
            "µs a tape",
            ([&tool.cost(&tape), &empty], MOST_BLOCKS),
        );
        if run(&planlist(), &tape) != listing::planlist(&tape, &[]) {
            eprintln!("planlist, {name}: the listings differ");
            agree = false;
        }
    }
    whole("planlist, no block", "µs a tape", &empty);
    agree
}

/// Prints what ngctape takes for each line of the mould's text, beyond what it
/// takes for a text without lines. False where a tape is not the reference's.
pub fn report_text() -> bool {
    let limits = pack_limits(&machine_m(), 0);
    let file = OwnFile::of(&limits);
    let tool = Tool {
        program: ngctape(),
        words: vec![file.path.to_str().expect("a path in text").to_string()],
    };
    let text = text_of(paths::Path::Mould);
    let empty = tool.cost(b"");
    let costs = [&tool.cost(&text), &empty];
    rows("ngctape, mould", "µs a text", (costs, MOST_BLOCKS));
    whole("ngctape, no line", "µs a text", &empty);
    let agree = tape_of(&limits, &text, usize::MAX) == text::ngctape(&limits, &text);
    if !agree {
        eprintln!("ngctape, mould: the tapes differ");
    }
    agree
}

/// Prints what planorders takes for each event, an order or a take, of the
/// mould's first 2,048 orders, beyond what it takes for no event. False where
/// its text is not the reference's.
pub fn report_orders() -> bool {
    let tool = Tool {
        program: planorders(),
        words: Vec::new(),
    };
    let (events, count) = events_of(paths::Path::Mould);
    let empty = tool.cost(&pack_limits(&machine_m(), 0));
    let costs = [&tool.cost(&events), &empty];
    rows("planorders, mould", "µs an input", (costs, count));
    whole("planorders, none", "µs an input", &empty);
    let agree = run(&planorders(), &events) == planorders_by::<Planner>(&events, &[]);
    if !agree {
        eprintln!("planorders, mould: the texts differ");
    }
    agree
}

/// Prints the share of a record in what an input of so many takes beyond one of
/// none, and the time that the whole of it takes.
fn rows(name: &str, unit: &str, ([full, empty], records): ([&Cost; 2], usize)) {
    let share = |full: u64, empty: u64| (full as f64 - empty as f64) / records as f64;
    let counts = full.instructions.zip(empty.instructions);
    let count = counts.map(|(full, empty)| share(full, empty));
    line(name, "instructions", &[count]);
    line("", "ns", &[Some(share(full.time, empty.time))]);
    whole("", unit, full);
}

/// Prints the time of one process.
fn whole(name: &str, unit: &str, cost: &Cost) {
    line(name, unit, &[Some(cost.time as f64 / 1e3)]);
}

/// The bytes of a tape for machine M.
fn bytes_of(blocks: Vec<Block>) -> Vec<u8> {
    let limits = machine_m();
    Tape { limits, blocks }.pack()
}

impl Tool {
    /// What a process takes for an input, its result thrown away.
    fn cost(&self, bytes: &[u8]) -> Cost {
        let file = OwnFile::of(bytes);
        let words: Vec<&str> = self.words.iter().map(String::as_str).collect();
        Cost {
            instructions: instructions(&self.program, &words, input(&file.path), None),
            time: (0..PROCESSES)
                .map(|_| self.time(&file.path))
                .min()
                .unwrap_or(0),
        }
    }

    /// Time of one process from start to end, ns.
    fn time(&self, file: &Path) -> u64 {
        let input = input(file);
        let words: Vec<&OsStr> = self.words.iter().map(OsStr::new).collect();
        let begin = Instant::now();
        let status = start_with(&self.program, &words, input, Stdio::null()).wait();
        let time = begin.elapsed().as_nanos() as u64;
        assert!(status.expect("a child that ends").success());
        time
    }
}

fn input(file: &Path) -> Stdio {
    Stdio::from(File::open(file).expect("the file just written"))
}

//! Reads a tape from standard input and writes its listing or refusal line,
//! under the torque steps of a file if one is named.

use std::io::{self, Read, Write};
use std::process::ExitCode;

use reference::listing::planlist;
use reference::options::run;
use reference::tape::MOST_BYTES;

fn main() -> ExitCode {
    run("planlist_ref", "tape", list)
}

/// Reads one byte more than the longest tape at most, which decides 10.
fn list(steps: &[u8]) -> io::Result<()> {
    let mut tape = Vec::new();
    let longest = MOST_BYTES as u64 + 1;
    io::stdin().lock().take(longest).read_to_end(&mut tape)?;
    io::stdout().write_all(planlist(&tape, steps).as_bytes())
}

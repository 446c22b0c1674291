//! Reads a trace from standard input and writes the answer to each call, the
//! number held and the plan, under the torque steps of a file if one is named.

use std::io::{self, BufReader, BufWriter, Write};
use std::process::ExitCode;

use reference::line::Line;
use reference::listing::replay;
use reference::options::run;

fn main() -> ExitCode {
    run("planreplay_ref", "trace", replay_all)
}

/// Replays call by call, so that memory does not grow with the trace.
fn replay_all(steps: &[u8]) -> io::Result<()> {
    let mut input = BufReader::new(io::stdin().lock());
    let mut output = BufWriter::new(io::stdout().lock());
    replay::<Line>(&mut input, steps, &mut output)?;
    output.flush()
}

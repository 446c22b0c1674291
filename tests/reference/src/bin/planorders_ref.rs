//! Reads a host's events from standard input and writes the answer to each, the
//! number held, the plan and the host's point, under the torque steps of a file
//! if one is named.

use std::io::{self, BufReader, BufWriter, Write};
use std::process::ExitCode;

use reference::line::Line;
use reference::options::run;
use reference::order_listing::run_orders;

fn main() -> ExitCode {
    run("planorders_ref", "orders", order_all)
}

/// Runs event by event, so that memory does not grow with the orders.
fn order_all(steps: &[u8]) -> io::Result<()> {
    let mut input = BufReader::new(io::stdin().lock());
    let mut output = BufWriter::new(io::stdout().lock());
    run_orders::<Line>(&mut input, steps, &mut output)?;
    output.flush()
}

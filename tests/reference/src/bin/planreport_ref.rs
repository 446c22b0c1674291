//! Writes the figures of each tape whose file is named and those of all together,
//! under the torque steps of a file if one is named.

use std::ffi::OsString;
use std::io::{self, BufWriter, Write};
use std::process::ExitCode;

use reference::options::{run_on_tapes, tape_of};
use reference::report::{all_line, tape_line, Report, HEADER};

const PROGRAM: &str = "planreport_ref";

fn main() -> ExitCode {
    run_on_tapes(PROGRAM, report_all)
}

/// Reads one file after the other. One that cannot be opened or read is told on
/// standard error, has no line and counts nowhere. True if there is none such.
fn report_all(steps: &[u8], names: &[OsString]) -> io::Result<bool> {
    let mut output = BufWriter::new(io::stdout().lock());
    let mut report = Report::fresh();
    let mut all_read = true;
    writeln!(output, "{HEADER}")?;
    for name in names {
        match tape_of(name) {
            Ok(tape) => {
                let answer = report.add(&tape, steps);
                output.write_all(&tape_line(&answer, name.as_encoded_bytes()))?;
            }
            Err(error) => {
                eprintln!("{PROGRAM}: {name:?}: {error}");
                all_read = false;
            }
        }
    }
    output.write_all(&all_line(&report))?;
    output.flush()?;
    Ok(all_read)
}

//! Records that are run through a planner one by one: the calls of a trace, or
//! the events of a host.

use std::io::{self, Read, Write};

use crate::line::LookAhead;
use crate::listing::{closing_lines, fault_line, read_most};
use crate::refusal::{Fault, Refusal};
use crate::tape::{read_limits, LIMITS_BYTES};

/// A sort of record, with what it keeps from one to the next.
pub trait Records {
    /// Bytes of one record.
    const BYTES: usize;

    /// Runs a record of that many bytes; gives the line that answers it.
    fn answer_line<P: LookAhead>(&mut self, planner: &mut P, record: &[u8]) -> String;

    /// The lines after the number held and the plan.
    fn last_lines(&self) -> String;
}

/// Reads limits and any number of records and writes a line for each, then the
/// number held, the plan and the sort's last lines. Refused limits, by 9 or 1,
/// or then refused steps, by 14, have the refusal line alone. Memory does not
/// grow with the input.
pub fn run_records<P: LookAhead>(
    mut records: impl Records,
    input: &mut impl Read,
    steps: &[u8],
    output: &mut impl Write,
) -> io::Result<()> {
    let mut head = [0; LIMITS_BYTES];
    let got = read_most(input, &mut head)?;
    match read_limits(&head[..got]).and_then(|limits| P::fresh(&limits, steps)) {
        Err(refusal) => write!(output, "{}", fault_line(&refusal.at_no_record())),
        Ok(mut planner) => {
            run_each(&mut records, &mut planner, input, output)?;
            write!(output, "{}", closing_lines(&planner))?;
            write!(output, "{}", records.last_lines())
        }
    }
}

/// Runs each record of the input and writes its line. A record that is cut
/// short is refused by 9 with its place from 1.
fn run_each<R: Records>(
    records: &mut R,
    planner: &mut impl LookAhead,
    input: &mut impl Read,
    output: &mut impl Write,
) -> io::Result<()> {
    let mut record = vec![0; R::BYTES];
    for place in 1.. {
        let got = read_most(input, &mut record)?;
        if got == 0 {
            break;
        }
        if got < R::BYTES {
            let refusal = Refusal::Ragged;
            return write!(output, "{}", fault_line(&Fault { refusal, place }));
        }
        write!(output, "{}", records.answer_line(planner, &record))?;
    }
    Ok(())
}

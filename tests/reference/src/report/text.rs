//! The text of `planreport`. Names of files are bytes and stand in it as given.

use super::figures::Figures;
use super::sums::Report;
use crate::refusal::Fault;

/// First line, without its line feed.
pub const HEADER: &str = "blocks length peak feed corner chord reach tape";

/// Text of `planreport` for files that can be read, each with its name and its
/// content, under loaded torque steps, none if the list is empty.
pub fn planreport(files: &[(&[u8], &[u8])], steps: &[u8]) -> Vec<u8> {
    let mut report = Report::fresh();
    let mut text = format!("{HEADER}\n").into_bytes();
    for (name, tape) in files {
        text.extend(tape_line(&report.add(tape, steps), name));
    }
    text.extend(all_line(&report));
    text
}

/// The line of a tape: its seven figures or its refusal, and the file's name.
pub fn tape_line(answer: &Result<Figures, Fault>, name: &[u8]) -> Vec<u8> {
    let told = match answer {
        Ok(figures) => words(figures),
        Err(fault) => format!("refused {} at {}", fault.refusal.number(), fault.place),
    };
    [told.as_bytes(), b" ", name, b"\n"].concat()
}

/// The last line: the seven figures of all accepted tapes together.
pub fn all_line(report: &Report) -> Vec<u8> {
    format!("{} all\n", words(&report.all)).into_bytes()
}

/// The seven figures, parted by one space.
fn words(figures: &Figures) -> String {
    figures.numbers().map(|number| number.to_string()).join(" ")
}

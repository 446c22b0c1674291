//! Reads a program in RS-274 text from standard input and writes its tape under
//! the limits of a file, or the refusal line.

use std::io::{self, Read, Write};
use std::process::ExitCode;

use reference::options::run_on_limits;
use reference::tape::read_limits;
use reference::text::{ngctape, MOST_TEXT_BYTES};

fn main() -> ExitCode {
    run_on_limits("ngctape_ref", "text", write_tape)
}

/// Refused limits come before anything of the text, which is then not read.
fn write_tape(limits: &[u8]) -> io::Result<()> {
    let text = match read_limits(limits) {
        Ok(_) => whole_text()?,
        Err(_) => Vec::new(),
    };
    let mut output = io::stdout().lock();
    output.write_all(&ngctape(limits, &text))?;
    output.flush()
}

/// All of standard input; one byte more than the longest text decides that it
/// is too long.
fn whole_text() -> io::Result<Vec<u8>> {
    let mut text = Vec::new();
    let longest = MOST_TEXT_BYTES as u64 + 1;
    io::stdin().lock().take(longest).read_to_end(&mut text)?;
    if text.len() > MOST_TEXT_BYTES {
        let matter = format!("the text has more than {MOST_TEXT_BYTES} bytes");
        return Err(io::Error::other(matter));
    }
    Ok(text)
}

//! `calls_expect cases` writes the cases of the test program `calls_run`;
//! `calls_expect answers` reads them and writes what it has to answer.

use std::env;
use std::io::{self, Read, Write};

use reference::call_cases::{answers, bytes_of, cases};

fn main() -> io::Result<()> {
    let bytes = match env::args().nth(1).as_deref() {
        Some("cases") => bytes_of(&cases()),
        Some("answers") => {
            let mut stdin = Vec::new();
            io::stdin().read_to_end(&mut stdin)?;
            answers(&stdin).into_bytes()
        }
        _ => {
            return Err(io::Error::other(
                "calls_expect cases | calls_expect answers",
            ))
        }
    };
    io::stdout().write_all(&bytes)
}

//! The arguments of the programs: the options that the listing programs share,
//! a file of limits, and the files of a report.

use std::ffi::{OsStr, OsString};
use std::fs::File;
use std::io::{self, Read, Write};
use std::process::ExitCode;

use crate::tape::{LIMITS_BYTES, MOST_BYTES};

/// Most bytes of a file of torque steps that are looked at.
pub const MOST_STEP_BYTES: u64 = 65_536;

/// What the arguments ask for.
#[derive(Clone, Debug, PartialEq, Eq)]
pub enum Asked {
    /// The usage.
    Help,
    /// The program's work, with torque steps from a file if one is named.
    Work(Option<OsString>),
}

/// What the arguments ask for, or what is wrong with them: `--steps FILE` and
/// `--help` in any order, each at most once.
pub fn asked(arguments: impl IntoIterator<Item = OsString>) -> Result<Asked, String> {
    let mut words = arguments.into_iter();
    let (mut help, mut file) = (false, None);
    while let Some(word) = words.next() {
        match word.to_str() {
            Some("--help") if !help => help = true,
            Some("--steps") if file.is_none() => {
                file = Some(words.next().ok_or("--steps without a file")?);
            }
            _ => return Err(format!("{word:?} is no argument here")),
        }
    }
    Ok(if help { Asked::Help } else { Asked::Work(file) })
}

/// What the arguments of a program that reads limits from a file ask for.
#[derive(Clone, Debug, PartialEq, Eq)]
pub enum Named {
    /// The usage.
    Help,
    /// The program's work, with the limits in the file of this name.
    Limits(OsString),
}

/// What the arguments ask for, or what is wrong with them: `--help` at most
/// once, then the name of the file, which does not begin with a hyphen.
pub fn named(arguments: impl IntoIterator<Item = OsString>) -> Result<Named, String> {
    let (mut help, mut file) = (false, None);
    for word in arguments {
        let option = word.as_encoded_bytes().starts_with(b"-");
        if file.is_none() && !option {
            file = Some(word);
        } else if file.is_none() && !help && word == "--help" {
            help = true;
        } else {
            return Err(format!("{word:?} is no argument here"));
        }
    }
    if help {
        return Ok(Named::Help);
    }
    file.map(Named::Limits)
        .ok_or("no file of limits is named".into())
}

/// What the arguments of a program that reads tapes from files ask for.
#[derive(Clone, Debug, PartialEq, Eq)]
pub enum Reported {
    /// The usage.
    Help,
    /// The program's work, with torque steps from a file if one is named, on the
    /// files of these names, at least one.
    Tapes(Option<OsString>, Vec<OsString>),
}

/// What the arguments ask for, or what is wrong with them: `--steps FILE` and
/// `--help` in any order, each at most once, then the names of the files. A word
/// that begins with a hyphen is an option wherever it stands, but for the file
/// of `--steps`.
pub fn reported(arguments: impl IntoIterator<Item = OsString>) -> Result<Reported, String> {
    let mut words = arguments.into_iter();
    let (mut help, mut file, mut names) = (false, None, Vec::new());
    while let Some(word) = words.next() {
        if !word.as_encoded_bytes().starts_with(b"-") {
            names.push(word);
            continue;
        }
        match word.to_str() {
            Some("--help") if names.is_empty() && !help => help = true,
            Some("--steps") if names.is_empty() && file.is_none() => {
                file = Some(words.next().ok_or("--steps without a file")?);
            }
            _ => return Err(format!("{word:?} is no argument here")),
        }
    }
    if help {
        return Ok(Reported::Help);
    }
    if names.is_empty() {
        return Err("no tape is named".into());
    }
    Ok(Reported::Tapes(file, names))
}

/// The bytes of a tape's file, one more than the longest tape has at most, which
/// decides 10.
pub fn tape_of(file: &OsStr) -> io::Result<Vec<u8>> {
    first_bytes(file, MOST_BYTES as u64 + 1)
}

/// Loaded torque steps: the bytes of a file as far as they are looked at.
pub fn steps_of(file: &OsStr) -> io::Result<Vec<u8>> {
    first_bytes(file, MOST_STEP_BYTES)
}

/// The first bytes of a file, `most` of them if it has as many.
fn first_bytes(file: &OsStr, most: u64) -> io::Result<Vec<u8>> {
    let mut bytes = Vec::new();
    let mut part = File::open(file)?.take(most);
    part.read_to_end(&mut bytes)?;
    Ok(bytes)
}

/// Runs a program: `work` gets the loaded torque steps, none if no file of them
/// is named. The usage goes to standard output; whatever goes wrong is told in
/// one line on standard error that names the program and the matter.
pub fn run(program: &str, input: &str, work: impl FnOnce(&[u8]) -> io::Result<()>) -> ExitCode {
    let usage = format!("{program} [--steps FILE] < {input}");
    let ended = match asked(std::env::args_os().skip(1)) {
        Err(matter) => Err(format!("{matter}; use: {usage}")),
        Ok(Asked::Help) => writeln!(io::stdout(), "{usage}").map_err(told),
        Ok(Asked::Work(None)) => work(&[]).map_err(told),
        Ok(Asked::Work(Some(file))) => with_bytes(&file, MOST_STEP_BYTES, work),
    };
    end(program, ended)
}

/// Runs a program likewise: `work` gets the first bytes of the named file, 24 if
/// it has as many.
pub fn run_on_limits(
    program: &str,
    input: &str,
    work: impl FnOnce(&[u8]) -> io::Result<()>,
) -> ExitCode {
    let usage = format!("{program} LIMITS < {input}");
    let ended = match named(std::env::args_os().skip(1)) {
        Err(matter) => Err(format!("{matter}; use: {usage}")),
        Ok(Named::Help) => writeln!(io::stdout(), "{usage}").map_err(told),
        Ok(Named::Limits(file)) => with_bytes(&file, LIMITS_BYTES as u64, work),
    };
    end(program, ended)
}

/// Runs a program likewise: `work` gets the loaded torque steps and the names of
/// the tapes' files, and says whether all of them could be read.
pub fn run_on_tapes(
    program: &str,
    work: impl FnOnce(&[u8], &[OsString]) -> io::Result<bool>,
) -> ExitCode {
    let usage = format!("{program} [--steps FILE] TAPE...");
    let (steps, names) = match reported(std::env::args_os().skip(1)) {
        Err(matter) => return end(program, Err(format!("{matter}; use: {usage}"))),
        Ok(Reported::Help) => {
            return end(program, writeln!(io::stdout(), "{usage}").map_err(told));
        }
        Ok(Reported::Tapes(steps, names)) => (steps, names),
    };
    let mut all_read = true;
    let on_names = |steps: &[u8]| work(steps, &names).map(|read| all_read = read);
    let ended = match steps {
        None => on_names(&[]).map_err(told),
        Some(file) => with_bytes(&file, MOST_STEP_BYTES, on_names),
    };
    match end(program, ended) {
        code if all_read => code,
        _ => ExitCode::FAILURE,
    }
}

/// Hands the first bytes of a file to `work`, `most` of them if it has as many.
fn with_bytes(
    file: &OsStr,
    most: u64,
    work: impl FnOnce(&[u8]) -> io::Result<()>,
) -> Result<(), String> {
    match first_bytes(file, most) {
        Err(error) => Err(format!("{file:?}: {error}")),
        Ok(bytes) => work(&bytes).map_err(told),
    }
}

/// The matter of an error.
fn told(error: io::Error) -> String {
    error.to_string()
}

/// Ends a program, after telling what went wrong.
fn end(program: &str, ended: Result<(), String>) -> ExitCode {
    match ended {
        Ok(()) => ExitCode::SUCCESS,
        Err(matter) => {
            eprintln!("{program}: {matter}");
            ExitCode::FAILURE
        }
    }
}

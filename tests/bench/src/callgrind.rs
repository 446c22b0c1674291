//! Instructions, counted by callgrind.

use std::cmp::Reverse;
use std::collections::BTreeMap;
use std::env;
use std::fs;
use std::io::ErrorKind;
use std::path::Path;
use std::process::{Command, Stdio};

/// Instructions of a process from its start to its end, or those of one
/// function and all that it calls. None where there is no valgrind.
pub fn instructions(
    program: &Path,
    words: &[&str],
    input: Stdio,
    function: Option<&str>,
) -> Option<u64> {
    let only = function.map(|name| format!("--toggle-collect=*{name}*"));
    let options: Vec<String> = only.into_iter().collect();
    let counted = totals(&counted(program, words, input, &options)?)[0];
    assert_ne!(counted, 0, "{function:?} is not found");
    Some(counted)
}

/// Instructions of each single call of a function and all that it calls, in the
/// order of the calls: of those that another function makes, one each time, or of
/// all where the two are the same. Both names are whole. None where there is no
/// valgrind.
pub fn single_calls(
    program: &Path,
    words: &[&str],
    input: Stdio,
    [function, within]: [&str; 2],
) -> Option<Vec<u64>> {
    let text = counted(program, words, input, &one_by_one([function, within]))?;
    let mut totals = totals(&text);
    // what was counted behind the last call
    totals.pop();
    let found = !totals.is_empty() && !totals.contains(&0);
    assert!(found, "{function} in {within} is not found");
    Some(totals)
}

/// Where the instructions of the first such call are: those of each function's own
/// code, the most first. None where there is no valgrind.
pub fn first_call(
    program: &Path,
    words: &[&str],
    input: Stdio,
    names: [&str; 2],
) -> Option<Vec<(String, u64)>> {
    let text = counted(program, words, input, &one_by_one(names))?;
    let first = text.split("\ntotals: ").next()?;
    let mut own = by_function(first);
    own.retain(|(_, count)| *count > 0);
    own.sort_by_key(|(_, count)| Reverse(*count));
    Some(own)
}

/// Options to count a function, one part of the file for each time that another is
/// through.
fn one_by_one([function, within]: [&str; 2]) -> [String; 4] {
    [
        format!("--toggle-collect={function}"),
        format!("--zero-before={within}"),
        format!("--dump-after={within}"),
        "--combine-dumps=yes".to_string(),
    ]
}

/// What callgrind writes of a process that it runs with some options.
fn counted(program: &Path, words: &[&str], input: Stdio, options: &[String]) -> Option<String> {
    let out = env::temp_dir().join(format!("callgrind.{}", std::process::id()));
    let status = Command::new("valgrind")
        .args(["--tool=callgrind", "--quiet"])
        .args(options)
        .arg(format!("--callgrind-out-file={}", out.display()))
        .arg(program)
        .args(words)
        .stdin(input)
        .stdout(Stdio::null())
        .stderr(Stdio::null())
        .status();
    if matches!(&status, Err(error) if error.kind() == ErrorKind::NotFound) {
        return None;
    }
    assert!(status.expect("valgrind starts").success(), "{words:?}");
    let text = fs::read_to_string(&out).expect("what was counted");
    let _ = fs::remove_file(&out);
    Some(text)
}

/// The total of each part that a file of callgrind has.
fn totals(text: &str) -> Vec<u64> {
    let of_line = |line: &str| line.strip_prefix("totals: ")?.trim().parse().ok();
    text.lines().filter_map(of_line).collect()
}

/// Instructions of each function's own code in a part of a file. A name stands
/// behind its number in brackets where that comes first; the line behind a call has
/// what was called, not the caller's own.
fn by_function(text: &str) -> Vec<(String, u64)> {
    let mut names = BTreeMap::new();
    let mut own = BTreeMap::new();
    let mut current = "";
    let mut lines = text.lines();
    while let Some(line) = lines.next() {
        if let Some(name) = line.strip_prefix("fn=").or(line.strip_prefix("cfn=")) {
            let (number, word) = name.split_once(' ').unwrap_or((name, ""));
            let known = names.entry(number).or_insert(word);
            if line.starts_with("fn=") {
                current = known;
            }
        } else if line.starts_with("calls=") {
            lines.next();
        } else if let Some(count) = cost(line) {
            *own.entry(current.to_string()).or_insert(0) += count;
        }
    }
    own.into_iter().collect()
}

/// The instructions of a line that has a place, which is a number or as far from
/// the last, and a number of them.
fn cost(line: &str) -> Option<u64> {
    let (place, count) = line.split_once(' ')?;
    let sign = |c| matches!(c, '+' | '-' | '*');
    let digits = place.trim_start_matches(sign);
    let all = digits.chars().all(|c| c.is_ascii_digit());
    count.parse().ok().filter(|_| all)
}

#[cfg(test)]
mod tests {
    use super::*;

    #[test]
    fn own_code_is_without_what_it_calls() {
        let text =
            "part: 1\nevents: Ir\nfn=(7) outer\n0 11\ncfn=(9) inner\ncalls=2 0\n* 70\n+3 4\n\n\
                    fn=(9)\n0 60\n0 10\n";
        let expected = [("inner".to_string(), 70), ("outer".to_string(), 15)];
        assert_eq!(by_function(text), expected);
    }

    #[test]
    fn each_part_has_its_total() {
        let text = "part: 1\nevents: Ir\nfn=(2) add\n0 40\n\ntotals: 40\n\npart: 2\ntotals: 1564\n";
        assert_eq!(totals(text), [40, 1_564]);
    }
}

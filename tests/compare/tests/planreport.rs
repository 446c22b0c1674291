//! The program planreport writes what the reference writes: a header, a line for
//! each file that it can read, and a line for all; it tells of the other files,
//! and of words that it does not expect, on standard error.
//!
//! Files have the names that are given to it, in a folder of each test, in which
//! it is started.

use std::collections::{BTreeMap, BTreeSet};
use std::ffi::OsStr;
use std::fs::{self, File, Permissions};
use std::io::{Seek, Write};
use std::os::unix::ffi::OsStrExt;
use std::os::unix::fs::PermissionsExt;
use std::os::unix::process::CommandExt;
use std::path::{Path, PathBuf};
use std::process::{Command, Stdio};
use std::thread;
use std::time::Duration;

use compare::devices::{self, wait_for_read, Terminal};
use compare::programs::{header_version, long_name, output_of, planreport, Output};
use compare::words::some_steps;
use compare::{report as say, same, seeds};
use reference::examples::{example, right_angle, what_held, NAMES};
use reference::generate::*;
use reference::report;
use reference::rng::Rng;
use reference::tape::{pack_limits, Tape, MOST_BLOCKS, MOST_BYTES};

/// Bytes of a word that are shown, and of the longest name that can be opened.
const SHOWN: usize = 256;
const LONGEST_NAME: usize = 4_095;

const HELP: &[u8] = b"--help";
const VERSION: &[u8] = b"--version";
const STEPS: &[u8] = b"--steps";

/// Why a file cannot be had: while it is opened or read, and the reason.
type Trouble = (&'static str, &'static str);

const ABSENT: Trouble = ("open", "No such file or directory");
const BELOW: Trouble = ("open", "Not a directory");
const TOO_LONG: Trouble = ("open", "File name too long");
const CLOSED: Trouble = ("open", "Permission denied");
/// A file that is there, of a name that is no UTF-8 text: the programs have no path
/// for it.
const NO_TEXT: Trouble = (
    "open",
    "Invalid or incomplete multibyte or wide character",
);
const DIRECTORY: Trouble = ("read", "Is a directory");
const BROKEN: Trouble = ("read", "Input/output error");

/// A folder with files in it, which is there as long as this value.
struct Folder {
    path: PathBuf,
    /// The content of each name, or why it cannot be had; no other name has a
    /// file.
    files: BTreeMap<Vec<u8>, Result<Vec<u8>, Trouble>>,
}

impl Folder {
    /// A new folder for a test.
    fn new(test: &str) -> Folder {
        let path = PathBuf::from(env!("CARGO_TARGET_TMPDIR")).join(format!("planreport-{test}"));
        let _ = fs::remove_dir_all(&path);
        fs::create_dir_all(&path).expect("a folder");
        let above = [&b"."[..], b"..", b"/", b"./"];
        let files = above.map(|name| (name.to_vec(), Err(DIRECTORY)));
        Folder {
            path,
            files: files.into(),
        }
    }

    /// Makes a file of a name that lies in the folder.
    fn put(&mut self, name: &[u8], bytes: &[u8]) {
        fs::write(self.path.join(OsStr::from_bytes(name)), bytes).expect("a file");
        let content = match std::str::from_utf8(name) {
            Ok(_) => Ok(bytes.to_vec()),
            Err(_) => Err(NO_TEXT),
        };
        self.know(name, content);
    }

    /// Notes what a name has.
    fn know(&mut self, name: &[u8], content: Result<Vec<u8>, Trouble>) {
        self.files.insert(name.to_vec(), content);
    }

    fn content(&self, name: &[u8]) -> Result<&[u8], Trouble> {
        match self.files.get(name) {
            Some(content) => content.as_deref().map_err(|trouble| *trouble),
            None => Err(ABSENT),
        }
    }

    /// The program with its words.
    fn command(&self, words: &[&[u8]]) -> Command {
        let program = fs::canonicalize(planreport()).expect("a program");
        let mut command = Command::new(program);
        command
            .args(words.iter().map(|word| OsStr::from_bytes(word)))
            .current_dir(&self.path)
            .stdin(Stdio::null())
            .stdout(Stdio::piped())
            .stderr(Stdio::piped());
        command
    }

    /// What the program writes. It reads nothing of its standard input.
    fn run(&self, words: &[&[u8]]) -> Output {
        let path = self.path.join("standard input");
        fs::write(&path, right_angle().pack()).expect("a file");
        let mut input = File::open(&path).expect("a file");
        let same = input.try_clone().expect("a file");
        let child = self.command(words).stdin(same).spawn();
        let output = output_of(child.expect("a program"));
        assert_eq!(input.stream_position().expect("a file"), 0, "{words:?}");
        output
    }

    /// What it has to write for words that ask for its work: the text, and the
    /// lines on standard error.
    fn expected(&self, steps: Option<&[u8]>, names: &[&[u8]]) -> (Vec<u8>, String) {
        let loaded = match steps.map(|name| (name, self.content(name))) {
            None => &[][..],
            Some((_, Ok(bytes))) => bytes,
            Some((name, Err(trouble))) => return (Vec::new(), told(name, trouble)),
        };
        let (mut files, mut errors) = (Vec::new(), String::new());
        for name in names {
            match self.content(name) {
                Ok(tape) => files.push((*name, &tape[..tape.len().min(MOST_BYTES + 1)])),
                Err(trouble) => errors.push_str(&told(name, trouble)),
            }
        }
        (report::planreport(&files, loaded), errors)
    }

    /// Panics unless the program does what the words ask for; gives its text.
    fn expect(&self, seed: u64, words: &[&[u8]]) -> String {
        let output = self.run(words);
        let text = shown_whole(&output.bytes);
        let input = || {
            format!(
                "{:?}",
                words.iter().map(|word| shown(word)).collect::<Vec<_>>()
            )
        };
        match asked(words) {
            Asked::Work(steps, names) => {
                let (bytes, errors) = self.expected(steps, &names);
                same(seed, input, output.errors, errors);
                same(seed, input, &text, &shown_whole(&bytes));
            }
            Asked::Usage => {
                let usage = self.run(&[HELP]).bytes;
                same(
                    seed,
                    input,
                    (output.errors, output.bytes),
                    (String::new(), usage),
                );
            }
            Asked::Version => {
                let line = format!("planreport {}\n", header_version());
                same(seed, input, (output.errors, &text), (String::new(), &line));
            }
            Asked::Wrong(word) => {
                let begin = format!("planreport: unexpected argument '{}'", shown(word));
                expect_wrong(&output, &begin);
            }
            Asked::LacksFile => {
                expect_wrong(&output, "planreport: '--steps' needs the name of a file");
            }
            Asked::LacksName => expect_wrong(&output, "planreport: needs the name of"),
        }
        text
    }
}

impl Drop for Folder {
    fn drop(&mut self) {
        let _ = fs::remove_dir_all(&self.path);
    }
}

/// Panics unless one line is told that begins so and refers to the usage, and
/// nothing is written.
fn expect_wrong(output: &Output, begin: &str) {
    let errors = &output.errors;
    let line = errors.lines().count() == 1 && errors.ends_with("see --help\n");
    assert!(line && errors.starts_with(begin), "{begin}: {errors:?}");
    assert_eq!(output.bytes, b"", "{begin}");
}

/// The line that tells of a file that cannot be had.
fn told(name: &[u8], (doing, reason): Trouble) -> String {
    format!("planreport: cannot {doing} '{}': {reason}\n", shown(name))
}

/// A word as it is shown in a line on standard error, by its beginning and
/// without control characters.
fn shown(word: &[u8]) -> String {
    let fit = |byte: &u8| if byte.is_ascii_control() { b'?' } else { *byte };
    let bytes: Vec<u8> = word.iter().take(SHOWN).map(fit).collect();
    String::from_utf8_lossy(&bytes).into_owned()
}

/// All bytes of a text, each line for itself.
fn shown_whole(bytes: &[u8]) -> String {
    bytes.escape_ascii().to_string().replace("\\n", "\n")
}

/// What words ask for.
#[derive(Debug, PartialEq)]
enum Asked<'a> {
    /// A report on the files, with the steps of a file or without.
    Work(Option<&'a [u8]>, Vec<&'a [u8]>),
    Usage,
    Version,
    /// Nothing that is known: this word is not expected.
    Wrong(&'a [u8]),
    /// `--steps` is the last word.
    LacksFile,
    /// No file is named.
    LacksName,
}

/// What words ask for: options first, each at most once, then names, none of
/// which begins as an option does. The first word that does not fit decides.
fn asked<'a>(words: &[&'a [u8]]) -> Asked<'a> {
    let (mut usage, mut version, mut steps, mut names) = (false, false, None, Vec::new());
    let mut left = words.iter();
    while let Some(word) = left.next() {
        let before = names.is_empty();
        if !word.starts_with(b"-") {
            names.push(*word);
        } else if before && *word == HELP && !usage {
            usage = true;
        } else if before && *word == VERSION && !version {
            version = true;
        } else if before && *word == STEPS && steps.is_none() {
            match left.next() {
                Some(name) => steps = Some(*name),
                None => return Asked::LacksFile,
            }
        } else {
            return Asked::Wrong(word);
        }
    }
    match names.is_empty() {
        _ if usage => Asked::Usage,
        _ if version => Asked::Version,
        true => Asked::LacksName,
        false => Asked::Work(steps, names),
    }
}

fn pair() -> Vec<u8> {
    right_angle().pack()
}

/// A folder with the right-angle pair in it, an empty file and one of steps.
fn small_folder(test: &str) -> Folder {
    let mut folder = Folder::new(test);
    folder.put(b"pair", &pair());
    folder.put(b"empty", b"");
    folder.put(b"half", &[50; 8]);
    folder
}

/// The lists of so many words.
fn lists<'a>(words: &[&'a [u8]], length: usize) -> Vec<Vec<&'a [u8]>> {
    if length == 0 {
        return vec![Vec::new()];
    }
    let shorter = lists(words, length - 1).into_iter();
    let longer = |list: Vec<&'a [u8]>| words.iter().map(move |word| [&list[..], &[*word]].concat());
    shorter.flat_map(longer).collect()
}

/// Every list of up to four words: options, files that are there and that are
/// not, and others.
#[test]
fn every_list_of_words_is_taken_as_it_asks() {
    let folder = small_folder("lists");
    let words: [&[u8]; 6] = [HELP, STEPS, b"pair", b"absent", b"", b"-x"];
    let all: Vec<Vec<&[u8]>> = (0..=4).flat_map(|n| lists(&words, n)).collect();
    for list in &all {
        folder.expect(0, list);
    }
    say(all.len(), "lists of words");
}

/// The same, one by one, as the rules have them.
#[test]
fn the_lists_of_words_are_those_of_the_rules() {
    let folder = small_folder("rules");
    let (x, y): (&[u8], &[u8]) = (b"pair", b"-x");
    let cases: [(&[&[u8]], Asked); 29] = [
        (&[x], Asked::Work(None, vec![x])),
        (&[x, x], Asked::Work(None, vec![x, x])),
        (&[b""], Asked::Work(None, vec![b""])),
        (&[b"./-x"], Asked::Work(None, vec![b"./-x"])),
        (&[STEPS, b"half", x], Asked::Work(Some(b"half"), vec![x])),
        (&[STEPS, HELP, x], Asked::Work(Some(HELP), vec![x])),
        (&[STEPS, STEPS, x], Asked::Work(Some(STEPS), vec![x])),
        (&[STEPS, y, x], Asked::Work(Some(y), vec![x])),
        (&[HELP], Asked::Usage),
        (&[HELP, x, x], Asked::Usage),
        (&[HELP, STEPS, x], Asked::Usage),
        (&[STEPS, x, HELP], Asked::Usage),
        (&[STEPS, x, HELP, x], Asked::Usage),
        (&[STEPS], Asked::LacksFile),
        (&[HELP, STEPS], Asked::LacksFile),
        (&[], Asked::LacksName),
        (&[STEPS, x], Asked::LacksName),
        (&[x, HELP], Asked::Wrong(HELP)),
        (&[x, STEPS, x], Asked::Wrong(STEPS)),
        (&[x, x, y], Asked::Wrong(y)),
        (&[HELP, HELP, x], Asked::Wrong(HELP)),
        (&[STEPS, x, STEPS, x, x], Asked::Wrong(STEPS)),
        (&[VERSION], Asked::Version),
        (&[VERSION, x, x], Asked::Version),
        (&[VERSION, STEPS, x, HELP], Asked::Usage),
        (&[VERSION, VERSION, x], Asked::Wrong(VERSION)),
        (&[x, VERSION], Asked::Wrong(VERSION)),
        (&[STEPS, VERSION, x], Asked::Work(Some(VERSION), vec![x])),
        (
            &[b"7", b"0000000007"],
            Asked::Work(None, vec![b"7", b"0000000007"]),
        ),
    ];
    for (words, expected) in &cases {
        assert_eq!(asked(words), *expected, "{words:?}");
        folder.expect(0, words);
    }
    say(cases.len(), "lists of words by the rules");
}

/// Words that begin as an option does, and are none: before a name and behind.
#[test]
fn a_word_that_is_no_option_is_told() {
    let folder = small_folder("words");
    let long = [&b"-"[..], &b"a".repeat(100_000)].concat();
    let words: [&[u8]; 18] = [
        b"-",
        b"--",
        b"-h",
        b"--hel",
        b"--helpx",
        b"--HELP",
        b"-help",
        b"--help\n",
        b"--step",
        b"--stepsx",
        b"--steps=half",
        b"--steps ",
        b"--width",
        b"--width=7",
        b"--versions",
        b"-two\nlines\r\n\tand \x1b[31mred\x7f",
        b"-no text: \xff\xfe\x80\xc3",
        &long,
    ];
    for word in words {
        for list in [
            &[word][..],
            &[word, b"pair"],
            &[b"pair", word],
            &[HELP, word],
            &[STEPS, b"half", b"pair", word],
        ] {
            assert_eq!(asked(list), Asked::Wrong(word));
            folder.expect(0, list);
        }
    }
    say(5 * words.len(), "words that are no options");
}

#[test]
fn help_writes_the_usage() {
    let folder = small_folder("help");
    let output = folder.run(&[HELP]);
    let text = String::from_utf8(output.bytes).expect("text");
    let begin = "usage: planreport [--steps FILE] TAPE...";
    assert!(text.starts_with(begin) && text.ends_with('\n'), "{text:?}");
    let lines: Vec<&str> = text.lines().collect();
    assert!((3..=6).contains(&lines.len()), "{lines:?}");
    let fits = |line: &&str| line.is_ascii() && (1..=80).contains(&line.len());
    assert!(lines.iter().all(fits), "{lines:?}");
    assert_eq!(output.errors, "");
    let full = File::create("/dev/full").expect("/dev/full");
    let child = folder.command(&[HELP]).stdout(full).spawn();
    let errors = output_of(child.expect("a program")).errors;
    assert_eq!(
        errors,
        "planreport: standard output did not take the usage\n"
    );
    say(2, "usages");
}

/// A program does its work whatever name it is started by, and where standard
/// input is closed, whose place a file then has.
#[test]
fn name_and_standard_input_play_no_part() {
    let folder = small_folder("closed-input");
    let words: [&[u8]; 4] = [STEPS, b"half", b"pair", b"empty"];
    let (text, _) = folder.expected(Some(b"half"), &words[2..]);
    let names: [&[u8]; 4] = [b"", HELP, STEPS, b"\xff\n"];
    for name in names {
        let child = folder.command(&words).arg0(OsStr::from_bytes(name)).spawn();
        let output = output_of(child.expect("a program"));
        assert_eq!((output.errors.as_str(), &output.bytes), ("", &text));
    }
    let child = Command::new("sh")
        .args(["-c", "exec \"$0\" \"$@\" <&-"])
        .arg(fs::canonicalize(planreport()).expect("a program"))
        .args(words.iter().map(|word| OsStr::from_bytes(word)))
        .current_dir(&folder.path)
        .stdout(Stdio::piped())
        .stderr(Stdio::piped())
        .spawn();
    let output = output_of(child.expect("sh"));
    assert_eq!((output.errors.as_str(), &output.bytes), ("", &text));
    say(names.len() + 1, "names of programs, and a closed input");
}

/// Names that files of the seeded lists have.
const FILE_NAMES: [&[u8]; 10] = [
    b"a",
    b"mould row.tape",
    b" ",
    b"all",
    b"refused 9 at 0",
    b"two\nlines\r\n\tand \x1b[31mred\x7f",
    b"no text: \xff\xfe\x80\xc3",
    b"x-",
    b"\"'\\",
    b"tape",
];

/// The bytes of a file of any sort: tapes that pass, faulty ones, none, and more
/// than a tape may have.
fn some_file(rng: &mut Rng) -> Vec<u8> {
    match rng.below(8) {
        0 => Vec::new(),
        1 | 2 => faulty_tape(rng),
        3 => vec![rng.word() as u8; MOST_BYTES - 2 + rng.below(6) as usize],
        4 | 5 => tied_tape(rng),
        _ => tape(rng),
    }
}

/// Lists of up to eight names, some of them twice, of folders, of no file and
/// below a file, under steps of every sort.
#[test]
fn lists_of_files_have_the_same_text() {
    let mut met = BTreeSet::new();
    for seed in seeds(250) {
        let mut rng = Rng::new(seed);
        let mut folder = Folder::new("seeded");
        let mut names = vec![&b"."[..], b"absent", b"", b"a/x", b"/proc/self/mem"];
        for name in FILE_NAMES.iter().take(rng.within(1, 10) as usize) {
            folder.put(name, &some_file(&mut rng));
            names.extend([*name; 3]);
        }
        folder.know(b"a/x", Err(BELOW));
        folder.know(b"/proc/self/mem", Err(BROKEN));
        folder.put(b"steps", &some_steps(&mut rng));
        let mut words: Vec<&[u8]> = match rng.below(3) {
            0 => vec![STEPS, b"steps"],
            _ => Vec::new(),
        };
        words.extend((0..rng.within(1, 8)).map(|_| rng.pick(&names)));
        let text = folder.expect(seed, &words);
        let refused = text
            .lines()
            .filter_map(|line| line.strip_prefix("refused "));
        met.extend(refused.filter_map(|rest| rest.split(' ').next()?.parse::<u64>().ok()));
    }
    assert!(
        met.is_superset(&BTreeSet::from([1, 2, 9, 10, 14])),
        "{met:?}"
    );
    say(250, "lists of files");
}

/// The examples as they are stored, with the figures that were worked out.
#[test]
fn the_examples_have_these_lines() {
    let mut folder = Folder::new("examples");
    let stored = PathBuf::from(env!("CARGO_MANIFEST_DIR")).join("../../examples/tapes");
    for name in NAMES {
        let bytes = fs::read(stored.join(format!("{name}.tape"))).expect("an example");
        assert_eq!(bytes, example(name).expect("an example").pack());
        folder.put(name.as_bytes(), &bytes);
    }
    folder.put(b"cut", &pair()[..23]);
    folder.put(b"still", &[&pair()[..24], &[0; 16]].concat());
    folder.put(b"limits only", &pair()[..24]);
    let mut names: Vec<&[u8]> = NAMES.iter().map(|name| name.as_bytes()).collect();
    names.extend([&b"cut"[..], b"still", b"limits only"]);
    let text = "\
blocks length peak feed corner chord reach tape
2 2000 201000000 0 1 0 0 right-angle
325 107636 29999000000 0 6 282 36 mould-row
20 104000 40000000000 0 19 0 0 square-pocket
10 4467 400000000 2 1 0 6 to-and-fro
7 3210 400000000 1 1 3 1 what-held
refused 9 at 0 cut
refused 2 at 1 still
0 0 0 0 0 0 0 limits only
364 221313 40000000000 3 28 285 43 all
";
    assert_eq!(folder.expect(0, &names), text);
    let none = "blocks length peak feed corner chord reach tape\n0 0 0 0 0 0 0 all\n";
    assert_eq!(folder.expect(0, &[b"absent", b"."]), none);
    say(names.len() + 2, "examples");
}

/// A name has any bytes but 0 and, in the folder, no slash: one byte alone, and
/// between two letters. Where they are no text it is told that it cannot be opened.
#[test]
fn names_have_any_byte() {
    let mut folder = Folder::new("bytes");
    let bytes: Vec<u8> = (1..=255).filter(|byte| !b"/.".contains(byte)).collect();
    let between: Vec<[u8; 3]> = bytes.iter().map(|byte| [b'a', *byte, b'b']).collect();
    let mut names: Vec<&[u8]> = between.iter().map(|name| &name[..]).collect();
    let alone = bytes.chunks(1).filter(|name| *name != b"-");
    names.extend(alone);
    let tape = pair();
    for (k, name) in names.iter().enumerate() {
        folder.put(name, &tape[..if k % 9 == 0 { 24 } else { 23 }]);
    }
    folder.expect(0, &names);
    folder.put(b"-", &tape);
    folder.put(b"--help", &tape);
    folder.know(b"./-", Ok(tape.clone()));
    folder.know(b"./--help", Ok(tape));
    folder.expect(0, &[b"./-", b"./--help"]);
    say(names.len() + 2, "names of any bytes");
}

/// The longest names open and are written whole; longer ones are told by their
/// beginning, and the files about them are reported.
#[test]
fn long_names_are_opened_or_told() {
    let mut folder = small_folder("long-names");
    let whole: Vec<Vec<u8>> = [SHOWN, SHOWN + 1, 4_000, LONGEST_NAME - 1, LONGEST_NAME]
        .map(|length| long_name(b"pair", length))
        .into();
    let longer: Vec<Vec<u8>> = [LONGEST_NAME + 1, LONGEST_NAME + 2, 8_192, 100_000]
        .map(|length| long_name(b"pair", length))
        .into();
    whole.iter().for_each(|name| folder.know(name, Ok(pair())));
    longer
        .iter()
        .for_each(|name| folder.know(name, Err(TOO_LONG)));
    let component = b"b".repeat(255);
    folder.put(&component, &pair());
    let wide = b"b".repeat(256);
    folder.know(&wide, Err(TOO_LONG));
    for name in whole.iter().chain(&longer).chain([&component, &wide]) {
        folder.expect(0, &[name]);
        folder.expect(0, &[b"pair", name, b"pair"]);
        folder.expect(0, &[STEPS, name, b"pair"]);
    }
    let all: Vec<&[u8]> = whole.iter().chain(&longer).map(|name| &name[..]).collect();
    folder.expect(0, &all);
    say(3 * 11 + 1, "long names");
}

/// Files about as long as the longest tape, and endless ones: one byte more than
/// that decides.
#[test]
fn long_files_are_refused_by_10() {
    let mut folder = Folder::new("long-files");
    let blocks = short_steps(7, MOST_BLOCKS + 4);
    let limits = machine_m();
    let whole = Tape { limits, blocks }.pack();
    let lengths = [
        MOST_BYTES - 16,
        MOST_BYTES - 1,
        MOST_BYTES,
        MOST_BYTES + 1,
        MOST_BYTES + 2,
        MOST_BYTES + 16,
    ];
    let names: Vec<String> = lengths.iter().map(|length| format!("{length}")).collect();
    for (name, length) in names.iter().zip(lengths) {
        folder.put(name.as_bytes(), &whole[..length]);
    }
    folder.know(b"/dev/zero", Ok(vec![0; MOST_BYTES + 1]));
    folder.know(b"/dev/null", Ok(Vec::new()));
    let mut words: Vec<&[u8]> = names.iter().map(|name| name.as_bytes()).collect();
    words.extend([&b"/dev/zero"[..], b"/dev/null"]);
    let text = folder.expect(0, &words);
    assert_eq!(text.matches("refused 10 at 0 ").count(), 4, "{text}");
    assert_eq!(text.matches("refused 9 at 0 ").count(), 2, "{text}");
    say(words.len(), "files about as long as the longest tape");
}

/// A name in the folder that is a pipe's.
fn pipe(folder: &mut Folder, name: &str, content: &[u8]) -> PathBuf {
    let path = folder.path.join(name);
    devices::named_pipe(&path);
    folder.know(name.as_bytes(), Ok(content.to_vec()));
    path
}

/// Tapes and steps that come in pieces, and a tape whose first 32,793 bytes have
/// come and that does not end.
#[test]
fn files_come_in_pieces() {
    let mut folder = small_folder("pieces");
    let tape = what_held().pack();
    let (first, second) = (
        pipe(&mut folder, "first", &[70; 8]),
        pipe(&mut folder, "second", &tape),
    );
    let writer = thread::spawn(move || {
        write_slowly(&first, &[70; 8], 1);
        write_slowly(&second, &tape, 5);
    });
    folder.expect(0, &[STEPS, b"first", b"second", b"pair"]);
    writer.join().expect("no panic");
    let long = vec![1; MOST_BYTES + 1];
    let endless = pipe(&mut folder, "endless", &long);
    let writer = thread::spawn(move || {
        let mut pipe = File::options().write(true).open(endless).expect("a reader");
        pipe.write_all(&long).expect("a reader");
        // until the program has closed it
        while pipe.write_all(&[1]).is_ok() {
            thread::sleep(Duration::from_millis(1));
        }
    });
    folder.expect(0, &[b"pair", b"endless", b"pair"]);
    writer.join().expect("no panic");
    say(3, "files in pieces");
}

/// Writes bytes into a pipe, so many at a time, when those before are likely to be
/// read.
fn write_slowly(pipe: &Path, bytes: &[u8], piece: usize) {
    let mut pipe = File::options().write(true).open(pipe).expect("a reader");
    for part in bytes.chunks(piece) {
        pipe.write_all(part).expect("a reader");
        thread::sleep(Duration::from_millis(3));
    }
}

/// Files that cannot be opened or read among such that can: each is told, has no
/// line and counts nowhere.
#[test]
fn files_that_cannot_be_had_are_told() {
    let mut folder = small_folder("unread");
    folder.know(b"pair/x", Err(BELOW));
    folder.know(b"/proc/self/mem", Err(BROKEN));
    let closed = folder.path.join("closed");
    fs::write(&closed, pair()).expect("a file");
    fs::set_permissions(&closed, Permissions::from_mode(0o000)).expect("a mode");
    // root may read any file
    let content = fs::read(&closed).map_err(|_| CLOSED);
    folder.know(b"closed", content);
    let names: [&[u8]; 12] = [
        b"absent",
        b"",
        b" ",
        b".",
        b"..",
        b"/",
        b"pair/x",
        b"closed",
        b"/proc/self/mem",
        b"absent/absent",
        b"two\nlines\r\n\tand \x1b[31mred\x7f",
        b"no text: \xff\xfe\x80\xc3",
    ];
    for name in names {
        folder.expect(0, &[name]);
        folder.expect(0, &[b"pair", name, b"empty", name, b"pair"]);
        folder.expect(0, &[STEPS, name, b"pair"]);
        folder.expect(0, &[HELP, STEPS, name, name]);
    }
    folder.expect(0, &names);
    say(4 * names.len() + 1, "files that cannot be had");
}

/// A tape on a terminal that is hung up after so many bytes is told, though what
/// came before would be a tape.
#[test]
fn a_tape_that_breaks_off_is_told() {
    let tape = pair();
    for got in [0, 7, 24, 40, tape.len()] {
        let mut folder = small_folder("broken");
        let mut terminal = Terminal::open().expect("a pseudo-terminal");
        let name = terminal.name.clone();
        let name = name.as_os_str().as_bytes();
        folder.know(name, Err(BROKEN));
        let words = [b"pair", name, b"pair"];
        let child = folder.command(&words).spawn().expect("a program");
        wait_for_read(child.id(), None, MOST_BYTES + 1);
        if got > 0 {
            terminal.near.write_all(&tape[..got]).expect("a reader");
            wait_for_read(child.id(), None, MOST_BYTES + 1 - got);
        }
        drop(terminal.near);
        let output = output_of(child);
        let (text, errors) = folder.expected(None, &words);
        assert_eq!(output.errors, errors, "after {got} bytes");
        assert_eq!(shown_whole(&output.bytes), shown_whole(&text), "{got}");
    }
    say(5, "tapes that break off");
}

/// 100 accepted files, with refused ones and others between, then more of every
/// sort; and thousands of names.
#[test]
fn more_than_100_files() {
    let mut folder = small_folder("hundred");
    let mixed = what_held().pack();
    folder.put(b"mixed", &mixed);
    folder.put(b"cut", &mixed[..23]);
    folder.put(b"bad", &pack_limits(&machine_m(), 1));
    folder.put(b"still", &[&mixed[..24], &[0; 16]].concat());
    let between: [&[u8]; 5] = [b"cut", b"bad", b"absent", b"still", b"empty"];
    let mut words: Vec<&[u8]> = Vec::new();
    for k in 0..99 {
        words.push(if k % 3 == 0 { b"mixed" } else { b"pair" });
        words.push(between[k % between.len()]);
    }
    for last in [&b"pair"[..], b"mixed"] {
        let begun = words.clone();
        words.push(last);
        let text = folder.expect(0, &words);
        assert!(!text.contains("refused 10"), "{text}");
        let more = [&words[..], &between, &[b"pair", b"."]].concat();
        let text = folder.expect(0, &more);
        assert_eq!(text.matches("refused 10 at 0 ").count(), 5, "{text}");
        words = begun;
    }
    let hundred = vec![&b"pair"[..]; 100];
    let text = folder.expect(0, &hundred);
    assert!(
        text.ends_with("\n200 200000 201000000 0 100 0 0 all\n"),
        "{text}"
    );
    let one_more = vec![&b"pair"[..]; 101];
    let text = folder.expect(0, &one_more);
    let last = "\nrefused 10 at 0 pair\n200 200000 201000000 0 100 0 0 all\n";
    assert!(text.ends_with(last), "{text}");
    folder.expect(0, &vec![&b"pair"[..]; 5_000]);
    folder.expect(0, &vec![&b"cut"[..]; 5_000]);
    folder.expect(0, &vec![&b"absent"[..]; 300]);
    say(9, "lists about and beyond 100 files");
}

/// Steps that pass, that do not, none, more than are looked at, and a file that
/// cannot be had: those at fault refuse each tape, after 10, 9 and 1.
#[test]
fn steps_belong_to_each_tape() {
    let mut folder = small_folder("steps");
    folder.put(b"mixed", &what_held().pack());
    folder.put(b"cut", &pair()[..23]);
    folder.put(b"bad", &pack_limits(&machine_m(), 1));
    folder.put(b"still", &[&pair()[..24], &[0; 16]].concat());
    folder.put(b"long", &[0; MOST_BYTES + 1]);
    let names: [&[u8]; 7] = [
        b"pair", b"mixed", b"cut", b"bad", b"still", b"long", b"absent",
    ];
    let mut rng = Rng::new(14);
    let mut all = vec![
        vec![],
        vec![50; 8],
        vec![50; 7],
        vec![50; 9],
        vec![0; 8],
        vec![101; 8],
    ];
    all.push(vec![50; 65_536 + 8]);
    all.extend((0..20).map(|_| loaded_steps(&mut rng)));
    all.extend((0..20).map(|_| faulty_steps(&mut rng)));
    for steps in &all {
        folder.put(b"own steps", steps);
        let words = [&[STEPS, b"own steps"], &names[..]].concat();
        let text = folder.expect(0, &words);
        let good = reference::machine::read_steps(steps).is_ok();
        assert_eq!(text.contains("refused 14 at 0 pair"), !good, "{steps:?}");
        assert!(text.contains("refused 9 at 0 cut") && text.contains("refused 1 at 0 bad"));
    }
    folder.expect(0, &[STEPS, b"absent", b"pair"]);
    folder.expect(0, &[STEPS, b".", b"pair"]);
    folder.expect(0, &[STEPS, b"", b"pair"]);
    say(all.len() + 3, "files of steps");
}

/// What is told on standard error where a text cannot be written.
fn expect_untaken(what: &str, errors: &str) {
    let told = errors.lines().count() == 1 && errors.contains("did not take");
    assert!(
        told && errors.starts_with("planreport: "),
        "{what}: {errors:?}"
    );
}

/// Every write to /dev/full fails, and to an output that is closed: told once,
/// whether the text is short or longer than any buffer.
#[test]
fn a_failed_write_is_told_on_standard_error() {
    let folder = small_folder("full");
    let long = vec![&b"pair"[..]; 5_000];
    let lists: [&[&[u8]]; 3] = [&[b"empty"], &[STEPS, b"half", b"pair", b"pair"], &long];
    for words in lists {
        let full = File::create("/dev/full").expect("/dev/full");
        let child = folder.command(words).stdout(full).spawn();
        expect_untaken("/dev/full", &output_of(child.expect("a program")).errors);
        let child = Command::new("sh")
            .args(["-c", "exec \"$0\" \"$@\" >&-"])
            .arg(fs::canonicalize(planreport()).expect("a program"))
            .args(words.iter().map(|word| OsStr::from_bytes(word)))
            .current_dir(&folder.path)
            .stdin(Stdio::null())
            .stderr(Stdio::piped())
            .spawn();
        expect_untaken("closed", &output_of(child.expect("sh")).errors);
    }
    say(2 * lists.len(), "texts that could not be written");
}

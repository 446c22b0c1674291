//! What the programs do with arguments: planlist, planreplay and planorders
//! have the options `--help`, `--version` and `--steps FILE`, in any order and
//! each at most once, and ngctape needs the name of one file of limits, with
//! `--help` and `--version` before it or not. Whatever else is there, and a file
//! that cannot be opened or read, they report in one line on standard error, and
//! read and write nothing. What steps and limits do is not tested here: the files
//! of steps are empty, those of limits machine M's, or they cannot be had.
//! planreport, which reads no standard input, is in planreport.rs.

use std::ffi::OsStr;
use std::fs::{self, File, Permissions};
use std::io::Seek;
use std::os::unix::ffi::OsStrExt;
use std::os::unix::fs::PermissionsExt;
use std::os::unix::process::CommandExt;
use std::path::{Path, PathBuf};
use std::process::{Command, Stdio};
use std::sync::OnceLock;

use compare::programs::*;
use compare::report;
use reference::generate::machine_m;
use reference::listing;
use reference::order_listing;
use reference::tape::pack_limits;
use reference::text;

/// Bytes of a word that are shown.
const SHOWN: usize = 256;

/// Bytes of the longest name that can be opened.
const LONGEST_NAME: usize = 4_095;

const HELP: &[u8] = b"--help";
const VERSION: &[u8] = b"--version";
const STEPS: &[u8] = b"--steps";
/// An option that no program takes.
const WIDTH: &[u8] = b"--width";

/// An empty file, one of limits, and a name that no file has.
const EMPTY: &[u8] = b"empty.steps";
const LIMITS: &[u8] = b"machine.limits";
const ABSENT: &[u8] = b"absent.steps";

const NO_FILE: &str = "No such file or directory";
const TOO_LONG: &str = "File name too long";
/// Of a file that is there and whose name is no UTF-8 text.
const NO_TEXT: &str = "Invalid or incomplete multibyte or wide character";

/// A program, and a file that it would read.
struct Tool {
    name: &'static str,
    program: PathBuf,
    /// How its usage begins, and how the line does that tells of its file.
    usage: &'static str,
    about: &'static str,
    /// The option that its file belongs to, and what it tells where that lacks.
    option: Option<&'static [u8]>,
    lacks: &'static str,
    /// A file that it takes.
    file: &'static [u8],
    /// What words ask of it.
    asked: for<'a> fn(&[&'a [u8]]) -> Asked<'a>,
    input: &'static str,
    result: fn(&[u8]) -> Vec<u8>,
}

/// A program that lists, with a file of torque steps by an option.
fn listing_tool(
    (name, program): (&'static str, PathBuf),
    usage: &'static str,
    input: &'static str,
    result: fn(&[u8]) -> Vec<u8>,
) -> Tool {
    Tool {
        name,
        program,
        usage,
        about: "FILE",
        option: Some(STEPS),
        lacks: "'--steps' needs the name of a file, see --help",
        file: EMPTY,
        asked,
        input,
        result,
    }
}

/// planlist, planreplay and planorders.
fn listing_tools() -> [Tool; 3] {
    [
        listing_tool(
            ("planlist", planlist()),
            "usage: planlist [--steps FILE] < ",
            "tapes/right-angle.tape",
            |tape| listing::planlist(tape, &[]).into_bytes(),
        ),
        listing_tool(
            ("planreplay", planreplay()),
            "usage: planreplay [--steps FILE] < ",
            "traces/shop-traffic.trace",
            |trace| listing::planreplay(trace, &[]).into_bytes(),
        ),
        listing_tool(
            ("planorders", planorders()),
            "usage: planorders [--steps FILE] < ",
            "orders/cam-host.orders",
            |orders| order_listing::planorders(orders, &[]).into_bytes(),
        ),
    ]
}

/// ngctape, which needs a file of limits.
fn limits_tool() -> Tool {
    Tool {
        name: "ngctape",
        program: ngctape(),
        usage: "usage: ngctape LIMITS < ",
        about: "LIMITS",
        option: None,
        lacks: "needs the name of a file, see --help",
        file: LIMITS,
        asked: asked_by_name,
        input: "text/pocket-with-boss.ngc",
        result: |program| text::ngctape(&pack_limits(&machine_m(), 0), program),
    }
}

fn tools() -> impl Iterator<Item = Tool> {
    listing_tools().into_iter().chain([limits_tool()])
}

/// The folder in which the programs are started, with an empty file in it and
/// one of limits.
fn folder() -> &'static Path {
    static FOLDER: OnceLock<PathBuf> = OnceLock::new();
    FOLDER.get_or_init(|| {
        let folder = PathBuf::from(env!("CARGO_TARGET_TMPDIR")).join("arguments");
        fs::create_dir_all(&folder).expect("a folder");
        for file in [EMPTY, LIMITS] {
            let path = folder.join(OsStr::from_bytes(file));
            fs::write(path, content(file)).expect("a file");
        }
        folder
    })
}

/// What a file has that a program takes.
fn content(file: &[u8]) -> Vec<u8> {
    match file {
        LIMITS => pack_limits(&machine_m(), 0),
        _ => Vec::new(),
    }
}

impl Tool {
    fn input(&self) -> PathBuf {
        let examples = PathBuf::from(env!("CARGO_MANIFEST_DIR")).join("../../examples");
        examples.join(self.input)
    }

    /// The words by which it is given a file.
    fn with<'a>(&self, name: &'a [u8]) -> Vec<&'a [u8]> {
        let option = self.option.map(|option| -> &'a [u8] { option });
        option.into_iter().chain([name]).collect()
    }

    /// True if a file can have the name: without an option before it, it must not
    /// look like one.
    fn takes(&self, name: &[u8]) -> bool {
        self.option.is_some() || !name.starts_with(b"-")
    }

    /// The words by which it does its work.
    fn words(&self) -> Vec<&'static [u8]> {
        match self.option {
            Some(_) => Vec::new(),
            None => vec![self.file],
        }
    }

    /// The program with its words, in the folder of the files.
    fn command(&self, words: &[&[u8]]) -> Command {
        let program = fs::canonicalize(&self.program).expect("a program");
        let mut command = Command::new(program);
        command
            .args(words.iter().map(|word| OsStr::from_bytes(word)))
            .current_dir(folder())
            .stdout(Stdio::piped())
            .stderr(Stdio::piped());
        command
    }

    /// What the program writes when it is started with the words, and how many
    /// bytes of its input it has read.
    fn run(&self, words: &[&[u8]]) -> (Output, u64) {
        let mut input = File::open(self.input()).expect("an example");
        let same = input.try_clone().expect("a file");
        let child = self.command(words).stdin(same).spawn().expect("a program");
        let output = output_of(child);
        (output, input.stream_position().expect("a file"))
    }

    /// What the program writes for its input where nothing is asked of it.
    fn work(&self) -> Vec<u8> {
        (self.result)(&fs::read(self.input()).expect("an example"))
    }

    /// Panics unless a program that was started has done its work.
    fn expect_worked(&self, words: &[&[u8]], output: Output) {
        assert_eq!(output.errors, "", "{words:?}");
        assert!(output.bytes == self.work(), "{words:?}");
    }

    /// Panics unless the program does its work.
    fn expect_work(&self, words: &[&[u8]]) {
        let (output, read) = self.run(words);
        self.expect_worked(words, output);
        assert_ne!(read, 0, "{words:?}");
    }

    /// Panics unless the program writes its usage, and nothing else happens.
    fn expect_usage(&self, words: &[&[u8]]) {
        let (output, read) = self.run(words);
        assert_eq!(output.bytes, self.run(&[HELP]).0.bytes, "{words:?}");
        assert_eq!((output.errors.as_str(), read), ("", 0), "{words:?}");
    }

    /// Panics unless the program writes its name and the header's version, and
    /// nothing else happens.
    fn expect_version(&self, words: &[&[u8]]) {
        let (output, read) = self.run(words);
        let line = format!("{} {}\n", self.name, header_version());
        assert_eq!(String::from_utf8_lossy(&output.bytes), line, "{words:?}");
        assert_eq!((output.errors.as_str(), read), ("", 0), "{words:?}");
    }

    /// Panics unless the program tells this line, and nothing else happens.
    fn expect_told(&self, words: &[&[u8]], told: &str) {
        let (output, read) = self.run(words);
        assert_eq!(output.errors, format!("{}: {told}\n", self.name));
        assert_eq!(output.errors.lines().count(), 1, "{told}");
        assert_eq!((&output.bytes[..], read), (&b""[..], 0), "{told}");
    }

    /// The same of a word that is not expected.
    fn expect_wrong(&self, words: &[&[u8]], wrong: &[u8]) {
        let shown = shown(wrong);
        let told = format!("unexpected argument '{shown}'; it reads standard input, see --help");
        self.expect_told(words, &told);
    }

    /// The same of a file that cannot be opened.
    fn expect_unopened(&self, words: &[&[u8]], name: &[u8], reason: &str) {
        let told = format!("cannot open '{}': {reason}", shown(name));
        self.expect_told(words, &told);
    }

    /// The same of one that cannot be read.
    fn expect_unread(&self, words: &[&[u8]], name: &[u8], reason: &str) {
        let told = format!("cannot read '{}': {reason}", shown(name));
        self.expect_told(words, &told);
    }

    /// Panics unless the program does what the words ask for.
    fn expect_asked(&self, words: &[&[u8]]) {
        match (self.asked)(words) {
            Asked::Work(None) => self.expect_work(words),
            Asked::Work(Some(name)) if name == self.file => self.expect_work(words),
            Asked::Work(Some(name)) => self.expect_unopened(words, name, NO_FILE),
            Asked::Usage => self.expect_usage(words),
            Asked::Version => self.expect_version(words),
            Asked::Wrong(word) => self.expect_wrong(words, word),
            Asked::Lacks => self.expect_told(words, self.lacks),
        }
    }
}

/// A word as it is shown in a line, by its beginning and without control
/// characters.
fn shown(word: &[u8]) -> String {
    let fit = |byte: &u8| if byte.is_ascii_control() { b'?' } else { *byte };
    let bytes: Vec<u8> = word.iter().take(SHOWN).map(fit).collect();
    String::from_utf8_lossy(&bytes).into_owned()
}

/// What words ask for.
#[derive(Debug, PartialEq)]
enum Asked<'a> {
    /// The work, with the steps or the limits of a file.
    Work(Option<&'a [u8]>),
    Usage,
    Version,
    /// Nothing that is known: this word is not expected.
    Wrong(&'a [u8]),
    /// The file is missing, that of `--steps` or of the limits.
    Lacks,
}

/// What words ask for: of the options, each at most once, all that are left
/// over are wrong, and the first of them decides.
fn asked<'a>(words: &[&'a [u8]]) -> Asked<'a> {
    let (mut usage, mut version) = (false, false);
    let mut file = None;
    let mut left = words.iter();
    while let Some(word) = left.next() {
        if *word == HELP && !usage {
            usage = true;
        } else if *word == VERSION && !version {
            version = true;
        } else if *word == STEPS && file.is_none() {
            match left.next() {
                Some(name) => file = Some(*name),
                None => return Asked::Lacks,
            }
        } else {
            return Asked::Wrong(word);
        }
    }
    match file {
        _ if usage => Asked::Usage,
        _ if version => Asked::Version,
        file => Asked::Work(file),
    }
}

/// What words ask of a program that needs one file: `--help` and `--version`
/// once or not, and then the file, whose name does not begin as an option does.
/// The first word left over decides.
fn asked_by_name<'a>(words: &[&'a [u8]]) -> Asked<'a> {
    let (mut usage, mut version, mut file) = (false, false, None);
    for word in words {
        match file {
            None if !word.starts_with(b"-") => file = Some(*word),
            None if *word == HELP && !usage => usage = true,
            None if *word == VERSION && !version => version = true,
            _ => return Asked::Wrong(word),
        }
    }
    match file {
        _ if usage => Asked::Usage,
        _ if version => Asked::Version,
        Some(name) => Asked::Work(Some(name)),
        None => Asked::Lacks,
    }
}

/// The lists of so many words.
fn lists<'a>(words: &[&'a [u8]], length: usize) -> Vec<Vec<&'a [u8]>> {
    if length == 0 {
        return vec![Vec::new()];
    }
    let mut longer = Vec::new();
    for list in lists(words, length - 1) {
        for word in words {
            let mut next = list.clone();
            next.push(*word);
            longer.push(next);
        }
    }
    longer
}

/// Every list of up to four words, options and others, and those of five that
/// have `--help`, and `--steps` among the first two.
#[test]
fn every_list_of_words_is_taken_as_it_asks() {
    let words: [&[u8]; 5] = [HELP, STEPS, EMPTY, ABSENT, b""];
    let mut all: Vec<Vec<&[u8]>> = (0..=4).flat_map(|n| lists(&words, n)).collect();
    let fives = lists(&words, 5).into_iter();
    all.extend(fives.filter(|list| list.contains(&HELP) && list[..2].contains(&STEPS)));
    for tool in listing_tools() {
        for list in &all {
            tool.expect_asked(list);
        }
    }
    report(3 * all.len(), "lists of words");
}

/// Every list of up to four words for a program that needs a file.
#[test]
fn every_list_of_words_with_a_file_is_taken_as_it_asks() {
    let words: [&[u8]; 6] = [HELP, STEPS, LIMITS, ABSENT, b"", b"-"];
    let all: Vec<Vec<&[u8]>> = (0..=4).flat_map(|n| lists(&words, n)).collect();
    for list in &all {
        limits_tool().expect_asked(list);
    }
    report(all.len(), "lists of words with a file");
}

/// Every list of up to three words with the options that tell of a program, one
/// that none takes, and a number, which is a name like any other.
#[test]
fn every_list_of_words_about_a_program_is_taken_as_it_asks() {
    let mut count = 0;
    for tool in tools() {
        let words = [HELP, VERSION, STEPS, tool.file, WIDTH, b"7"];
        for list in (0..=3).flat_map(|n| lists(&words, n)) {
            tool.expect_asked(&list);
            count += 1;
        }
    }
    report(count, "lists of words about a program");
}

/// The same, one by one, as the rules have them.
#[test]
fn the_lists_of_words_are_those_of_the_rules() {
    let x: &[u8] = b"x";
    let cases: [(&[&[u8]], Asked); 29] = [
        (&[], Asked::Work(None)),
        (&[STEPS, x], Asked::Work(Some(x))),
        (&[STEPS, HELP], Asked::Work(Some(HELP))),
        (&[STEPS, STEPS], Asked::Work(Some(STEPS))),
        (&[STEPS, b""], Asked::Work(Some(b""))),
        (&[HELP], Asked::Usage),
        (&[HELP, STEPS, x], Asked::Usage),
        (&[STEPS, x, HELP], Asked::Usage),
        (&[STEPS, HELP, HELP], Asked::Usage),
        (&[STEPS], Asked::Lacks),
        (&[HELP, STEPS], Asked::Lacks),
        (&[x], Asked::Wrong(x)),
        (&[x, STEPS], Asked::Wrong(x)),
        (&[HELP, HELP], Asked::Wrong(HELP)),
        (&[HELP, x, STEPS], Asked::Wrong(x)),
        (&[STEPS, x, STEPS], Asked::Wrong(STEPS)),
        (&[STEPS, x, STEPS, x], Asked::Wrong(STEPS)),
        (&[STEPS, x, x, HELP], Asked::Wrong(x)),
        (&[HELP, STEPS, x, HELP], Asked::Wrong(HELP)),
        (&[STEPS, x, HELP, STEPS], Asked::Wrong(STEPS)),
        (&[VERSION], Asked::Version),
        (&[STEPS, x, VERSION], Asked::Version),
        (&[VERSION, HELP], Asked::Usage),
        (&[HELP, VERSION], Asked::Usage),
        (&[STEPS, VERSION], Asked::Work(Some(VERSION))),
        (&[VERSION, VERSION], Asked::Wrong(VERSION)),
        (&[VERSION, STEPS], Asked::Lacks),
        (&[VERSION, x], Asked::Wrong(x)),
        (&[WIDTH, b"7"], Asked::Wrong(WIDTH)),
    ];
    for (words, expected) in &cases {
        assert_eq!(asked(words), *expected, "{words:?}");
        for tool in listing_tools() {
            tool.expect_asked(words);
        }
    }
    report(3 * cases.len(), "lists of words by the rules");
}

/// The same of a program that needs a file.
#[test]
fn the_lists_of_words_with_a_file_are_those_of_the_rules() {
    let (x, y): (&[u8], &[u8]) = (b"x", b"-y");
    let cases: [(&[&[u8]], Asked); 25] = [
        (&[], Asked::Lacks),
        (&[x], Asked::Work(Some(x))),
        (&[b""], Asked::Work(Some(b""))),
        (&[b"x-"], Asked::Work(Some(b"x-"))),
        (&[HELP], Asked::Usage),
        (&[HELP, x], Asked::Usage),
        (&[HELP, b""], Asked::Usage),
        (&[HELP, HELP], Asked::Wrong(HELP)),
        (&[x, HELP], Asked::Wrong(HELP)),
        (&[HELP, x, HELP], Asked::Wrong(HELP)),
        (&[x, x], Asked::Wrong(x)),
        (&[HELP, x, x], Asked::Wrong(x)),
        (&[y], Asked::Wrong(y)),
        (&[b"-"], Asked::Wrong(b"-")),
        (&[STEPS, x], Asked::Wrong(STEPS)),
        (&[x, y], Asked::Wrong(y)),
        (&[HELP, y, x], Asked::Wrong(y)),
        (&[x, b"", y], Asked::Wrong(b"")),
        (&[VERSION], Asked::Version),
        (&[VERSION, x], Asked::Version),
        (&[VERSION, HELP, x], Asked::Usage),
        (&[VERSION, VERSION], Asked::Wrong(VERSION)),
        (&[x, VERSION], Asked::Wrong(VERSION)),
        (&[b"7"], Asked::Work(Some(b"7"))),
        (&[WIDTH, b"7", x], Asked::Wrong(WIDTH)),
    ];
    for (words, expected) in &cases {
        assert_eq!(asked_by_name(words), *expected, "{words:?}");
        limits_tool().expect_asked(words);
    }
    report(cases.len(), "lists of words with a file by the rules");
}

/// Words that are no options, and no files here.
const NO_OPTIONS: [&[u8]; 30] = [
    b"file.tape",
    b"-",
    b"--",
    b"-h",
    b"--hel",
    b"--helpx",
    b"--HELP",
    b"-help",
    b" --help",
    b"--help\n",
    b"--step",
    b"--stepsx",
    b"--STEPS",
    b"-steps",
    b"--steps ",
    b"--steps=empty.steps",
    b"--versio",
    b"--versions",
    b"--VERSION",
    b"--version=1",
    WIDTH,
    b"--width=7",
    b"7",
    b"-7",
    b"",
    b" ",
    b"two\nlines\r\n\tand \x1b[31mred\x7f",
    b"no text: \xff\xfe\x80\xc3",
    b"sixteen bytes: 6",
    b"seventeen bytes: 17",
];

#[test]
fn a_word_that_is_no_option_is_told() {
    let mut count = 0;
    for tool in tools() {
        for word in NO_OPTIONS {
            let mut behind = tool.with(tool.file);
            behind.push(word);
            tool.expect_wrong(&behind, word);
            count += 1;
            // what is no option is a file, where one is needed
            if tool.option.is_some() || word.starts_with(b"-") {
                tool.expect_wrong(&[word], word);
                tool.expect_wrong(&[HELP, word], word);
                count += 2;
            }
        }
    }
    report(count, "words that are no options");
}

/// A word of any length is told; a long one by its beginning.
#[test]
fn a_long_word_is_told() {
    let lengths = [SHOWN - 1, SHOWN, SHOWN + 1, 4_096, 100_000];
    for tool in tools() {
        for length in lengths {
            let mut word: Vec<u8> = (0..length).map(|k| b'a' + (k % 26) as u8).collect();
            let behind = [tool.with(&word), vec![&word]].concat();
            tool.expect_wrong(&behind, &word);
            word[0] = b'-';
            tool.expect_wrong(&[&word], &word);
        }
        // the beginning of a longer word that is an option is not that option
        for option in [HELP, STEPS, VERSION] {
            for length in [option.len() + 1, 16, 17, 2 * SHOWN] {
                let mut word = option.to_vec();
                word.resize(length, b' ');
                tool.expect_wrong(&[&word], &word);
            }
        }
    }
    report(4 * (2 * lengths.len() + 12), "long words");
}

/// The word behind `--steps` is its file, whatever it is; a file that is named
/// alone has a name that is no option's. One whose name is no UTF-8 text is told,
/// as the programs have no path for it.
#[test]
fn a_file_is_opened_by_any_name() {
    let names: [&[u8]; 6] = [
        HELP,
        STEPS,
        b"-",
        b" ",
        b"two\nlines\r\n\tand \x1b[31mred\x7f",
        b"no text: \xff\xfe\x80\xc3",
    ];
    let mut count = 0;
    for tool in tools() {
        let named = folder().join(tool.name);
        fs::create_dir_all(&named).expect("a folder");
        for name in names.into_iter().filter(|name| tool.takes(name)) {
            let path = named.join(OsStr::from_bytes(name));
            fs::write(path, content(tool.file)).expect("a file");
            let words = tool.with(name);
            let child = tool
                .command(&words)
                .current_dir(&named)
                .stdin(File::open(tool.input()).expect("an example"))
                .spawn();
            let output = output_of(child.expect("a program"));
            match std::str::from_utf8(name) {
                Ok(_) => tool.expect_worked(&words, output),
                Err(_) => {
                    let told = format!("cannot open '{}': {NO_TEXT}", shown(name));
                    assert_eq!(output.errors, format!("{}: {told}\n", tool.name));
                    assert_eq!(output.bytes, b"", "{words:?}");
                }
            }
            count += 1;
        }
        let near = [b"./", tool.file].concat();
        tool.expect_work(&tool.with(&near));
        count += 1;
    }
    for tool in listing_tools() {
        tool.expect_work(&[STEPS, b"/dev/null"]);
        count += 1;
    }
    report(count, "names of files");
}

/// A file that cannot be opened is told with its name and the reason.
#[test]
fn a_file_that_cannot_be_opened_is_told() {
    let below: &[u8] = b"empty.steps/x";
    let names: [&[u8]; 8] = [
        ABSENT,
        b"",
        b" ",
        b"--stepsx",
        b"absent/absent",
        b"two\nlines\r\n\tand \x1b[31mred\x7f",
        b"no text: \xff\xfe\x80\xc3",
        b"/absent/absent",
    ];
    let mut count = 0;
    for tool in tools() {
        for name in names.into_iter().filter(|name| tool.takes(name)) {
            tool.expect_unopened(&tool.with(name), name, NO_FILE);
            count += 1;
        }
        tool.expect_unopened(&tool.with(below), below, "Not a directory");
        count += 1;
    }
    report(count, "files that could not be opened");
}

/// A file that its owner may not read is told; root may read any.
#[test]
fn a_file_that_may_not_be_read_is_told() {
    let name: &[u8] = b"closed.steps";
    let path = folder().join(OsStr::from_bytes(name));
    let file = File::create(&path).expect("an empty file");
    file.set_permissions(Permissions::from_mode(0o000))
        .expect("a mode");
    if File::open(&path).is_ok() {
        return report(0, "files that may not be read");
    }
    for tool in tools() {
        tool.expect_unopened(&tool.with(name), name, "Permission denied");
    }
    report(4, "files that may not be read");
}

/// A directory can be opened, and not read.
#[test]
fn a_file_that_cannot_be_read_is_told() {
    let names: [&[u8]; 3] = [b".", b"..", b"/"];
    for tool in tools() {
        for name in names {
            tool.expect_unread(&tool.with(name), name, "Is a directory");
        }
    }
    report(4 * names.len(), "files that could not be read");
}

/// The longest names open; longer ones are told by their beginning, and none
/// is cut short and opened.
#[test]
fn a_long_name_of_a_file_is_opened_or_told() {
    let opened = [SHOWN, SHOWN + 1, 4_000, LONGEST_NAME - 1, LONGEST_NAME];
    let told = [LONGEST_NAME + 1, LONGEST_NAME + 2, 8_192, 100_000];
    for tool in tools() {
        for length in opened {
            tool.expect_work(&tool.with(&long_name(tool.file, length)));
        }
        for length in told {
            let name = long_name(tool.file, length);
            tool.expect_unopened(&tool.with(&name), &name, TOO_LONG);
            let cut = [&long_name(tool.file, LONGEST_NAME), &name[..]].concat();
            tool.expect_unopened(&tool.with(&cut), &cut, TOO_LONG);
        }
        let single: Vec<u8> = b"a".repeat(SHOWN);
        tool.expect_unopened(&tool.with(&single), &single, TOO_LONG);
    }
    report(4 * (opened.len() + 2 * told.len() + 1), "long names");
}

/// With `--help` the file is not opened: what it is plays no part.
#[test]
fn a_file_beside_help_is_not_opened() {
    let long = long_name(EMPTY, 2 * LONGEST_NAME);
    let names: [&[u8]; 6] = [EMPTY, ABSENT, b"", b".", HELP, &long];
    let mut count = 0;
    for tool in tools() {
        for name in names.into_iter().filter(|name| tool.takes(name)) {
            let words = tool.with(name);
            tool.expect_usage(&[vec![HELP], words].concat());
            count += 1;
        }
    }
    for tool in listing_tools() {
        for name in names {
            tool.expect_usage(&[STEPS, name, HELP]);
            count += 1;
        }
    }
    report(count, "files beside --help");
}

/// Where standard input is closed, the file of the steps or of the limits does
/// not take its place.
#[test]
fn a_closed_input_is_told() {
    for tool in tools() {
        let program = fs::canonicalize(&tool.program).expect("a program");
        let words = tool.with(tool.file);
        let child = Command::new("sh")
            .args(["-c", "exec \"$0\" \"$@\" <&-"])
            .arg(program)
            .args(words.iter().map(|word| OsStr::from_bytes(word)))
            .current_dir(folder())
            .stdout(Stdio::piped())
            .stderr(Stdio::piped())
            .spawn();
        let written = written_by(child.expect("a shell"));
        let told = "standard input could not be read to its end";
        assert_eq!(written.errors, format!("{}: {told}\n", tool.name));
        assert_eq!(written.text, "", "{}", tool.name);
    }
    report(4, "inputs that are closed");
}

#[test]
fn help_alone_writes_the_usage() {
    for tool in tools() {
        let (output, read) = tool.run(&[HELP]);
        let text = String::from_utf8(output.bytes).expect("text");
        assert!(text.starts_with(tool.usage), "{text:?}");
        assert!(text.ends_with('\n'), "{text:?}");
        let lines: Vec<&str> = text.lines().collect();
        assert!((3..=5).contains(&lines.len()), "{lines:?}");
        let fits = |line: &&str| line.is_ascii() && (1..=80).contains(&line.len());
        assert!(lines.iter().all(fits), "{lines:?}");
        let about = lines.iter().filter(|line| line.starts_with(tool.about));
        assert_eq!(about.count(), 1, "{lines:?}");
        assert_eq!((output.errors.as_str(), read), ("", 0), "{}", tool.name);
    }
    report(4, "usages");
}

#[test]
fn a_usage_or_version_that_cannot_be_written_is_told() {
    for tool in tools() {
        for (option, text) in [(HELP, "usage"), (VERSION, "version")] {
            let full = File::create("/dev/full").expect("/dev/full");
            let child = tool
                .command(&[option])
                .stdin(Stdio::null())
                .stdout(full)
                .spawn();
            let told = format!("{}: standard output did not take the {text}\n", tool.name);
            assert_eq!(written_by(child.expect("a program")).errors, told);
        }
    }
    report(8, "usages and versions that could not be written");
}

/// A program does its work whatever name it is started by.
#[test]
fn the_name_of_a_program_is_no_argument() {
    let names: [&[u8]; 4] = [b"", HELP, STEPS, b"\xff\n"];
    for tool in tools() {
        let words = tool.words();
        tool.expect_work(&words);
        for name in names {
            let child = tool
                .command(&words)
                .arg0(OsStr::from_bytes(name))
                .stdin(File::open(tool.input()).expect("an example"))
                .spawn();
            tool.expect_worked(&words, output_of(child.expect("a program")));
        }
    }
    report(4 * (names.len() + 1), "names of programs");
}

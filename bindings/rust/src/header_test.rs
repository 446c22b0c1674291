//! The binding says what include/fullerecru.h says: every constant and number, every word, the version,
//! and every function with the types of its parameters.

use std::collections::BTreeMap;
use std::fs;

use crate::numbers::*;
use crate::{HeldBy, Refusal};

const PREFIX: &str = "FULLERECRU_";
const HEADER: &str = concat!(env!("CARGO_MANIFEST_DIR"), "/../../include/fullerecru.h");
const DECLARATIONS: &str = include_str!("sys.rs");

/// The header without its comments.
fn header() -> String {
    let text = fs::read_to_string(HEADER).expect("the header is beside the binding");
    let mut code = String::new();
    for part in text.split("/*") {
        code.push_str(part.split_once("*/").map_or(part, |(_, behind)| behind));
    }
    code
}

/// The numbers of all enumerators, by their names without the prefix.
fn enumerators(header: &str) -> BTreeMap<String, u64> {
    let bodies = header.split("enum ").skip(1).filter_map(|rest| {
        let (name, behind) = rest.split_once('{')?;
        let is_definition = !name.contains([';', '(', ')']);
        is_definition.then(|| behind.split_once('}').expect("a closed enum").0)
    });
    let items = bodies.flat_map(|body| body.split(',')).map(str::trim);
    items
        .filter(|item| !item.is_empty())
        .map(|item| {
            let (name, number) = item.split_once(" = ").expect("each has its number");
            let name = name.strip_prefix(PREFIX).expect("each has the prefix");
            (
                name.to_string(),
                number.trim().parse().expect("a whole number"),
            )
        })
        .collect()
}

/// Constants of the binding with their names.
macro_rules! named {
    ($($name:ident)*) => { vec![$((stringify!($name), $name as u64)),*] };
}

fn constants() -> Vec<(&'static str, u64)> {
    named![
        NUMBERS PLACES LIMITS STEPS MOVES GIVEN RECORD HOST POINT REPORT FIGURES MOST_TAPES
        LISTED LIMITS_BYTES RECORD_BYTES MOST_BLOCKS MOST_TAPE CALL_BYTES ROW PLAN
        LIMIT_ACCEL_X LIMIT_ACCEL_Y LIMIT_ACCEL_Z LIMIT_SPEED_X LIMIT_SPEED_Y LIMIT_SPEED_Z
        LIMIT_CORNER_JUMP LIMIT_CHORD_TOLERANCE LIMIT_TICK
        GIVEN_FEED GIVEN_RADIUS GIVEN_MARK GIVEN_LENGTH GIVEN_ACCEL GIVEN_ENTRY GIVEN_EXIT GIVEN_PEAK
        GIVEN_UP GIVEN_CRUISE GIVEN_DOWN LISTED_CAP LISTED_JUNCTION_CAP
        ANSWER_NUMBER ANSWER_MOVE_X ANSWER_MOVE_Y ANSWER_MOVE_Z ANSWER_GIVEN
        FIGURE_BLOCKS FIGURE_LENGTH FIGURE_PEAK FIGURE_FEED FIGURE_CORNER FIGURE_CHORD FIGURE_REACH
        REPORT_TAPES REPORT_ALL
    ]
}

/// Refusals by the header's names.
const REFUSALS: [(&str, Refusal); 16] = [
    ("REFUSED_LIMITS", Refusal::Limits),
    ("REFUSED_STILL", Refusal::Still),
    ("REFUSED_LONG", Refusal::Long),
    ("REFUSED_FEED", Refusal::Feed),
    ("REFUSED_RADIUS", Refusal::Radius),
    ("REFUSED_MARK", Refusal::Mark),
    ("REFUSED_FULL", Refusal::Full),
    ("REFUSED_EMPTY", Refusal::Empty),
    ("REFUSED_RAGGED", Refusal::Ragged),
    ("REFUSED_MANY", Refusal::Many),
    ("REFUSED_LIST", Refusal::List),
    ("REFUSED_WORD", Refusal::Word),
    ("REFUSED_NUMBER", Refusal::Number),
    ("REFUSED_STEPS", Refusal::Steps),
    ("REFUSED_NOT_FINITE", Refusal::NotFinite),
    ("REFUSED_BEYOND", Refusal::Beyond),
];

/// What held a junction, by the header's names.
const HELD: [(&str, HeldBy); 4] = [
    ("HELD_BY_FEED", HeldBy::Feed),
    ("HELD_BY_CORNER", HeldBy::Corner),
    ("HELD_BY_CHORD", HeldBy::Chord),
    ("HELD_BY_REACH", HeldBy::Reach),
];

/// The header's enumerators and the binding's numbers are the same, and neither has more.
#[test]
fn every_number_is_the_headers() {
    let mut ours: BTreeMap<String, u64> = BTreeMap::from([("ACCEPTED".to_string(), 0)]);
    ours.extend(
        constants()
            .into_iter()
            .map(|(name, number)| (name.to_string(), number)),
    );
    ours.extend(REFUSALS.map(|(name, refusal)| (name.to_string(), refusal.number())));
    ours.extend(HELD.map(|(name, held)| (name.to_string(), held.number())));
    assert_eq!(ours, enumerators(&header()));
}

#[test]
fn numbers_lead_back_to_their_names() {
    for (name, refusal) in REFUSALS {
        assert_eq!(
            Refusal::from_number(refusal.number()),
            Some(refusal),
            "{name}"
        );
    }
    for (name, held) in HELD {
        assert_eq!(HeldBy::from_number(held.number()), Some(held), "{name}");
    }
    for number in [17, 64, u64::MAX] {
        assert_eq!(Refusal::from_number(number), Some(Refusal::Unknown(number)));
        assert_eq!(HeldBy::from_number(number), None);
    }
}

/// The words of the header's function fullerecru_word are those of the refusals.
#[test]
fn every_word_is_the_headers() {
    let header = header();
    let cases = header.split("case FULLERECRU_").skip(1).map(|case| {
        let (name, behind) = case
            .split_once(": return \"")
            .expect("a case with its word");
        (name, behind.split_once('"').expect("a closed word").0)
    });
    let theirs: Vec<(&str, &str)> = cases.filter(|(name, _)| *name != "ACCEPTED").collect();
    let ours: Vec<(&str, &str)> = REFUSALS
        .iter()
        .map(|(name, refusal)| (*name, refusal.word()))
        .collect();
    assert_eq!(ours, theirs);
    assert!(header.contains(&format!(
        "default: return \"{}\";",
        Refusal::Unknown(17).word()
    )));
}

#[test]
fn the_version_is_the_headers() {
    let text = format!("#define FULLERECRU_VERSION_TEXT \"{VERSION_TEXT}\"\n");
    let number = format!("#define FULLERECRU_VERSION {VERSION}\n");
    for line in [text, number] {
        assert!(header().contains(&line), "{line}");
    }
    let parts: Vec<u64> = VERSION_TEXT
        .split('.')
        .map(|part| part.parse().unwrap())
        .collect();
    assert_eq!(VERSION, 1_000_000 * parts[0] + 1_000 * parts[1] + parts[2]);
}

/// Each prototype of the header as its name and its parameters' types in the words of the binding.
fn prototypes(header: &str) -> BTreeMap<String, String> {
    let code: Vec<&str> = header
        .lines()
        .filter(|line| !line.starts_with('#'))
        .collect();
    let code = code.join("\n");
    let declared = code.split(';').filter_map(|statement| {
        let (front, behind) = statement.split_once('(')?;
        let (result, name) = front.rsplit_once(' ')?;
        let result = result.rsplit(['\n', '}']).next()?.trim();
        let is_prototype =
            name.starts_with("fullerecru_") && ["uint64_t", "void"].contains(&result);
        is_prototype.then(|| {
            let parameters = behind.trim_end().strip_suffix(')').expect("a closed list");
            let types: Vec<String> = parameters
                .split(',')
                .map(c_type)
                .filter(|one| one != "void")
                .collect();
            (
                name.to_string(),
                format!("({}) -> {}", types.join(", "), rust_scalar(result)),
            )
        })
    });
    declared.collect()
}

/// The type of a C parameter in the words of the binding.
fn c_type(parameter: &str) -> String {
    let words = parameter.split_whitespace().collect::<Vec<_>>().join(" ");
    let (constant, words) = match words.strip_prefix("const ") {
        Some(rest) => (true, rest.to_string()),
        None => (false, words),
    };
    let scalar = rust_scalar(words.split(' ').next().expect("a type"));
    if let Some((_, size)) = words.split_once('[') {
        let size = size.trim_end_matches(']').trim_start_matches(PREFIX);
        format!("&{}[{scalar}; {size}]", if constant { "" } else { "mut " })
    } else if words.contains('*') {
        format!("*{} {scalar}", if constant { "const" } else { "mut" })
    } else {
        scalar.to_string()
    }
}

fn rust_scalar(name: &str) -> &str {
    match name {
        "uint64_t" => "u64",
        "int64_t" => "i64",
        "uint8_t" => "u8",
        "size_t" => "usize",
        "double" => "f64",
        other => other,
    }
}

/// Each declaration of the binding as its name and its parameters' types.
fn declarations() -> BTreeMap<String, String> {
    let block = DECLARATIONS
        .split_once("extern \"C\" {\n")
        .expect("the declarations")
        .1;
    let block = block.split_once("\n}").expect("a closed block").0;
    // A line for each function, without spaces; types such as [u64; N] have semicolons too.
    let joined = block.replace(['\n', ' '], "").replace(";fn", "\nfn");
    let lines = joined.lines().map(|line| line.trim_end_matches(';'));
    lines
        .map(|line| {
            let (front, result) = line.rsplit_once(')').expect("a closed list");
            let (name, parameters) = front.split_once('(').expect("a list");
            let types: Vec<String> = parameters
                .split(',')
                .filter_map(|one| one.split_once(':'))
                .map(|(_, one)| spaced(one))
                .collect();
            let result = if result.is_empty() {
                "void"
            } else {
                &result["->".len()..]
            };
            let name = name.strip_prefix("fn").expect("a function");
            (
                name.to_string(),
                format!("({}) -> {result}", types.join(", ")),
            )
        })
        .collect()
}

/// A type with the spaces that it is written with.
fn spaced(name: &str) -> String {
    name.replace("&mut", "&mut ")
        .replace(';', "; ")
        .replace("*const", "*const ")
        .replace("*mut", "*mut ")
}

/// Every function of the header is declared, with the same parameters in the same order.
#[test]
fn every_function_is_the_headers() {
    let theirs = prototypes(&header());
    assert!(!theirs.is_empty());
    assert_eq!(declarations(), theirs);
}

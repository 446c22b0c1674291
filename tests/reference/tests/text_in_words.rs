//! A second reading of texts, slow and after the request's own words: positions
//! as fractions of a µm, numbers by their shape, every place of a line judged for
//! itself. It is compared with the first one on seeded texts.

use std::collections::BTreeSet;
use std::sync::LazyLock;

use reference::generate::*;
use reference::machine::Block;
use reference::rng::Rng;
use reference::search::largest;
use reference::text::text_blocks;

/// A number and a place, as displayed.
type Shown = (u64, u64);

/// A fraction in lowest terms; the bottom is above 0.
#[derive(Clone, Copy, Debug, PartialEq, Eq)]
struct Ratio {
    top: i128,
    bottom: i128,
}

impl Ratio {
    fn new(top: i128, bottom: i128) -> Ratio {
        let (mut one, mut two) = (top.abs(), bottom);
        while two != 0 {
            (one, two) = (two, one % two);
        }
        let (top, bottom) = (top / one.max(1), bottom / one.max(1));
        Ratio { top, bottom }
    }

    fn plus(self, other: Ratio) -> Ratio {
        let top = self.top * other.bottom + other.top * self.bottom;
        Ratio::new(top, self.bottom * other.bottom)
    }

    fn times(self, other: Ratio) -> Ratio {
        Ratio::new(self.top * other.top, self.bottom * other.bottom)
    }

    /// The nearest whole number: of the two neighbours the one that is less far
    /// away, or if both are as far that which is further from zero.
    fn nearest(self) -> i128 {
        let below = self.top.div_euclid(self.bottom);
        let far = |whole: i128| (whole * self.bottom - self.top).abs();
        let mut both = [below, below + 1];
        both.sort_by_key(|whole| (far(*whole), -whole.abs()));
        both[0]
    }
}

/// Shapes of well-formed numbers, each digit written as 9.
static SHAPES: LazyLock<BTreeSet<String>> = LazyLock::new(shapes);

/// The shapes by sign, digits before the point and digits after it.
fn shapes() -> BTreeSet<String> {
    let mut all = BTreeSet::new();
    for sign in ["", "+", "-"] {
        for whole in 1..=5 {
            let short = format!("{sign}{}", "9".repeat(whole));
            all.extend((1..=4).map(|places| format!("{short}.{}", "9".repeat(places))));
            all.insert(short);
        }
    }
    assert_eq!(all.len(), 75);
    all
}

/// The value of a number, none if its shape is not a good one.
fn value(number: &str) -> Option<Ratio> {
    let digit = |c: char| if c.is_ascii_digit() { '9' } else { c };
    if !SHAPES.contains(&number.chars().map(digit).collect::<String>()) {
        return None;
    }
    let places = number.find('.').map_or(0, |point| number.len() - point - 1);
    let digits: i128 = number.replace('.', "").parse().unwrap();
    Some(Ratio::new(digits, 10_i128.pow(places as u32)))
}

const CAPITALS: &str = "ABCDEFGHIJKLMNOPQRSTUVWXYZ";

/// A word on a line: its letter, and its number if it is well formed.
type Word = (char, Option<Ratio>);

/// The word that begins at a place of a line, and the place after it.
fn word_at(line: &[char], start: usize) -> (Word, usize) {
    let mut end = start + 1;
    while end < line.len() && "+-.0123456789".contains(line[end]) {
        end += 1;
    }
    let number: String = line[start + 1..end].iter().collect();
    ((line[start], value(&number)), end)
}

/// What may stand once on a line: a letter, or a pair of G words by its name;
/// none if it is not listed.
fn kind(word: Word) -> Option<&'static str> {
    let (letter, number) = word;
    let whole = number.filter(|n| n.bottom == 1).map(|n| n.top);
    match letter {
        'N' => Some("N"),
        'X' => Some("X"),
        'Y' => Some("Y"),
        'Z' => Some("Z"),
        'F' => Some("F"),
        'G' => match whole {
            Some(0 | 1) => Some("G0/G1"),
            Some(20 | 21) => Some("G20/G21"),
            Some(90 | 91) => Some("G90/G91"),
            _ => None,
        },
        _ => None,
    }
}

/// The words of a line, or the number of the first place at fault. Each place is
/// judged for itself, and the smallest faulty one taken.
fn words(line: &[u8]) -> Result<Vec<Word>, u64> {
    let line: Vec<char> = line.iter().map(|byte| char::from(*byte)).collect();
    let starts = (0..line.len()).filter(|k| CAPITALS.contains(line[*k]));
    let mut inside = vec![false; line.len()];
    let (mut found, mut faults) = (Vec::new(), BTreeSet::new());
    for start in starts {
        let (word, end) = word_at(&line, start);
        inside[start..end].fill(true);
        let again = found.iter().any(|before| kind(*before) == kind(word));
        if word.1.is_none() {
            faults.insert((start, 13));
        } else if kind(word).is_none() || again {
            faults.insert((start, 12));
        }
        found.push(word);
    }
    let outside = (0..line.len()).filter(|k| !inside[*k] && line[*k] != ' ');
    faults.extend(outside.map(|k| (k, 12)));
    faults.first().map_or(Ok(found), |(_, number)| Err(*number))
}

/// What a text has said so far.
struct Said {
    motion: i128,
    unit: i128,
    way: i128,
    /// Position, µm.
    at: [Ratio; 3],
    /// Feed as the last F word said it, µm per minute.
    feed: Option<Ratio>,
}

impl Said {
    fn at_the_begin() -> Said {
        Said {
            motion: 1,
            unit: 21,
            way: 90,
            at: [Ratio::new(0, 1); 3],
            feed: None,
        }
    }

    /// A length of the unit in force, µm: 1,000 for a millimetre, 25,400 for an
    /// inch.
    fn micrometres(&self, length: Ratio) -> Ratio {
        let one = if self.unit == 20 { 25_400 } else { 1_000 };
        length.times(Ratio::new(one, 1))
    }

    /// Lets the words of a line act.
    fn hear(&mut self, words: &[Word]) {
        let of = |letter: char| words.iter().filter(move |word| word.0 == letter);
        for (_, number) in of('G') {
            let mode = number.unwrap().top;
            match mode {
                0 | 1 => self.motion = mode,
                20 | 21 => self.unit = mode,
                _ => self.way = mode,
            }
        }
        if let Some((_, number)) = of('F').next() {
            self.feed = Some(self.micrometres(number.unwrap()));
        }
        for (axis, letter) in "XYZ".chars().enumerate() {
            if let Some((_, number)) = of(letter).next() {
                let length = self.micrometres(number.unwrap());
                let sum = self.at[axis].plus(length);
                self.at[axis] = if self.way == 91 { sum } else { length };
            }
        }
    }

    /// The largest whole number of µm/s whose sixty-fold is not above the feed;
    /// none if it was never set or is less than 0.
    fn speed(&self) -> Option<u64> {
        if self.motion == 0 {
            return Some(1_000_000);
        }
        let feed = self.feed.filter(|feed| feed.top >= 0)?;
        let within = |f: u128| f as i128 * 60 * feed.bottom <= feed.top;
        Some(largest(within) as u64)
    }
}

/// The number of a block's refusal: 3, 4, 6, 10, or none.
fn block_fault(moves: [i128; 3], speed: Option<u64>, line: u64, before: usize) -> Option<u64> {
    let long = moves.iter().any(|m| m.abs() > 1_000_000);
    let slow = speed.is_none_or(|v| v == 0 || v > 1_000_000);
    let found = [
        (long, 3),
        (slow, 4),
        (line > 2_097_151, 6),
        (before >= 2_048, 10),
    ];
    found.iter().find(|(is, _)| *is).map(|(_, number)| *number)
}

/// The blocks of a text, or its refusal.
fn in_words(text: &[u8]) -> Result<Vec<Block>, Shown> {
    let mut blocks = Vec::new();
    let mut said = Said::at_the_begin();
    let mut rest = text;
    let mut number = 0;
    while !rest.is_empty() {
        number += 1;
        let end = rest.iter().position(|byte| *byte == 10);
        let line = &rest[..end.unwrap_or(rest.len())];
        rest = &rest[end.map_or(rest.len(), |end| end + 1)..];
        let before = said.at.map(Ratio::nearest);
        said.hear(&words(line).map_err(|fault| (fault, number))?);
        let moves = [0, 1, 2].map(|k| said.at[k].nearest() - before[k]);
        if moves == [0; 3] {
            continue;
        }
        if let Some(fault) = block_fault(moves, said.speed(), number, blocks.len()) {
            return Err((fault, number));
        }
        blocks.push(Block {
            moves: moves.map(|m| m as i64),
            feed: said.speed().unwrap(),
            radius: 0,
            mark: number,
        });
    }
    Ok(blocks)
}

/// Compares the two readings of a text.
fn agree(text: &[u8], what: &str) {
    let first = text_blocks(text).map_err(|f| (f.refusal.number(), f.place));
    assert!(first == in_words(text), "{what}: {:?}", show(text));
}

/// A text for a message, its begin alone if it is long.
fn show(text: &[u8]) -> String {
    String::from_utf8_lossy(&text[..text.len().min(2_000)]).into_owned()
}

#[test]
fn readings_agree_on_seeded_texts() {
    for seed in 0..3_000 {
        let text = any_text(&mut Rng::new(seed));
        agree(&text, &format!("seed {seed}"));
    }
}

#[test]
fn readings_agree_on_late_texts() {
    let mut met = BTreeSet::new();
    for seed in 0..4 {
        let text = late_text(&mut Rng::new(seed));
        agree(&text, &format!("seed {seed}"));
        met.insert(text_blocks(&text).map_err(|f| f.refusal.number()).err());
    }
    assert!(met.contains(&Some(6)), "{met:?}");
}

/// Every text of up to three characters after a line that sets a feed, and of
/// four after it with an X, over what the grammar tells apart.
#[test]
fn readings_agree_on_all_short_texts() {
    let classes = b"XGN10.- \n\rx";
    let mut shorts: Vec<Vec<u8>> = vec![Vec::new()];
    for _ in 0..4 {
        let longer = shorts.iter().flat_map(|short| {
            let with = |byte: &u8| [&short[..], &[*byte]].concat();
            classes.iter().map(with).collect::<Vec<_>>()
        });
        shorts = longer.collect();
        for short in &shorts {
            agree(&[b"F60\n", &short[..]].concat(), "short");
            agree(&[b"G91F60\nX0.0005", &short[..]].concat(), "short");
        }
    }
}

/// Every byte at every place of a line.
#[test]
fn readings_agree_on_every_byte() {
    let line = b"N1 G91G1 X1.25Y-3 F60\nX1";
    for place in 0..=line.len() {
        for byte in 0..=u8::MAX {
            let (before, after) = line.split_at(place);
            agree(&[before, &[byte], after].concat(), "put in");
            let behind = after.get(1..).unwrap_or(&[]);
            agree(&[before, &[byte], behind].concat(), "replaced");
        }
    }
}

/// Every G number of up to three digits.
#[test]
fn readings_agree_on_every_mode() {
    for number in -100..1_000 {
        for end in ["", ".0", ".5", ".0001", "."] {
            let text = format!("F60\nG{number}{end}X1\nX2 G20\nX3 G91\nG1 X1");
            agree(text.as_bytes(), "mode");
        }
    }
}

/// Texts come with the blocks that they were written for.
#[test]
fn accepted_texts_have_their_blocks() {
    for seed in 0..4_000 {
        let (text, blocks) = text_with_blocks(&mut Rng::new(seed));
        assert_eq!(
            text_blocks(&text),
            Ok(blocks),
            "seed {seed}: {:?}",
            show(&text)
        );
    }
}

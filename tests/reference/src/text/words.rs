//! The words of a line, and checks 12 and 13.

use crate::refusal::Refusal;

/// Most digits of a number before its point and after it.
const MOST_WHOLE: usize = 5;
const MOST_DECIMALS: usize = 4;
/// Ten-thousandths in 1, the last digit that a number can have.
const ONE: i128 = 10_000;

/// A word of the list. Numbers are in ten-thousandths: of a millimetre or an
/// inch, or of these per minute.
#[derive(Clone, Copy, Debug, PartialEq, Eq)]
pub enum Word {
    /// N, which labels the line and does nothing.
    Label,
    /// G0 if true, G1 if not.
    Rapid(bool),
    /// G20 if true, G21 if not.
    Inches(bool),
    /// G91 if true, G90 if not.
    Increments(bool),
    /// X, Y, Z: the axis from 0, and its number.
    Axis(usize, i128),
    /// F.
    Feed(i128),
}

/// The pieces of a line from the left, spaces left out: each word, that is a
/// capital and all signs, digits and points after it, and what lies outside of
/// words, which begins with anything but a capital.
pub fn pieces(line: &[u8]) -> impl Iterator<Item = &[u8]> {
    let of_number = |byte: u8| matches!(byte, b'+' | b'-' | b'.' | b'0'..=b'9');
    let goes_on = move |before: &u8, byte: &u8| {
        of_number(*byte) && (of_number(*before) || before.is_ascii_uppercase())
    };
    line.chunk_by(goes_on).filter(|piece| *piece != b" ")
}

/// The words of a line, or the refusal of the leftmost piece at fault: 12 for
/// what is outside of words, 13 for a badly formed number, 12 for a word or a
/// repetition that is not listed.
pub fn read_words(line: &[u8]) -> Result<Vec<Word>, Refusal> {
    let mut words: Vec<Word> = Vec::new();
    for piece in pieces(line) {
        let word = read_word(piece)?;
        if words.iter().any(|before| before.excludes(&word)) {
            return Err(Refusal::Word);
        }
        words.push(word);
    }
    Ok(words)
}

/// The word of a piece.
fn read_word(piece: &[u8]) -> Result<Word, Refusal> {
    let [letter @ b'A'..=b'Z', number @ ..] = piece else {
        return Err(Refusal::Word);
    };
    let value = ten_thousandths(number).ok_or(Refusal::Number)?;
    match letter {
        b'N' => Ok(Word::Label),
        b'G' => mode(value).ok_or(Refusal::Word),
        b'X' => Ok(Word::Axis(0, value)),
        b'Y' => Ok(Word::Axis(1, value)),
        b'Z' => Ok(Word::Axis(2, value)),
        b'F' => Ok(Word::Feed(value)),
        _ => Err(Refusal::Word),
    }
}

/// The listed G word of a number, which counts by its value.
fn mode(value: i128) -> Option<Word> {
    let listed = [
        (0, Word::Rapid(true)),
        (1, Word::Rapid(false)),
        (20, Word::Inches(true)),
        (21, Word::Inches(false)),
        (90, Word::Increments(false)),
        (91, Word::Increments(true)),
    ];
    let found = listed.iter().find(|(number, _)| number * ONE == value);
    found.map(|(_, word)| *word)
}

impl Word {
    /// True if the two cannot stand on one line: the same letter other than G,
    /// or both of one pair of G words.
    fn excludes(&self, other: &Word) -> bool {
        match (self, other) {
            (Word::Axis(one, _), Word::Axis(two, _)) => one == two,
            _ => std::mem::discriminant(self) == std::mem::discriminant(other),
        }
    }
}

/// A number in ten-thousandths: an optional sign, 1 to 5 digits, and optionally
/// a point with 1 to 4 digits. None if it is formed otherwise.
pub fn ten_thousandths(number: &[u8]) -> Option<i128> {
    let (sign, size) = match number {
        [b'-', size @ ..] => (-1, size),
        [b'+', size @ ..] => (1, size),
        size => (1, size),
    };
    let mut parts = size.splitn(2, |byte| *byte == b'.');
    let whole = digits(parts.next()?, MOST_WHOLE)?;
    let rest = match parts.next() {
        Some(decimals) => {
            let places = decimals.len() as u32;
            digits(decimals, MOST_DECIMALS)? * ONE / 10_i128.pow(places)
        }
        None => 0,
    };
    Some(sign * (whole * ONE + rest))
}

/// The whole number of 1 to `most` digits and nothing else.
fn digits(part: &[u8], most: usize) -> Option<i128> {
    let good = (1..=most).contains(&part.len()) && part.iter().all(u8::is_ascii_digit);
    let next = |value, digit: &u8| value * 10 + i128::from(digit - b'0');
    good.then(|| part.iter().fold(0, next))
}

//! Words of a text: numbers in every spelling of their value, and words and
//! characters that are refused.

use crate::rng::Rng;

/// Letters of the list other than G.
pub const LETTERS: [u8; 5] = *b"NXYZF";
/// Numbers of the G words of the list.
pub const MODES: [i64; 6] = [0, 1, 20, 21, 90, 91];

/// A number of ten-thousandths, less than 10^9 either way, with or without sign
/// where it may go without, leading zeros and zeros after its decimals.
pub fn spelled(rng: &mut Rng, value: i64) -> String {
    let sign = match value {
        ..0 => "-",
        0 => rng.pick(&["", "", "+", "-"]),
        _ => rng.pick(&["", "", "", "+"]),
    };
    let (whole, rest) = (value.abs() / 10_000, value.abs() % 10_000);
    let decimals = format!("{rest:04}");
    let (mut width, mut places) = (1, decimals.trim_end_matches('0').len());
    if rng.once_in(4) {
        width = rng.within(1, 5) as usize;
    }
    if rng.once_in(4) {
        places = rng.within(places as u64, 4) as usize;
    }
    let point = if places > 0 { "." } else { "" };
    format!("{sign}{whole:0width$}{point}{}", &decimals[..places])
}

/// A word of a letter and a number of ten-thousandths.
pub fn word(rng: &mut Rng, letter: u8, value: i64) -> Vec<u8> {
    let number = spelled(rng, value);
    [&[letter], number.as_bytes()].concat()
}

/// A label: N with any well-formed number.
pub fn label(rng: &mut Rng) -> Vec<u8> {
    let whole = rng.spread(0, 99_999) as i64 * 10_000;
    let value = if rng.once_in(4) {
        rng.signed(999_999_999)
    } else {
        whole
    };
    word(rng, b'N', value)
}

/// Something that is refused by 12 or 13 wherever it stands between spaces on a
/// line: a word, or a character outside of words.
pub fn bad_word(rng: &mut Rng) -> Vec<u8> {
    match rng.below(8) {
        0 | 1 => vec![stray(rng)],
        2 => unlisted_letter(rng),
        3 => unlisted_mode(rng),
        _ => bad_number(rng),
    }
}

/// A character that is refused by 12 outside of words: neighbours of the
/// capitals, of the digits and of the signs in the order of bytes, other white
/// space, what other texts of this kind hold, and any other byte.
pub fn stray(rng: &mut Rng) -> u8 {
    const NEAR: &[u8] = b"@[`a,/:*!\x1f\t\r\x0b\x0c\x00\x7f\x80\xa0\xff%();#gxyzn_=\"0159.+-";
    if rng.once_in(4) {
        let any = |byte: &u8| !byte.is_ascii_uppercase() && *byte != b' ' && *byte != b'\n';
        let bytes: Vec<u8> = (0..=u8::MAX).filter(any).collect();
        return rng.pick(&bytes);
    }
    rng.pick(NEAR)
}

/// A letter that is not listed, with a well-formed number.
fn unlisted_letter(rng: &mut Rng) -> Vec<u8> {
    let listed = |letter: &u8| LETTERS.contains(letter) || *letter == b'G';
    let others: Vec<u8> = (b'A'..=b'Z').filter(|letter| !listed(letter)).collect();
    let (letter, value) = (rng.pick(&others), rng.signed(100_000));
    word(rng, letter, value)
}

/// G with a number that is not listed: near one that is, or common elsewhere.
fn unlisted_mode(rng: &mut Rng) -> Vec<u8> {
    let near = rng.pick(&MODES) * 10_000 + rng.pick(&[-1, 1, 5_000, 9_999]);
    let value = match rng.below(4) {
        0 => rng.pick(&[-1, -20, -21, -90, -91]) * 10_000,
        1 => rng.pick(&[2, 3, 4, 17, 19, 22, 28, 54, 80, 89, 92, 100, 10_001]) * 10_000,
        2 => near,
        _ => rng.pick(&[201, 210, 901, 910, 9, 10, 2, 99_999]) * 10_000,
    };
    word(rng, b'G', value)
}

/// A word whose number is badly formed, mostly with a letter of the list.
fn bad_number(rng: &mut Rng) -> Vec<u8> {
    const NUMBERS: [&str; 24] = [
        "", "+", "-", ".", "-.", ".5", "-.5", "5.", "-5.", "123456", "000001", "1.23456",
        "0.00000", "--1", "+-1", "-+1", "1-", "1+2", "1-2", "1..2", "1.2.3", "1.-2", "100000.0",
        "12345.",
    ];
    let letter = match rng.below(6) {
        0 => rng.within(u64::from(b'A'), u64::from(b'Z')) as u8,
        1 => b'G',
        _ => rng.pick(&LETTERS),
    };
    [&[letter], rng.pick(&NUMBERS).as_bytes()].concat()
}

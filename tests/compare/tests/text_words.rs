//! The words of a text in every form, through the library and as the reference
//! answers them: each byte at each place, all short texts, numbers and G words of
//! every form, lines of every few words, and feeds and positions at the edges of
//! their rounding.

use std::collections::BTreeSet;

use compare::guarded::{lend_at, SIDES};
use compare::texts::{compare_text, number};
use compare::{report, seeds, Trying};
use reference::rng::Rng;
use reference::tape::{MOST_BLOCKS, RECORD_BYTES};
use reference::text::text_blocks;

/// A text of every listed word in six lines, each with a block, in both units, in
/// increments and in G0.
const WHOLE: &[u8] = b"N10 G1G21 X1.5Y-2 F600\n\
    G0Z+3.0001\n\
    \x20G01 G91X2.25  F1.0\n\
    G20 Y-0.5\n\
    G90X0.25 Z0 G0\n\
    N00006G21 X99.9999";

/// Bytes that are lent to a text of a few lines, two records more than WHOLE has.
const ROOM: usize = 8 * RECORD_BYTES;

/// Compares texts in a list of ROOM bytes, one behind a guard page and the next
/// before one; they meet the numbers.
fn compare_all(texts: impl Iterator<Item = Vec<u8>>, expected: &[u64], what: &str) {
    let (mut met, mut count) = (BTreeSet::new(), 0);
    for text in texts {
        lend_at(SIDES[count as usize % 2]);
        met.insert(number(&compare_text(count, &text, ROOM)));
        count += 1;
    }
    assert!(met.iter().eq(expected), "{what}: {met:?}");
    report(count as usize, what);
}

#[test]
fn the_whole_text_has_six_blocks() {
    assert_eq!(compare_text(0, WHOLE, ROOM), Ok(6));
    let marks: Vec<u64> = text_blocks(WHOLE)
        .expect("accepted")
        .iter()
        .map(|block| block.mark)
        .collect();
    assert_eq!(marks, [1, 2, 3, 4, 5, 6]);
}

/// The whole text with a part of some bytes at a place replaced.
fn replaced(place: usize, length: usize, by: &[u8]) -> Vec<u8> {
    [&WHOLE[..place], by, &WHOLE[place + length..]].concat()
}

/// Each byte put before each place and behind the last, in the place of each, and
/// each byte taken out.
#[test]
fn each_byte_at_each_place_is_answered_alike() {
    let bytes = || (0..=255_u8).map(|byte| [byte]);
    let put =
        (0..=WHOLE.len()).flat_map(|place| bytes().map(move |byte| replaced(place, 0, &byte)));
    let changed =
        (0..WHOLE.len()).flat_map(|place| bytes().map(move |byte| replaced(place, 1, &byte)));
    let taken = (0..WHOLE.len()).map(|place| replaced(place, 1, b""));
    let texts = put.chain(changed).chain(taken);
    compare_all(texts, &[0, 3, 4, 12, 13], "texts with a byte changed");
}

/// A line of its own put before each line, and each text cut off at each place.
#[test]
fn lines_between_and_cut_texts_are_answered_alike() {
    let lines: [&[u8]; 8] = [
        b"\n",
        b"   \n",
        b"X\n",
        b"M2\n",
        b"F-1\n",
        b"G91\n",
        b"X2000\n",
        b"G20G91X-.1\n",
    ];
    let begins = (0..WHOLE.len()).filter(|place| *place == 0 || WHOLE[place - 1] == b'\n');
    let between = begins.flat_map(|place| lines.map(|line| replaced(place, 0, line)));
    let cut = (0..WHOLE.len()).map(|place| WHOLE[..place].to_vec());
    let texts = between.chain(cut);
    compare_all(texts, &[0, 3, 4, 12, 13], "texts with a line more, or cut");
}

/// All lists of so many choices.
fn lists<T: Copy>(choices: &[T], length: usize) -> Vec<Vec<T>> {
    (0..length).fold(vec![Vec::new()], |shorter, _| {
        let longer = |list: &Vec<T>| {
            let list = list.clone();
            let with = move |last: &T| [&list[..], &[*last]].concat();
            choices.iter().map(with).collect::<Vec<_>>()
        };
        shorter.iter().flat_map(longer).collect()
    })
}

/// All texts of up to five bytes of an alphabet, alone and behind a line after
/// which a block needs no feed.
#[test]
fn every_short_text_is_answered_alike() {
    let all: Vec<Vec<u8>> = (0..=5).flat_map(|n| lists(b" GXMx0129.-\n", n)).collect();
    let behind = all.iter().map(|text| [b"G0Y1\n", &text[..]].concat());
    let texts = all.iter().cloned().chain(behind);
    compare_all(texts, &[0, 3, 4, 12, 13], "texts of up to five bytes");
}

/// All texts of two bytes.
#[test]
fn every_text_of_two_bytes_is_answered_alike() {
    let all: Vec<u8> = (0..=255).collect();
    let texts = lists(&all, 2).into_iter();
    compare_all(texts, &[0, 4, 12, 13], "texts of two bytes");
}

/// The letters with numbers, and one that is not listed.
const LETTERS: [&str; 7] = ["N", "G", "X", "Y", "Z", "F", "M"];

/// A text of a word of its own, and a block behind it that shows what it did.
fn with_word(word: &str) -> Vec<u8> {
    format!("F600\n{word}\nX7Y7Z7\nX8").into_bytes()
}

/// Signs, digits and points in every number up to two more than are allowed, and
/// something behind them.
#[test]
fn numbers_of_every_form_are_answered_alike() {
    let mut texts = Vec::new();
    for sign in ["", "+", "-", "+-"] {
        for (whole, decimals) in (0..=7).flat_map(|w| (0..=6).map(move |d| (w, d))) {
            for (point, end) in [
                ("", ""),
                (".", ""),
                ("..", ""),
                (".", "."),
                (".", "-"),
                (".", " 0"),
            ] {
                for digit in ["0", "1", "9"] {
                    let number = [
                        sign,
                        &digit.repeat(whole),
                        point,
                        &digit.repeat(decimals),
                        end,
                    ];
                    texts.push(number.concat());
                }
            }
        }
    }
    let words = LETTERS
        .iter()
        .flat_map(|letter| texts.iter().map(move |n| format!("{letter}{n}")));
    let texts = words.map(|word| with_word(&word));
    compare_all(texts, &[0, 3, 4, 12, 13], "numbers of every form");
}

/// All numbers of up to five signs, digits and points.
#[test]
fn every_short_number_is_answered_alike() {
    let all: Vec<Vec<u8>> = (0..=5).flat_map(|n| lists(b"+-.019", n)).collect();
    let texts = LETTERS.iter().flat_map(|letter| {
        let word = move |number: &Vec<u8>| format!("{letter}{}", number.escape_ascii());
        all.iter().map(move |number| with_word(&word(number)))
    });
    compare_all(
        texts,
        &[0, 3, 4, 12, 13],
        "numbers of up to five characters",
    );
}

/// A text in which a G word stands behind the others of its line, and a line of
/// increments and one of inches follow it.
fn with_mode(mode: &str) -> Vec<u8> {
    format!("F600 X1\nX2 Y0.5 F300 {mode}\nX3\nG91X1\nG20Y0.1\n").into_bytes()
}

/// Every G word of whole numbers, with every number of leading zeros.
#[test]
fn every_whole_g_word_is_answered_alike() {
    let words = (1..=5).flat_map(|width| {
        let count = 10_u32.pow(width);
        (0..count).map(move |n| format!("G{n:0width$}", width = width as usize))
    });
    let texts = words.map(|word| with_mode(&word));
    compare_all(texts, &[0, 12], "G words of whole numbers");
}

/// G words with decimals, all of up to four behind the numbers that are listed
/// and their neighbours, and with signs.
#[test]
fn every_g_word_with_decimals_is_answered_alike() {
    let near = [0, 1, 2, 19, 20, 21, 22, 89, 90, 91, 92];
    let decimals = (1..=4).flat_map(|width| {
        let count = 10_u32.pow(width);
        (0..count).map(move |n| format!("{n:0width$}", width = width as usize))
    });
    let decimals: Vec<String> = decimals.collect();
    let words = near
        .iter()
        .flat_map(|n| decimals.iter().map(move |d| format!("G{n}.{d}")));
    let signed = near
        .iter()
        .flat_map(|n| ["+", "-"].map(|sign| format!("G{sign}{n}")));
    let texts = words.chain(signed).map(|word| with_mode(&word));
    compare_all(texts, &[0, 12], "G words with decimals");
}

/// Words that are listed, and a few that are not or are badly formed.
const WORDS: [&str; 18] = [
    "N1", "G0", "G1", "G20", "G21", "G90", "G91", "X1", "Y-0.5", "Z2", "F300", "F0", "G2", "M1",
    "X", "G", "x", "X1000",
];

/// All lines of up to four words, apart and not, between a line before them and
/// two behind.
#[test]
fn every_line_of_few_words_is_answered_alike() {
    let all = (0..=4).flat_map(|n| lists(&WORDS, n));
    let texts = all.enumerate().map(|(k, words)| {
        let line = words.join(["", " ", "  "][k % 3]);
        format!("F60X3\n{line}\nX1 Y1\nG21 Z5 F90").into_bytes()
    });
    compare_all(texts, &[0, 3, 4, 12, 13], "lines of up to four words");
}

/// A number of ten-thousandths as it is written, with all four decimals or
/// without those that are 0.
fn written(rng: &mut Rng, value: i64) -> String {
    let sign = match (value < 0, rng.once_in(4)) {
        (true, _) => "-",
        (false, true) => "+",
        (false, false) => "",
    };
    let size = value.unsigned_abs();
    let whole = format!("{sign}{}.{:04}", size / 10_000, size % 10_000);
    if rng.once_in(2) {
        whole
    } else {
        whole.trim_end_matches('0').trim_end_matches('.').into()
    }
}

/// The greatest number of ten-thousandths.
const GREATEST: u64 = 999_999_999;

/// The F word of a feed about `feed` µm/s, in ten-thousandths: the least that
/// gives it, and what is next to that. An F of n gives n × unit / 6,000.
fn near_feed(rng: &mut Rng, feed: u64, unit: u64) -> i64 {
    let least = (feed * 6_000).div_ceil(unit).min(GREATEST - 2);
    (least + rng.within(0, 4)).saturating_sub(2) as i64
}

/// The feed of every size at the edges of its rounding, in both units.
#[test]
fn feeds_are_rounded_alike() {
    let mut count = 0;
    for seed in seeds(40) {
        let _trying = Trying::seed(seed);
        let mut rng = Rng::new(seed);
        for (mode, unit) in [("G21", 10), ("G20", 254)] {
            let mut text = format!("{mode}G91");
            for k in 0..MOST_BLOCKS {
                let feed = rng.spread(2, 999_999);
                let value = near_feed(&mut rng, feed, unit);
                let word = written(&mut rng, value);
                text += ["\nX0.01F", "\nX-0.01 F"][k % 2];
                text += &word;
            }
            let answer = compare_text(seed, text.as_bytes(), MOST_BLOCKS * RECORD_BYTES);
            assert_eq!(answer, Ok(MOST_BLOCKS), "seed {seed}");
            count += MOST_BLOCKS;
        }
    }
    report(count, "feeds at the edges of their rounding");
}

/// The first feeds that are too low and too high, each alone in its text.
#[test]
fn feeds_at_the_ends_of_their_range_are_answered_alike() {
    let greatest = GREATEST as i64;
    let ends = [-greatest, -1, 0, greatest];
    let (mut texts, mut rng) = (Vec::new(), Rng::new(0));
    for (mode, unit) in [("G21", 10), ("G20", 254)] {
        let near = |feed: u64| {
            let least = (feed * 6_000).div_ceil(unit) as i64;
            (least - 3..=least + 3).filter(|n| *n <= greatest)
        };
        let values = [0, 1, 2, 1_000_000, 1_000_001].into_iter().flat_map(near);
        for value in values.chain(ends).collect::<Vec<_>>() {
            for line in ["X1 F", "G0X1 F"] {
                let word = written(&mut rng, value);
                texts.push(format!("{mode}\n{line}{word}").into_bytes());
            }
        }
    }
    compare_all(
        texts.into_iter(),
        &[0, 4],
        "feeds at the ends of their range",
    );
}

/// A text that goes far on each axis by moves of 1 m, at most 99 of them, so that
/// an absolute position can still be told, and then to positions near there and
/// back, in both units: exact halves of a µm and their neighbours on both sides
/// of 0.
fn far_text(rng: &mut Rng) -> String {
    let steps = rng.pick(&[0, 0, 1, 40, 99]);
    let sides = [(); 3].map(|_| rng.pick(&[1, -1]));
    let [x, y, z] = sides.map(|side| side * 1_000);
    let mut text = format!("G0G91{}\nG90", format!("\nX{x}Y{y}Z{z}").repeat(steps));
    let near = rng.pick(&[3, 20, 600, 100_000]);
    for _ in 0..1_900 {
        let inches = steps < 40 && rng.once_in(3);
        text += if inches { "\nG20" } else { "\nG21" };
        for (letter, side) in "XYZ".chars().zip(sides) {
            // an inch is 25.4 mm, and its far place any of those within 1 m
            let far = side * steps as i64 * if inches { 393_700 } else { 10_000_000 };
            let value = far + rng.signed(near);
            let fits = value.unsigned_abs() <= GREATEST;
            if fits && rng.once_in(2) {
                text += &format!("{letter}{}", written(rng, value));
            }
        }
    }
    text
}

#[test]
fn positions_are_rounded_alike() {
    let mut blocks = 0;
    for seed in seeds(60) {
        let _trying = Trying::seed(seed);
        let text = far_text(&mut Rng::new(seed));
        let answer = compare_text(seed, text.as_bytes(), MOST_BLOCKS * RECORD_BYTES);
        blocks += answer.unwrap_or(0);
    }
    assert!(blocks > 60 * 500, "{blocks} blocks");
    report(blocks, "blocks of rounded positions");
}

/// A text of increments of a few ten-thousandths, both units in turns, on which
/// the exact position never is the rounded one for long.
fn creeping_text(rng: &mut Rng) -> String {
    let most = rng.pick(&[3, 8, 60]);
    let mut text = String::from("G91G0");
    for _ in 0..2_000 {
        text += rng.pick(&["\n", "\nG20", "\nG21"]);
        let letter = rng.pick(&["X", "Y", "Z"]);
        let value = rng.signed(most);
        text += &format!("{letter}{}", written(rng, value));
    }
    text
}

#[test]
fn increments_are_carried_exactly() {
    let mut blocks = 0;
    for seed in seeds(100) {
        let _trying = Trying::seed(seed);
        let text = creeping_text(&mut Rng::new(seed));
        let answer = compare_text(seed, text.as_bytes(), MOST_BLOCKS * RECORD_BYTES);
        blocks += answer.expect("short moves in G0");
    }
    assert!(blocks > 100 * 300, "{blocks} blocks");
    report(blocks, "blocks of small increments");
}

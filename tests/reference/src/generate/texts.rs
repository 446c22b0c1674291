//! Programs in RS-274 text: accepted ones with their blocks, ones with each
//! fault and pairs of faults, and ones about as long as is accepted.

use super::pen::{Pen, Style, Written};
use super::spelling::{bad_word, label, word, LETTERS};
use super::text_noise::noisy_text;
use crate::machine::{range, Block};
use crate::rng::Rng;
use crate::tape::MOST_BLOCKS;
use crate::text::ten_thousandths;

/// How the words of a text are parted.
#[derive(Clone, Copy)]
enum Spaces {
    None,
    One,
    Any,
}

/// A text of any of the sorts below: accepted, with faults, noise, or with about
/// as many blocks as are accepted.
pub fn any_text(rng: &mut Rng) -> Vec<u8> {
    match rng.below(16) {
        0..4 => text(rng),
        4..11 => faulty_text(rng),
        11..13 => noisy_text(rng),
        _ => many_text(rng),
    }
}

/// An accepted text.
pub fn text(rng: &mut Rng) -> Vec<u8> {
    text_with_blocks(rng).0
}

/// An accepted text of up to 60 lines, at times 400, and the blocks that it was
/// written for.
pub fn text_with_blocks(rng: &mut Rng) -> (Vec<u8>, Vec<Block>) {
    let most = if rng.once_in(16) { 400 } else { 60 };
    let count = rng.spread(0, most);
    let mut pen = Pen::new(style(rng));
    let lines: Vec<Written> = (0..count).map(|_| any_line(rng, &mut pen)).collect();
    let blocks = lines.iter().zip(1..).filter_map(block_of).collect();
    (joined(rng, lines), blocks)
}

/// The block of a line, with the line's number as its mark.
fn block_of((line, mark): (&Written, u64)) -> Option<Block> {
    line.block.map(|(moves, feed)| Block {
        moves,
        feed: feed as u64,
        radius: 0,
        mark,
    })
}

/// A style: often or seldom with modes, labels and feeds, with steps of a few
/// hundredths of a µm to the longest.
fn style(rng: &mut Rng) -> Style {
    Style {
        modes: rng.pick(&[2, 6, 6, 40]),
        labels: rng.pick(&[1, 2, 10, 1_000]),
        feeds: rng.pick(&[1, 4, 30]),
        step: rng.pick(&[60, 300, 3_000, 100_000, 10_000_000, 100_000_000]),
    }
}

/// An accepted line, one in twelve empty.
fn any_line(rng: &mut Rng, pen: &mut Pen) -> Written {
    if rng.once_in(12) {
        let words = Vec::new();
        return Written { words, block: None };
    }
    pen.line(rng)
}

/// The bytes of lines, parted in one way throughout or in a way for each. The
/// last line ends in a line feed three times of four.
fn joined(rng: &mut Rng, lines: Vec<Written>) -> Vec<u8> {
    let one = rng.pick(&[Spaces::None, Spaces::One, Spaces::Any]);
    let mixed = rng.once_in(3);
    let mut text = Vec::new();
    for line in lines {
        let spaces = if mixed {
            rng.pick(&[Spaces::None, Spaces::One, Spaces::Any])
        } else {
            one
        };
        write_words(rng, spaces, &line.words, &mut text);
        text.push(b'\n');
    }
    if rng.once_in(4) {
        text.pop();
    }
    text
}

/// Writes the words of a line. A piece that is no word has a space before it,
/// since it could go on with the word before it.
fn write_words(rng: &mut Rng, spaces: Spaces, words: &[Vec<u8>], text: &mut Vec<u8>) {
    let mut space = |text: &mut Vec<u8>, least: usize| {
        let count = match spaces {
            Spaces::None => least,
            Spaces::One => 1,
            Spaces::Any => least.max(rng.pick(&[0, 0, 1, 2, 7])),
        };
        text.extend(vec![b' '; count]);
    };
    for (k, piece) in words.iter().enumerate() {
        if k > 0 || matches!(spaces, Spaces::Any) {
            space(text, usize::from(!piece[0].is_ascii_uppercase()));
        }
        text.extend(piece);
    }
    if matches!(spaces, Spaces::Any) {
        space(text, 0);
    }
}

/// A text with one or two faults, on one line or on two.
pub fn faulty_text(rng: &mut Rng) -> Vec<u8> {
    let count = rng.spread(1, 30);
    let first = rng.below(count);
    let second = match rng.below(3) {
        0 => Some(first),
        1 => Some(rng.below(count)),
        _ => None,
    };
    let mut pen = Pen::new(style(rng));
    let mut lines: Vec<Written> = Vec::new();
    for k in 0..count {
        lines.push(match (k == first, second == Some(k)) {
            (false, false) => any_line(rng, &mut pen),
            (true, true) => twice_faulty_line(rng, &mut pen),
            _ => faulty_line(rng, &mut pen),
        });
    }
    lines.extend((0..3).map(|_| pen.short_line(rng)));
    joined(rng, lines)
}

/// A line that is refused by 12 or 13, by 3, or by 4 as soon as it or a later
/// one yields a block.
fn faulty_line(rng: &mut Rng, pen: &mut Pen) -> Written {
    match rng.below(8) {
        0 | 1 => pen.long_line(rng),
        2..5 => pen.feedless_line(rng),
        _ => {
            let line = pen.line(rng);
            spoiled(rng, line)
        }
    }
}

/// A faulty line with a further fault.
fn twice_faulty_line(rng: &mut Rng, pen: &mut Pen) -> Written {
    pen.careless = rng.once_in(2);
    let line = faulty_line(rng, pen);
    if rng.once_in(4) {
        line
    } else {
        spoiled(rng, line)
    }
}

/// A line with a word too many at any place: one that is refused, a letter that
/// stands there already, or a G word of a pair that does.
fn spoiled(rng: &mut Rng, mut line: Written) -> Written {
    let place = rng.below(line.words.len() as u64 + 1) as usize;
    let again = rng.below(3) == 0 && !line.words.is_empty();
    let piece = if again {
        let before = rng.below(line.words.len() as u64) as usize;
        repeated(rng, &line.words[before])
    } else {
        bad_word(rng)
    };
    line.words.insert(place, piece);
    line
}

/// A word that cannot stand on one line with the word before it, at times
/// without its number.
fn repeated(rng: &mut Rng, before: &[u8]) -> Vec<u8> {
    match before[0] {
        b'G' => {
            let one = ten_thousandths(&before[1..]).unwrap_or(0) as i64;
            let pairs = [[0, 10_000], [200_000, 210_000], [900_000, 910_000]];
            let found = pairs.iter().find(|two| two.contains(&one));
            let value = rng.pick(found.unwrap_or(&pairs[0]));
            word(rng, b'G', value)
        }
        letter if LETTERS.contains(&letter) && rng.once_in(3) => vec![letter],
        letter => {
            let value = rng.signed(30_000);
            word(rng, letter, value)
        }
    }
}

/// A text of about 2,048 blocks, of terse lines or of any, with lines between
/// them that yield none; past half of its blocks at times a fault, often on the
/// line of the 2,049th.
pub fn many_text(rng: &mut Rng) -> Vec<u8> {
    let blocks = MOST_BLOCKS as u64 + rng.within(0, 4) - 1;
    let last = MOST_BLOCKS as u64 + 1;
    let fault = match rng.below(7) {
        0 => last,
        1 => rng.within(last / 2, last + 2),
        _ => 0,
    };
    let (terse, idle) = (!rng.once_in(4), rng.pick(&[3, 50, 5_000]));
    let mut pen = Pen::new(Style {
        step: rng.pick(&[3_000, 100_000, 10_000_000]),
        ..style(rng)
    });
    let (mut lines, mut made) = (Vec::new(), 0);
    while made < blocks {
        let faulty = made + 1 == fault;
        let line = if faulty {
            faulty_line(rng, &mut pen)
        } else if rng.once_in(idle) {
            idle_line(rng)
        } else if terse {
            pen.short_line(rng)
        } else {
            any_line(rng, &mut pen)
        };
        made += u64::from(faulty || line.block.is_some());
        lines.push(line);
    }
    joined(rng, lines)
}

/// A line with a label alone.
fn idle_line(rng: &mut Rng) -> Written {
    let words = vec![label(rng)];
    Written { words, block: None }
}

/// A text of about 2 MB with a few words and then empty lines up to near line
/// 2,097,151, the last that a mark can name, and lines with blocks there.
pub fn late_text(rng: &mut Rng) -> Vec<u8> {
    let mut pen = Pen::new(style(rng));
    let first: Vec<Written> = (0..3).map(|_| pen.short_line(rng)).collect();
    let empty = *range::MARK.end() as usize - 3 - rng.below(6) as usize;
    let mut text = joined(rng, first);
    if text.last() != Some(&b'\n') {
        text.push(b'\n');
    }
    text.extend(vec![b'\n'; empty]);
    let last = (0..6).map(|_| any_line(rng, &mut pen)).collect();
    text.extend(joined(rng, last));
    text
}

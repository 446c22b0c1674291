//! Texts that nobody wrote: words and characters at random, accepted texts with
//! bytes changed, and any bytes.

use super::spelling::{bad_word, label, stray, word, MODES};
use super::texts::text;
use crate::rng::Rng;

/// The bytes that lines are made of; the line feed and the space are frequent.
const ALPHABET: &[u8] = b"NGXYZF0123456789.+-  \n\n\n";

/// What parts two words, on one line or on two.
const PARTINGS: [&[u8]; 6] = [b"", b" ", b"\n", b"\n", b" \n", b"\n\n"];

/// A text of words at random, of characters at random, an accepted one with a
/// few bytes changed, or any bytes.
pub fn noisy_text(rng: &mut Rng) -> Vec<u8> {
    match rng.below(8) {
        0 | 1 => loose_words(rng),
        2 => {
            let length = rng.spread(0, 40);
            (0..length).map(|_| rng.pick(ALPHABET)).collect()
        }
        3 => (0..rng.spread(0, 60)).map(|_| rng.word() as u8).collect(),
        _ => changed(rng),
    }
}

/// Words of the list with small numbers, seldom a bad one, with spaces and line
/// feeds between them; most lines are short. The first line sets a feed.
fn loose_words(rng: &mut Rng) -> Vec<u8> {
    let mut text = b"F600\n".to_vec();
    for _ in 0..rng.spread(0, 60) {
        let small = rng.signed(30_000);
        text.extend(match rng.below(40) {
            0 => bad_word(rng),
            1..5 => label(rng),
            5..13 => {
                let mode = rng.pick(&MODES);
                word(rng, b'G', mode * 10_000)
            }
            13..16 => word(rng, b'F', small.abs() + 10_000),
            _ => {
                let letter = rng.pick(b"XYZ");
                word(rng, letter, small)
            }
        });
        text.extend(rng.pick(&PARTINGS));
    }
    text
}

/// An accepted text with one to three bytes put in, taken out or replaced.
fn changed(rng: &mut Rng) -> Vec<u8> {
    let mut text = text(rng);
    for _ in 0..rng.within(1, 3) {
        let place = rng.below(text.len() as u64 + 1) as usize;
        let byte = if rng.once_in(3) {
            stray(rng)
        } else {
            rng.pick(ALPHABET)
        };
        match rng.below(3) {
            0 => text.insert(place, byte),
            1 if place < text.len() => text[place] = byte,
            2 if place < text.len() => {
                text.remove(place);
            }
            _ => {}
        }
    }
    text
}

//! The text that its reading is measured on: the mould's first 2,048 blocks as a
//! program in RS-274 text.

use std::fmt::Write;

use reference::machine::Block;
use reference::tape::MOST_BLOCKS;

use crate::paths::Path;

/// A text of the path's first 2,048 blocks, a line for each: N with its number
/// from 1, X, Y and Z with the position in mm to three decimals, and F in mm/min.
pub fn text_of(path: Path) -> Vec<u8> {
    let mut text = String::new();
    let mut point = [0; 3];
    for (number, block) in (1..).zip(path.blocks(MOST_BLOCKS)) {
        let Block { moves, feed, .. } = block;
        point = [0, 1, 2].map(|axis| point[axis] + moves[axis]);
        let [x, y, z] = point.map(millimetres);
        let feed = feed * 60 / 1_000;
        writeln!(text, "N{number} X{x} Y{y} Z{z} F{feed}").expect("memory");
    }
    text.into_bytes()
}

/// A position in µm as mm with three decimals.
fn millimetres(position: i64) -> String {
    let sign = if position < 0 { "-" } else { "" };
    let size = position.unsigned_abs();
    format!("{sign}{}.{:03}", size / 1_000, size % 1_000)
}

#[cfg(test)]
mod tests {
    use super::*;
    use reference::text::{lines, text_blocks};

    #[test]
    fn positions_have_three_decimals() {
        let written = [0, 5, -5, 1_234, -60_000].map(millimetres);
        assert_eq!(written, ["0.000", "0.005", "-0.005", "1.234", "-60.000"]);
    }

    /// The first lines; the mould begins with 5, 4 and 23 µm in X.
    #[test]
    fn a_line_has_all_words() {
        let text = text_of(Path::Mould);
        let first: Vec<&[u8]> = lines(&text).take(2).collect();
        assert_eq!(first[0], b"N1 X0.005 Y0.000 Z0.003 F3000");
        assert_eq!(first[1], b"N2 X0.009 Y0.000 Z0.007 F3000");
    }

    /// The text is the path, but for the marks, which are the lines' numbers.
    #[test]
    fn the_text_has_the_path_s_blocks() {
        for path in [Path::Mould, Path::Straight] {
            let blocks = path.blocks(MOST_BLOCKS);
            let marked = blocks.into_iter().map(|block| Block {
                mark: block.mark + 1,
                ..block
            });
            let found = text_blocks(&text_of(path));
            assert_eq!(found, Ok(marked.collect()));
        }
    }
}

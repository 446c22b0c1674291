//! The paths that planners are measured on, and the steps that the root is.
//! Whole numbers only, so that every machine and every planner's harness makes
//! the same blocks.

use std::iter;

use reference::generate::Raster;
use reference::machine::Block;

/// What is planned, on machine M.
#[derive(Clone, Copy, Debug)]
pub enum Path {
    /// Raster rows over a rolling surface, feed 50,000 µm/s. Neighbours turn a
    /// little at a time, so a planner that walks back at an add goes far.
    Mould,
    /// X moves of 1 to 5 µm, feed 500,000 µm/s. Every add moves what all blocks
    /// held can brake from, and no junction is ever dropped.
    Straight,
    /// The blocks of the mould, each on a curve of 1 mm radius, whose chord cap
    /// on machine M is below the feed's.
    Curved,
    /// Moves of −18 to 18 µm on each axis, feed 50,000 µm/s. Neighbours turn any
    /// way, which stops a walk back early: no work of a mould, and it flatters a
    /// planner that walks.
    Random,
    /// Moves of a least and a greatest size on each axis, µm, feed 50,000 µm/s.
    Steps(u64, u64),
}

impl Path {
    /// The first `count` blocks, each marked with its place from 0.
    pub fn blocks(self, count: usize) -> Vec<Block> {
        let mut draws = Draws::begin();
        match self {
            Path::Mould => {
                let rows = Raster::begin(|most| draws.below(most) as u64);
                marked(rows, 50_000, count)
            }
            Path::Curved => {
                let curved = |block| Block {
                    radius: 1_000,
                    ..block
                };
                let mould = Path::Mould.blocks(count);
                mould.into_iter().map(curved).collect()
            }
            Path::Straight => {
                let moves = iter::repeat_with(|| [1 + draws.below(5), 0, 0]);
                marked(moves, 500_000, count)
            }
            Path::Random => {
                let moves = iter::repeat_with(|| [(); 3].map(|_| draws.below(37) - 18));
                marked(moves.filter(|moves| *moves != [0; 3]), 50_000, count)
            }
            Path::Steps(least, most) => {
                let mut drawn = || least as i64 + draws.below(most - least + 1);
                let moves = iter::repeat_with(|| [drawn(), drawn(), drawn()]);
                marked(moves, 50_000, count)
            }
        }
    }
}

/// The first `count` moves, µm, as blocks of a feed, µm/s, without a curve.
fn marked(moves: impl Iterator<Item = [i64; 3]>, feed: u64, count: usize) -> Vec<Block> {
    let block = |(mark, moves)| Block {
        moves,
        feed,
        radius: 0,
        mark,
    };
    (0..).zip(moves).take(count).map(block).collect()
}

/// Numbers drawn one after the other: a linear congruential generator of 64
/// bits.
struct Draws {
    state: u64,
}

impl Draws {
    fn begin() -> Draws {
        Draws { state: 20_030_619 }
    }

    /// Number from 0 to `count` − 1, of the state's upper 31 bits.
    fn below(&mut self, count: u64) -> i64 {
        let product = self.state.wrapping_mul(6_364_136_223_846_793_005);
        self.state = product.wrapping_add(1_442_695_040_888_963_407);
        ((self.state >> 33) % count) as i64
    }
}

/// The numbers are worked out by a program of its own, written from the words of
/// docs/BENCH.md.
#[cfg(test)]
mod tests {
    use super::*;

    /// Blocks of a path that sums are taken over.
    const SUMMED: usize = 20_000;

    /// Sum over the blocks of the place from 1 times the move, µm, on each axis:
    /// no two blocks can change places unseen.
    fn weighed(path: Path) -> [i64; 3] {
        let moves = path.blocks(SUMMED).into_iter().map(|block| block.moves);
        (1..).zip(moves).fold([0; 3], |sum, (place, moves)| {
            [0, 1, 2].map(|axis| sum[axis] + place * moves[axis])
        })
    }

    /// Some moves of a path, µm.
    fn moves(path: Path, places: std::ops::Range<usize>) -> Vec<[i64; 3]> {
        let blocks = path.blocks(places.end);
        blocks[places].iter().map(|block| block.moves).collect()
    }

    #[test]
    fn draws_begin_as_said() {
        let mut draws = Draws::begin();
        let drawn = [(); 5].map(|_| draws.below(1 << 31));
        let words = [
            2_080_688_908,
            828_047_019,
            1_618_248_262,
            413_795_228,
            27_210_445,
        ];
        assert_eq!(drawn, words);
    }

    #[test]
    fn the_mould_is_rows() {
        let begin = [[5, 0, 3], [4, 0, 4], [23, 0, 19]];
        let far_end = [[4, 0, 0], [0, 25, 25], [-27, 0, 7]];
        let near_end = [[-3, 0, -2], [0, 25, 29], [22, 0, 17]];
        assert_eq!(moves(Path::Mould, 0..3), begin);
        assert_eq!(moves(Path::Mould, 3_238..3_241), far_end);
        assert_eq!(moves(Path::Mould, 6_456..6_459), near_end);
        assert_eq!(weighed(Path::Mould), [-377_342_293, 1_696_575, 11_726_142]);
    }

    #[test]
    fn straight_is_along_x() {
        let begin = [[4, 0, 0], [5, 0, 0], [3, 0, 0]];
        assert_eq!(moves(Path::Straight, 0..3), begin);
        assert_eq!(weighed(Path::Straight), [600_976_917, 0, 0]);
    }

    #[test]
    fn steps_are_drawn_on_each_axis() {
        assert_eq!(moves(Path::Steps(1, 5), 0..1), [[4, 5, 3]]);
        let millimetres = [[9_747, 1_024, 4_477]];
        assert_eq!(moves(Path::Steps(1_000, 10_000), 0..1), millimetres);
    }

    #[test]
    fn random_moves_go_every_way() {
        let all = moves(Path::Random, 0..SUMMED);
        assert!(all.iter().flatten().all(|size| size.abs() <= 18));
        let [least, most] = [[-18; 3], [18; 3]];
        let reached = |end: [i64; 3]| (0..3).all(|axis| all.iter().any(|m| m[axis] == end[axis]));
        assert!(reached(least) && reached(most));
        assert!(!all.contains(&[0; 3]));
    }

    #[test]
    fn the_curved_path_moves_as_the_mould() {
        let all = 0..SUMMED;
        assert_eq!(moves(Path::Curved, all.clone()), moves(Path::Mould, all));
    }

    #[test]
    fn blocks_have_feed_radius_and_place() {
        let fields = [
            (Path::Mould, 50_000, 0),
            (Path::Straight, 500_000, 0),
            (Path::Curved, 50_000, 1_000),
            (Path::Random, 50_000, 0),
            (Path::Steps(1, 50), 50_000, 0),
        ];
        for (path, feed, radius) in fields {
            for (place, block) in (0..).zip(path.blocks(100)) {
                let found = (block.feed, block.radius, block.mark);
                assert_eq!(found, (feed, radius, place));
            }
        }
    }
}

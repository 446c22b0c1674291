//! Raster rows over a mould. Whole numbers only, so that every machine makes the
//! same moves.

/// Length of the rows, along X, and the way from one to the next, µm.
const ROW: i64 = 60_000;
const ROW_STEP: i64 = 25;

/// The moves of a raster over the mould, µm: a row up in X, a step in Y, a row
/// down, and so on.
pub struct Raster<D> {
    /// Where it stands, µm.
    x: i64,
    y: i64,
    /// 1 up in X, −1 down.
    direction: i64,
    /// Draws a number below the one handed in.
    draw: D,
}

impl<D: FnMut(u64) -> u64> Raster<D> {
    /// One that begins at x = y = 0, with steps as they are drawn.
    pub fn begin(draw: D) -> Raster<D> {
        Raster {
            x: 0,
            y: 0,
            direction: 1,
            draw,
        }
    }

    fn point(&self) -> [i64; 3] {
        [self.x, self.y, surface(self.x, self.y)]
    }

    fn at_row_end(&self) -> bool {
        match self.direction {
            1 => self.x >= ROW,
            _ => self.x <= 0,
        }
    }

    /// Goes on by 1 to 36 µm along the row, or to the next one.
    fn step(&mut self) {
        if self.at_row_end() {
            self.y += ROW_STEP;
            self.direction = -self.direction;
        } else {
            let step = 1 + (self.draw)(36) as i64;
            self.x = (self.x + self.direction * step).clamp(0, ROW);
        }
    }
}

impl<D: FnMut(u64) -> u64> Iterator for Raster<D> {
    type Item = [i64; 3];

    fn next(&mut self) -> Option<[i64; 3]> {
        let from = self.point();
        self.step();
        let to = self.point();
        Some([0, 1, 2].map(|axis| to[axis] - from[axis]))
    }
}

/// Height of the mould, µm.
fn surface(x: i64, y: i64) -> i64 {
    wave(x, 8_000, 500) + wave(x + 3 * y, 2_600, 120) + wave(y, 14_000, 500)
}

/// Height of a wave, µm: in each period a parabola up to the peak, then one
/// as far down. Rounded towards 0.
fn wave(at: i64, period: i64, peak: i64) -> i64 {
    let half = period / 2;
    let within = at.rem_euclid(period);
    let along = within % half;
    let height = 4 * peak * along * (half - along) / (half * half);
    if within < half {
        height
    } else {
        -height
    }
}

/// The numbers of the waves are worked out by hand, the others by a program of
/// its own, written from the words of docs/BENCH.md.
#[cfg(test)]
mod tests {
    use super::*;

    #[test]
    fn waves_round_towards_0_and_go_on_before_0() {
        let places = [0, 7, 1_000, 2_000, 4_000, 4_007, 6_000, 8_000, -1_000];
        let heights = [0, 3, 375, 500, 0, -3, -500, 0, -375];
        assert_eq!(places.map(|at| wave(at, 8_000, 500)), heights);
    }

    #[test]
    fn the_surface_is_three_waves() {
        let points = [(0, 0), (1_000, 25), (30_001, 1_075), (12_345, 7_777)];
        let heights = [0, 450, -358, -472];
        assert_eq!(points.map(|(x, y)| surface(x, y)), heights);
    }
}

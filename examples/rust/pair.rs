//! The planner from Rust: its five functions behind a type that lends its own memory. The functions
//! for tapes and traces are declared in the same way, from include/fullerecru.h.
//!
//!     rustc --edition 2021 -L target/staticlib -l static=fullerecru examples/rust/pair.rs -o target/pair

const NUMBERS: usize = 848;

extern "C" {
    fn fullerecru_fresh(
        memory: *mut u64,
        limits: *const u64,
        steps: *const u8,
        count: usize,
    ) -> u64;
    fn fullerecru_add(
        memory: *mut u64,
        x: i64,
        y: i64,
        z: i64,
        feed: u64,
        radius: u64,
        mark: u64,
    ) -> u64;
    fn fullerecru_take(memory: *mut u64, moves: *mut i64, numbers: *mut u64) -> u64;
    fn fullerecru_told(memory: *const u64) -> u64;
    fn fullerecru_shown(memory: *const u64, list: *mut u64, count: usize) -> u64;
}

/// A planner that holds up to 64 blocks.
struct Planner([u64; NUMBERS]);

/// What the number on the display says: accepted with an answer, or refused.
fn accepted<T>(number: u64, answer: T) -> Result<T, u64> {
    if number == 0 {
        Ok(answer)
    } else {
        Err(number)
    }
}

// Each call lends arrays of the sizes that include/fullerecru.h names.
impl Planner {
    /// Accelerations, µm/s², speeds, µm/s, corner jump, µm/s, chord tolerance, µm, and tick, µs; and the
    /// motors' torque steps, eight percentages, or none for the built-in ones.
    fn fresh(limits: &[u64; 9], steps: &[u8]) -> Result<Planner, u64> {
        let mut memory = [0; NUMBERS];
        let lent = memory.as_mut_ptr();
        let number =
            unsafe { fullerecru_fresh(lent, limits.as_ptr(), steps.as_ptr(), steps.len()) };
        accepted(number, Planner(memory))
    }

    /// Moves, µm, feed, µm/s, radius, µm, and mark.
    fn add(&mut self, [x, y, z]: [i64; 3], feed: u64, radius: u64, mark: u64) -> Result<(), u64> {
        let memory = self.0.as_mut_ptr();
        let number = unsafe { fullerecru_add(memory, x, y, z, feed, radius, mark) };
        accepted(number, ())
    }

    /// Moves, µm, and the eleven numbers of the first block.
    fn take(&mut self) -> Result<([i64; 3], [u64; 11]), u64> {
        let (mut moves, mut numbers) = ([0; 3], [0; 11]);
        let memory = self.0.as_mut_ptr();
        let number = unsafe { fullerecru_take(memory, moves.as_mut_ptr(), numbers.as_mut_ptr()) };
        accepted(number, (moves, numbers))
    }

    /// Squared speeds at the junctions, (µm/s)².
    fn plan(&self) -> Result<Vec<u64>, u64> {
        let memory = self.0.as_ptr();
        let mut list = vec![0; unsafe { fullerecru_told(memory) } as usize + 1];
        let number = unsafe { fullerecru_shown(memory, list.as_mut_ptr(), list.len()) };
        accepted(number, list)
    }
}

/// Two blocks at a right angle, then a take too many.
fn main() -> Result<(), u64> {
    let a = 200_000;
    let v = 1_000_000;
    let mut planner = Planner::fresh(&[a, a, a, v, v, v, 2_000, 1, 2_000], &[])?;
    planner.add([1_000, 0, 0], 20_000, 0, 7)?;
    planner.add([0, 1_000, 0], 20_000, 0, 8)?;
    println!("plan {:?}", planner.plan()?);
    for _ in 0..3 {
        match planner.take() {
            Ok((moves, numbers)) => println!("{moves:?} {numbers:?}"),
            Err(number) => println!("refused {number}"),
        }
    }
    Ok(())
}

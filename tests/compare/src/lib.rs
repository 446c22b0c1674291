//! The proved code as Rust calls, to be compared with the reference.
//!
//! `library` has the functions of the static libraries. `proved` calls them;
//! what it lends lies between guards, and each call sees that the guards and
//! all that is lent to be read stay as they were, and on a refusal everything
//! lent (but for the place of a tape's or a text's fault, which every call
//! writes). `programs` runs planlist, planreplay and planorders, with a file of
//! torque steps or without, ngctape with a file of limits, and planreport with
//! files of tapes; `devices` has what they can be made to read from. `words` has
//! the lists of numbers that stand for limits, blocks and blocks given out,
//! `traces` runs a trace on the reference as the library does, `lines` plans
//! blocks on both, `tapes` has tapes and what a function leaves in a list lent
//! for one, and `texts` compares the records of a text. `ring` is a
//! planner's memory by the promise of its calls, and `memories` has memories of
//! every kind for it; `hosts` has both for the numbers of a host.
//!
//! A run begins with the seed 0, or with the one that the variable SEED says
//! (`SEED=n make test`), and each test takes the seeds from there on in turn.

pub mod devices;
pub mod guarded;
pub mod hosts;
pub mod library;
pub mod lines;
pub mod memories;
pub mod pages;
pub mod programs;
pub mod proved;
pub mod ring;
pub mod tapes;
pub mod texts;
pub mod traces;
pub mod words;

use std::env;
use std::fmt::Debug;
use std::io::Write;
use std::sync::OnceLock;

use guarded::SIDES;

/// The first seed of a run: what SEED says, else 0. Told once, when a test file
/// first asks for it.
pub fn first_seed() -> u64 {
    static FIRST: OnceLock<u64> = OnceLock::new();
    *FIRST.get_or_init(|| {
        let word = env::var("SEED").unwrap_or_else(|_| "0".to_string());
        let seed = word
            .parse()
            .unwrap_or_else(|_| panic!("SEED={word}: no number"));
        say(&format!(
            "seeds from {seed} on: SEED={seed} repeats this run\n"
        ));
        seed
    })
}

/// The next `count` seeds of a run, from its first.
pub fn seeds(count: u64) -> impl Iterator<Item = u64> {
    let first = first_seed();
    (0..count).map(move |k| first.wrapping_add(k))
}

/// Panics with the seed and the input where the two answers differ.
pub fn same<T: PartialEq + Debug>(seed: u64, input: impl Fn() -> String, proved: T, reference: T) {
    if proved != reference {
        panic!(
            "seed {seed}\ninput {}\nproved    {proved:?}\nreference {reference:?}",
            input()
        );
    }
}

/// A seed that is tried. It says which, where a test ends while it is alive: a
/// guard is seen inside a call, which knows of no seed. At one seed lists are
/// lent at the beginning of their pages and at the next at the end, and at each
/// seed the lists that a call writes hold something else before it.
pub struct Trying(u64);

impl Trying {
    /// Begins with a seed.
    pub fn seed(seed: u64) -> Trying {
        pages::trying(seed);
        guarded::lend_at(SIDES[(seed % 2) as usize]);
        proved::fill_with(seed);
        Trying(seed)
    }
}

impl Drop for Trying {
    fn drop(&mut self) {
        if std::thread::panicking() {
            eprintln!("while trying seed {}", self.0);
        }
    }
}

/// Bytes in hexadecimal.
pub fn hex(bytes: &[u8]) -> String {
    bytes.iter().map(|byte| format!("{byte:02x}")).collect()
}

/// Says how many inputs were compared.
pub fn report(count: usize, what: &str) {
    say(&format!("{count:>9} {what}\n"));
}

/// Writes a text past the capture of passing tests.
fn say(text: &str) {
    let _ = std::io::stdout().lock().write_all(text.as_bytes());
}

//! Writes an example tape, trace, list of torque steps, text or orders, the
//! orders that `planorders` is run with, or a seeded tape, trace, text or orders,
//! to standard output.

use std::io::{self, Write};
use std::process::ExitCode;

use reference::examples::{
    example, example_orders, example_steps, example_text, example_trace, NAMES, ORDER_NAMES,
    STEP_NAMES, TEXT_NAMES, TRACE_NAMES,
};
use reference::generate::{any_text, faulty_tape, orders, tape, trace};
use reference::order_cases::order_cases;
use reference::rng::Rng;

/// Name of the orders that `planorders` is run with.
const ORDER_CASES: &str = "order-cases";

/// Writes what the arguments name; explains itself otherwise.
fn main() -> ExitCode {
    let arguments: Vec<String> = std::env::args().skip(1).collect();
    let Some(bytes) = bytes_of(&arguments) else {
        let names = [
            &NAMES[..],
            &TRACE_NAMES,
            &STEP_NAMES,
            &TEXT_NAMES,
            &ORDER_NAMES,
            &[ORDER_CASES],
        ];
        eprintln!("maketape {}", names.concat().join(" | "));
        eprintln!("maketape tape | faulty | trace | text | orders SEED");
        return ExitCode::FAILURE;
    };
    match io::stdout().write_all(&bytes) {
        Ok(()) => ExitCode::SUCCESS,
        Err(_) => ExitCode::FAILURE,
    }
}

/// The bytes that the arguments ask for.
fn bytes_of(arguments: &[String]) -> Option<Vec<u8>> {
    match arguments {
        [name] if name == ORDER_CASES => Some(order_cases()),
        [name] => {
            let tape = example(name).map(|tape| tape.pack());
            let steps = || example_steps(name).map(|steps| steps.to_vec());
            let text = || example_text(name).map(String::into_bytes);
            let trace = || example_trace(name);
            let orders = || example_orders(name);
            let first = tape.or_else(trace).or_else(steps);
            first.or_else(text).or_else(orders)
        }
        [kind, seed] => seeded(kind, &mut Rng::new(seed.parse().ok()?)),
        _ => None,
    }
}

/// A seeded accepted tape, faulty tape, trace, text, or orders.
fn seeded(kind: &str, rng: &mut Rng) -> Option<Vec<u8>> {
    match kind {
        "tape" => Some(tape(rng)),
        "faulty" => Some(faulty_tape(rng)),
        "trace" => Some(trace(rng)),
        "text" => Some(any_text(rng)),
        "orders" => Some(orders(rng)),
        _ => None,
    }
}

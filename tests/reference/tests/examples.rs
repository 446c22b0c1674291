//! The stored example tapes, traces, torque steps, texts and orders.

use std::fs;
use std::path::PathBuf;

use reference::examples::{
    example, example_orders, example_steps, example_text, example_trace, shop_traffic, AHEAD,
    NAMES, ORDER_NAMES, STEP_NAMES, TEXT_NAMES, TRACE_NAMES,
};
use reference::listing::{planlist, planreplay};
use reference::machine::read_steps;
use reference::trace::Call;

/// The bytes of a file under `examples`.
fn stored(path: &str) -> Vec<u8> {
    let root = PathBuf::from(env!("CARGO_MANIFEST_DIR")).join("../../examples");
    fs::read(root.join(path)).unwrap_or_else(|error| panic!("{path}: {error}"))
}

#[test]
fn stored_tapes_are_these() {
    for name in NAMES {
        let tape = example(name).unwrap().pack();
        assert!(stored(&format!("tapes/{name}.tape")) == tape, "{name}");
    }
}

#[test]
fn stored_traces_are_these() {
    for name in TRACE_NAMES {
        let trace = example_trace(name).unwrap();
        assert!(stored(&format!("traces/{name}.trace")) == trace, "{name}");
    }
    assert_eq!(example_trace("none"), None);
}

/// They are accepted, and the pocket is planned otherwise with them.
#[test]
fn stored_steps_are_these() {
    let pocket = example("square-pocket").unwrap().pack();
    for name in STEP_NAMES {
        let steps = example_steps(name).unwrap();
        assert_eq!(stored(&format!("steps/{name}.steps")), steps, "{name}");
        assert_eq!(read_steps(&steps), Ok(steps), "{name}");
        assert_ne!(planlist(&pocket, &steps), planlist(&pocket, &[]), "{name}");
    }
    assert_eq!(example_steps("none"), None);
}

#[test]
fn stored_texts_are_these() {
    for name in TEXT_NAMES {
        let text = example_text(name).unwrap().into_bytes();
        assert!(stored(&format!("text/{name}.ngc")) == text, "{name}");
    }
    assert_eq!(example_text("none"), None);
}

#[test]
fn stored_orders_are_these() {
    for name in ORDER_NAMES {
        let orders = example_orders(name).unwrap();
        assert!(stored(&format!("orders/{name}.orders")) == orders, "{name}");
    }
    assert_eq!(example_orders("none"), None);
}

/// The shop's line holds 0 to 8 blocks, and all of these numbers occur. It is
/// refused by 8 once and by 2 after each 40 blocks, and never by 7.
#[test]
fn shop_traffic_holds_few_blocks() {
    let text = planreplay(&example_trace("shop-traffic").unwrap(), &[]);
    let refused = |number: u64| {
        let line = format!("refused {number}");
        text.lines().filter(|l| *l == line).count()
    };
    assert_eq!([refused(2), refused(7), refused(8)], [4, 0, 1]);
    let mut met = [false; AHEAD + 1];
    let mut held: usize = 0;
    for (call, answer) in shop_traffic().iter().zip(text.lines()) {
        match call {
            Call::Take => held -= usize::from(answer != "refused 8"),
            Call::Add(_) => held += usize::from(answer == "added"),
        }
        met[held] = true;
    }
    assert_eq!(met, [true; AHEAD + 1]);
    assert!(text.contains(&format!("\nheld {held}\n")) && held > 0);
}

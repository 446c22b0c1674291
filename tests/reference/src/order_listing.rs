//! The text that `planorders` writes.

use std::io::{self, Read, Write};

use crate::host::Host;
use crate::line::{Line, LookAhead};
use crate::listing::{added_line, taken_line, text_of};
use crate::orders::{Event, EVENT_BYTES};
use crate::records::{run_records, Records};

/// Text of `planorders` for a host's events under loaded torque steps, none if
/// the list is empty, by the line of blocks.
pub fn planorders(orders: &[u8], steps: &[u8]) -> String {
    planorders_by::<Line>(orders, steps)
}

/// Text of `planorders` for a host's events under loaded steps, by any planner.
pub fn planorders_by<P: LookAhead>(orders: &[u8], steps: &[u8]) -> String {
    text_of(|text| run_orders::<P>(&mut { orders }, steps, text))
}

/// Reads any number of a host's events and writes a line for each, then the
/// number held, the plan and the host's point, or the refusal line alone.
pub fn run_orders<P: LookAhead>(
    input: &mut impl Read,
    steps: &[u8],
    output: &mut impl Write,
) -> io::Result<()> {
    run_records::<P>(Host::default(), input, steps, output)
}

/// The events of a host, which keeps its point and its count.
impl Records for Host {
    const BYTES: usize = EVENT_BYTES;

    fn answer_line<P: LookAhead>(&mut self, planner: &mut P, record: &[u8]) -> String {
        let event = record.try_into().expect("the bytes of one event");
        event_line(planner, self, &Event::read(event))
    }

    fn last_lines(&self) -> String {
        point_line(self)
    }
}

/// Runs one event and gives the line that answers it.
pub fn event_line<P: LookAhead>(planner: &mut P, host: &mut Host, event: &Event) -> String {
    match event.order() {
        None => taken_line(planner),
        Some(order) => added_line(host.order(planner, &order, &event.offset)),
    }
}

/// The line of the host's rounded point: its three doubles by their bits.
pub fn point_line(host: &Host) -> String {
    let [x, y, z] = host.position();
    format!("point {x} {y} {z}\n")
}

//! The orders that a host gives for a path: feeds to the ends of its blocks, in
//! mm, under a work offset.

use reference::generate::machine_m;
use reference::line::PLACES;
use reference::machine::Block;
use reference::orders::{pack_orders, Event};
use reference::tape::MOST_BLOCKS;

use crate::paths::Path;

/// Work offset, mm.
const OFFSET: [f64; 3] = [61.3, 42.85, 0.1];

/// An order for each of a path's first blocks, which have no radius.
pub fn orders_of(path: Path, count: usize) -> Vec<Event> {
    let mut point = [0; 3];
    let order = |block: Block| {
        point = [0, 1, 2].map(|axis| point[axis] + block.moves[axis]);
        let target = [0, 1, 2].map(|axis| point[axis] as f64 / 1_000.0 + OFFSET[axis]);
        Event::feed(target, block.feed as f64 / 1_000.0).under(OFFSET)
    };
    path.blocks(count).into_iter().map(order).collect()
}

/// The events of a path's first 2,048 blocks on machine M, in bytes: from the
/// 65th order on a take comes before each. Gives their number with them.
pub fn events_of(path: Path) -> (Vec<u8>, usize) {
    let mut events = Vec::new();
    for (held, order) in orders_of(path, MOST_BLOCKS).into_iter().enumerate() {
        if held >= PLACES {
            events.push(Event::take());
        }
        events.push(order);
    }
    (pack_orders(&machine_m(), &events), events.len())
}

#[cfg(test)]
mod tests {
    use super::*;
    use reference::host::Host;
    use reference::line::LookAhead;
    use reference::stairs::Planner;

    /// The blocks that the orders add are the path's, but for their marks,
    /// which are the orders' places from 1.
    #[test]
    fn the_orders_add_the_path_s_blocks() {
        for path in [Path::Mould, Path::Straight] {
            let mut planner = Planner::fresh(&machine_m(), &[]).expect("machine M passes");
            let mut host = Host::default();
            for (event, block) in orders_of(path, 20_000).iter().zip(path.blocks(20_000)) {
                let order = event.order().expect("an order");
                assert_eq!(host.order(&mut planner, &order, &event.offset), Ok(()));
                let mark = block.mark + 1;
                let added = planner.take().expect("a block held").block;
                assert_eq!(added, Block { mark, ..block });
            }
        }
    }

    #[test]
    fn a_take_comes_before_each_order_past_the_64th() {
        let (bytes, count) = events_of(Path::Mould);
        assert_eq!(count, 64 + 2 * (2_048 - 64));
        assert_eq!(bytes.len(), 24 + 68 * count);
        // the words of the first events' kinds, and of those behind the 64th
        let kind = |place: usize| bytes[24 + 68 * place + 3];
        assert_eq!([0, 1, 63, 64, 65, 66, 67].map(kind), [2, 2, 2, 0, 2, 0, 2]);
    }
}

//! Search on an inequality: the meaning of "the largest whole number with ...".

/// Largest whole number for which `holds` is true.
///
/// `holds` is true at 0, true up to some number and false at every greater
/// one. The number tried is never above twice the answer plus 1, which keeps
/// the products inside 128 bits.
pub fn largest(holds: impl Fn(u128) -> bool) -> u128 {
    if !holds(1) {
        return 0;
    }
    let mut low = 1;
    while holds(2 * low) {
        low *= 2;
    }
    between(low, 2 * low, holds)
}

/// Halves the gap between `low`, where `holds` is true, and `high`, where it
/// is false, until they are neighbours; gives `low`.
fn between(mut low: u128, mut high: u128, holds: impl Fn(u128) -> bool) -> u128 {
    while high - low > 1 {
        let middle = low + (high - low) / 2;
        if holds(middle) {
            low = middle;
        } else {
            high = middle;
        }
    }
    low
}

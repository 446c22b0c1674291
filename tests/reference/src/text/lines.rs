//! The lines of a text.

/// The lines of a text in order, without their line feeds. Each ends in a line
/// feed, the last perhaps without, so that a text which ends in one has no
/// further line, and the empty text has none.
pub fn lines(text: &[u8]) -> impl Iterator<Item = &[u8]> {
    let with_ends = text.split_inclusive(|byte| *byte == b'\n');
    with_ends.map(|line| line.strip_suffix(b"\n").unwrap_or(line))
}

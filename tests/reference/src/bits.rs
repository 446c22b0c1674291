//! Fields packed without gaps, most significant bit first, bit by bit.

/// Reads fields from bytes, first bit first.
pub struct BitReader<'a> {
    bytes: &'a [u8],
    next: usize,
}

impl<'a> BitReader<'a> {
    /// A reader that stands at the first bit.
    pub fn new(bytes: &'a [u8]) -> Self {
        BitReader { bytes, next: 0 }
    }

    /// One bit, 0 or 1.
    fn bit(&mut self) -> u64 {
        let byte = self.bytes[self.next / 8];
        let bit = byte >> (7 - self.next % 8) & 1;
        self.next += 1;
        bit as u64
    }

    /// Unsigned field of `width` bits, at most 63.
    pub fn unsigned(&mut self, width: usize) -> u64 {
        (0..width).fold(0, |value, _| value * 2 + self.bit())
    }

    /// Two's complement field of `width` bits: the first bit counts negative.
    pub fn signed(&mut self, width: usize) -> i64 {
        let sign = self.bit() as i64;
        let rest = self.unsigned(width - 1) as i64;
        rest - sign * (1 << (width - 1))
    }
}

/// Collects fields into bytes, first bit first.
#[derive(Default)]
pub struct BitWriter {
    bits: Vec<bool>,
}

impl BitWriter {
    /// Appends the lowest `width` bits of `value`, most significant first.
    pub fn unsigned(&mut self, value: u64, width: usize) {
        for weight in (0..width).rev() {
            self.bits.push(value >> weight & 1 == 1);
        }
    }

    /// Appends `value` in two's complement of `width` bits.
    pub fn signed(&mut self, value: i64, width: usize) {
        self.unsigned(value as u64, width);
    }

    /// The bytes; the number of bits is a multiple of 8.
    pub fn bytes(&self) -> Vec<u8> {
        assert!(self.bits.len().is_multiple_of(8));
        let byte = |part: &[bool]| part.iter().fold(0, |b, bit| b * 2 + *bit as u8);
        self.bits.chunks(8).map(byte).collect()
    }
}

//! Bits packed into bytes, the first bit in the top bit of the first byte;
//! numbers most significant bit first (annex A).

/// Bit `index` of packed bytes.
pub fn bit(bytes: &[u8], index: usize) -> bool {
    bytes[index / 8] & (0x80 >> (index % 8)) != 0
}

/// Sets bit `index` of packed bytes.
pub fn set_bit(bytes: &mut [u8], index: usize, value: bool) {
    let mask = 0x80 >> (index % 8);
    if value {
        bytes[index / 8] |= mask;
    } else {
        bytes[index / 8] &= !mask;
    }
}

/// The bits `from` up to, not including, `to`.
pub fn bits(bytes: &[u8], from: usize, to: usize) -> impl Iterator<Item = bool> + '_ {
    (from..to).map(move |index| bit(bytes, index))
}

/// Reads packed bits one after the other. Reading past the end is a slip of
/// the caller and panics.
pub struct BitReader<'a> {
    bytes: &'a [u8],
    place: usize,
}

impl<'a> BitReader<'a> {
    pub fn new(bytes: &'a [u8]) -> Self {
        BitReader::at(bytes, 0)
    }

    /// A reader whose next bit is bit `place`.
    pub fn at(bytes: &'a [u8], place: usize) -> Self {
        BitReader { bytes, place }
    }

    /// The index of the next bit.
    pub fn place(&self) -> usize {
        self.place
    }

    pub fn flag(&mut self) -> bool {
        let value = bit(self.bytes, self.place);
        self.place += 1;
        value
    }

    /// The next `width` (at most 32) bits as a number.
    pub fn number(&mut self, width: u32) -> u32 {
        let mut value = 0;
        for _ in 0..width {
            value = value << 1 | u32::from(self.flag());
        }
        value
    }
}

/// Collects bits one after the other; the last byte is filled with zeros.
#[derive(Default)]
pub struct BitWriter {
    bytes: Vec<u8>,
    len: usize,
}

impl BitWriter {
    pub fn new() -> Self {
        BitWriter::default()
    }

    /// The number of bits written.
    pub fn len(&self) -> usize {
        self.len
    }

    pub fn is_empty(&self) -> bool {
        self.len == 0
    }

    pub fn flag(&mut self, value: bool) {
        if self.len == 8 * self.bytes.len() {
            self.bytes.push(0);
        }
        set_bit(&mut self.bytes, self.len, value);
        self.len += 1;
    }

    /// `value` in `width` (at most 32) bits. A value too large is a slip of
    /// the caller and panics.
    pub fn number(&mut self, width: u32, value: u32) {
        assert!(u64::from(value) < 1 << width, "{value} in {width} bits");
        for place in (0..width).rev() {
            self.flag(value >> place & 1 != 0);
        }
    }

    /// Whole bytes.
    pub fn whole(&mut self, bytes: &[u8]) {
        for byte in bytes {
            self.number(8, u32::from(*byte));
        }
    }

    /// Zeros until `len` bits are written.
    pub fn zeros_to(&mut self, len: usize) {
        while self.len < len {
            self.flag(false);
        }
    }

    /// Drops the bits from `len` on.
    pub fn truncate(&mut self, len: usize) {
        if len < self.len {
            for index in len..self.len {
                set_bit(&mut self.bytes, index, false);
            }
            self.bytes.truncate(len.div_ceil(8));
            self.len = len;
        }
    }

    /// The packed bytes so far.
    pub fn bytes(&self) -> &[u8] {
        &self.bytes
    }

    pub fn into_bytes(self) -> Vec<u8> {
        self.bytes
    }
}

//! The CRC of annex B: a shift register of `width` stages, all ones at first,
//! fed with the data bits in their order and inverted at the end.

/// A CRC code: its degree, and the coefficients below the highest.
#[derive(Clone, Copy, Debug, PartialEq, Eq)]
pub struct Crc {
    pub width: u32,
    pub polynomial: u32,
}

/// x^8 + x^5 + x^3 + x^2 + x + 1, over the header of a payload word.
pub const PAYLOAD: Crc = Crc {
    width: 8,
    polynomial: 0x2F,
};

/// x^12 + x^11 + x^3 + x^2 + x + 1, over the first 750 bits of a signalling word.
pub const SIGNALLING: Crc = Crc {
    width: 12,
    polynomial: 0x80F,
};

impl Crc {
    fn ones(&self) -> u32 {
        (1 << self.width) - 1
    }

    /// The register after the bits, begun with `register`, not inverted.
    pub fn register(&self, mut register: u32, bits: impl IntoIterator<Item = bool>) -> u32 {
        for bit in bits {
            let out = register >> (self.width - 1) & 1 != 0;
            register = register << 1 & self.ones();
            if out != bit {
                register ^= self.polynomial;
            }
        }
        register
    }

    /// The CRC word of annex B.
    pub fn word(&self, bits: impl IntoIterator<Item = bool>) -> u32 {
        self.register(self.ones(), bits) ^ self.ones()
    }
}

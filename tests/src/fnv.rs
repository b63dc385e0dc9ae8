//! FNV-1a, 64 bits: the checksum of the vectors.

#[derive(Clone, Copy)]
pub struct Fnv(u64);

impl Default for Fnv {
    fn default() -> Self {
        Fnv(0xCBF2_9CE4_8422_2325)
    }
}

impl Fnv {
    pub fn byte(&mut self, byte: u8) {
        self.0 = (self.0 ^ u64::from(byte)).wrapping_mul(0x0000_0100_0000_01B3);
    }

    pub fn bytes(&mut self, bytes: &[u8]) {
        bytes.iter().for_each(|&b| self.byte(b));
    }

    pub fn value(self) -> u64 {
        self.0
    }
}

pub fn fnv(bytes: &[u8]) -> u64 {
    let mut sum = Fnv::default();
    sum.bytes(bytes);
    sum.value()
}

#[cfg(test)]
mod tests {
    /// Values printed with the definition of FNV-1a.
    #[test]
    fn known_values() {
        assert_eq!(super::fnv(b""), 0xCBF2_9CE4_8422_2325);
        assert_eq!(super::fnv(b"a"), 0xAF63_DC4C_8601_EC8C);
        assert_eq!(super::fnv(b"foobar"), 0x8594_4171_F739_67E8);
    }
}

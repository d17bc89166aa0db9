//! Stand-in for the crate crc 3, whose text is not given: CRC-32/ISO-HDLC alone, computed by crc32fast.

use std::marker::PhantomData;

/// The name of the one algorithm there is.
pub struct Algorithm;
pub static CRC_32_ISO_HDLC: Algorithm = Algorithm;

pub struct Crc<W>(PhantomData<W>);

impl Crc<u32> {
    pub const fn new(_algorithm: &'static Algorithm) -> Self {
        Crc(PhantomData)
    }

    pub fn checksum(&self, bytes: &[u8]) -> u32 {
        crc32fast::hash(bytes)
    }

    pub fn digest(&self) -> Digest {
        Digest(crc32fast::Hasher::new())
    }
}

pub struct Digest(crc32fast::Hasher);

impl Digest {
    pub fn update(&mut self, bytes: &[u8]) {
        self.0.update(bytes)
    }

    pub fn finalize(self) -> u32 {
        self.0.finalize()
    }
}

#[cfg(test)]
mod tests {
    use super::*;

    /// The published vectors of CRC-32/ISO-HDLC.
    #[test]
    fn vectors() {
        let crc = Crc::<u32>::new(&CRC_32_ISO_HDLC);
        assert_eq!(crc.checksum(b""), 0);
        assert_eq!(crc.checksum(b"a"), 0xE8B7_BE43);
        assert_eq!(crc.checksum(b"123456789"), 0xCBF4_3926);
        assert_eq!(crc.checksum(&[0; 32]), 0x190A_55AD);
        assert_eq!(crc.checksum(&[255; 32]), 0xFF6C_AB0B);
        assert_eq!(crc.checksum(b"The quick brown fox jumps over the lazy dog"), 0x414F_A339);
        let mut parts = crc.digest();
        parts.update(b"1234");
        parts.update(b"56789");
        assert_eq!(parts.finalize(), 0xCBF4_3926);
    }
}

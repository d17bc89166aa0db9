//! Stand-in for the crate crc 3, whose text is not given: CRC-32/ISO-HDLC alone, a byte at a time by a table of 256 entries that the compiler fills.

use std::marker::PhantomData;

const TABLE: [u32; 256] = table();

const fn table() -> [u32; 256] {
    let mut table = [0; 256];
    let mut i = 0;
    while i < 256 {
        let mut register = i as u32;
        let mut bit = 0;
        while bit < 8 {
            register = (register >> 1) ^ if register & 1 == 1 { 0xEDB8_8320 } else { 0 };
            bit += 1;
        }
        table[i] = register;
        i += 1;
    }
    table
}

fn feed(register: u32, bytes: &[u8]) -> u32 {
    bytes.iter().fold(register, |r, byte| TABLE[(r as u8 ^ byte) as usize] ^ (r >> 8))
}

/// The name of the one algorithm there is.
pub struct Algorithm;
pub static CRC_32_ISO_HDLC: Algorithm = Algorithm;

pub struct Crc<W>(PhantomData<W>);

impl Crc<u32> {
    pub const fn new(_algorithm: &'static Algorithm) -> Self {
        Crc(PhantomData)
    }

    pub fn checksum(&self, bytes: &[u8]) -> u32 {
        !feed(!0, bytes)
    }

    pub fn digest(&self) -> Digest {
        Digest(!0)
    }
}

pub struct Digest(u32);

impl Digest {
    pub fn update(&mut self, bytes: &[u8]) {
        self.0 = feed(self.0, bytes)
    }

    pub fn finalize(self) -> u32 {
        !self.0
    }
}

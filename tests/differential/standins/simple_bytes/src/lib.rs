//! Stand-in for the crate simple_bytes, whose text is not given: a position in some bytes, and numbers read and written there.
//! Reading or writing past the end panics, as in the crate's documentation.

/// The bytes to work on, and where in them.
pub trait Placed {
    fn all(&self) -> &[u8];
    fn place(&self) -> usize;
    fn go(&mut self, place: usize);
}

pub trait BytesSeek {
    fn position(&self) -> usize;
    fn seek(&mut self, place: usize);
}

impl<T: Placed> BytesSeek for T {
    fn position(&self) -> usize {
        self.place()
    }

    fn seek(&mut self, place: usize) {
        assert!(place <= self.all().len());
        self.go(place)
    }
}

pub trait BytesRead {
    fn as_slice(&self) -> &[u8];
    fn remaining(&self) -> &[u8];
    fn read(&mut self, n: usize) -> &[u8];

    fn read_u8(&mut self) -> u8 {
        self.read(1)[0]
    }

    fn read_le_u16(&mut self) -> u16 {
        u16::from_le_bytes(self.read(2).try_into().unwrap())
    }

    fn read_le_u32(&mut self) -> u32 {
        u32::from_le_bytes(self.read(4).try_into().unwrap())
    }

    fn read_le_u64(&mut self) -> u64 {
        u64::from_le_bytes(self.read(8).try_into().unwrap())
    }
}

impl<T: Placed> BytesRead for T {
    fn as_slice(&self) -> &[u8] {
        self.all()
    }

    fn remaining(&self) -> &[u8] {
        &self.all()[self.place()..]
    }

    fn read(&mut self, n: usize) -> &[u8] {
        let from = self.place();
        assert!(n <= self.all().len() - from);
        self.go(from + n);
        &self.all()[from..from + n]
    }
}

pub trait BytesWrite {
    fn write(&mut self, bytes: impl AsRef<[u8]>);

    fn write_u8(&mut self, v: u8) {
        self.write([v])
    }

    /// Big-endian, as the crate's functions without `le` are; the original writes only a 0 by it.
    fn write_u32(&mut self, v: u32) {
        self.write(v.to_be_bytes())
    }

    fn write_le_u16(&mut self, v: u16) {
        self.write(v.to_le_bytes())
    }

    fn write_le_u32(&mut self, v: u32) {
        self.write(v.to_le_bytes())
    }

    fn write_le_u64(&mut self, v: u64) {
        self.write(v.to_le_bytes())
    }
}

pub struct Bytes<'a> {
    bytes: &'a [u8],
    place: usize,
}

impl<'a> From<&'a [u8]> for Bytes<'a> {
    fn from(bytes: &'a [u8]) -> Self {
        Self { bytes, place: 0 }
    }
}

impl Placed for Bytes<'_> {
    fn all(&self) -> &[u8] {
        self.bytes
    }
    fn place(&self) -> usize {
        self.place
    }
    fn go(&mut self, place: usize) {
        self.place = place
    }
}

pub struct BytesArray<const N: usize> {
    bytes: [u8; N],
    place: usize,
}

impl<const N: usize> From<[u8; N]> for BytesArray<N> {
    fn from(bytes: [u8; N]) -> Self {
        Self { bytes, place: 0 }
    }
}

impl<const N: usize> Placed for BytesArray<N> {
    fn all(&self) -> &[u8] {
        &self.bytes
    }
    fn place(&self) -> usize {
        self.place
    }
    fn go(&mut self, place: usize) {
        self.place = place
    }
}

impl<const N: usize> BytesArray<N> {
    pub fn into_array(self) -> [u8; N] {
        self.bytes
    }
}

impl<const N: usize> AsMut<[u8]> for BytesArray<N> {
    fn as_mut(&mut self) -> &mut [u8] {
        &mut self.bytes
    }
}

impl<const N: usize> BytesWrite for BytesArray<N> {
    fn write(&mut self, bytes: impl AsRef<[u8]>) {
        let (from, bytes) = (self.place, bytes.as_ref());
        self.bytes[from..from + bytes.len()].copy_from_slice(bytes);
        self.place = from + bytes.len();
    }
}

#[cfg(test)]
mod tests {
    use super::*;

    /// Numbers stand in the order that their names say, one after the other, and are read back.
    #[test]
    fn numbers() {
        let mut b = BytesArray::from([0u8; 18]);
        b.write_u8(1);
        b.write_le_u16(0x0203);
        b.write_le_u32(0x0405_0607);
        b.write_le_u64(0x0809_0A0B_0C0D_0E0F);
        BytesWrite::write(&mut b, [16, 17, 18]);
        assert_eq!(b.position(), 18);
        assert_eq!(b.as_slice(), [1, 3, 2, 7, 6, 5, 4, 15, 14, 13, 12, 11, 10, 9, 8, 16, 17, 18]);
        let all = b.into_array();
        let mut r = Bytes::from(&all[..]);
        assert_eq!((r.read_u8(), r.read_le_u16(), r.read_le_u32()), (1, 0x0203, 0x0405_0607));
        assert_eq!(r.read_le_u64(), 0x0809_0A0B_0C0D_0E0F);
        assert_eq!(r.remaining(), [16, 17, 18]);
        BytesSeek::seek(&mut r, 1);
        assert_eq!(r.read(2), [3, 2]);
        assert_eq!(BytesSeek::position(&r), 3);
    }

    #[test]
    #[should_panic]
    fn past_the_end() {
        Bytes::from(&[0u8; 3][..]).read_le_u32();
    }
}

//! GUIDs: 16 bytes, of which the first eight are a 32-bit and two 16-bit little-endian fields.
use crate::ffi;
use std::{error, fmt, str::FromStr};

/// A GUID, of a disk, of a partition or of a partition's type.
#[derive(Clone, Copy, PartialEq, Eq, PartialOrd, Ord, Hash, Default)]
pub struct Guid([u8; 16]);

impl Guid {
    /// The GUID of 16 zero bytes. A partition of this type is refused by [`NilType`](crate::Refusal::NilType).
    pub const NIL: Guid = Guid([0; 16]);

    /// The type of plain data partitions: `ebd0a0a2-b9e5-4433-87c0-68b6b72699c7`.
    pub const BASIC_DATA: Guid = Guid::from_fields(0xebd0_a0a2, 0xb9e5, 0x4433, [0x87, 0xc0, 0x68, 0xb6, 0xb7, 0x26, 0x99, 0xc7]);

    /// The GUID whose bytes on the card are these.
    pub const fn from_bytes(bytes: [u8; 16]) -> Guid {
        Guid(bytes)
    }

    /// Its bytes on the card.
    pub const fn to_bytes(self) -> [u8; 16] {
        self.0
    }

    /// The GUID of these fields, in the order in which they are written out.
    pub const fn from_fields(time_low: u32, time_mid: u16, time_high: u16, tail: [u8; 8]) -> Guid {
        let (a, b, c, d) = (time_low.to_le_bytes(), time_mid.to_le_bytes(), time_high.to_le_bytes(), tail);
        Guid([a[0], a[1], a[2], a[3], b[0], b[1], c[0], c[1], d[0], d[1], d[2], d[3], d[4], d[5], d[6], d[7]])
    }

    /// Its fields, in the order in which they are written out.
    pub const fn to_fields(self) -> (u32, u16, u16, [u8; 8]) {
        let [a0, a1, a2, a3, b0, b1, c0, c1, tail @ ..] = self.0;
        (u32::from_le_bytes([a0, a1, a2, a3]), u16::from_le_bytes([b0, b1]), u16::from_le_bytes([c0, c1]), tail)
    }

    pub(crate) fn to_c(self) -> ffi::gpt_guid {
        let (time_low, time_mid, time_high, tail) = self.to_fields();
        ffi::gpt_guid { time_low, time_mid, time_high, tail }
    }

    pub(crate) fn from_c(guid: ffi::gpt_guid) -> Guid {
        Guid::from_fields(guid.time_low, guid.time_mid, guid.time_high, guid.tail)
    }
}

/// The usual form, as `ebd0a0a2-b9e5-4433-87c0-68b6b72699c7`.
impl fmt::Display for Guid {
    fn fmt(&self, f: &mut fmt::Formatter<'_>) -> fmt::Result {
        let (time_low, time_mid, time_high, [t0, t1, node @ ..]) = self.to_fields();
        write!(f, "{time_low:08x}-{time_mid:04x}-{time_high:04x}-{t0:02x}{t1:02x}-")?;
        node.iter().try_for_each(|byte| write!(f, "{byte:02x}"))
    }
}

impl fmt::Debug for Guid {
    fn fmt(&self, f: &mut fmt::Formatter<'_>) -> fmt::Result {
        write!(f, "Guid({self})")
    }
}

/// The text is not a GUID in the usual form: 32 hexadecimal digits with dashes after the 8th, 12th, 16th and 20th.
#[derive(Clone, Copy, Debug, PartialEq, Eq)]
pub struct GuidError;

impl fmt::Display for GuidError {
    fn fmt(&self, f: &mut fmt::Formatter<'_>) -> fmt::Result {
        f.write_str("not a GUID of the form ebd0a0a2-b9e5-4433-87c0-68b6b72699c7")
    }
}

impl error::Error for GuidError {}

/// Reads the usual form, with digits of either case.
impl FromStr for Guid {
    type Err = GuidError;

    fn from_str(text: &str) -> Result<Guid, GuidError> {
        let mut written = [0; 16];
        let mut digits = 0;
        for (place, byte) in text.bytes().enumerate() {
            match (place, byte) {
                (8 | 13 | 18 | 23, b'-') => {}
                (8 | 13 | 18 | 23 | 36.., _) => return Err(GuidError),
                _ => {
                    let value = (byte as char).to_digit(16).ok_or(GuidError)? as u8;
                    written[digits / 2] = written[digits / 2] << 4 | value;
                    digits += 1;
                }
            }
        }
        if digits != 32 {
            return Err(GuidError);
        }
        let [a0, a1, a2, a3, b0, b1, c0, c1, tail @ ..] = written;
        Ok(Guid::from_fields(u32::from_be_bytes([a0, a1, a2, a3]), u16::from_be_bytes([b0, b1]), u16::from_be_bytes([c0, c1]), tail))
    }
}

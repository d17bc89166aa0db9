//! What a slot holds: the record of a partition, its flags and its name.
use crate::refusal::accepted;
use crate::{ffi, Guid, Refusal};
use std::{error, fmt, str::FromStr};

/// A partition's name: at most 36 UTF-16 units, ended by the first zero.
///
/// A card may hold units that are no text, such as half of a surrogate pair. They are kept, so that a record that was read can be put back as it was;
/// where the name is printed, U+FFFD stands for them.
#[derive(Clone, Copy, PartialEq, Eq, PartialOrd, Ord, Hash)]
pub struct Name([u16; Name::UNITS]);

impl Name {
    /// How many units there is room for.
    pub const UNITS: usize = 36;

    /// The name without units.
    pub const EMPTY: Name = Name([0; Name::UNITS]);

    /// The name that reads back as this text.
    ///
    /// # Errors
    ///
    /// [`NameError`]: it has too many units, or a zero.
    pub fn new(text: &str) -> Result<Name, NameError> {
        let mut name = Name::EMPTY;
        let mut units = 0;
        for unit in text.encode_utf16() {
            if unit == 0 {
                return Err(NameError::Zero);
            }
            if let Some(place) = name.0.get_mut(units) {
                *place = unit;
            }
            units += 1;
        }
        if units > Name::UNITS {
            return Err(NameError::TooLong { units });
        }
        Ok(name)
    }

    /// The name of raw units. Those after the first zero are cleared, as [`put`](crate::Card::put) clears them.
    pub fn from_raw(mut units: [u16; Name::UNITS]) -> Name {
        if let Some(end) = units.iter().position(|unit| *unit == 0) {
            units[end..].fill(0);
        }
        Name(units)
    }

    /// All 36 units, as they stand on the card.
    pub fn raw(&self) -> &[u16; Name::UNITS] {
        &self.0
    }

    /// The units before the first zero.
    pub fn units(&self) -> &[u16] {
        self.0.split(|unit| *unit == 0).next().unwrap_or_default()
    }
}

impl Default for Name {
    fn default() -> Name {
        Name::EMPTY
    }
}

impl fmt::Display for Name {
    fn fmt(&self, f: &mut fmt::Formatter<'_>) -> fmt::Result {
        f.pad(&String::from_utf16_lossy(self.units()))
    }
}

impl fmt::Debug for Name {
    fn fmt(&self, f: &mut fmt::Formatter<'_>) -> fmt::Result {
        write!(f, "Name({:?})", String::from_utf16_lossy(self.units()))
    }
}

impl FromStr for Name {
    type Err = NameError;

    fn from_str(text: &str) -> Result<Name, NameError> {
        Name::new(text)
    }
}

/// Whether the name's units are those of the text.
impl PartialEq<str> for Name {
    fn eq(&self, text: &str) -> bool {
        text.encode_utf16().eq(self.units().iter().copied())
    }
}

/// Whether the name's units are those of the text.
impl PartialEq<&str> for Name {
    fn eq(&self, text: &&str) -> bool {
        self == *text
    }
}

/// Why a text cannot be a partition's name.
#[derive(Clone, Copy, Debug, PartialEq, Eq)]
#[non_exhaustive]
pub enum NameError {
    /// The text has more than 36 UTF-16 units.
    TooLong {
        /// How many it has.
        units: usize,
    },
    /// The text has a zero in it, at which the name would end.
    Zero,
}

impl fmt::Display for NameError {
    fn fmt(&self, f: &mut fmt::Formatter<'_>) -> fmt::Result {
        match self {
            NameError::TooLong { units } => write!(f, "a name has at most {} UTF-16 units, not {units}", Name::UNITS),
            NameError::Zero => f.write_str("a name ends at its first zero, so none can be in it"),
        }
    }
}

impl error::Error for NameError {}

/// The flags of a partition by name, as UEFI divides the 64 bits of an entry.
#[derive(Clone, Copy, Debug, Default, PartialEq, Eq, Hash)]
pub struct Flags {
    /// Bit 0: the machine needs the partition.
    pub required: bool,
    /// Bit 1: firmware makes no block I/O protocol for it.
    pub no_block_io: bool,
    /// Bit 2: a legacy BIOS may boot from it.
    pub legacy_bootable: bool,
    /// Bits 3 to 47 as a number, so that bit 3 alone is 1. UEFI keeps them zero, and [`put`](crate::Card::put) refuses any other.
    pub reserved: u64,
    /// Bits 48 to 63, for the owner of the partition's type.
    pub owner: u16,
}

impl Flags {
    /// No flags.
    pub const NONE: Flags = Flags { required: false, no_block_io: false, legacy_bootable: false, reserved: 0, owner: 0 };

    /// The flags in 64 bits, whatever they are.
    pub fn from_bits(bits: u64) -> Flags {
        // SAFETY: the call takes and gives numbers alone.
        Flags::from_c(unsafe { ffi::gpt_flags_of(bits) })
    }

    /// The 64 bits. Those of flags that were read are the bits that stood there.
    ///
    /// # Errors
    ///
    /// Refused by 28 if the reserved part needs more than 45 bits.
    pub fn bits(self) -> Result<u64, Refusal> {
        // SAFETY: the call takes and gives numbers alone, and each yes/no is 0 or 1.
        let answer = unsafe { ffi::gpt_flags_bits(self.to_c()) };
        accepted(answer.number, 0, 0, 0).map(|()| answer.bits).map_err(|refused| refused.refusal)
    }

    fn to_c(self) -> ffi::gpt_flags {
        let Flags { required, no_block_io, legacy_bootable, reserved, owner } = self;
        ffi::gpt_flags { reserved, owner, required: required.into(), no_block_io: no_block_io.into(), legacy_bootable: legacy_bootable.into() }
    }

    fn from_c(flags: ffi::gpt_flags) -> Flags {
        let ffi::gpt_flags { reserved, owner, required, no_block_io, legacy_bootable } = flags;
        Flags { required: required != 0, no_block_io: no_block_io != 0, legacy_bootable: legacy_bootable != 0, reserved, owner }
    }
}

/// A partition, as an entry of the table describes it. Its fields take every value; [`put`](crate::Card::put) decides whether the card does.
#[derive(Clone, Copy, Debug, PartialEq, Eq, Hash)]
pub struct Record {
    /// What the partition is for.
    pub type_guid: Guid,
    /// The partition's own GUID. No other used slot of the card has it.
    pub guid: Guid,
    /// Its first block.
    pub first: u64,
    /// Its last block, which is still its own.
    pub last: u64,
    /// Its flags.
    pub flags: Flags,
    /// Its name.
    pub name: Name,
}

impl Record {
    /// A record without flags. Only the name is tested here.
    ///
    /// # Errors
    ///
    /// [`NameError`]: the name has too many units, or a zero.
    pub fn new(type_guid: Guid, guid: Guid, first: u64, last: u64, name: &str) -> Result<Record, NameError> {
        Ok(Record { type_guid, guid, first, last, flags: Flags::NONE, name: Name::new(name)? })
    }

    pub(crate) fn to_c(self) -> ffi::gpt_partition {
        ffi::gpt_partition {
            part_type_guid: self.type_guid.to_c(),
            part_guid: self.guid.to_c(),
            first_lba: self.first,
            last_lba: self.last,
            flags: self.flags.to_c(),
            name: *self.name.raw(),
        }
    }

    pub(crate) fn from_c(partition: ffi::gpt_partition) -> Record {
        Record {
            type_guid: Guid::from_c(partition.part_type_guid),
            guid: Guid::from_c(partition.part_guid),
            first: partition.first_lba,
            last: partition.last_lba,
            flags: Flags::from_c(partition.flags),
            name: Name::from_raw(partition.name),
        }
    }

    pub(crate) fn from_entry(entry: ffi::gpt_entry) -> Record {
        Record {
            type_guid: Guid::from_c(entry.part_type_guid),
            guid: Guid::from_c(entry.part_guid),
            first: entry.first_lba,
            last: entry.last_lba,
            flags: Flags::from_bits(entry.flags),
            name: Name::from_raw(entry.name),
        }
    }
}

/// A used slot and what it holds.
#[derive(Clone, Copy, Debug, PartialEq, Eq, Hash)]
pub struct Entry {
    /// The slot, from 1 to 128.
    pub slot: u32,
    /// Its record.
    pub record: Record,
}

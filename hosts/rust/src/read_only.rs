//! A card in an image that is only read: the calls of [`Card`] that change nothing.
use crate::refusal::accepted;
use crate::{calls, ffi, labels, BlockSize, Card, Dated, Guid, Label, Listing, Record, Refused, SetRefused, SlotMap};
use std::{fmt, ops::RangeInclusive};

/// A card in an image that is lent to be read, as a file's mapping or bytes that others read too. [`CardRef::open`] has checked it.
///
/// ```
/// use card::{BlockSize::B512, Card, CardRef, Guid};
/// # fn main() -> Result<(), Box<dyn std::error::Error>> {
/// # let mut image = vec![0; 68 * 512];
/// # Card::lay(&mut image, B512, Guid::BASIC_DATA)?;
/// let card = CardRef::open(&image, B512)?;
/// assert_eq!((card.list()?.len(), card.free_ranges()?), (0, vec![34..=34]));
/// # Ok(())
/// # }
/// ```
#[derive(Clone, Copy)]
pub struct CardRef<'image> {
    image: &'image [u8],
    block_size: BlockSize,
}

/// The disk GUID of a card in an image, which both tables have.
///
/// # Errors
///
/// Refused as [`check`](crate::check) is.
pub fn disk_guid(image: &[u8], block_size: BlockSize) -> Result<Guid, Refused> {
    calls::check(image, block_size)?;
    // SAFETY: the pointer and the length are those of one slice, which is only read; a slice's pointer is not null, also where it is empty.
    let read = unsafe { ffi::gpt_read_primary_header(image.as_ptr(), image.len(), block_size.bytes()) };
    accepted(read.number, 0, 0, 0)?;
    Ok(Guid::from_c(read.header.disk_guid))
}

impl<'image> CardRef<'image> {
    /// Takes an image that is a whole card, which [`check`](crate::check) decides.
    ///
    /// # Errors
    ///
    /// Refused as [`check`](crate::check) is.
    pub fn open(image: &'image [u8], block_size: BlockSize) -> Result<CardRef<'image>, Refused> {
        calls::check(image, block_size)?;
        Ok(CardRef { image, block_size })
    }

    /// The card's own GUID: see [`disk_guid`].
    ///
    /// # Errors
    ///
    /// Refused as [`disk_guid`] is.
    pub fn disk_guid(&self) -> Result<Guid, Refused> {
        disk_guid(self.image, self.block_size)
    }

    /// What a slot holds: see [`get`](crate::get).
    ///
    /// # Errors
    ///
    /// Refused as [`get`](crate::get) is.
    pub fn get(&self, slot: u32) -> Result<Option<Record>, Refused> {
        calls::get(self.image, self.block_size, slot)
    }

    /// The used slots: see [`list`](crate::list).
    ///
    /// # Errors
    ///
    /// Refused as [`list`](crate::list) is.
    pub fn list(&self) -> Result<Listing, Refused> {
        calls::list(self.image, self.block_size)
    }

    /// The free ground: see [`free_runs`](crate::free_runs).
    ///
    /// # Errors
    ///
    /// Refused as [`free_runs`](crate::free_runs) is.
    pub fn free_ranges(&self) -> Result<Vec<RangeInclusive<u64>>, Refused> {
        calls::free_runs(self.image, self.block_size)
    }

    /// The slot map: see [`SlotMap::of`].
    ///
    /// # Errors
    ///
    /// Refused as [`SlotMap::of`] is.
    pub fn slot_map(&self) -> Result<SlotMap, Refused> {
        SlotMap::of(self.image, self.block_size)
    }

    /// Reads bytes of a slot's partition: see [`read_payload`](crate::read_payload).
    ///
    /// # Errors
    ///
    /// Refused as [`read_payload`](crate::read_payload) is.
    pub fn read_payload(&self, slot: u32, place: usize, out: &mut [u8]) -> Result<usize, Refused> {
        calls::read_payload(self.image, self.block_size, slot, place, out)
    }

    /// The label of a slot's map: see [`read_label`](crate::read_label).
    ///
    /// # Errors
    ///
    /// Refused as [`read_label`](crate::read_label) is.
    pub fn read_label(&self, slot: u32) -> Result<Label, Refused> {
        labels::read_label(self.image, self.block_size, slot)
    }

    /// The one date of the maps of a list of slots: see [`judge`](crate::judge).
    ///
    /// # Errors
    ///
    /// Refused as [`judge`](crate::judge) is.
    pub fn judge(&self, slots: &[u32]) -> Result<Dated, SetRefused> {
        labels::judge(self.image, self.block_size, slots)
    }

    /// The image's bytes.
    pub fn bytes(&self) -> &'image [u8] {
        self.image
    }

    /// The size of the card's blocks.
    pub fn block_size(&self) -> BlockSize {
        self.block_size
    }
}

impl fmt::Debug for CardRef<'_> {
    fn fmt(&self, f: &mut fmt::Formatter<'_>) -> fmt::Result {
        f.debug_struct("CardRef").field("block_size", &self.block_size).field("len", &self.image.len()).finish()
    }
}

impl Card<'_> {
    /// The card as one that is only read.
    pub fn read_only(&self) -> CardRef<'_> {
        CardRef { image: self.image, block_size: self.block_size }
    }

    /// The card's own GUID: see [`disk_guid`].
    ///
    /// # Errors
    ///
    /// Refused as [`disk_guid`] is.
    pub fn disk_guid(&self) -> Result<Guid, Refused> {
        disk_guid(self.image, self.block_size)
    }
}

//! The slot map beside a card's table, and the calls that take one.
use crate::refusal::accepted;
use crate::{ffi, BlockSize, Card, Record, Refused, SLOTS};

/// 128 bits beside a card's table, one for a used slot.
///
/// It is a value, made from a card by [`Card::slot_map`] and kept by [`Card::put_mapped`], [`Card::clear_mapped`] and [`Card::put_lowest`]. After any such calls it is
/// the map that would be made again, as long as nothing else changes the table; a refused call leaves it as it was.
#[derive(Clone, Copy, Debug, PartialEq, Eq)]
pub struct SlotMap(pub(crate) ffi::card_slot_map);

impl SlotMap {
    /// The map of a card in an image that is only read.
    ///
    /// # Errors
    ///
    /// Refused as [`check`](crate::check) is.
    pub fn of(image: &[u8], block_size: BlockSize) -> Result<SlotMap, Refused> {
        // SAFETY: the pointer and the length are those of one slice, which is only read; a slice's pointer is not null, also where it is empty.
        let made = unsafe { ffi::card_map_make(image.as_ptr(), image.len(), block_size.bytes()) };
        accepted(made.number, 0, made.place, made.differs)?;
        Ok(SlotMap(made.map))
    }

    /// The lowest free slot.
    ///
    /// # Errors
    ///
    /// Refused by 33 where all are used.
    pub fn lowest_free(self) -> Result<u32, Refused> {
        // SAFETY: a map is a value, and the call takes every one.
        let found = unsafe { ffi::card_map_lowest_free(self.0) };
        accepted(found.number, 0, 0, 0)?;
        Ok(found.slot)
    }

    /// How many slots are used.
    pub fn used(self) -> u32 {
        // SAFETY: a map is a value, and the call takes every one.
        unsafe { ffi::card_map_used(self.0) }
    }

    /// Whether a slot is used; no slot but 1 to 128 is.
    pub fn has(self, slot: u32) -> bool {
        let bits = u128::from(self.0.high) << 64 | u128::from(self.0.low);
        (1..=SLOTS).contains(&slot) && bits >> (slot - 1) & 1 == 1
    }
}

impl Card<'_> {
    /// The slot map of this card: see [`SlotMap::of`].
    ///
    /// # Errors
    ///
    /// Refused as [`SlotMap::of`] is.
    pub fn slot_map(&self) -> Result<SlotMap, Refused> {
        SlotMap::of(self.image, self.block_size)
    }

    /// As [`put`](Card::put), with the slot's bit of a map set.
    ///
    /// # Errors
    ///
    /// Refused as [`put`](Card::put) is.
    pub fn put_mapped(&mut self, slot: u32, record: &Record, map: &mut SlotMap) -> Result<(), Refused> {
        let (image, b) = (&mut *self.image, self.block_size.bytes());
        // SAFETY: the pointer and the length are those of one slice that only this call has; a slice's pointer is not null, also where it is empty.
        let carried = unsafe { ffi::card_map_put(image.as_mut_ptr(), image.len(), b, slot, record.to_c(), map.0) };
        map.0 = carried.map;
        accepted(carried.answer.number, carried.answer.slot, carried.answer.place, carried.answer.differs)
    }

    /// As [`clear`](Card::clear), with the slot's bit of a map cleared.
    ///
    /// # Errors
    ///
    /// Refused as [`clear`](Card::clear) is.
    pub fn clear_mapped(&mut self, slot: u32, map: &mut SlotMap) -> Result<(), Refused> {
        let (image, b) = (&mut *self.image, self.block_size.bytes());
        // SAFETY: the pointer and the length are those of one slice that only this call has; a slice's pointer is not null, also where it is empty.
        let carried = unsafe { ffi::card_map_clear(image.as_mut_ptr(), image.len(), b, slot, map.0) };
        map.0 = carried.map;
        accepted(carried.answer.number, carried.answer.slot, carried.answer.place, carried.answer.differs)
    }

    /// Puts a record into the lowest slot that is free in a map, and says which.
    ///
    /// # Errors
    ///
    /// Refused by 33, then as [`put`](Card::put) is.
    pub fn put_lowest(&mut self, record: &Record, map: &mut SlotMap) -> Result<u32, Refused> {
        let slot = map.lowest_free()?;
        self.put_mapped(slot, record, map)?;
        Ok(slot)
    }
}

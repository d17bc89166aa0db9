//! The labels of maps, and the judgement of a set of slots.
use crate::refusal::accepted;
use crate::{ffi, BlockSize, Card, Refused};
use std::{error, fmt};

/// The label that a map's partition begins with: the map's date, its style revision and its sheet number.
///
/// Month is 1 to 12 and day 1 to 31, in any month; year, style revision and sheet are any number.
#[derive(Clone, Copy, Debug, PartialEq, Eq, Hash)]
pub struct Label {
    /// The year.
    pub year: u16,
    /// The month, from 1.
    pub month: u8,
    /// The day, from 1.
    pub day: u8,
    /// The style revision.
    pub style: u16,
    /// The sheet number.
    pub sheet: u16,
}

impl Label {
    /// The 13 bytes of the label as they stand in a partition: the mark, version 1, and the numbers, little-endian.
    pub fn to_bytes(self) -> [u8; 13] {
        let ([y, year], [s, style], [n, sheet]) = (self.year.to_le_bytes(), self.style.to_le_bytes(), self.sheet.to_le_bytes());
        [b'F', b'B', b'M', 1, 0, y, year, self.month, self.day, s, style, n, sheet]
    }
}

/// What the maps of a set have in common: date and style revision.
#[derive(Clone, Copy, Debug, PartialEq, Eq, Hash)]
pub struct Dated {
    /// The year.
    pub year: u16,
    /// The month, from 1.
    pub month: u8,
    /// The day, from 1.
    pub day: u8,
    /// The style revision.
    pub style: u16,
}

/// Why a set is refused, and the slot of the list that it names.
#[derive(Clone, Copy, Debug, PartialEq, Eq, Hash)]
pub struct SetRefused {
    /// The refusal.
    pub refused: Refused,
    /// By 18, 23 and 34 to 37 the first slot in the list's order that fails or differs from the first, as it was given; else `None`.
    pub slot: Option<u32>,
}

impl SetRefused {
    /// The number that the library gives, from 1 to 38.
    pub const fn number(self) -> u32 {
        self.refused.number()
    }
}

/// As the refusal is said, with the slot, as `refused 37, TwoDates: the maps have two dates or two style revisions (slot 9)`.
impl fmt::Display for SetRefused {
    fn fmt(&self, f: &mut fmt::Formatter<'_>) -> fmt::Result {
        self.refused.fmt(f)?;
        self.slot.map_or(Ok(()), |slot| write!(f, " (slot {slot})"))
    }
}

impl error::Error for SetRefused {}

/// The label of a slot's map, in an image that is only read.
///
/// # Errors
///
/// Refused as [`check`](crate::check) is, then by 18, 23, 34, 35, 36.
pub fn read_label(image: &[u8], block_size: BlockSize, slot: u32) -> Result<Label, Refused> {
    // SAFETY: the pointer and the length are those of one slice, which is only read; a slice's pointer is not null, also where it is empty.
    label_read(unsafe { ffi::card_read_label(image.as_ptr(), image.len(), block_size.bytes(), slot) })
}

/// What a read of the library says.
pub(crate) fn label_read(read: ffi::card_label_read) -> Result<Label, Refused> {
    accepted(read.number, 0, read.place, read.differs)?;
    let ffi::card_label { year, month, day, style, sheet } = read.label;
    Ok(Label { year, month, day, style, sheet })
}

/// The one date and style revision of the maps of a list of slots, in an image that is only read. The sheet is not compared, and a slot that is named twice is judged as one.
///
/// # Errors
///
/// Refused by 38 where the list is empty, then as [`check`](crate::check) is; then slot by slot by 18, 23, 34, 35, 36, and by 37 for another date or another style revision
/// than the first slot's.
pub fn judge(image: &[u8], block_size: BlockSize, slots: &[u32]) -> Result<Dated, SetRefused> {
    // SAFETY: each pointer and length are those of one slice, and both are only read; a slice's pointer is not null, also where it is empty.
    judged(unsafe { ffi::card_judge(image.as_ptr(), image.len(), block_size.bytes(), slots.as_ptr(), slots.len()) })
}

/// What a judgement of the library says.
pub(crate) fn judged(judged: ffi::card_judged) -> Result<Dated, SetRefused> {
    let slot = matches!(judged.number, 18 | 23 | 34..=37).then_some(judged.slot);
    accepted(judged.number, 0, judged.place, judged.differs).map_err(|refused| SetRefused { refused, slot })?;
    Ok(Dated { year: judged.year, month: judged.month, day: judged.day, style: judged.style })
}

impl Card<'_> {
    /// The label of a slot's map: see [`read_label`].
    ///
    /// # Errors
    ///
    /// Refused as [`read_label`] is.
    pub fn read_label(&self, slot: u32) -> Result<Label, Refused> {
        read_label(self.image, self.block_size, slot)
    }

    /// Writes a label at the start of a slot's partition: 13 bytes, and no other byte changes.
    ///
    /// # Errors
    ///
    /// Refused as [`check`](crate::check) is, then by 18, 23, 36.
    pub fn write_label(&mut self, slot: u32, label: Label) -> Result<(), Refused> {
        let (image, b) = (&mut *self.image, self.block_size.bytes());
        let Label { year, month, day, style, sheet } = label;
        // SAFETY: the pointer and the length are those of one slice that only this call has; a slice's pointer is not null, also where it is empty.
        let answer = unsafe { ffi::card_write_label(image.as_mut_ptr(), image.len(), b, slot, ffi::card_label { year, month, day, style, sheet }) };
        accepted(answer.number, answer.slot, answer.place, answer.differs)
    }

    /// The one date and style revision of the maps of a list of slots: see [`judge`].
    ///
    /// # Errors
    ///
    /// Refused as [`judge`] is.
    pub fn judge(&self, slots: &[u32]) -> Result<Dated, SetRefused> {
        judge(self.image, self.block_size, slots)
    }
}

//! The card calls: each is one call of the library, with its answer told as a `Result`.
use crate::refusal::accepted;
use crate::{ffi, Entry, Guid, Record, Refusal, Refused};
use std::{fmt, iter::FusedIterator, mem::size_of_val, ops::RangeInclusive, vec};

/// How many slots a card has.
pub const SLOTS: u32 = 128;

/// How many runs of free blocks a card has at most: one before, between and behind 128 used slots.
const RUNS: usize = 129;

/// The size of a block. A card has one size throughout.
#[derive(Clone, Copy, Debug, PartialEq, Eq, Hash)]
pub enum BlockSize {
    /// 512 bytes.
    B512,
    /// 4,096 bytes.
    B4096,
}

impl BlockSize {
    /// How many bytes a block has.
    pub const fn bytes(self) -> u64 {
        match self {
            BlockSize::B512 => 512,
            BlockSize::B4096 => 4096,
        }
    }
}

/// Any other number than 512 and 4,096 is refused by [`BadBlockSize`](Refusal::BadBlockSize).
impl TryFrom<u64> for BlockSize {
    type Error = Refusal;

    fn try_from(bytes: u64) -> Result<BlockSize, Refusal> {
        match bytes {
            512 => Ok(BlockSize::B512),
            4096 => Ok(BlockSize::B4096),
            _ => Err(Refusal::BadBlockSize),
        }
    }
}

/// A card in a lent image of bytes.
///
/// While it lives nobody else can change the image, so that it stays the card that [`lay`](Card::lay) laid or [`open`](Card::open) checked.
pub struct Card<'image> {
    pub(crate) image: &'image mut [u8],
    pub(crate) block_size: BlockSize,
}

impl<'image> Card<'image> {
    /// Lays an empty card: the protective MBR, and both tables with 128 unused slots. No other byte changes.
    ///
    /// # Errors
    ///
    /// Refused by 8, 10.
    pub fn lay(image: &'image mut [u8], block_size: BlockSize, guid: Guid) -> Result<Card<'image>, Refused> {
        // SAFETY: the pointer and the length are those of one slice that only this call has; a slice's pointer is not null, also where it is empty.
        let answer = unsafe { ffi::card_lay(image.as_mut_ptr(), image.len(), block_size.bytes(), guid.to_c()) };
        accepted(answer.number, answer.slot, answer.place, answer.differs)?;
        Ok(Card { image, block_size })
    }

    /// Takes an image that is a whole card already, which [`check`] decides.
    ///
    /// # Errors
    ///
    /// Refused by 8, 10; 4, 5, 16, 6 of the front table; 4, 5, 16, 6 of the back table; 17; 16.
    pub fn open(image: &'image mut [u8], block_size: BlockSize) -> Result<Card<'image>, Refused> {
        check(image, block_size)?;
        Ok(Card { image, block_size })
    }

    /// Puts a record into a slot of both tables, in place of what the slot held. No byte of a partition changes.
    ///
    /// # Errors
    ///
    /// Refused as [`open`](Card::open) is, then by 18, 19, 20, 21, 22, 25, 28. A record that was read with reserved flags is refused by 28 until they are taken out.
    pub fn put(&mut self, slot: u32, record: &Record) -> Result<(), Refused> {
        let (image, b) = (&mut *self.image, self.block_size.bytes());
        // SAFETY: the pointer and the length are those of one slice that only this call has; a slice's pointer is not null, also where it is empty.
        let answer = unsafe { ffi::card_put(image.as_mut_ptr(), image.len(), b, slot, record.to_c()) };
        accepted(answer.number, answer.slot, answer.place, answer.differs)
    }

    /// Clears a slot in both tables. An unused one is accepted. The partition's bytes stay on the card: clearing does not wipe.
    ///
    /// # Errors
    ///
    /// Refused as [`open`](Card::open) is, then by 18.
    pub fn clear(&mut self, slot: u32) -> Result<(), Refused> {
        let (image, b) = (&mut *self.image, self.block_size.bytes());
        // SAFETY: the pointer and the length are those of one slice that only this call has; a slice's pointer is not null, also where it is empty.
        let answer = unsafe { ffi::card_clear(image.as_mut_ptr(), image.len(), b, slot) };
        accepted(answer.number, answer.slot, answer.place, answer.differs)
    }

    /// Writes bytes into a slot's partition, from a place on that counts from the partition's first byte, and says how many were written: all of them.
    ///
    /// # Errors
    ///
    /// Refused as [`open`](Card::open) is, then by 18, 23, 24.
    pub fn write_payload(&mut self, slot: u32, place: usize, bytes: &[u8]) -> Result<usize, Refused> {
        let (image, b) = (&mut *self.image, self.block_size.bytes());
        // SAFETY: each pointer and length are those of one slice, not null also where it is empty; `image` is lent to this call alone, so `bytes` is not inside it.
        let answer = unsafe { ffi::card_write_payload(image.as_mut_ptr(), image.len(), b, slot, place, bytes.as_ptr(), bytes.len()) };
        accepted(answer.number, 0, answer.place, answer.differs)?;
        Ok(answer.bytes as usize)
    }

    /// Reads bytes of a slot's partition: see [`read_payload`].
    ///
    /// # Errors
    ///
    /// Refused as [`read_payload`] is.
    pub fn read_payload(&self, slot: u32, place: usize, out: &mut [u8]) -> Result<usize, Refused> {
        read_payload(self.image, self.block_size, slot, place, out)
    }

    /// What a slot holds, or `None` where it is unused: see [`get`].
    ///
    /// # Errors
    ///
    /// Refused as [`get`] is.
    pub fn get(&self, slot: u32) -> Result<Option<Record>, Refused> {
        get(self.image, self.block_size, slot)
    }

    /// The used slots, ascending, each with its record: see [`list`].
    ///
    /// # Errors
    ///
    /// Refused as [`list`] is.
    pub fn list(&self) -> Result<Listing, Refused> {
        list(self.image, self.block_size)
    }

    /// The free ground, ascending: see [`free_runs`].
    ///
    /// # Errors
    ///
    /// Refused as [`free_runs`] is.
    pub fn free_runs(&self) -> Result<Vec<RangeInclusive<u64>>, Refused> {
        free_runs(self.image, self.block_size)
    }

    /// Runs the card check again: see [`check`].
    ///
    /// # Errors
    ///
    /// Refused as [`check`] is.
    pub fn check(&self) -> Result<(), Refused> {
        check(self.image, self.block_size)
    }

    /// The image's bytes.
    pub fn bytes(&self) -> &[u8] {
        self.image
    }

    /// The size of the card's blocks.
    pub fn block_size(&self) -> BlockSize {
        self.block_size
    }
}

impl fmt::Debug for Card<'_> {
    fn fmt(&self, f: &mut fmt::Formatter<'_>) -> fmt::Result {
        f.debug_struct("Card").field("block_size", &self.block_size).field("len", &self.image.len()).finish()
    }
}

/// The card check, on an image that is only read: both tables are whole, laid out as [`Card::lay`] lays them, and say the same; each entry is unused
/// or has usable blocks and a partition GUID of its own. Block 0 is not read.
///
/// # Errors
///
/// Refused by 8, 10; 4, 5, 16, 6 of the front table; 4, 5, 16, 6 of the back table; 17; 16.
pub fn check(image: &[u8], block_size: BlockSize) -> Result<(), Refused> {
    // SAFETY: the pointer and the length are those of one slice, which is only read; a slice's pointer is not null, also where it is empty.
    let answer = unsafe { ffi::card_check(image.as_ptr(), image.len(), block_size.bytes()) };
    accepted(answer.number, answer.slot, answer.place, answer.differs)
}

/// What a slot of a card holds, or `None` where it is unused.
///
/// # Errors
///
/// Refused as [`check`] is, then by 18.
pub fn get(image: &[u8], block_size: BlockSize, slot: u32) -> Result<Option<Record>, Refused> {
    // SAFETY: the pointer and the length are those of one slice, which is only read; a slice's pointer is not null, also where it is empty.
    let answer = unsafe { ffi::card_read_slot(image.as_ptr(), image.len(), block_size.bytes(), slot) };
    accepted(answer.number, 0, answer.place, answer.differs)?;
    Ok((answer.present != 0).then(|| Record::from_c(answer.partition)))
}

/// The used slots of a card, ascending, each with its record.
///
/// # Errors
///
/// Refused as [`check`] is.
pub fn list(image: &[u8], block_size: BlockSize) -> Result<Listing, Refused> {
    rows(|out, out_len| {
        // SAFETY: each pointer and length are those of one slice; the rows are new, so `image` is not inside them, and their structs take every byte.
        let answer = unsafe { ffi::card_list(image.as_ptr(), image.len(), block_size.bytes(), out, out_len) };
        accepted(answer.number, 0, answer.place, answer.differs)?;
        Ok(answer.count)
    })
}

/// Lends new rows for all slots of a card to a call, as a pointer and a length in bytes, which says how many it filled.
pub(crate) fn rows(fill: impl FnOnce(*mut u8, usize) -> Result<u32, Refused>) -> Result<Listing, Refused> {
    so_many_rows(SLOTS, fill)
}

/// The same of so many rows.
pub(crate) fn so_many_rows(room: u32, fill: impl FnOnce(*mut u8, usize) -> Result<u32, Refused>) -> Result<Listing, Refused> {
    let mut rows = vec![ffi::card_row::ZERO; room as usize];
    let count = fill(rows.as_mut_ptr().cast::<u8>(), size_of_val(rows.as_slice()))?;
    rows.truncate(count as usize);
    Ok(Listing { rows: rows.into_iter() })
}

/// The free ground of a card: the maximal runs of usable blocks that no used slot has, ascending, each from its first block to its last.
///
/// # Errors
///
/// Refused as [`check`] is.
pub fn free_runs(image: &[u8], block_size: BlockSize) -> Result<Vec<RangeInclusive<u64>>, Refused> {
    runs(|starts, lengths, room| {
        // SAFETY: each pointer and length are those of one slice, not null also where it is empty; both rows are new, so they overlap neither each other nor `image`.
        let answer = unsafe { ffi::card_free_runs(image.as_ptr(), image.len(), block_size.bytes(), starts, room, lengths, room) };
        accepted(answer.number, 0, answer.place, answer.differs)?;
        Ok(answer.count)
    })
}

/// Lends two new rows for all runs of a card to a call, as two pointers and their length in numbers, which says how many places it filled.
pub(crate) fn runs(fill: impl FnOnce(*mut u64, *mut u64, usize) -> Result<u32, Refused>) -> Result<Vec<RangeInclusive<u64>>, Refused> {
    let (mut starts, mut lengths) = ([0; RUNS], [0; RUNS]);
    let count = fill(starts.as_mut_ptr(), lengths.as_mut_ptr(), RUNS)?;
    Ok(starts.into_iter().zip(lengths).take(count as usize).map(|(first, blocks)| first..=first + (blocks - 1)).collect())
}

/// Where `count` bytes at a place of a slot's partition stand in a card, counted from the card's first byte: that is where [`Card::write_payload`] would store them.
///
/// # Errors
///
/// Refused as [`check`] is, then by 18, 23, 24.
pub fn payload_place(image: &[u8], block_size: BlockSize, slot: u32, place: usize, count: usize) -> Result<u64, Refused> {
    // SAFETY: the pointer and the length are those of one slice, which is only read; a slice's pointer is not null, also where it is empty.
    let spot = unsafe { ffi::card_payload_place(image.as_ptr(), image.len(), block_size.bytes(), slot, place, count) };
    accepted(spot.number, 0, spot.place, spot.differs)?;
    Ok(spot.at)
}

/// Reads bytes of a slot's partition, from a place on that counts from the partition's first byte, and says how many were read: `out` is filled.
///
/// # Errors
///
/// Refused as [`check`] is, then by 18, 23, 24. A refused call changes no byte of `out`.
pub fn read_payload(image: &[u8], block_size: BlockSize, slot: u32, place: usize, out: &mut [u8]) -> Result<usize, Refused> {
    let (b, bytes, room) = (block_size.bytes(), out.as_mut_ptr(), out.len());
    // SAFETY: each pointer and length are those of one slice, not null also where it is empty; `out` is lent to this call alone, so `image` is not inside it.
    let answer = unsafe { ffi::card_read_payload(image.as_ptr(), image.len(), b, slot, place, bytes, room) };
    accepted(answer.number, 0, answer.place, answer.differs)?;
    Ok(answer.bytes as usize)
}

/// The sum of nothing, from which [`crc32_next`] starts a new sum.
pub const FRESH: u32 = 0;

/// The check sum CRC-32/ISO-HDLC that goes on over `bytes`: `running` is the sum of the bytes before them, or [`FRESH`] where there are none.
///
/// Pieces that are summed one after the other, each from the answer before it, give the sum of all their bytes, wherever they are cut.
pub fn crc32_next(running: u32, bytes: &[u8]) -> u32 {
    // SAFETY: the pointer and the length are those of one slice, which is only read; a slice's pointer is not null, also where it is empty.
    unsafe { ffi::gpt_crc32_next(running, bytes.as_ptr(), bytes.len()) }
}

/// The entries that [`list`] gives. It holds what the card held when it was made.
#[derive(Clone)]
pub struct Listing {
    rows: vec::IntoIter<ffi::card_row>,
}

fn entry(row: ffi::card_row) -> Entry {
    Entry { slot: row.slot as u32, record: Record::from_entry(row.entry) }
}

impl Iterator for Listing {
    type Item = Entry;

    fn next(&mut self) -> Option<Entry> {
        self.rows.next().map(entry)
    }

    fn size_hint(&self) -> (usize, Option<usize>) {
        self.rows.size_hint()
    }
}

impl DoubleEndedIterator for Listing {
    fn next_back(&mut self) -> Option<Entry> {
        self.rows.next_back().map(entry)
    }
}

impl ExactSizeIterator for Listing {}
impl FusedIterator for Listing {}

impl fmt::Debug for Listing {
    fn fmt(&self, f: &mut fmt::Formatter<'_>) -> fmt::Result {
        f.debug_list().entries(self.clone()).finish()
    }
}

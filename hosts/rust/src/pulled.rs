//! Cards that may be pulled in the middle of an update: put, clear and repair in stages of one block store each, and the reader of what a cut leaves.
use crate::calls::{rows, Listing};
use crate::refusal::accepted;
use crate::{ffi, BlockSize, Card, Record, Refused};
use std::io::{self, Seek, SeekFrom};
use std::{fmt, fs::File, os::unix::fs::FileExt};

/// The bytes of a table's array.
pub(crate) const ARRAY: u64 = 16384;

/// One of a card's two tables.
#[derive(Clone, Copy, Debug, PartialEq, Eq, Hash)]
pub enum Table {
    /// The front one.
    Front,
    /// The back one.
    Back,
}

/// The table that the reader takes: the front one if its header, layout, array and entries pass, else the back one by the same tests.
///
/// # Errors
///
/// Refused by 8, 10, 27.
pub fn reader_copy(image: &[u8], block_size: BlockSize) -> Result<Table, Refused> {
    // SAFETY: the pointer and the length are those of one slice, which is only read; a slice's pointer is not null, also where it is empty.
    let answer = unsafe { ffi::card_reader_copy(image.as_ptr(), image.len(), block_size.bytes()) };
    accepted(answer.number, 0, 0, 0)?;
    Ok(if answer.back != 0 { Table::Back } else { Table::Front })
}

/// What a slot of that table holds, or `None` where it is unused.
///
/// # Errors
///
/// Refused by 8, 10, 27, 18.
pub fn reader_get(image: &[u8], block_size: BlockSize, slot: u32) -> Result<Option<Record>, Refused> {
    // SAFETY: the pointer and the length are those of one slice, which is only read; a slice's pointer is not null, also where it is empty.
    let answer = unsafe { ffi::card_reader_slot(image.as_ptr(), image.len(), block_size.bytes(), slot) };
    accepted(answer.number, 0, 0, 0)?;
    Ok((answer.present != 0).then(|| Record::from_c(answer.partition)))
}

/// The used slots of that table, ascending, each with its record.
///
/// # Errors
///
/// Refused by 8, 10, 27.
pub fn reader_list(image: &[u8], block_size: BlockSize) -> Result<Listing, Refused> {
    rows(|out, out_len| {
        // SAFETY: each pointer and length are those of one slice; the rows are new, so `image` is not inside them, and their structs take every byte.
        let answer = unsafe { ffi::card_reader_list(image.as_ptr(), image.len(), block_size.bytes(), out, out_len) };
        accepted(answer.number, 0, 0, 0)?;
        Ok(answer.count)
    })
}

/// What stage one fixed, and which stage is the next.
pub(crate) enum State {
    Update(ffi::card_update),
    Repair(ffi::card_repair),
}

impl State {
    /// The stage that was made last, counted from 1.
    pub fn stage(&self) -> u32 {
        match self {
            State::Update(update) => update.next - 1,
            State::Repair(repair) => repair.next - 1,
        }
    }

    /// How many stages there are.
    pub fn stages(&self, block_size: BlockSize) -> u32 {
        match self {
            State::Update(_) => 4,
            State::Repair(_) => (ARRAY / block_size.bytes()) as u32 + 2,
        }
    }

    /// The block of a card of so many blocks that the last stage changed.
    pub fn block(&self, block_size: BlockSize, blocks: u64) -> u64 {
        let (b, stage) = (block_size.bytes(), self.stage());
        let last = blocks - 1;
        let (front, header, array) = match self {
            State::Update(update) => (stage > 2, stage % 2 == 0, u64::from(update.slot - 1) * 128 / b),
            State::Repair(repair) => (repair.back != 0, stage == 1 || stage == self.stages(block_size), u64::from(stage).saturating_sub(2)),
        };
        match (front, header) {
            (true, true) => 1,
            (true, false) => 2 + array,
            (false, true) => last,
            (false, false) => last - ARRAY / b + array,
        }
    }
}

/// A put, a clear or a repair between its stages, with the first one made: see [`Card::start_put`], [`Card::start_clear`] and [`start_repair`].
///
/// Each stage changes one block. A host has its device store [`bytes`](Staged::bytes) at [`place`](Staged::place) before it asks for [`next`](Staged::next), as
/// [`store_on`](Staged::store_on) does; it must be done at the latest between stages two and three. This value holds the image, so that nothing else writes it meanwhile, and goes on by
/// value, so that no stage is skipped and no stale state is left.
///
/// Wherever a put or a clear is cut, the reader shows exactly the old table or exactly the new one: the old one up to stage two, the new one from stage three on. A cut repair
/// never changes what it shows. Both rest on two premises: the device stores a block wholly or not at all, and nothing else writes it between the stages.
/// Hand a card to a tablet only after the last stage.
#[must_use = "an update that does not go on is a card that was pulled"]
pub struct Staged<'card> {
    image: &'card mut [u8],
    block_size: BlockSize,
    state: State,
}

impl Card<'_> {
    /// Stage one of a [`put`](Card::put).
    ///
    /// # Errors
    ///
    /// Refused as [`put`](Card::put) is.
    pub fn start_put(&mut self, slot: u32, record: &Record) -> Result<Staged<'_>, Refused> {
        let (image, block_size) = (&mut *self.image, self.block_size);
        // SAFETY: the pointer and the length are those of one slice that only this call has; a slice's pointer is not null, also where it is empty.
        let step = unsafe { ffi::card_start_put(image.as_mut_ptr(), image.len(), block_size.bytes(), slot, record.to_c()) };
        accepted(step.number, step.slot, step.place, step.differs)?;
        Ok(Staged { image, block_size, state: State::Update(step.state) })
    }

    /// Stage one of a [`clear`](Card::clear).
    ///
    /// # Errors
    ///
    /// Refused as [`clear`](Card::clear) is.
    pub fn start_clear(&mut self, slot: u32) -> Result<Staged<'_>, Refused> {
        let (image, block_size) = (&mut *self.image, self.block_size);
        // SAFETY: the pointer and the length are those of one slice that only this call has; a slice's pointer is not null, also where it is empty.
        let step = unsafe { ffi::card_start_clear(image.as_mut_ptr(), image.len(), block_size.bytes(), slot) };
        accepted(step.number, step.slot, step.place, step.differs)?;
        Ok(Staged { image, block_size, state: State::Update(step.state) })
    }
}

/// Stage one of a repair, which gives the table that the reader does not take the disk GUID and the array of the one that it takes.
///
/// Repair only what [`check`](crate::check) refuses: of a whole card a repair first destroys the back header, and a cut then leaves a card that every plain call refuses.
///
/// # Errors
///
/// Refused by 8, 10, 27.
pub fn start_repair(image: &mut [u8], block_size: BlockSize) -> Result<Staged<'_>, Refused> {
    // SAFETY: the pointer and the length are those of one slice that only this call has; a slice's pointer is not null, also where it is empty.
    let step = unsafe { ffi::card_start_repair(image.as_mut_ptr(), image.len(), block_size.bytes()) };
    accepted(step.number, 0, 0, 0)?;
    Ok(Staged { image, block_size, state: State::Repair(step.state) })
}

impl<'card> Staged<'card> {
    /// The stage that was made last, counted from 1.
    pub fn stage(&self) -> u32 {
        self.state.stage()
    }

    /// How many stages there are: four, or of a repair 34 with blocks of 512 bytes and 6 with 4,096.
    pub fn stages(&self) -> u32 {
        self.state.stages(self.block_size)
    }

    /// The block that the last stage changed.
    fn block(&self) -> u64 {
        self.state.block(self.block_size, self.image.len() as u64 / self.block_size.bytes())
    }

    /// Where the block starts that the last stage changed.
    pub fn place(&self) -> u64 {
        self.block() * self.block_size.bytes()
    }

    /// The bytes of that block.
    pub fn bytes(&self) -> &[u8] {
        let at = self.place() as usize;
        &self.image[at..at + self.block_size.bytes() as usize]
    }

    /// Makes the next stage; `None` after the last one. The device must have stored the block before.
    pub fn next(self) -> Option<Staged<'card>> {
        if self.stage() == self.stages() {
            return None;
        }
        let Staged { image, block_size, state } = self;
        let (b, len) = (block_size.bytes(), image.len());
        let (number, state) = match state {
            State::Update(update) => {
                // SAFETY: the pointer and the length are those of one slice that only this call has, and a state is a value.
                let step = unsafe { ffi::card_next_stage(image.as_mut_ptr(), len, b, update.next, update) };
                (step.number, State::Update(step.state))
            }
            State::Repair(repair) => {
                // SAFETY: the pointer and the length are those of one slice that only this call has; a state is a value, and its yes/no is the library's own.
                let step = unsafe { ffi::card_next_repair(image.as_mut_ptr(), len, b, repair.next, repair) };
                (step.number, State::Repair(step.state))
            }
        };
        accepted(number, 0, 0, 0).expect("a state leads to its next stage");
        Some(Staged { image, block_size, state })
    }

    /// Carries out all stages on a device: it stores each block before the next stage is made.
    ///
    /// # Errors
    ///
    /// What the device fails by. The card is one that was pulled.
    pub fn store_on(self, device: &mut impl Store) -> io::Result<()> {
        let mut step = Some(self);
        while let Some(staged) = step {
            device.store(staged.place(), staged.bytes())?;
            step = staged.next();
        }
        Ok(())
    }
}

impl fmt::Debug for Staged<'_> {
    fn fmt(&self, f: &mut fmt::Formatter<'_>) -> fmt::Result {
        f.debug_struct("Staged").field("stage", &self.stage()).field("stages", &self.stages()).field("block", &self.block()).finish()
    }
}

/// Where a card's blocks are stored.
pub trait Store {
    /// Stores bytes from a place on, and comes back once the device has them.
    ///
    /// # Errors
    ///
    /// What the device fails by.
    fn store(&mut self, place: u64, bytes: &[u8]) -> io::Result<()>;
}

/// A file or a block device. Each block is written and then synced.
impl Store for File {
    fn store(&mut self, place: u64, bytes: &[u8]) -> io::Result<()> {
        self.write_all_at(bytes, place)?;
        self.sync_data()
    }
}

/// The tables of a card in a file or a block device, as an image of its length. Between the tables it has zeros, which no call but one on payload looks at. A card that is larger than
/// memory is a [`FileCard`](crate::FileCard)'s matter.
///
/// ```
/// use card::{reader_list, start_repair, tables_of, BlockSize::B512, Card, Guid, Record};
/// # fn main() -> Result<(), Box<dyn std::error::Error>> {
/// # let path = std::env::temp_dir().join(format!("card-doc-{}", std::process::id()));
/// # let mut image = vec![0; 68 * 512];
/// # Card::lay(&mut image, B512, Guid::BASIC_DATA)?;
/// # std::fs::write(&path, &image)?;
/// let mut file = std::fs::OpenOptions::new().read(true).write(true).open(&path)?;
/// let mut image = tables_of(&file, B512)?;
/// let map = Record::new(Guid::BASIC_DATA, Guid::NIL, 34, 34, "map")?;
/// Card::open(&mut image, B512)?.start_put(1, &map)?.store_on(&mut file)?;
/// // A card that was pulled is read, and then repaired.
/// let mut image = tables_of(&file, B512)?;
/// assert_eq!(reader_list(&image, B512)?.len(), 1);
/// if card::check(&image, B512).is_err() {
///     start_repair(&mut image, B512)?.store_on(&mut file)?;
/// }
/// # std::fs::remove_file(&path)?;
/// # Ok(())
/// # }
/// ```
///
/// # Errors
///
/// What the file fails by.
pub fn tables_of(mut file: &File, block_size: BlockSize) -> io::Result<Vec<u8>> {
    let b = block_size.bytes() as usize;
    let table = b + ARRAY as usize;
    let len = file.seek(SeekFrom::End(0))? as usize;
    let mut image = vec![0; len];
    let front = len.min(b + table);
    let end = len - len % b;
    let back = end.saturating_sub(table).max(front);
    file.read_exact_at(&mut image[..front], 0)?;
    file.read_exact_at(&mut image[back..end.max(back)], back as u64)?;
    Ok(image)
}

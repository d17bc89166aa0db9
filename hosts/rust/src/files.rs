//! Cards in files and devices of any size: of the card itself only its two windows are in memory, and only their blocks and the payload's own bytes are read and written.
use crate::pulled::State;
use crate::windows::Windows;
use crate::{BlockSize, Dated, Guid, Label, Listing, Record, Refused, SetRefused, SlotMap, Table};
use std::io::{self, Cursor, ErrorKind, Read, Seek, SeekFrom, Write};
use std::{error, fmt, fs::File, ops::RangeInclusive};

/// Why a call on a card in a file did not do what was asked.
#[derive(Debug)]
#[non_exhaustive]
pub enum FileError {
    /// The library refused the call, and nothing was written.
    Refused(Refused),
    /// The library refused a set of maps; the refusal names the slot.
    SetRefused(SetRefused),
    /// Reading, writing or storing failed. It says nothing about the card.
    Io(io::Error),
}

impl FileError {
    /// The refusal, or `None` where it was reading, writing or storing that failed.
    pub fn refused(&self) -> Option<Refused> {
        match self {
            FileError::Refused(refused) => Some(*refused),
            FileError::SetRefused(set) => Some(set.refused),
            FileError::Io(_) => None,
        }
    }
}

/// A refusal in its own words, or what failed, as `the card's file: No space left on device (os error 28)`.
impl fmt::Display for FileError {
    fn fmt(&self, f: &mut fmt::Formatter<'_>) -> fmt::Result {
        match self {
            FileError::Refused(refused) => refused.fmt(f),
            FileError::SetRefused(set) => set.fmt(f),
            FileError::Io(failure) => write!(f, "the card's file: {failure}"),
        }
    }
}

impl error::Error for FileError {
    fn source(&self) -> Option<&(dyn error::Error + 'static)> {
        match self {
            FileError::Refused(refused) => Some(refused),
            FileError::SetRefused(set) => Some(set),
            FileError::Io(failure) => Some(failure),
        }
    }
}

impl From<Refused> for FileError {
    fn from(refused: Refused) -> FileError {
        FileError::Refused(refused)
    }
}

impl From<SetRefused> for FileError {
    fn from(set: SetRefused) -> FileError {
        FileError::SetRefused(set)
    }
}

impl From<io::Error> for FileError {
    fn from(failure: io::Error) -> FileError {
        FileError::Io(failure)
    }
}

/// What a card can be written to: bytes at places, and a way to have them stored.
pub trait Device: Read + Write + Seek {
    /// Hands over what is still buffered, and comes back once the device has stored all that was written.
    ///
    /// # Errors
    ///
    /// What the device fails by.
    fn sync(&mut self) -> io::Result<()>;
}

/// A file or a block device: [`File::sync_data`].
impl Device for File {
    fn sync(&mut self) -> io::Result<()> {
        self.sync_data()
    }
}

/// The same of a file that is lent.
impl Device for &File {
    fn sync(&mut self) -> io::Result<()> {
        self.sync_data()
    }
}

/// Bytes in memory, where nothing is left to do.
impl<T> Device for Cursor<T>
where
    Cursor<T>: Read + Write + Seek,
{
    fn sync(&mut self) -> io::Result<()> {
        self.flush()
    }
}

impl<D: Device + ?Sized> Device for &mut D {
    fn sync(&mut self) -> io::Result<()> {
        (**self).sync()
    }
}

impl<D: Device + ?Sized> Device for Box<D> {
    fn sync(&mut self) -> io::Result<()> {
        (**self).sync()
    }
}

/// Anything that is read, written and sought in, as a [`Device`] whose [`sync`](Device::sync) is a closure.
///
/// ```
/// use card::{BlockSize::B512, FileCard, Guid, SyncBy};
/// # fn main() -> Result<(), Box<dyn std::error::Error>> {
/// # let stream = std::io::Cursor::new(vec![0; 68 * 512]);
/// let mut syncs = 0;
/// let device = SyncBy::new(stream, |stream| {
///     syncs += 1;
///     std::io::Write::flush(stream)
/// });
/// assert_eq!(FileCard::lay(device, B512, Guid::BASIC_DATA)?.count()?, 0);
/// assert_eq!(syncs, 1);
/// # Ok(())
/// # }
/// ```
pub struct SyncBy<F, S> {
    inner: F,
    sync: S,
}

impl<F: Read + Write + Seek, S: FnMut(&mut F) -> io::Result<()>> SyncBy<F, S> {
    /// The device whose bytes the closure has stored.
    pub fn new(inner: F, sync: S) -> SyncBy<F, S> {
        SyncBy { inner, sync }
    }
}

impl<F, S> SyncBy<F, S> {
    /// What the bytes are in.
    pub fn into_inner(self) -> F {
        self.inner
    }
}

impl<F: Read, S> Read for SyncBy<F, S> {
    fn read(&mut self, out: &mut [u8]) -> io::Result<usize> {
        self.inner.read(out)
    }
}

impl<F: Write, S> Write for SyncBy<F, S> {
    fn write(&mut self, bytes: &[u8]) -> io::Result<usize> {
        self.inner.write(bytes)
    }

    fn flush(&mut self) -> io::Result<()> {
        self.inner.flush()
    }
}

impl<F: Seek, S> Seek for SyncBy<F, S> {
    fn seek(&mut self, to: SeekFrom) -> io::Result<u64> {
        self.inner.seek(to)
    }
}

impl<F: Read + Write + Seek, S: FnMut(&mut F) -> io::Result<()>> Device for SyncBy<F, S> {
    fn sync(&mut self) -> io::Result<()> {
        (self.sync)(&mut self.inner)
    }
}

/// What is interrupted by a signal is done again. Reading and writing do so by themselves.
fn again<T>(mut call: impl FnMut() -> io::Result<T>) -> io::Result<T> {
    loop {
        match call() {
            Err(failure) if failure.kind() == ErrorKind::Interrupted => {}
            done => return done,
        }
    }
}

fn length(file: &mut impl Seek) -> io::Result<u64> {
    again(|| file.seek(SeekFrom::End(0)))
}

/// Fills `out` from a place on.
fn read_at(file: &mut (impl Read + Seek), place: u64, out: &mut [u8]) -> io::Result<()> {
    again(|| file.seek(SeekFrom::Start(place)))?;
    file.read_exact(out).map_err(|failure| match failure.kind() {
        ErrorKind::UnexpectedEof => io::Error::new(failure.kind(), format!("the file ends before byte {}: it was longer", place + out.len() as u64)),
        _ => failure,
    })
}

fn write_at(file: &mut (impl Write + Seek), place: u64, bytes: &[u8]) -> io::Result<()> {
    again(|| file.seek(SeekFrom::Start(place)))?;
    file.write_all(bytes)
}

/// A card in a file or a device of any size.
///
/// Of the card two windows are in memory, some 33 KiB: the **head**, which is block 0 and the front table, and the **tail**, which is the back table. They are read once, by
/// [`open`](FileCard::open) or [`lay`](FileCard::lay). Every call answers as the one of the same name on an image of the whole card ([`Card`](crate::Card), and the reader's functions
/// beside it). Of the file nothing is read or written but blocks of these windows and the payload's own bytes; what lies between is never looked at.
///
/// - The calls that only read want [`Read`] and [`Seek`]; a card over something that cannot be written, as a `BufReader<File>`, has no others. A file that is lent, as `&file`, is still the
///   caller's after an error.
/// - [`lay`](FileCard::lay), [`put`](FileCard::put) and [`clear`](FileCard::clear) write the blocks that changed, and no others, and then have the device store them
///   once. Whoever may pull the card meanwhile wants [`start_put`](FileCard::start_put) and [`start_clear`](FileCard::start_clear), see [`FileStaged`].
/// - [`write_payload`](FileCard::write_payload) writes its bytes alone, and leaves it to [`sync`](FileCard::sync) to have them stored.
///
/// [`open`](FileCard::open) runs no card check, other than [`Card::open`](crate::Card::open) does: a card that was pulled has to be opened to be read and repaired.
/// Every call on the table begins with the check, or is the reader's.
///
/// A failure to read, write or store is [`FileError::Io`], and never a verdict on the card. If it was a block of a table that could not be written, the windows may differ from the
/// file: every call then is [`FileError::Io`] until [`reload`](FileCard::reload) has read them again. The same goes if the file has become longer or shorter, which is looked at before
/// each write. Nobody else may write the card as long as this value lives; that a block is stored wholly or not at all is the device's matter.
///
/// ```
/// use card::{BlockSize::B512, FileCard, Guid, Record};
/// # fn main() -> Result<(), Box<dyn std::error::Error>> {
/// # let path = std::env::temp_dir().join(format!("card-file-doc-{}", std::process::id()));
/// let file = std::fs::File::options().read(true).write(true).create_new(true).open(&path)?;
/// file.set_len(64 << 30)?;
/// let mut card = FileCard::lay(file, B512, Guid::BASIC_DATA)?;
/// let map = Record::new(Guid::BASIC_DATA, Guid::NIL, 2048, (32 << 21) - 1, "map")?;
/// card.start_put(card.lowest_free()?, &map)?.finish()?;
/// card.write_payload(1, 20 << 30, b"north ridge")?;
/// let mut bytes = [0; 11];
/// card.read_payload(1, 20 << 30, &mut bytes)?;
/// assert_eq!((&bytes, card.list()?.len()), (b"north ridge", 1));
/// # std::fs::remove_file(&path)?;
/// # Ok(())
/// # }
/// ```
pub struct FileCard<F> {
    file: F,
    length: u64,
    windows: Windows,
    /// Whether the windows are what the file has, as far as reading and writing said.
    known: bool,
}

/// The calls that only read.
impl<F: Read + Seek> FileCard<F> {
    /// Takes a file that may be a card, of the length that seeking to its end gives, and reads the windows. The bytes after the last whole block are no part of a card.
    ///
    /// # Errors
    ///
    /// Refused by 8, 10; [`FileError::Io`].
    pub fn open(mut file: F, block_size: BlockSize) -> Result<FileCard<F>, FileError> {
        let (length, windows) = read_windows(&mut file, block_size)?;
        Ok(FileCard { file, length, windows, known: true })
    }

    /// Reads length and windows again.
    ///
    /// # Errors
    ///
    /// Refused by 8, 10; [`FileError::Io`]. Every other call is [`FileError::Io`] then.
    pub fn reload(&mut self) -> Result<(), FileError> {
        self.known = false;
        let (length, windows) = read_windows(&mut self.file, self.windows.block_size)?;
        self.length = length;
        self.windows = windows;
        self.known = true;
        Ok(())
    }

    /// Reads bytes of a slot's partition, from a place on that counts from the partition's first byte, and says how many were read: `out` is filled.
    ///
    /// # Errors
    ///
    /// Refused as [`check`](FileCard::check) is, then by 18, 23, 24, and no byte of `out` changes; [`FileError::Io`], and `out` may hold anything.
    pub fn read_payload(&mut self, slot: u32, place: u64, out: &mut [u8]) -> Result<usize, FileError> {
        let at = self.tables()?.payload_place(slot, place as usize, out.len())?;
        read_at(&mut self.file, at, out)?;
        Ok(out.len())
    }

    /// The label of a slot's map, of which 13 bytes are read.
    ///
    /// # Errors
    ///
    /// Refused as [`check`](FileCard::check) is, then by 18, 23, 34, 35, 36; [`FileError::Io`].
    pub fn read_label(&mut self, slot: u32) -> Result<Label, FileError> {
        let mut bytes = [0; 13];
        self.read_payload(slot, 0, &mut bytes)?;
        Ok(self.tables()?.read_label(slot, &bytes)?)
    }

    /// The one date and style revision of the maps of a list of slots, of each of which 13 bytes are read before any is judged. The sheet is not compared, and a slot that is named twice is judged as one.
    ///
    /// # Errors
    ///
    /// [`FileError::SetRefused`] by 38 where the list is empty, then as [`check`](FileCard::check) is; then slot by slot by 18, 23, 34, 35, 36, and by 37 for another date or another
    /// style revision than the first slot's; [`FileError::Io`].
    pub fn judge(&mut self, slots: &[u32]) -> Result<Dated, FileError> {
        let mut labels = vec![0; 13 * slots.len()];
        for i in 0..slots.len() {
            // What a slot holds is read once, also where it is named twice.
            if let Some(first) = slots[..i].iter().position(|slot| *slot == slots[i]) {
                labels.copy_within(13 * first..13 * first + 13, 13 * i);
                continue;
            }
            match self.read_payload(slots[i], 0, &mut labels[13 * i..13 * i + 13]) {
                // The judgement refuses this slot too, in its turn.
                Ok(_) | Err(FileError::Refused(_)) => {}
                Err(failure) => return Err(failure),
            }
        }
        Ok(self.tables()?.judge(slots, &labels)?)
    }
}

fn read_windows(file: &mut (impl Read + Seek), block_size: BlockSize) -> Result<(u64, Windows), FileError> {
    let length = length(file)?;
    let mut windows = Windows::new(length / block_size.bytes(), block_size)?;
    read_at(file, 0, &mut windows.head)?;
    read_at(file, windows.tail_place(), &mut windows.tail)?;
    Ok((length, windows))
}

/// The calls that look at the windows alone.
impl<F> FileCard<F> {
    /// The windows, if they are what the file has.
    fn tables(&self) -> io::Result<&Windows> {
        if self.known {
            return Ok(&self.windows);
        }
        Err(io::Error::new(ErrorKind::Other, "since something failed the tables were not read again"))
    }

    /// The card check: see [`check`](crate::check).
    ///
    /// # Errors
    ///
    /// Refused by 4, 5, 16, 6 of the front table; 4, 5, 16, 6 of the back table; 17; 16. [`FileError::Io`].
    pub fn check(&self) -> Result<(), FileError> {
        Ok(self.tables()?.check()?)
    }

    /// What a slot holds, or `None` where it is unused.
    ///
    /// # Errors
    ///
    /// Refused as [`check`](FileCard::check) is, then by 18; [`FileError::Io`].
    pub fn get(&self, slot: u32) -> Result<Option<Record>, FileError> {
        Ok(self.tables()?.get(slot)?)
    }

    /// The used slots, ascending, each with its record.
    ///
    /// # Errors
    ///
    /// Refused as [`check`](FileCard::check) is; [`FileError::Io`].
    pub fn list(&self) -> Result<Listing, FileError> {
        Ok(self.tables()?.list()?)
    }

    /// How many slots are used.
    ///
    /// # Errors
    ///
    /// Refused as [`check`](FileCard::check) is; [`FileError::Io`].
    pub fn count(&self) -> Result<u32, FileError> {
        Ok(self.tables()?.count_used()?)
    }

    /// The free ground, ascending: see [`free_runs`](crate::free_runs).
    ///
    /// # Errors
    ///
    /// Refused as [`check`](FileCard::check) is; [`FileError::Io`].
    pub fn free_runs(&self) -> Result<Vec<RangeInclusive<u64>>, FileError> {
        Ok(self.tables()?.free_runs()?)
    }

    /// The slot map of the card, as it is now. No call on a file carries a map on: make it anew after a change.
    ///
    /// # Errors
    ///
    /// Refused as [`check`](FileCard::check) is; [`FileError::Io`].
    pub fn slot_map(&self) -> Result<SlotMap, FileError> {
        Ok(self.tables()?.slot_map()?)
    }

    /// The lowest free slot.
    ///
    /// # Errors
    ///
    /// Refused as [`check`](FileCard::check) is, then by 33 where all are used; [`FileError::Io`].
    pub fn lowest_free(&self) -> Result<u32, FileError> {
        Ok(self.slot_map()?.lowest_free()?)
    }

    /// The card's own GUID, which both tables have.
    ///
    /// # Errors
    ///
    /// Refused as [`check`](FileCard::check) is; [`FileError::Io`].
    pub fn disk_guid(&self) -> Result<Guid, FileError> {
        Ok(self.tables()?.disk_guid()?)
    }

    /// The table that the reader takes: see [`reader_copy`](crate::reader_copy).
    ///
    /// # Errors
    ///
    /// Refused by 27; [`FileError::Io`].
    pub fn reader_copy(&self) -> Result<Table, FileError> {
        Ok(self.tables()?.reader_copy()?)
    }

    /// The 16,384 bytes of that table's array, where they stand in the head or in the tail.
    ///
    /// # Errors
    ///
    /// Refused by 27; [`FileError::Io`].
    pub fn reader_array(&self) -> Result<&[u8], FileError> {
        Ok(self.tables()?.reader_array()?)
    }

    /// What a slot of that table holds, or `None` where it is unused.
    ///
    /// # Errors
    ///
    /// Refused by 27, 18; [`FileError::Io`].
    pub fn reader_get(&self, slot: u32) -> Result<Option<Record>, FileError> {
        Ok(self.tables()?.reader_get(slot)?)
    }

    /// The used slots of that table, ascending, each with its record.
    ///
    /// # Errors
    ///
    /// Refused by 27; [`FileError::Io`].
    pub fn reader_list(&self) -> Result<Listing, FileError> {
        Ok(self.tables()?.reader_list()?)
    }

    /// Where `count` bytes at a place of a slot's partition stand in the file.
    ///
    /// # Errors
    ///
    /// Refused as [`check`](FileCard::check) is, then by 18, 23, 24; [`FileError::Io`].
    pub fn payload_place(&self, slot: u32, place: u64, count: usize) -> Result<u64, FileError> {
        Ok(self.tables()?.payload_place(slot, place as usize, count)?)
    }

    /// How many blocks the card has.
    pub fn blocks(&self) -> u64 {
        self.windows.blocks
    }

    /// The size of the card's blocks.
    pub fn block_size(&self) -> BlockSize {
        self.windows.block_size
    }

    /// The usable blocks: those that a partition may have.
    ///
    /// # Errors
    ///
    /// Refused as [`check`](FileCard::check) is; [`FileError::Io`].
    pub fn usable(&self) -> Result<RangeInclusive<u64>, FileError> {
        Ok(self.tables()?.usable()?)
    }

    /// The head's bytes as they were read or written last: block 0, the front header and the front array.
    pub fn head(&self) -> &[u8] {
        &self.windows.head
    }

    /// The tail's bytes: the back array and the back header.
    pub fn tail(&self) -> &[u8] {
        &self.windows.tail
    }

    /// The file.
    pub fn get_ref(&self) -> &F {
        &self.file
    }

    /// Gives the file back. Nothing is left to be written.
    pub fn into_inner(self) -> F {
        self.file
    }
}

/// The calls that write.
impl<F: Device> FileCard<F> {
    /// Lays an empty card on a file: the protective MBR, and both tables with 128 unused slots. No other byte changes. If it is cut, the file may be no card.
    ///
    /// # Errors
    ///
    /// Refused by 8, 10; [`FileError::Io`].
    pub fn lay(file: F, block_size: BlockSize, guid: Guid) -> Result<FileCard<F>, FileError> {
        let mut card = FileCard::open(file, block_size)?;
        card.change(|windows| windows.lay(guid))?;
        Ok(card)
    }

    /// Puts a record into a slot of both tables, in place of what the slot held, and has that stored. No byte of a partition changes.
    ///
    /// # Errors
    ///
    /// Refused as [`check`](FileCard::check) is, then by 18, 19, 20, 21, 22, 25, 28; [`FileError::Io`].
    pub fn put(&mut self, slot: u32, record: &Record) -> Result<(), FileError> {
        self.change(|windows| windows.put(slot, record))
    }

    /// Clears a slot in both tables, and has that stored. An unused one is accepted. The partition's bytes stay on the card: clearing does not wipe.
    ///
    /// # Errors
    ///
    /// Refused as [`check`](FileCard::check) is, then by 18; [`FileError::Io`].
    pub fn clear(&mut self, slot: u32) -> Result<(), FileError> {
        self.change(|windows| windows.clear(slot))
    }

    /// Writes bytes into a slot's partition, from a place on that counts from the partition's first byte, and says how many were written: all of them. That they are stored is
    /// [`sync`](FileCard::sync)'s matter.
    ///
    /// # Errors
    ///
    /// Refused as [`check`](FileCard::check) is, then by 18, 23, 24; [`FileError::Io`], and some of the bytes may be written.
    pub fn write_payload(&mut self, slot: u32, place: u64, bytes: &[u8]) -> Result<usize, FileError> {
        let at = self.tables()?.payload_place(slot, place as usize, bytes.len())?;
        self.same_length()?;
        write_at(&mut self.file, at, bytes)?;
        Ok(bytes.len())
    }

    /// Writes a label at the start of a slot's partition: 13 bytes, and no other byte changes. That they are stored is [`sync`](FileCard::sync)'s matter.
    ///
    /// # Errors
    ///
    /// Refused as [`check`](FileCard::check) is, then by 18, 23, 36; [`FileError::Io`], and some of the bytes may be written.
    pub fn write_label(&mut self, slot: u32, label: Label) -> Result<(), FileError> {
        let bytes = label.to_bytes();
        // The library reads the bytes before the file has them: it refuses what it would refuse to write.
        let read = self.tables()?.read_label(slot, &bytes)?;
        assert_eq!(read, label, "a label's bytes read back");
        self.write_payload(slot, 0, &bytes)?;
        Ok(())
    }

    /// Comes back once the device has stored all that was written.
    ///
    /// # Errors
    ///
    /// [`FileError::Io`].
    pub fn sync(&mut self) -> Result<(), FileError> {
        Ok(again(|| self.file.sync())?)
    }

    /// Stage one of a [`put`](FileCard::put), which is stored when this comes back.
    ///
    /// # Errors
    ///
    /// Refused as [`put`](FileCard::put) is; [`FileError::Io`].
    pub fn start_put(&mut self, slot: u32, record: &Record) -> Result<FileStaged<'_, F>, FileError> {
        self.start(|windows| windows.start_put(slot, record))
    }

    /// Stage one of a [`clear`](FileCard::clear), which is stored when this comes back.
    ///
    /// # Errors
    ///
    /// Refused as [`clear`](FileCard::clear) is; [`FileError::Io`].
    pub fn start_clear(&mut self, slot: u32) -> Result<FileStaged<'_, F>, FileError> {
        self.start(|windows| windows.start_clear(slot))
    }

    /// Stage one of a repair, which gives the table that the reader does not take the disk GUID and the array of the one that it takes. It is stored when this comes back.
    ///
    /// Repair only what [`check`](FileCard::check) refuses: of a whole card a repair first destroys the back header, and a cut then leaves a card that every plain call refuses.
    ///
    /// # Errors
    ///
    /// Refused by 27; [`FileError::Io`].
    pub fn start_repair(&mut self) -> Result<FileStaged<'_, F>, FileError> {
        self.start(Windows::start_repair)
    }

    /// Makes a change in the windows, writes the blocks that it changed, and has them stored.
    fn change(&mut self, call: impl FnOnce(&mut Windows) -> Result<(), Refused>) -> Result<(), FileError> {
        let before = self.tables()?.clone();
        call(&mut self.windows)?;
        self.store(&self.windows.changes_to(&before))
    }

    fn start(&mut self, call: impl FnOnce(&mut Windows) -> Result<State, Refused>) -> Result<FileStaged<'_, F>, FileError> {
        self.tables()?;
        let state = call(&mut self.windows)?;
        FileStaged { card: self, state }.stored()
    }

    /// Writes the blocks at these places as the windows have them, and has them stored. Until that has come to its end, the windows are not what the file has.
    fn store(&mut self, places: &[u64]) -> Result<(), FileError> {
        self.known = false;
        self.same_length()?;
        for place in places {
            write_at(&mut self.file, *place, self.windows.block(*place))?;
        }
        self.sync()?;
        self.known = true;
        Ok(())
    }

    /// The tail stands at the card's end only as long as the file's length is what it was.
    fn same_length(&mut self) -> io::Result<()> {
        let now = length(&mut self.file)?;
        if now == self.length {
            return Ok(());
        }
        self.known = false;
        Err(io::Error::new(ErrorKind::Other, format!("the file has {now} bytes, and had {} when its tables were read", self.length)))
    }
}

impl<F> fmt::Debug for FileCard<F> {
    fn fmt(&self, f: &mut fmt::Formatter<'_>) -> fmt::Result {
        f.debug_struct("FileCard").field("block_size", &self.block_size()).field("blocks", &self.blocks()).finish_non_exhaustive()
    }
}

/// A put, a clear or a repair of a card in a file between its stages: see [`FileCard::start_put`], [`FileCard::start_clear`] and [`FileCard::start_repair`].
///
/// Each stage writes one block and has it stored before this value is there to ask for the [`next`](FileStaged::next). It holds the card, so that nothing else is called on it
/// meanwhile, and goes on by value, so that no stage is skipped and none is made twice. What a cut leaves, and on which premises, [`Staged`](crate::Staged) says. Whoever lets it go
/// between two stages has a card that was pulled there.
///
/// ```compile_fail,E0382
/// # fn twice(mut card: card::FileCard<std::fs::File>) -> Result<(), card::FileError> {
/// let staged = card.start_clear(1)?;
/// staged.next()?;
/// staged.next()?; // the stage that was made is gone
/// # Ok(())
/// # }
/// ```
#[must_use = "an update that does not go on is a card that was pulled"]
pub struct FileStaged<'card, F> {
    card: &'card mut FileCard<F>,
    state: State,
}

impl<'card, F: Device> FileStaged<'card, F> {
    /// Makes the next stage and has its block stored; `None` after the last one.
    ///
    /// # Errors
    ///
    /// [`FileError::Io`]: the card is one that was pulled before this stage or after it.
    pub fn next(self) -> Result<Option<FileStaged<'card, F>>, FileError> {
        if self.stage() == self.stages() {
            return Ok(None);
        }
        let FileStaged { card, state } = self;
        let state = card.windows.next(state)?;
        FileStaged { card, state }.stored().map(Some)
    }

    /// Makes all stages that are left.
    ///
    /// # Errors
    ///
    /// As [`next`](FileStaged::next).
    pub fn finish(self) -> Result<(), FileError> {
        let mut step = Some(self);
        while let Some(staged) = step {
            step = staged.next()?;
        }
        Ok(())
    }

    /// Stores the block of the stage that was just made in the windows.
    fn stored(self) -> Result<FileStaged<'card, F>, FileError> {
        let place = self.place();
        self.card.store(&[place])?;
        Ok(self)
    }
}

impl<F> FileStaged<'_, F> {
    /// The stage that was made last, counted from 1.
    pub fn stage(&self) -> u32 {
        self.state.stage()
    }

    /// How many stages there are: four, or of a repair 34 with blocks of 512 bytes and 6 with 4,096.
    pub fn stages(&self) -> u32 {
        self.state.stages(self.card.block_size())
    }

    /// Where the block starts that the last stage wrote.
    pub fn place(&self) -> u64 {
        self.state.block(self.card.block_size(), self.card.blocks()) * self.card.block_size().bytes()
    }
}

impl<F> fmt::Debug for FileStaged<'_, F> {
    fn fmt(&self, f: &mut fmt::Formatter<'_>) -> fmt::Result {
        f.debug_struct("FileStaged").field("stage", &self.stage()).field("stages", &self.stages()).field("place", &self.place()).finish()
    }
}

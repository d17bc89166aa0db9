//! The file or device that a card is in: opened, locked, and read and written at places. A dry run keeps what would be written in memory.
use crate::failure::{io_failure, system_words, Failure, Outcome};
use crate::system;
use card::Device;
use std::cell::Cell;
use std::collections::BTreeMap;
use std::fs::{self, File, FileType, OpenOptions};
use std::io::{self, Read, Seek, SeekFrom, Write};
use std::os::unix::fs::{FileExt, FileTypeExt, MetadataExt};
use std::path::Path;
use std::rc::Rc;

/// The pieces in which a dry run keeps what would be written.
const PIECE: u64 = 512;

/// A file or device with a place in it.
pub struct Medium {
    file: File,
    place: u64,
    /// The bytes that count, where only the first so many are to be looked at: a card that grew is first read as it was.
    length: Option<u64>,
    /// Whether each write is stored before the next one is taken.
    ordered: bool,
    /// How many bytes were written in all, by this and whatever looks at the same file.
    written: Rc<Cell<u64>>,
    /// Whether this stands for a file that a dry run does not make.
    blank: bool,
    /// What a dry run would have written, by its piece of the file.
    dry: Option<BTreeMap<u64, [u8; PIECE as usize]>>,
}

/// How a medium is opened.
#[derive(Clone, Copy, PartialEq, Eq)]
pub enum Access {
    Read,
    Write { dry: bool, mounted: bool },
}

impl Access {
    /// Whether what is written is kept in memory.
    pub fn is_dry(self) -> bool {
        matches!(self, Access::Write { dry: true, .. })
    }

    /// Whether bytes of the file are to be changed.
    fn writes(self) -> bool {
        matches!(self, Access::Write { dry: false, .. })
    }
}

/// What a path is, if no card can be in it.
fn no_card(kind: FileType) -> Option<&'static str> {
    let file = kind.is_file() || kind.is_block_device();
    (!file).then_some(if kind.is_dir() {
        "a directory"
    } else if kind.is_fifo() {
        "a pipe"
    } else if kind.is_socket() {
        "a socket"
    } else {
        "a terminal or another device without blocks"
    })
}

impl Medium {
    /// Opens a file or device and locks it.
    pub fn open(path: &Path, access: Access) -> Outcome<Medium> {
        let shown = path.display().to_string();
        let failed = |failure: io::Error| io_failure(&shown, &failure);
        if let Some(what) = no_card(fs::metadata(path).map_err(failed)?.file_type()) {
            return Err(Failure::Io(format!("{shown} is {what}, not a card")));
        }
        loop {
            let file = OpenOptions::new().read(true).write(access.writes()).open(path).map_err(failed)?;
            let medium = Medium::locked(file, &shown, access)?;
            // While it was waited for, the file may have been removed, or another one put in its place.
            let (ours, theirs) = (medium.file.metadata().map_err(failed)?, fs::metadata(path).map_err(failed)?);
            if (ours.dev(), ours.ino()) == (theirs.dev(), theirs.ino()) {
                return Ok(medium);
            }
        }
    }

    /// So many zero bytes, in place of a file that a dry run does not make: a file without a name, of which nothing is written.
    pub fn blank(size: u64, access: Access) -> Outcome<Medium> {
        let shown = "a file in memory";
        let made = system::file_in_memory().and_then(|file| file.set_len(size).map(|()| file));
        let file = made.map_err(|failure| io_failure(shown, &failure))?;
        Ok(Medium { blank: true, ..Medium::locked(file, shown, access)? })
    }

    /// Whether this is such a stand-in.
    pub fn is_blank(&self) -> bool {
        self.blank
    }

    /// Locks an open file. A device that is mounted is not written.
    pub fn locked(file: File, shown: &str, access: Access) -> Outcome<Medium> {
        let failed = |failure: io::Error| io_failure(shown, &failure);
        system::lock(&file, access.writes(), || eprintln!("card: waiting for {shown}, which another program has locked")).map_err(failed)?;
        let dry = access.is_dry().then(BTreeMap::new);
        let medium = Medium { file, place: 0, length: None, ordered: false, written: Rc::default(), blank: false, dry };
        if let Access::Write { mounted: false, .. } = access {
            if let Some(folder) = medium.mounted_at().map_err(failed)? {
                return Err(Failure::Refused(format!("{shown} is mounted at {folder}. Nothing was changed. Unmount it, or say --mounted")));
            }
        }
        Ok(medium)
    }

    /// The folder at which the device or one of its partitions is mounted.
    fn mounted_at(&self) -> io::Result<Option<String>> {
        let about = self.file.metadata()?;
        if !about.file_type().is_block_device() {
            return Ok(None);
        }
        let device = name_of_device(about.rdev());
        let mounts = String::from_utf8_lossy(&fs::read("/proc/self/mountinfo")?).into_owned();
        for line in mounts.lines() {
            let mut fields = line.split(' ').skip(2);
            let (Some(mounted), Some(folder)) = (fields.next(), fields.nth(1)) else { continue };
            let whole = fs::read_to_string(format!("/sys/dev/block/{mounted}/../dev")).unwrap_or_default();
            // A file system with a number of its own, as btrfs, is known by its source, behind a dash and its kind.
            let source = line.split(" - ").nth(1).and_then(|rest| rest.split(' ').nth(1)).unwrap_or_default();
            let same = fs::metadata(source).is_ok_and(|source| source.file_type().is_block_device() && source.rdev() == about.rdev());
            if mounted == device || whole.trim() == device || same {
                return Ok(Some(folder.replace("\\040", " ")));
            }
        }
        Ok(None)
    }

    /// Whether this is a block device.
    pub fn is_device(&self) -> bool {
        self.file.metadata().is_ok_and(|about| about.file_type().is_block_device())
    }

    /// The logical block size of a block device; `None` for a file.
    pub fn own_block_size(&self) -> io::Result<Option<u64>> {
        match self.is_device() {
            true => system::device_block_size(&self.file).map(Some),
            false => Ok(None),
        }
    }

    /// The same file once more, as it is now, to look at in another way. A dry run's writes are seen there too.
    pub fn again(&self, length: Option<u64>) -> io::Result<Medium> {
        Ok(Medium { file: self.file.try_clone()?, place: 0, length, ordered: false, written: self.written.clone(), blank: self.blank, dry: self.dry.clone() })
    }

    /// The same, with what is written kept in memory.
    pub fn again_in_memory(&self) -> io::Result<Medium> {
        let mut medium = self.again(self.length)?;
        medium.dry.get_or_insert_with(BTreeMap::new);
        medium.written = Rc::default();
        Ok(medium)
    }

    /// From here on each write is stored before the next one is taken.
    pub fn in_order(mut self) -> Medium {
        self.ordered = true;
        self
    }

    /// The first bytes of the file, 1 MiB or fewer: as far as a front table goes.
    pub fn beginning(&self) -> io::Result<Vec<u8>> {
        let mut bytes = vec![0; self.length_now()?.min(1 << 20) as usize];
        read_what_is_there(&self.file, &mut bytes, 0)?;
        Ok(bytes)
    }

    /// The last bytes of the file, 1 MiB or fewer, and their place: as far as a back table goes.
    pub fn end(&self) -> io::Result<(u64, Vec<u8>)> {
        let length = self.length_now()?;
        let mut bytes = vec![0; length.min(1 << 20) as usize];
        let place = length - bytes.len() as u64;
        read_what_is_there(&self.file, &mut bytes, place)?;
        Ok((place, bytes))
    }

    /// How many bytes were written in all, also by a write that failed in the middle.
    pub fn written(&self) -> u64 {
        self.written.get()
    }

    /// The count itself, for who still asks when the medium is gone.
    pub fn counter(&self) -> Rc<Cell<u64>> {
        self.written.clone()
    }

    /// Whether nothing is written.
    pub fn is_dry(&self) -> bool {
        self.dry.is_some()
    }

    /// How many bytes the file has.
    pub fn length_now(&self) -> io::Result<u64> {
        match self.length {
            Some(length) => Ok(length),
            None => (&self.file).seek(SeekFrom::End(0)),
        }
    }

    /// The file, for the calls that want one.
    pub fn file(&self) -> &File {
        &self.file
    }

    /// The blocks that a dry run would change, each with how many of its bytes would.
    pub fn changes(&self, block_size: u64) -> io::Result<Vec<(u64, usize)>> {
        let mut changes: BTreeMap<u64, usize> = BTreeMap::new();
        for (piece, bytes) in self.dry.iter().flatten() {
            let mut stored = [0; PIECE as usize];
            read_what_is_there(&self.file, &mut stored, piece * PIECE)?;
            let differ = bytes.iter().zip(stored).filter(|(new, old)| *new != old).count();
            *changes.entry(piece * PIECE / block_size).or_default() += differ;
        }
        changes.retain(|_, differ| *differ > 0);
        Ok(changes.into_iter().collect())
    }

    fn write_dry(&mut self, bytes: &[u8]) -> io::Result<usize> {
        let (piece, from) = (self.place / PIECE, (self.place % PIECE) as usize);
        let count = bytes.len().min(PIECE as usize - from);
        let pieces = self.dry.as_mut().expect("a dry run");
        if let std::collections::btree_map::Entry::Vacant(place) = pieces.entry(piece) {
            let mut stored = [0; PIECE as usize];
            read_what_is_there(&self.file, &mut stored, piece * PIECE)?;
            place.insert(stored);
        }
        pieces.get_mut(&piece).expect("a piece")[from..from + count].copy_from_slice(&bytes[..count]);
        Ok(count)
    }
}

/// A device by its two numbers, as the system's files name it.
fn name_of_device(rdev: u64) -> String {
    let major = (rdev >> 8 & 0xfff) | (rdev >> 32 & !0xfff);
    let minor = (rdev & 0xff) | (rdev >> 12 & !0xff);
    format!("{major}:{minor}")
}

/// Fills `out` from a place on, as far as the file goes.
fn read_what_is_there(file: &File, out: &mut [u8], place: u64) -> io::Result<()> {
    let mut done = 0;
    while done < out.len() {
        match file.read_at(&mut out[done..], place + done as u64) {
            Ok(0) => return Ok(()),
            Ok(count) => done += count,
            Err(failure) if failure.kind() == io::ErrorKind::Interrupted => {}
            Err(failure) => return Err(failure),
        }
    }
    Ok(())
}

impl Read for Medium {
    fn read(&mut self, out: &mut [u8]) -> io::Result<usize> {
        let left = self.length.map_or(u64::MAX, |length| length.saturating_sub(self.place));
        let room = out.len().min(usize::try_from(left).unwrap_or(usize::MAX));
        let count = self.file.read_at(&mut out[..room], self.place)?;
        for (piece, bytes) in self.dry.iter().flat_map(|pieces| pieces.range(self.place / PIECE..)) {
            let begin = piece * PIECE;
            if begin >= self.place + count as u64 {
                break;
            }
            for (byte, place) in bytes.iter().zip(begin..) {
                if let Some(seen) = place.checked_sub(self.place).and_then(|at| out[..count].get_mut(at as usize)) {
                    *seen = *byte;
                }
            }
        }
        self.place += count as u64;
        Ok(count)
    }
}

impl Write for Medium {
    fn write(&mut self, bytes: &[u8]) -> io::Result<usize> {
        let count = match self.dry {
            Some(_) => self.write_dry(bytes)?,
            None => self.file.write_at(bytes, self.place)?,
        };
        if count == 0 && !bytes.is_empty() {
            return Err(io::Error::new(io::ErrorKind::WriteZero, "the device takes no more bytes"));
        }
        if count > bytes.len() {
            return Err(io::Error::new(io::ErrorKind::InvalidData, "the system says that more bytes were written than there were"));
        }
        self.place += count as u64;
        self.written.set(self.written.get() + count as u64);
        Ok(count)
    }

    fn write_all(&mut self, mut bytes: &[u8]) -> io::Result<()> {
        while !bytes.is_empty() {
            match self.write(bytes) {
                Ok(count) => bytes = &bytes[count..],
                Err(failure) if failure.kind() == io::ErrorKind::Interrupted => {}
                Err(failure) => return Err(failure),
            }
        }
        if self.ordered {
            self.sync()?;
        }
        Ok(())
    }

    fn flush(&mut self) -> io::Result<()> {
        Ok(())
    }
}

impl Seek for Medium {
    fn seek(&mut self, to: SeekFrom) -> io::Result<u64> {
        self.place = match to {
            SeekFrom::Start(place) => place,
            SeekFrom::End(0) => self.length_now()?,
            _ => return Err(io::Error::new(io::ErrorKind::Unsupported, "only a place from the start, or the end, is asked for")),
        };
        Ok(self.place)
    }
}

impl Device for Medium {
    fn sync(&mut self) -> io::Result<()> {
        match self.dry {
            Some(_) => Ok(()),
            None => self.file.sync_data(),
        }
    }
}

/// 16 bytes that the system draws, as a GUID of version 4.
pub fn drawn_guid() -> Outcome<card::Guid> {
    let mut bytes = [0; 16];
    let drawn = File::open("/dev/urandom").and_then(|mut source| source.read_exact(&mut bytes));
    drawn.map_err(|failure| Failure::Io(format!("no GUID could be drawn: /dev/urandom: {}", system_words(&failure))))?;
    // The version stands in the upper half of the third field, whose bytes are turned round on the card.
    bytes[7] = bytes[7] & 0x0f | 0x40;
    bytes[8] = bytes[8] & 0x3f | 0x80;
    Ok(card::Guid::from_bytes(bytes))
}

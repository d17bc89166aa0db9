//! A card that was opened from a path, and why the library refuses it, in words that say what to do next.
use crate::args::{number, Args};
use crate::failure::{io_failure, system_words, Failure, Outcome};
use crate::medium::{Access, Medium};
use crate::words::{count, quoted};
use card::{ffi, BlockSize, FileCard, FileError, Guid, Name, Place, Refusal, Refused, Table};
use std::os::unix::ffi::OsStrExt;
use std::path::{Path, PathBuf};

/// A card in a file or device.
pub struct Opened {
    pub path: PathBuf,
    pub card: FileCard<Medium>,
    writes: bool,
    /// The block size, where it was given and not found here: a command that is advised has to say it too.
    given: Option<BlockSize>,
}

/// A card's file in words: as it is shown, and as a command that is advised has it. And whether nothing is written.
pub struct Said {
    pub shown: String,
    pub word: String,
    pub dry: bool,
}

/// A card of fewer blocks than its file has: the card, its disk GUID, and the table that the reader takes of it.
pub struct Shorter {
    pub card: FileCard<Medium>,
    pub guid: Guid,
    pub table: Table,
}

/// The block size that was asked for.
pub fn given_block_size(args: &Args) -> Outcome<Option<BlockSize>> {
    args.value("block-size", |text| {
        number(text).ok().and_then(|bytes: u64| BlockSize::try_from(bytes).ok()).ok_or_else(|| format!("{text} is neither 512 nor 4096"))
    })
}

/// The same; else the device's own, or 512.
pub fn block_size(args: &Args, medium: &Medium, shown: &str) -> Outcome<BlockSize> {
    if let Some(given) = given_block_size(args)? {
        return Ok(given);
    }
    let own = medium.own_block_size().map_err(|failure| io_failure(shown, &failure))?.unwrap_or(512);
    BlockSize::try_from(own).map_err(|_| Failure::Refused(format!("{shown} has blocks of {own} bytes, and a card has blocks of 512 or 4096. [1]")))
}

impl Opened {
    /// Opens the card at a path, which may be refused by the library later.
    pub fn open(args: &Args, path: &Path, access: Access) -> Outcome<Opened> {
        let medium = Medium::open(path, access)?;
        let block_size = block_size(args, &medium, &path.display().to_string())?;
        Opened::of(medium, path, block_size, given_block_size(args)?, access)
    }

    /// The card in a medium, with the block size that was given.
    pub fn of(medium: Medium, path: &Path, block_size: BlockSize, given: Option<BlockSize>, access: Access) -> Outcome<Opened> {
        let bytes = medium.length_now();
        let writes = access != Access::Read;
        match FileCard::open(medium, block_size) {
            Ok(card) => Ok(Opened { path: path.to_path_buf(), card, writes, given }),
            Err(FileError::Refused(refused)) => {
                let left = if writes { " Nothing was changed." } else { "" };
                let small = too_small(bytes.unwrap_or(0), block_size);
                Err(Failure::Refused(format!("{}: no card: {small}{left} [{}]", path.display(), refused.number())))
            }
            Err(failure) => Err(io_words(path, failure)),
        }
    }

    /// The path as it is shown.
    pub fn shown(&self) -> String {
        self.path.display().to_string()
    }

    /// The file in a command that the user is told to give.
    pub fn word(&self) -> String {
        command_word(&self.path, self.given)
    }

    /// Both, for an update that has the card.
    pub fn said(&self) -> Said {
        Said { shown: self.shown(), word: self.word(), dry: self.card.get_ref().is_dry() }
    }

    /// How many bytes a block has.
    pub fn b(&self) -> u64 {
        self.card.block_size().bytes()
    }

    /// What a failed call comes to: the check's refusals in this module's words, any other as `said` says it.
    pub fn failure(&self, error: FileError, said: impl FnOnce(Refusal) -> String) -> Failure {
        match error {
            FileError::Refused(refused) if self.card.check().is_err() => self.check_failure(refused),
            FileError::Refused(refused) => Failure::Refused(format!("{} [{}]", said(refused.refusal), refused.number())),
            other => io_words(&self.path, other),
        }
    }

    /// As `failure` is, of a call whose only refusals are the check's.
    pub fn checked<T>(&self, result: Result<T, FileError>) -> Outcome<T> {
        result.map_err(|error| match error {
            FileError::Refused(refused) => self.check_failure(refused),
            other => io_words(&self.path, other),
        })
    }

    /// The check's refusal.
    fn check_failure(&self, refused: Refused) -> Failure {
        let left = if self.writes { ". Nothing was changed." } else { "" };
        match self.check_words(refused) {
            Ok(words) => Failure::Refused(format!("{}: {words}{left} [{}]", self.shown(), refused.number())),
            Err(failure) => failure,
        }
    }

    /// What the check found, and what to do next.
    pub fn check_words(&self, refused: Refused) -> Outcome<String> {
        self.words_of(refused, "neither table can be read: lay it anew, or read it by card uefi")
    }

    /// Why neither table can be read, and what might help.
    pub fn unread_words(&self) -> Outcome<String> {
        match self.card.check().err().and_then(|error| error.refused()) {
            Some(refused) => self.words_of(refused, ""),
            None => Ok(String::new()),
        }
    }

    /// The same, with what is said where nothing helps.
    fn words_of(&self, refused: Refused, lost: &str) -> Outcome<String> {
        let table = match refused.place {
            Some(Place::Front) => "front",
            Some(Place::Back) => "back",
            Some(Place::DiskGuid) => return Ok(format!("the two tables have different disk GUIDs; {}", self.reader_takes())),
            Some(Place::Slot(slot)) => {
                let [front, back] = self.names(slot);
                let also = if front == back { self.other_field(slot) } else { "" };
                return Ok(format!("the two tables differ, first in slot {slot} ({front} in front, {back} at the back{also}); {}", self.reader_takes()));
            }
            _ => return Ok(refused.to_string()),
        };
        Ok(match self.next_step()? {
            Some(step) => format!("{table} table: {}; {step}", table_words(refused.refusal)),
            None if lost.is_empty() => format!("{table} table: {}", table_words(refused.refusal)),
            None => format!("{table} table: {}; {lost} {}", table_words(refused.refusal), self.word()),
        })
    }

    /// Where both tables are whole and differ, the one that is shown.
    fn reader_takes(&self) -> String {
        let table = match self.card.reader_copy() {
            Ok(Table::Back) => "back",
            _ => "front",
        };
        format!("the reader takes the {table}: card repair {}", self.word())
    }

    /// What helps with a table that cannot be read. A front table that is good for a shorter file comes first: what stands at the end may be an older card's.
    fn next_step(&self) -> Outcome<Option<String>> {
        if let Some(shorter) = self.shorter()? {
            return Ok(Some(format!("it is laid for {} blocks, and the file has {}: card grow {}", shorter.card.blocks(), self.card.blocks(), self.word())));
        }
        match self.reader_table()? {
            Some(Table::Front) => return Ok(Some(format!("the front is good: card repair {}", self.word()))),
            Some(Table::Back) => return Ok(Some(format!("the back is good: card repair {}", self.word()))),
            None => {}
        }
        let other = other_size(self.card.block_size());
        Ok(self.at_other_size()?.map(|_| format!("a card with blocks of {other} bytes is there: try -b {other}")))
    }

    /// The table that the reader takes; `None` where it takes neither.
    pub fn reader_table(&self) -> Outcome<Option<Table>> {
        self.unless_refused(self.card.reader_copy())
    }

    /// A value, or `None` where the library refuses. That reading failed is no verdict.
    fn unless_refused<T>(&self, result: Result<T, FileError>) -> Outcome<Option<T>> {
        match result {
            Ok(value) => Ok(Some(value)),
            Err(error @ FileError::Io(_)) => Err(io_words(&self.path, error)),
            Err(_) => Ok(None),
        }
    }

    /// The same file, looked at with another length.
    fn again(&self, length: Option<u64>) -> Outcome<Medium> {
        self.card.get_ref().again(length).map_err(|failure| io_failure(&self.shown(), &failure))
    }

    /// The card at the other block size, if the reader shows one there, at this length or a shorter one.
    pub fn at_other_size(&self) -> Outcome<Option<FileCard<Medium>>> {
        let Ok(other) = BlockSize::try_from(other_size(self.card.block_size())) else { return Ok(None) };
        let Some(card) = self.unless_refused(FileCard::open(self.again(None)?, other))? else { return Ok(None) };
        let opened = Opened { path: self.path.clone(), card, writes: self.writes, given: None };
        match opened.reader_table()? {
            Some(_) => Ok(Some(opened.card)),
            None => Ok(opened.shorter()?.map(|shorter| shorter.card)),
        }
    }

    /// The card that a front header for a shorter file describes, if the reader shows one at that length.
    pub fn shorter(&self) -> Outcome<Option<Shorter>> {
        let head = self.card.head();
        // SAFETY: the pointer and the length are those of one slice, which is only read.
        let read = unsafe { ffi::gpt_read_primary_header(head.as_ptr(), head.len(), self.b()) };
        let blocks = (read.number == 0).then(|| read.header.backup_lba.checked_add(1)).flatten().filter(|blocks| *blocks < self.card.blocks());
        let Some(blocks) = blocks else { return Ok(None) };
        let Some(card) = self.unless_refused(FileCard::open(self.again(Some(blocks * self.b()))?, self.card.block_size()))? else { return Ok(None) };
        let Some(table) = self.unless_refused(card.reader_copy())? else { return Ok(None) };
        let ffi::gpt_guid { time_low, time_mid, time_high, tail } = read.header.disk_guid;
        Ok(Some(Shorter { card, guid: Guid::from_fields(time_low, time_mid, time_high, tail), table }))
    }

    /// The used slots that the reader shows, at this length or a shorter one, at this block size or the other one.
    pub fn shown_slots(&self) -> Outcome<Option<String>> {
        if let Some(list) = self.unless_refused(self.card.reader_list())?.filter(|list| list.len() > 0) {
            return Ok(Some(format!("is a card with {}", count(list.len(), "used slot"))));
        }
        if let Some(list) = self.shorter()?.map(|shorter| self.unless_refused(shorter.card.reader_list())).transpose()?.flatten().filter(|list| list.len() > 0)
        {
            return Ok(Some(format!("is a card of fewer blocks with {}", count(list.len(), "used slot"))));
        }
        if let Some(card) = self.at_other_size()? {
            if let Some(list) = self.unless_refused(card.reader_list())?.filter(|list| list.len() > 0) {
                let b = other_size(self.card.block_size());
                return Ok(Some(format!("is a card with blocks of {b} bytes and {}", count(list.len(), "used slot"))));
            }
        }
        Ok(None)
    }

    /// The bytes of a slot in each table, front and back.
    fn entries(&self, slot: u32) -> [&[u8]; 2] {
        [&self.card.head()[2 * self.b() as usize..], self.card.tail()].map(|array| &array[128 * (slot as usize - 1)..][..128])
    }

    /// In which field two entries of one name differ first.
    fn other_field(&self, slot: u32) -> &'static str {
        let [front, back] = self.entries(slot);
        match front.iter().zip(back).position(|(one, other)| one != other) {
            Some(0..=15) => ", with another type",
            Some(16..=31) => ", with another GUID",
            Some(32..=47) => ", with other blocks",
            Some(48..=55) => ", with other flags",
            _ => ", with other bytes behind the name",
        }
    }

    /// What each table has in a slot, front and back.
    fn names(&self, slot: u32) -> [String; 2] {
        let entry = |bytes: &[u8]| {
            // SAFETY: the pointer and the length are those of one slice, which is only read.
            let read = unsafe { ffi::gpt_entry_from_bytes(bytes.as_ptr(), bytes.len()) };
            match bytes[..16] == [0; 16] {
                true => "unused".to_string(),
                false => quoted(&Name::from_raw(read.partition.name)),
            }
        };
        self.entries(slot).map(entry)
    }
}

/// The other one of the two block sizes.
fn other_size(block_size: BlockSize) -> u64 {
    match block_size {
        BlockSize::B512 => 4096,
        BlockSize::B4096 => 512,
    }
}

/// A file in a command that the user is told to give: the block size, where it was given, and the path as one word of a shell.
pub fn command_word(path: &Path, given: Option<BlockSize>) -> String {
    let block_size = given.map_or(String::new(), |size| format!("-b {} ", size.bytes()));
    block_size + &shell_word(path)
}

/// A path as one word of a shell. One that begins with a dash would be taken for an option; one that a terminal cannot show is written with its bytes' numbers.
fn shell_word(path: &Path) -> String {
    let path = if path.as_os_str().as_bytes().starts_with(b"-") { Path::new(".").join(path) } else { path.to_path_buf() };
    let plain = |c: char| c.is_alphanumeric() || "/._-+:@%,=".contains(c);
    let hidden = |c: char| c.is_control() || matches!(c, '\u{200e}' | '\u{200f}' | '\u{2028}'..='\u{202e}' | '\u{2066}'..='\u{2069}');
    let escaped = |byte: &u8| match byte {
        b'\'' | b'\\' => format!("\\{}", *byte as char),
        b' '..=b'~' => (*byte as char).to_string(),
        _ => format!("\\{byte:03o}"),
    };
    match path.to_str() {
        Some(text) if !text.is_empty() && text.chars().all(plain) => text.to_string(),
        Some(text) if !text.chars().any(hidden) => format!("'{}'", text.replace('\'', "'\\''")),
        _ => format!("$'{}'", path.as_os_str().as_bytes().iter().map(escaped).collect::<String>()),
    }
}

/// What is wrong with one table.
pub fn table_words(refusal: Refusal) -> &'static str {
    match refusal {
        Refusal::InvalidGptSignature => "the header does not begin with EFI PART",
        Refusal::InvalidCRC32Checksum => "the header's check sum does not match",
        Refusal::PartsCrc => "the entry check sum does not match",
        _ => "it is not laid out as a card's",
    }
}

/// A failure to read or write.
pub fn io_words(path: &Path, error: FileError) -> Failure {
    let shown = path.display();
    match error {
        FileError::Io(failure) => Failure::Io(format!("{shown}: {}", system_words(&failure))),
        other => Failure::Refused(format!("{shown}: {other}")),
    }
}

/// Why there is no room for a card.
pub fn too_small(bytes: u64, block_size: BlockSize) -> String {
    let b = block_size.bytes();
    // Block 0, two headers and two arrays, and one usable block.
    let least = 2 * (16384 / b) + 4;
    format!("it has {} blocks of {b} bytes, and a card has at least {least}.", bytes / b)
}

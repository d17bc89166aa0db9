//! The commands that change a card's tables: lay, put, clear, repair and grow. Every update is made in stages, each stored before the next.
use crate::args::{self, number, Args, Size};
use crate::dry;
use crate::failure::{io_failure, system_words, Failure, Outcome};
use crate::look::name_of;
use crate::medium::{drawn_guid, Access, Medium};
use crate::opened::{block_size, command_word, given_block_size, io_words, too_small, Opened, Said, Shorter};
use crate::output::Out;
use crate::over;
use crate::payload;
use crate::words::{self, quoted};
use card::{BlockSize, Device, Entry, FileCard, FileError, FileStaged, Flags, Guid, Name, Record, Refusal, Table};
use std::ffi::OsString;
use std::fs::{self, OpenOptions};
use std::io::{self, Seek, SeekFrom, Write};
use std::ops::RangeInclusive;
use std::path::{Path, PathBuf};

/// How a command that writes opens its file.
pub fn access(args: &Args) -> Access {
    Access::Write { dry: args.has("dry-run"), mounted: args.has("mounted") }
}

/// `lay FILE [--size S] [--guid G] [--force]`
pub fn lay(mut args: Args, out: &mut Out) -> Outcome {
    let path = PathBuf::from(args.word("FILE")?);
    args.end()?;
    let size = args.value("size", args::bytes)?;
    let given = given_block_size(&args)?;
    let guid = match args.value("guid", args::guid)? {
        Some(guid) => guid,
        None => drawn_guid()?,
    };
    let (medium, made) = medium_to_lay(&args, &path, size, access(&args))?;
    // The lock is the file's as long as one descriptor of it is open: nobody else lays the file before it is removed again.
    let (lock, written, dry) = (medium.file().try_clone(), medium.counter(), medium.is_dry());
    let laid = laid(&args, medium, &path, size, guid, out);
    if laid.is_err() && made {
        // The failure that counts is the first one.
        let _ = fs::remove_file(&path);
    }
    drop(lock);
    match laid {
        Err(Failure::Io(words)) if !made && !dry && written.get() > 0 => {
            Err(Failure::Io(format!("{words}. It may be laid in part: card show {} says what it shows; lay it again", command_word(&path, given))))
        }
        laid => laid,
    }
}

/// The file to lay a card on, and whether it was made here.
pub fn medium_to_lay(args: &Args, path: &Path, size: Option<u64>, access: Access) -> Outcome<(Medium, bool)> {
    let shown = path.display().to_string();
    let size = match (fs::metadata(path), size) {
        (Err(failure), Some(size)) if failure.kind() == io::ErrorKind::NotFound => size,
        (Err(failure), None) if failure.kind() == io::ErrorKind::NotFound => {
            return args.usage(format!("{shown} is not there: say how long it should be, as --size 8G"));
        }
        _ => return Ok((Medium::open(path, access)?, false)),
    };
    let failed = |failure: io::Error| io_failure(&shown, &failure);
    if access.is_dry() {
        let folder = path.parent().filter(|folder| !folder.as_os_str().is_empty()).unwrap_or(Path::new("."));
        fs::metadata(folder).map_err(failed)?;
        return Ok((Medium::blank(size, access)?, false));
    }
    let file = OpenOptions::new().read(true).write(true).create_new(true).open(path).map_err(failed)?;
    let medium = Medium::locked(file, &shown, access)?;
    // Another command may have taken the empty file before it was locked.
    if medium.length_now().map_err(failed)? != 0 {
        return Ok((medium, false));
    }
    match set_length(&medium, &shown, size) {
        Ok(()) => Ok((medium, true)),
        Err(failure) => {
            let _ = fs::remove_file(path);
            Err(failure)
        }
    }
}

/// Gives an empty file its length.
fn set_length(medium: &Medium, shown: &str, size: u64) -> Outcome {
    if i64::try_from(size).is_err() {
        return Err(Failure::Io(format!("{shown}: no file can have {size} bytes")));
    }
    medium.file().set_len(size).map_err(|failure| io_failure(shown, &failure))
}

/// Lays the card, if that drops nothing.
fn laid(args: &Args, medium: Medium, path: &Path, size: Option<u64>, guid: Guid, out: &mut Out) -> Outcome {
    let shown = path.display().to_string();
    let failed = |failure: io::Error| io_failure(&shown, &failure);
    let block_size = block_size(args, &medium, &shown)?;
    let medium = match size {
        Some(size) => lengthened(medium, path, size, block_size, access(args))?,
        None => medium,
    };
    let bytes = medium.length_now().map_err(failed)?;
    if let Some(size) = size.filter(|size| *size != bytes) {
        return Err(Failure::Refused(format!("{shown} has {bytes} bytes, not the {size} of --size. Nothing was changed.")));
    }
    if !args.has("force") {
        drops_nothing(args, &medium, path, block_size)?;
    }
    let card = lay_on(medium, path, block_size, guid)?;
    out.changed = !card.get_ref().is_dry();
    finish_lay(&card, &shown, out)
}

/// An empty file with the length that was asked for, if a card has room in it; any other as it is.
pub fn lengthened(medium: Medium, path: &Path, size: u64, block_size: BlockSize, access: Access) -> Outcome<Medium> {
    let failed = |failure: io::Error| io_failure(&path.display().to_string(), &failure);
    if medium.length_now().map_err(failed)? != 0 || medium.is_device() {
        return Ok(medium);
    }
    room_for(path, size, block_size)?;
    match medium.is_dry() {
        true => Medium::blank(size, access),
        false => set_length(&medium, &path.display().to_string(), size).map(|()| medium),
    }
}

/// Whether a file of so many bytes has room for a card, which the library says of as many zeros.
fn room_for(path: &Path, size: u64, block_size: BlockSize) -> Outcome {
    match FileCard::open(Zeros { length: size }, block_size) {
        Err(FileError::Refused(refused)) => Err(Failure::Refused(not_laid(path, size, block_size, refused.number()))),
        Err(other) => Err(io_words(path, other)),
        Ok(_) => Ok(()),
    }
}

/// Why a file is too small.
fn not_laid(path: &Path, bytes: u64, block_size: BlockSize, number: u32) -> String {
    format!("{} not laid: {} Nothing was changed. [{number}]", path.display(), too_small(bytes, block_size))
}

/// Lays a card on a medium, each block stored before the next.
pub fn lay_on(medium: Medium, path: &Path, block_size: BlockSize, guid: Guid) -> Outcome<FileCard<Medium>> {
    let bytes = medium.length_now().unwrap_or(0);
    FileCard::lay(medium.in_order(), block_size, guid).map_err(|error| match error {
        FileError::Refused(refused) => Failure::Refused(not_laid(path, bytes, block_size, refused.number())),
        other => io_words(path, other),
    })
}

/// So many zeros, which are only read.
struct Zeros {
    length: u64,
}

impl io::Read for Zeros {
    fn read(&mut self, out: &mut [u8]) -> io::Result<usize> {
        out.fill(0);
        Ok(out.len())
    }
}

impl Seek for Zeros {
    fn seek(&mut self, to: SeekFrom) -> io::Result<u64> {
        Ok(if let SeekFrom::Start(place) = to { place } else { self.length })
    }
}

fn finish_lay(card: &FileCard<Medium>, shown: &str, out: &mut Out) -> Outcome {
    if card.get_ref().is_dry() {
        if card.get_ref().is_blank() {
            out.line(format!("{shown} would be made, with {} bytes", card.get_ref().length_now().map_err(|failure| io_failure(shown, &failure))?));
        }
        return dry::report(card, shown, &[], out);
    }
    let read = |error: FileError| Failure::Io(format!("{shown}: {error}"));
    let (guid, usable, b) = (card.disk_guid().map_err(read)?, card.usable().map_err(read)?, card.block_size().bytes());
    let size = words::size(card.blocks() * b);
    out.line(format!("card laid: {shown}: {} blocks of {b} bytes ({size}), GUID {guid}, usable blocks {} to {}", card.blocks(), usable.start(), usable.end()));
    tell_kernel(card.get_ref(), out);
    Ok(())
}

/// Refuses to lay over what is there.
fn drops_nothing(args: &Args, medium: &Medium, path: &Path, block_size: BlockSize) -> Outcome {
    let again = medium.again(None).map_err(|failure| io_failure(&path.display().to_string(), &failure))?;
    match Opened::of(again, path, block_size, given_block_size(args)?, Access::Read) {
        // What is too small for a card is refused by the lay itself.
        Err(Failure::Refused(_)) => Ok(()),
        opened => over::refused(&opened?),
    }
}

/// The system's number for a device that is in use.
const BUSY: i32 = 16;

/// A device's table has changed, so the kernel is asked to look again.
pub fn tell_kernel(medium: &Medium, out: &mut Out) {
    if !medium.is_device() || medium.is_dry() {
        return;
    }
    // A device of which the kernel reads no table, as a plain loop device, is no matter; one that is in use is.
    match crate::system::read_table_again(medium.file()) {
        Err(failure) if failure.raw_os_error() == Some(BUSY) => out.line(format!("the kernel still has the old table: {}", system_words(&failure))),
        _ => {}
    }
}

/// Opens the card that the next word names, to be changed.
pub fn opened(args: &mut Args) -> Outcome<Opened> {
    let path = PathBuf::from(args.word("FILE")?);
    Opened::open(args, &path, access(args))
}

/// The stage after which to stop, of so many.
fn stop_after(args: &Args, stages: u32) -> Outcome<u32> {
    match args.value("stop-after", number)? {
        None => Ok(stages),
        Some(stage) if (1..=stages).contains(&stage) => Ok(stage),
        Some(stage) => args.usage(format!("--stop-after {stage}: there are stages 1 to {stages}")),
    }
}

/// How far an update came.
pub struct Carried {
    pub stage: u32,
    pub stages: u32,
}

/// Makes the stages that are left, through a given one. What fails is said with the stage.
pub fn carry(staged: FileStaged<'_, Medium>, said: &Said, last: u32) -> Outcome<Carried> {
    let stages = staged.stages();
    let mut stage = staged.stage();
    let mut step = Some(staged);
    while stage < last.min(stages) {
        let Some(staged) = step else { break };
        step = staged.next().map_err(|error| cut(said, stage + 1, stages, &error))?;
        stage += 1;
    }
    Ok(Carried { stage, stages })
}

/// An update that could not go on.
fn cut(said: &Said, stage: u32, stages: u32, error: &FileError) -> Failure {
    let Said { shown, word, dry } = said;
    let words = match error {
        FileError::Io(failure) => system_words(failure),
        other => other.to_string(),
    };
    if *dry {
        return Failure::Io(format!("{shown}: {words}. Nothing was changed"));
    }
    let next = match stage {
        1 => format!("The reader shows the old table; card check {word} says whether the card has to be repaired"),
        _ => format!("The card is one that was pulled: card show {word} says what it shows, card repair {word} mends it"),
    };
    Failure::Io(format!("{shown}: stage {stage} of {stages}: {words}. {next}"))
}

/// What a call that begins an update comes to: refused in its own words, or failed at stage 1.
pub fn begun<'a>(result: Result<FileStaged<'a, Medium>, FileError>, said: &Said, stages: u32) -> Result<Result<FileStaged<'a, Medium>, FileError>, Failure> {
    match result {
        Err(error @ FileError::Io(_)) => Err(cut(said, 1, stages, &error)),
        other => Ok(other),
    }
}

/// The slot that a word names. One that is too large for the library to take is refused by the number that it has for such slots.
pub fn slot_of(args: &Args, word: &OsString, verb: &str, left: &str) -> Outcome<u32> {
    let slot = args.read(word, args::slot)?;
    u32::try_from(slot).map_err(|_| Failure::Refused(format!("slot {slot} not {verb}: there is no slot {slot}: a card has slots 1 to 128.{left} [18]")))
}

/// What a refused command that writes leaves.
pub const LEFT: &str = " Nothing was changed.";

/// The slot that a word names; `None` for `next`.
fn slot_or_next(args: &Args, word: &OsString) -> Outcome<Option<u32>> {
    match word.to_str() {
        Some("next") => Ok(None),
        _ => slot_of(args, word, "put", LEFT).map(Some),
    }
}

/// Where a partition is to be: at blocks that were given, or wherever there is room.
#[derive(Clone, Copy)]
pub enum Ground {
    Blocks(u64, u64),
    Room(Size),
}

fn ground(args: &Args) -> Outcome<Ground> {
    let (first, last) = (args.value("first", number)?, args.value("last", number)?);
    let size = args.value("size", |text| args::size(text, Size::Bytes))?;
    match (first, last, size) {
        (Some(first), Some(last), None) => Ok(Ground::Blocks(first, last)),
        (None, None, Some(Size::Bytes(0) | Size::Blocks(0))) => args.usage("--size 0: a partition has at least one block"),
        (None, None, Some(size)) => Ok(Ground::Room(size)),
        _ => args.usage("say --first and --last, or --size"),
    }
}

/// `put FILE SLOT|next (--first N --last N | --size S) [--type T] [--name NAME] [--guid G] [--attrs A] [--replace]`
pub fn put(mut args: Args, out: &mut Out) -> Outcome {
    let (path, slot) = (PathBuf::from(args.word("FILE")?), args.word("SLOT")?);
    args.end()?;
    let slot = slot_or_next(&args, &slot)?;
    let ground = ground(&args)?;
    let last = stop_after(&args, 4)?;
    let type_guid = args.value("type", args::type_guid)?.unwrap_or(Guid::BASIC_DATA);
    let flags = args.value("attrs", args::flags)?.unwrap_or(Flags::NONE);
    let name = match Name::new(args.text("name").unwrap_or("")) {
        Ok(name) => name,
        Err(error) => return args.usage(error.to_string()),
    };
    let given = args.value("guid", args::guid)?;
    let mut opened = Opened::open(&args, &path, access(&args))?;
    opened.checked(opened.card.check())?;
    let slot = match slot {
        Some(slot) => slot,
        None => opened.card.lowest_free().map_err(|error| opened.failure(error, |_| "no slot put: all 128 slots are used. Nothing was changed.".into()))?,
    };
    let guid = match given {
        Some(guid) => guid,
        None => drawn_guid()?,
    };
    let (first, last_block) = blocks_for(&opened, slot, ground)?;
    let record = Record { type_guid, guid, first, last: last_block, flags, name };
    let held = held_by(&opened, slot, &record, args.has("replace"))?;
    let carried = put_record(&mut opened, slot, &record, last)?;
    if let (Some(held), true) = (&held, opened.card.get_ref().is_dry()) {
        out.line(format!("slot {slot} holds {held}: it would be replaced"));
    }
    let held = held.map_or(String::new(), |held| format!("; it held {held}"));
    finish(&opened, carried, || put_words(slot, &record, opened.b()) + &held, out)
}

/// What a slot holds, in words; `None` where it is not used. Where the slot would not keep those blocks, from the first one on, only `--replace` puts it: no table would name that map any more.
fn held_by(opened: &Opened, slot: u32, new: &Record, replace: bool) -> Outcome<Option<String>> {
    // A slot that is none is refused by the put, in the library's words.
    let there = if (1..=128).contains(&slot) { opened.checked(opened.card.get(slot))? } else { None };
    let Some(old) = there else { return Ok(None) };
    let size = words::size(words::bytes_of(old.first, old.last, opened.b()));
    let kind = if old.type_guid == Guid::BASIC_DATA { String::new() } else { format!(", type {}", words::type_of(old.type_guid)) };
    let held = format!("{}, blocks {} to {} ({size}){kind}", quoted(&old.name), old.first, old.last);
    if replace || new.first == old.first && new.last >= old.last {
        return Ok(Some(held));
    }
    Err(Failure::Refused(format!(
        "slot {slot} not put: it holds {held}, and would not keep them. Nothing was changed. Say --replace to put it all the same, or next for a slot that is free"
    )))
}

/// What was put, in words.
fn put_words(slot: u32, record: &Record, b: u64) -> String {
    let size = words::size(words::bytes_of(record.first, record.last, b));
    let (kind, name) = (words::type_of(record.type_guid), quoted(&record.name));
    format!("slot {slot} put: blocks {} to {} ({size}), type {kind}, GUID {}, {name}", record.first, record.last, record.guid)
}

/// Puts a record in stages, through one of them.
pub fn put_record(opened: &mut Opened, slot: u32, record: &Record, last: u32) -> Outcome<Carried> {
    let said = opened.said();
    let result = begun(opened.card.start_put(slot, record), &said, 4)?;
    match result {
        Ok(staged) => carry(staged, &said, last),
        Err(error) => {
            Err(opened.failure(error, |refusal| format!("slot {slot} not put: {}. Nothing was changed.", put_refusal(opened, slot, record, refusal))))
        }
    }
}

/// Why the library does not put a record.
fn put_refusal(opened: &Opened, slot: u32, record: &Record, refusal: Refusal) -> String {
    let Record { first, last, .. } = record;
    let other = |slot: u32| opened.card.get(slot).ok().flatten();
    match refusal {
        Refusal::Overlap { slot } => match other(slot) {
            Some(there) => format!("blocks {first} to {last} overlap slot {slot} {} ({} to {})", quoted(&there.name), there.first, there.last),
            None => format!("blocks {first} to {last} overlap slot {slot}"),
        },
        Refusal::TwinGuid { slot } => format!("slot {slot} {} has the same partition GUID", other(slot).map_or(String::new(), |there| quoted(&there.name))),
        Refusal::NilType => "its type is nil".into(),
        Refusal::BadRange => format!("the last block, {last}, comes before the first, {first}"),
        Refusal::OutsideUsable => match opened.card.usable() {
            Ok(usable) => format!("blocks {first} to {last} are not all usable: those are {} to {}", usable.start(), usable.end()),
            Err(_) => format!("blocks {first} to {last} are not all usable"),
        },
        other => slot_refusal(slot, other),
    }
}

/// The refusals that every call on a slot has.
pub fn slot_refusal(slot: u32, refusal: Refusal) -> String {
    match refusal {
        Refusal::BadSlot => format!("there is no slot {slot}: a card has slots 1 to 128"),
        Refusal::EmptySlot => format!("slot {slot} is not used"),
        other => other.to_string(),
    }
}

/// The blocks for a partition.
fn blocks_for(opened: &Opened, slot: u32, ground: Ground) -> Outcome<(u64, u64)> {
    let size = match ground {
        Ground::Blocks(first, last) => return Ok((first, last)),
        Ground::Room(size) => size,
    };
    let (b, blocks) = (opened.b(), size.blocks(opened.b()));
    let runs = opened.checked(opened.card.free_runs())?;
    match room_in(&runs, blocks, b) {
        Some(first) => Ok((first, first + (blocks - 1))),
        None => {
            let largest = runs.iter().map(|run| run.end() - run.start() + 1).max().unwrap_or(0);
            let (asked, had) = (words::size(blocks.saturating_mul(b)), words::size(largest * b));
            Err(Failure::Refused(format!(
                "slot {slot} not put: no free run has {blocks} blocks ({asked}); the largest has {largest} ({had}). Nothing was changed."
            )))
        }
    }
}

/// The first block of the lowest ground for so many blocks: from a multiple of 1 MiB on, or else wherever there is room.
pub fn room_in(runs: &[RangeInclusive<u64>], blocks: u64, b: u64) -> Option<u64> {
    let fits = |run: &RangeInclusive<u64>, first: u64| first <= *run.end() && run.end() - first >= blocks - 1;
    let grain = (1 << 20) / b;
    let aligned = |run: &RangeInclusive<u64>| run.start().div_ceil(grain) * grain;
    let at_grain = runs.iter().find(|run| fits(run, aligned(run))).map(aligned);
    at_grain.or_else(|| runs.iter().find(|run| fits(run, *run.start())).map(|run| *run.start()))
}

/// Says what an update came to.
fn finish(opened: &Opened, carried: Carried, done: impl FnOnce() -> String, out: &mut Out) -> Outcome {
    let medium = opened.card.get_ref();
    if medium.is_dry() {
        return dry::report(&opened.card, &opened.shown(), &[], out);
    }
    out.changed = true;
    let Carried { stage, stages } = carried;
    if stage < stages {
        let shows = if stage < 3 { "old" } else { "new" };
        out.line(format!("stopped after stage {stage} of {stages}, as asked: the reader shows the {shows} table"));
        return Ok(());
    }
    out.line(done());
    tell_kernel(medium, out);
    Ok(())
}

/// A dry run says so also where there is nothing to do.
fn nothing_to_do(opened: &Opened, out: &mut Out) -> Outcome {
    if opened.card.get_ref().is_dry() {
        dry::end(out);
    }
    Ok(())
}

/// `clear FILE SLOT [--wipe]`
pub fn clear(mut args: Args, out: &mut Out) -> Outcome {
    let (path, slot) = (PathBuf::from(args.word("FILE")?), args.word("SLOT")?);
    args.end()?;
    let slot = slot_of(&args, &slot, "cleared", LEFT)?;
    let last = stop_after(&args, 4)?;
    let mut opened = Opened::open(&args, &path, access(&args))?;
    opened.checked(opened.card.check())?;
    let said = |refusal| format!("slot {slot} not cleared: {}. Nothing was changed.", slot_refusal(slot, refusal));
    let Some(record) = opened.card.get(slot).map_err(|error| opened.failure(error, said))? else {
        out.line(format!("slot {slot} was not used"));
        return nothing_to_do(&opened, out);
    };
    let mut notes = Vec::new();
    if args.has("wipe") {
        payload::wipe(&mut opened, slot, &record, &args, &mut notes)?;
        out.changed = true;
    }
    let file = opened.said();
    let zeros = format!("The bytes of slot {slot} are zeros already.");
    let wiped = |failure: Failure| if args.has("wipe") && !file.dry { failure.with(&zeros) } else { failure };
    let result = begun(opened.card.start_clear(slot), &file, 4).map_err(wiped)?;
    let carried = match result {
        Ok(staged) => carry(staged, &file, last).map_err(wiped)?,
        Err(error) => return Err(opened.failure(error, said)),
    };
    if file.dry {
        return dry::report(&opened.card, &file.shown, &notes, out);
    }
    if args.has("wipe") && carried.stage < carried.stages {
        out.line(format!("the bytes of slot {slot} are zeros already"));
    }
    let Record { first, last, .. } = record;
    let words = match args.has("wipe") {
        true => format!("slot {slot} wiped and cleared: zeros in blocks {first} to {last}"),
        false => format!("slot {slot} cleared: its entry is gone from both tables, its bytes (blocks {first} to {last}) are still on the card"),
    };
    finish(&opened, carried, || words, out)
}

/// `repair FILE`
pub fn repair(mut args: Args, out: &mut Out) -> Outcome {
    let mut opened = opened(&mut args)?;
    args.end()?;
    let stages = (16384 / opened.b()) as u32 + 2;
    let last = stop_after(&args, stages)?;
    if opened.card.check().is_ok() {
        out.line("nothing to repair: the check accepts the card".to_string());
        return nothing_to_do(&opened, out);
    }
    let shown = opened.shown();
    let Some(from) = opened.reader_table()? else {
        return Err(Failure::Refused(format!("{shown} not repaired: neither table can be read: {}. Nothing was changed. [27]", opened.unread_words()?)));
    };
    if !args.has("force") {
        not_an_older_back(&opened, from)?;
    }
    let other = if from == Table::Front { Table::Back } else { Table::Front };
    let (from, other) = (name_of(from), name_of(other));
    let said = opened.said();
    let staged = match begun(opened.card.start_repair(), &said, stages)? {
        Ok(staged) => staged,
        Err(error) => return Err(io_words(&opened.path, error)),
    };
    let Carried { stage, .. } = carry(staged, &said, last)?;
    if said.dry {
        return dry::report(&opened.card, &shown, &[], out);
    }
    out.changed = true;
    if stage < stages {
        out.line(format!("stopped after stage {stage} of {stages}, as asked: the reader still takes the {from} table"));
        return Ok(());
    }
    out.line(format!("{other} table repaired from the {from}: {stages} blocks stored"));
    tell_kernel(opened.card.get_ref(), out);
    Ok(())
}

/// A card that was copied onto a longer one has a front table for fewer blocks, and at the end may stand the back table of the card before: to repair from that one would bring back its slots.
fn not_an_older_back(opened: &Opened, from: Table) -> Outcome {
    let Some(Shorter { card: shorter, .. }) = opened.shorter()? else { return Ok(()) };
    let entries = |card: &FileCard<Medium>| card.reader_list().map(|list| list.collect::<Vec<Entry>>()).map_err(|error| io_words(&opened.path, error));
    if from == Table::Front || entries(&shorter)? == entries(&opened.card)? {
        return Ok(());
    }
    Err(Failure::Refused(format!(
        "{} not repaired: its front table is that of a card of {} blocks with other slots than the back one's. Nothing was changed. card grow {word} keeps the front's slots, card repair --force {word} the back's",
        opened.shown(),
        shorter.blocks(),
        word = opened.word()
    )))
}

/// `grow FILE`: the same slots on all blocks of a file that has become longer.
///
/// The new tables are made in memory by the library: a card of the new length is laid there with the same GUID, and each slot that the reader shows of the shorter card is put again. The back
/// table is stored first: the front one, which is good for the shorter length, stays what it is. Then the front header, one block, turns the card over to the new length; the front array
/// stays as it is. So wherever it is cut, the front table is good for the shorter length or one of the two for the longer one, with the same slots.
pub fn grow(mut args: Args, out: &mut Out) -> Outcome {
    let opened = opened(&mut args)?;
    args.end()?;
    let shown = opened.shown();
    if opened.card.check().is_ok() {
        out.line(format!("nothing to grow: the card has all {} blocks of the file", opened.card.blocks()));
        return nothing_to_do(&opened, out);
    }
    let Some(Shorter { card: before, guid, table }) = opened.shorter()? else {
        let hint = match opened.at_other_size()? {
            Some(card) => format!(" A card with blocks of {} bytes is there: try -b {}", card.block_size().bytes(), card.block_size().bytes()),
            None => String::new(),
        };
        return Err(Failure::Refused(format!("{shown} not grown: it has no front table that is good for a shorter file. Nothing was changed.{hint}")));
    };
    if table == Table::Back {
        return Err(Failure::Refused(format!(
            "{shown} not grown: at its {} blocks the card was pulled, and only its back table is good. Nothing was changed. Shorten the file to {} bytes, repair it, and lengthen it again",
            before.blocks(),
            before.blocks() * opened.b()
        )));
    }
    let entries: Vec<Entry> = before.reader_list().map_err(|error| io_words(&opened.path, error))?.collect();
    let (old, slots) = (before.blocks(), entries.len());
    let grown = grown(&opened, guid, &entries)?;
    let mut medium = opened.card.get_ref().again(None).map_err(|failure| io_failure(&shown, &failure))?;
    store_grown(&mut medium, &grown)
        .map_err(|failure| Failure::Io(format!("{shown}: {}. card check {} says how to go on", system_words(&failure), opened.word())))?;
    if medium.is_dry() {
        let card = FileCard::open(medium, opened.card.block_size()).map_err(|error| io_words(&opened.path, error))?;
        return dry::report(&card, &shown, &[], out);
    }
    out.changed = true;
    let (blocks, b) = (grown.blocks(), opened.b());
    let stay = if slots == 1 { "1 slot stays as it was".to_string() } else { format!("{slots} slots stay as they were") };
    out.line(format!("card grown from {old} to {blocks} blocks of {b} bytes ({}): {stay}", words::size(blocks * b)));
    tell_kernel(&medium, out);
    Ok(())
}

/// The card at the new length, in memory, with the slots of the shorter one.
fn grown(opened: &Opened, guid: Guid, entries: &[Entry]) -> Outcome<FileCard<Medium>> {
    let failed = |error: FileError| match error {
        FileError::Refused(refused) => Failure::Refused(format!("{} not grown: {refused}. Nothing was changed. [{}]", opened.shown(), refused.number())),
        other => io_words(&opened.path, other),
    };
    let memory = opened.card.get_ref().again_in_memory().map_err(|failure| io_failure(&opened.shown(), &failure))?;
    let mut card = FileCard::lay(memory, opened.card.block_size(), guid).map_err(failed)?;
    for entry in entries {
        card.put(entry.slot, &entry.record).map_err(failed)?;
    }
    Ok(card)
}

/// Stores the tables of a card that was made in memory: the back table, then the front one from its end to its beginning. A block that is there already is not written.
fn store_grown(medium: &mut Medium, grown: &FileCard<Medium>) -> io::Result<()> {
    let b = grown.block_size().bytes();
    let tail = grown.blocks() * b - grown.tail().len() as u64;
    let blocks =
        |window: &[u8], from: u64| -> Vec<(u64, Vec<u8>)> { window.chunks(b as usize).zip(0..).map(|(block, i)| (from + i * b, block.to_vec())).collect() };
    let (back, front) = (blocks(grown.tail(), tail), blocks(grown.head(), 0));
    for (place, block) in back.into_iter().chain(front.into_iter().rev()) {
        let mut there = vec![0; b as usize];
        medium.seek(SeekFrom::Start(place))?;
        io::Read::read_exact(medium, &mut there)?;
        if there != block {
            medium.seek(SeekFrom::Start(place))?;
            medium.write_all(&block)?;
            medium.sync()?;
        }
    }
    Ok(())
}

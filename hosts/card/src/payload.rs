//! The commands on a partition's bytes: write, read, label, screen, and the wiping of a slot that is cleared.
use crate::args::{self, number, Args, LabelParts};
use crate::dry;
use crate::failure::{io_failure, Failure, Outcome};
use crate::medium::Access;
use crate::opened::{io_words, Opened};
use crate::output::Out;
use crate::progress::Progress;
use crate::system;
use crate::table::{access, slot_of, slot_refusal, LEFT};
use crate::words;
use card::{crc32_next, FileError, Label, Record, Refusal, FRESH};
use std::ffi::OsString;
use std::fs::File;
use std::io::{self, Read, Seek, SeekFrom};
use std::os::unix::fs::FileTypeExt;
use std::path::{Path, PathBuf};

/// How many bytes are moved at once.
pub const CHUNK: usize = 1 << 20;

/// Why the library does not read or write bytes of a slot.
pub fn refusal_words(opened: &Opened, slot: u32, place: u64, bytes: u64, refusal: Refusal) -> String {
    match refusal {
        Refusal::PastPartition => {
            let has = opened.card.get(slot).ok().flatten().map_or(0, |record| words::bytes_of(record.first, record.last, opened.b()));
            let last = place.saturating_add(bytes).saturating_sub(1);
            format!("bytes {place} to {last} pass its end: the partition has {has} bytes")
        }
        other => slot_refusal(slot, other),
    }
}

/// The failure of a payload call, with the verb that was not done.
fn not_done(opened: &Opened, slot: u32, verb: &str, place: u64, bytes: u64, error: FileError) -> Failure {
    let left = if verb == "read" { "" } else { " Nothing was changed." };
    opened.failure(error, |refusal| format!("slot {slot} not {verb}: {}.{left}", refusal_words(opened, slot, place, bytes, refusal)))
}

/// `write FILE SLOT SOURCE [--at P]`
pub fn write(mut args: Args, out: &mut Out) -> Outcome {
    let (path, slot, source) = (PathBuf::from(args.word("FILE")?), args.word("SLOT")?, args.word("SOURCE")?);
    args.end()?;
    let slot = slot_of(&args, &slot, "written", LEFT)?;
    let at = args.value("at", args::bytes)?.unwrap_or(0);
    let mut source = Source::open(&source)?;
    let mut opened = Opened::open(&args, &path, access(&args))?;
    opened.checked(opened.card.check())?;
    // What is too long is refused before a byte is written. How long a pipe is shows only when it ends, which may be at once.
    let length = source.at_least()?;
    opened.card.payload_place(slot, at, length as usize).map_err(|error| not_done(&opened, slot, "written", at, length, error))?;
    if opened.card.get_ref().is_dry() {
        let note = dry_note(&opened, slot, at, source.length)?;
        return dry::report(&opened.card, &opened.shown(), &[note], out);
    }
    let mut progress = Progress::new(&args, "written", source.length);
    let (bytes, sum) = copy_in(&mut opened, slot, at, &mut source, &mut progress)?;
    out.changed = true;
    verify(&mut opened, slot, at, bytes, sum, &mut progress)?;
    progress.end();
    out.line(format!("slot {slot}: {bytes} bytes written from place {at}, verified"));
    Ok(())
}

/// Where bytes come from.
pub struct Source {
    name: String,
    from: Box<dyn Read>,
    /// How many there are, if that can be told beforehand.
    pub length: Option<u64>,
    /// Those that were read ahead.
    ahead: Vec<u8>,
}

impl Source {
    /// A file, or standard input for `-`.
    fn open(name: &OsString) -> Outcome<Source> {
        if name == "-" {
            return Ok(Source { name: "standard input".into(), from: Box::new(io::stdin().lock()), length: None, ahead: vec![] });
        }
        Source::file(Path::new(name))
    }

    /// A file.
    pub fn file(path: &Path) -> Outcome<Source> {
        let name = path.display().to_string();
        let failed = |failure: io::Error| io_failure(&name, &failure);
        let mut file = File::open(path).map_err(failed)?;
        let about = file.metadata().map_err(failed)?;
        if about.is_dir() {
            return Err(Failure::Io(format!("{name} is a directory, not a map")));
        }
        // Some files of the system say that they are empty and have bytes; a device without blocks has no end.
        let length = match (about.is_file(), about.file_type().is_block_device()) {
            (true, _) => Some(about.len()).filter(|length| *length > 0),
            (_, true) => Some(file.seek(SeekFrom::End(0)).and_then(|length| file.rewind().map(|()| length)).map_err(failed)?),
            _ => None,
        };
        Ok(Source { name, from: Box::new(file), length, ahead: vec![] })
    }

    /// How many bytes there are: all, or of a pipe as many as are moved at once.
    fn at_least(&mut self) -> Outcome<u64> {
        if let Some(length) = self.length {
            return Ok(length);
        }
        let mut chunk = vec![0; CHUNK];
        let count = self.fill(&mut chunk)?;
        chunk.truncate(count);
        self.ahead = chunk;
        if count < CHUNK {
            self.length = Some(count as u64);
        }
        Ok(count as u64)
    }

    /// The next bytes, as many as there is room for unless the source ends.
    pub fn fill(&mut self, room: &mut [u8]) -> Outcome<usize> {
        let mut done = room.len().min(self.ahead.len());
        room[..done].copy_from_slice(&self.ahead[..done]);
        self.ahead.drain(..done);
        while done < room.len() {
            match self.from.read(&mut room[done..]) {
                Ok(0) => break,
                Ok(count) => done += count,
                Err(failure) if failure.kind() == io::ErrorKind::Interrupted => {}
                Err(failure) => return Err(io_failure(&self.name, &failure)),
            }
        }
        Ok(done)
    }
}

/// Writes a source into a slot, and has it stored. Says how many bytes there were, and their check sum.
///
/// Where the source covers the label's place, a label that is there is first written over with zeros, and then, or where the source has a label, its own first bytes come last, each stored
/// before the next: a card that is pulled meanwhile shows no map under another map's date.
pub fn copy_in(opened: &mut Opened, slot: u32, at: u64, source: &mut Source, progress: &mut Progress) -> Outcome<(u64, u32)> {
    let (before, mut held) = (opened.card.get_ref().written(), false);
    copied(opened, slot, at, source, progress, &mut held).map_err(|failure| {
        let touched = opened.card.get_ref().written() > before;
        let left = match (touched, held) {
            (false, _) => return failure,
            (true, true) => format!("The first 13 bytes of slot {slot} are zeros, so that it has no date."),
            (true, false) => format!("Slot {slot} is not written whole."),
        };
        failure.with(&left)
    })
}

/// The same; says in `held` whether the label's place is still to be written.
fn copied(opened: &mut Opened, slot: u32, at: u64, source: &mut Source, progress: &mut Progress, waits: &mut bool) -> Outcome<(u64, u32)> {
    let mut chunk = vec![0; CHUNK];
    let (mut done, mut sum, mut first) = (0, FRESH, Vec::new());
    loop {
        let count = source.fill(&mut chunk)?;
        if count == 0 {
            break;
        }
        let mut held = 0;
        if done == 0 && at == 0 && count >= 13 {
            let fits = opened.card.payload_place(slot, at, count).map(|_| ());
            let labelled = fits.and_then(|()| without_label(opened, slot)).map_err(|error| half_written(opened, slot, at, 0, count as u64, error))?;
            if labelled || chunk.starts_with(b"FBM") {
                held = 13;
                *waits = true;
                first = chunk[..held].to_vec();
            }
        }
        let begin = at + first.len() as u64;
        store(opened, slot, begin, at + done + held as u64 - begin, &chunk[held..count])?;
        sum = crc32_next(sum, &chunk[..count]);
        done += count as u64;
        progress.at(done);
    }
    opened.card.sync().map_err(|error| io_words(&opened.path, error))?;
    if !first.is_empty() {
        opened.card.write_payload(slot, 0, &first).and_then(|_| opened.card.sync()).map_err(|error| io_words(&opened.path, error))?;
    }
    Ok((done, sum))
}

/// Writes bytes into a slot, behind so many that were written from a place on.
fn store(opened: &mut Opened, slot: u32, at: u64, done: u64, bytes: &[u8]) -> Outcome {
    let begun = opened.card.get_ref().written();
    match opened.card.write_payload(slot, at + done, bytes) {
        Ok(_) => Ok(()),
        Err(error) => {
            let done = done + (opened.card.get_ref().written() - begun);
            Err(half_written(opened, slot, at, done, bytes.len() as u64, error))
        }
    }
}

/// Writes zeros over the label of a slot, if it has one, and has them stored. Says whether it had one.
fn without_label(opened: &mut Opened, slot: u32) -> Result<bool, FileError> {
    match opened.card.read_label(slot) {
        Ok(_) => {
            opened.card.write_payload(slot, 0, &[0; 13])?;
            opened.card.sync().map(|()| true)
        }
        Err(error @ FileError::Io(_)) => Err(error),
        Err(_) => Ok(false),
    }
}

/// A write that ended in the middle: a pipe that was too long, or a device that failed.
fn half_written(opened: &Opened, slot: u32, at: u64, done: u64, count: u64, error: FileError) -> Failure {
    let left = match done {
        0 => "Nothing was changed.".to_string(),
        _ => format!("{done} bytes from place {at} on were written before."),
    };
    match error {
        FileError::Refused(refused) => {
            let why = refusal_words(opened, slot, at + done, count, refused.refusal);
            let whole = if done == 0 { "" } else { " whole" };
            Failure::Refused(format!("slot {slot} not written{whole}: {why}. {left} [{}]", refused.number()))
        }
        other => match io_words(&opened.path, other) {
            Failure::Io(words) if done > 0 => {
                Failure::Io(format!("{words}. Slot {slot} is not written whole: {done} bytes from place {at} on were written before"))
            }
            failure => failure,
        },
    }
}

/// Reads bytes of a slot back, from the device where the system lets it, and compares their sum.
pub fn verify(opened: &mut Opened, slot: u32, at: u64, bytes: u64, sum: u32, progress: &mut Progress) -> Outcome {
    system::forget(opened.card.get_ref().file());
    progress.begin("read back");
    let (mut chunk, mut done, mut read) = (vec![0; CHUNK], 0, FRESH);
    while done < bytes {
        let count = (bytes - done).min(CHUNK as u64) as usize;
        opened.card.read_payload(slot, at + done, &mut chunk[..count]).map_err(|error| io_words(&opened.path, error))?;
        read = crc32_next(read, &chunk[..count]);
        done += count as u64;
        progress.at(done);
    }
    match read == sum {
        true => Ok(()),
        false => Err(Failure::Io(format!("{}: slot {slot} reads back other bytes than were written: the device does not keep them", opened.shown()))),
    }
}

/// What a dry run says of payload.
pub fn dry_note(opened: &Opened, slot: u32, at: u64, bytes: Option<u64>) -> Outcome<String> {
    let bytes = match bytes {
        None => return Ok(format!("would write the bytes of a pipe into slot {slot}, from place {at}")),
        Some(0) => return Ok(format!("slot {slot}: there are no bytes to write")),
        Some(bytes) => bytes,
    };
    let place = opened.card.payload_place(slot, at, bytes as usize).map_err(|error| not_done(opened, slot, "written", at, bytes, error))?;
    Ok(format!("would write bytes {place} to {} of the file (slot {slot}, from place {at})", place + bytes - 1))
}

/// Writes zeros over a slot's partition, and has them stored.
pub fn wipe(opened: &mut Opened, slot: u32, record: &Record, args: &Args, notes: &mut Vec<String>) -> Outcome {
    let bytes = words::bytes_of(record.first, record.last, opened.b());
    if opened.card.get_ref().is_dry() {
        notes.push(dry_note(opened, slot, 0, Some(bytes))?);
        return Ok(());
    }
    // The date goes first, so that no zeros stand under it.
    without_label(opened, slot).map_err(|error| io_words(&opened.path, error))?;
    let (zeros, mut done) = (vec![0; CHUNK], 0);
    let mut progress = Progress::new(args, "wiped", Some(bytes));
    while done < bytes {
        let count = (bytes - done).min(CHUNK as u64) as usize;
        store(opened, slot, 0, done, &zeros[..count])?;
        done += count as u64;
        progress.at(done);
    }
    progress.end();
    opened.card.sync().map_err(|error| io_words(&opened.path, error))
}

/// `read FILE SLOT [--at P] [--length L]`
pub fn read(mut args: Args, out: &mut Out) -> Outcome {
    let (path, slot) = (PathBuf::from(args.word("FILE")?), args.word("SLOT")?);
    args.end()?;
    let slot = slot_of(&args, &slot, "read", "")?;
    let at = args.value("at", args::bytes)?.unwrap_or(0);
    let asked = args.value("length", args::bytes)?;
    let mut opened = Opened::open(&args, &path, Access::Read)?;
    opened.checked(opened.card.check())?;
    let record = opened.card.get(slot).map_err(|error| not_done(&opened, slot, "read", at, 0, error))?;
    let has = record.map_or(0, |record| words::bytes_of(record.first, record.last, opened.b()));
    let bytes = asked.unwrap_or_else(|| has.saturating_sub(at));
    opened.card.payload_place(slot, at, bytes as usize).map_err(|error| not_done(&opened, slot, "read", at, bytes, error))?;
    let (mut chunk, mut done) = (vec![0; CHUNK], 0);
    while done < bytes {
        let count = (bytes - done).min(CHUNK as u64) as usize;
        opened.card.read_payload(slot, at + done, &mut chunk[..count]).map_err(|error| io_words(&opened.path, error))?;
        out.bytes(&chunk[..count])?;
        done += count as u64;
    }
    Ok(())
}

/// The parts of a label that were given.
fn label_parts(args: &Args) -> Outcome<LabelParts> {
    Ok(LabelParts { date: args.value("date", args::date)?, style: args.value("style", number)?, sheet: args.value("sheet", number)? })
}

/// `label FILE SLOT [--date D --style S --sheet N]`
pub fn label(mut args: Args, out: &mut Out) -> Outcome {
    let (path, slot) = (PathBuf::from(args.word("FILE")?), args.word("SLOT")?);
    args.end()?;
    let parts = label_parts(&args)?;
    let reads = parts.is_empty();
    let slot = slot_of(&args, &slot, "labelled", if reads { "" } else { LEFT })?;
    let mut opened = Opened::open(&args, &path, if reads { Access::Read } else { access(&args) })?;
    opened.checked(opened.card.check())?;
    let there = match opened.card.read_label(slot) {
        Ok(label) => Some(label),
        // A label that is written over need not be one yet.
        Err(FileError::Refused(refused)) if !reads && matches!(refused.refusal, Refusal::BadMark | Refusal::UnknownVersion | Refusal::BadDate) => None,
        Err(error) if reads => return Err(label_failure(&mut opened, slot, error)),
        Err(error) => return Err(opened.failure(error, |refusal| format!("slot {slot} not labelled: {}. Nothing was changed.", slot_refusal(slot, refusal)))),
    };
    if let (true, Some(label)) = (reads, there) {
        out.line(format!("slot {slot}: {}", words::label(label)));
        return Ok(());
    }
    let Some(label) = parts.over(there) else {
        return args.usage(format!("slot {slot} has no label yet: say --date, --style and --sheet"));
    };
    write_label(&mut opened, slot, label)?;
    if opened.card.get_ref().is_dry() {
        let note = dry_note(&opened, slot, 0, Some(13))?;
        return dry::report(&opened.card, &opened.shown(), &[note], out);
    }
    out.changed = true;
    match opened.card.read_label(slot) {
        Ok(again) if again == label => out.line(format!("slot {slot}: {}, written and verified", words::label(label))),
        Err(error @ FileError::Io(_)) => return Err(io_words(&opened.path, error)),
        _ => return Err(Failure::Io(format!("{}: slot {slot} reads back another label than was written", opened.shown()))),
    }
    Ok(())
}

/// Writes a label and has it stored.
pub fn write_label(opened: &mut Opened, slot: u32, label: Label) -> Outcome {
    opened.card.write_label(slot, label).map_err(|error| {
        opened.failure(error, |refusal| match refusal {
            Refusal::BadDate => format!("slot {slot} not labelled: month {}, day {} is no date. Nothing was changed.", label.month, label.day),
            other => format!("slot {slot} not labelled: {}. Nothing was changed.", slot_refusal(slot, other)),
        })
    })?;
    opened.card.sync().map_err(|error| io_words(&opened.path, error))?;
    system::forget(opened.card.get_ref().file());
    Ok(())
}

/// Why a slot has no label that can be read.
fn label_failure(opened: &mut Opened, slot: u32, error: FileError) -> Failure {
    let mut bytes = [0; 13];
    let read = opened.card.read_payload(slot, 0, &mut bytes).is_ok();
    opened.failure(error, |refusal| match refusal {
        Refusal::BadSlot | Refusal::EmptySlot => format!("slot {slot} not labelled: {}.", slot_refusal(slot, refusal)),
        other => format!("{}.", label_words(slot, other, &bytes, read)),
    })
}

fn label_words(slot: u32, refusal: Refusal, bytes: &[u8; 13], read: bool) -> String {
    match refusal {
        Refusal::BadMark => format!("slot {slot} has no label: its map does not begin with FBM"),
        Refusal::UnknownVersion if read => format!("slot {slot} has a label of version {}, and only 1 is known", u16::from_le_bytes([bytes[3], bytes[4]])),
        Refusal::BadDate if read => format!("slot {slot} has no date: month {}, day {}", bytes[7], bytes[8]),
        Refusal::BadSlot | Refusal::EmptySlot => slot_refusal(slot, refusal),
        other => format!("slot {slot}: {other}"),
    }
}

/// `screen FILE SLOT..`
pub fn screen(mut args: Args, out: &mut Out) -> Outcome {
    let path = PathBuf::from(args.word("FILE")?);
    let mut slots = Vec::new();
    for word in args.rest() {
        slots.push(slot_of(&args, &word, "judged", "")?);
    }
    let mut opened = Opened::open(&args, &path, Access::Read)?;
    let line = judge(&mut opened, &slots)?;
    out.line(line);
    Ok(())
}

/// The one date of a set of slots, in words; or the first slot that breaks it.
pub fn judge(opened: &mut Opened, slots: &[u32]) -> Outcome<String> {
    let list = |slots: &[u32]| slots.iter().map(u32::to_string).collect::<Vec<_>>().join(", ");
    match opened.card.judge(slots) {
        Ok(dated) => {
            let what = if slots.len() == 1 { "slot" } else { "slots" };
            Ok(format!("one date: {}, style {} ({what} {})", words::date(dated.year, dated.month, dated.day), dated.style, list(slots)))
        }
        Err(FileError::SetRefused(set)) => match set.slot {
            Some(slot) => Err(set_failure(opened, slots[0], slot, set.refused.refusal)),
            None if set.refused.refusal == Refusal::EmptyList => Err(Failure::Refused("no slot was named. [38]".into())),
            None => opened.checked(Err(FileError::Refused(set.refused))),
        },
        Err(other) => Err(io_words(&opened.path, other)),
    }
}

/// Why a slot breaks a set.
fn set_failure(opened: &mut Opened, first: u32, slot: u32, refusal: Refusal) -> Failure {
    let mut bytes = [0; 13];
    let read = opened.card.read_payload(slot, 0, &mut bytes).is_ok();
    let words = match (refusal, opened.card.read_label(first), opened.card.read_label(slot)) {
        (Refusal::TwoDates, Ok(one), Ok(other)) => {
            let dated = |label: Label| format!("{}, style {}", words::date(label.year, label.month, label.day), label.style);
            format!("not one date: slot {slot} is dated {}, and slot {first} {}", dated(other), dated(one))
        }
        _ => label_words(slot, refusal, &bytes, read),
    };
    Failure::Refused(format!("{words}. [{}]", refusal.number()))
}

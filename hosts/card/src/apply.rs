//! `apply PLAN FILE..`: one plan, many cards. What is there already is not written again, so that a second run changes no byte.
//!
//! Each card is first brought to the plan in memory. What the library refuses there is refused before a byte of the card is changed.
use crate::args::{self, Args};
use crate::dry;
use crate::failure::{io_failure, Failure, Outcome};
use crate::medium::{drawn_guid, Access, Medium};
use crate::opened::{block_size, given_block_size, io_words, Opened};
use crate::output::Out;
use crate::over;
use crate::payload::{self, Source, CHUNK};
use crate::plan::{self, Line, Plan};
use crate::progress::Progress;
use crate::table::{access, lay_on, lengthened, medium_to_lay, put_record, room_in, tell_kernel};
use crate::words::{self, count, quoted};
use card::{FileError, Label, Record, Refusal};
use std::ops::RangeInclusive;
use std::os::unix::fs::FileTypeExt;
use std::path::Path;

/// What is to be done to each card.
struct Work<'a> {
    args: &'a Args,
    plan: &'a Plan,
    size: Option<u64>,
    access: Access,
    /// Whether this is the run in memory that comes before the one on the card. It compares no maps.
    rehearsal: bool,
}

/// `apply PLAN FILE.. [--size S]`
pub fn apply(mut args: Args, out: &mut Out) -> Outcome {
    let plan = plan::read(Path::new(&args.word("PLAN")?))?;
    let files = args.rest();
    if files.is_empty() {
        return args.usage("FILE is missing");
    }
    let size = args.value("size", args::bytes)?;
    given_block_size(&args)?;
    sources_are_there(&plan)?;
    let (mut status, mut failed, mut unsaid) = (0, 0, Ok(()));
    for file in &files {
        let path = Path::new(file);
        let mut touched = false;
        if let Err(failure) = rehearsed(&args, &plan, path, size, &mut touched, out) {
            failed += 1;
            status = worse(status, failure.status());
            out.line(format!("{}: failed: {}", path.display(), failed_words(&failure, path, touched)));
        }
        out.changed |= touched;
        // That nobody reads what is said keeps no card from being made.
        unsaid = unsaid.and(out.write());
    }
    if files.len() > 1 {
        out.line(format!("{} done, {failed} failed", count(files.len() - failed, "card")));
    }
    if args.has("dry-run") {
        dry::end(out);
    }
    unsaid?;
    let words = format!("{} not as planned", count(failed, "card"));
    match status {
        0 => Ok(()),
        3 => Err(Failure::Io(words)),
        2 => Err(Failure::Usage(words, "apply")),
        _ => Err(Failure::Refused(words)),
    }
}

/// Input and output before refusals, and refusals before what was not understood.
fn worse(one: u8, other: u8) -> u8 {
    [3, 1, 2, 0].into_iter().find(|status| *status == one || *status == other).unwrap_or(0)
}

/// One card, in memory and then, unless that was all that was asked for, on the file.
fn rehearsed(args: &Args, plan: &Plan, path: &Path, size: Option<u64>, touched: &mut bool, out: &mut Out) -> Outcome {
    let asked = access(args);
    let work = Work { args, plan, size, access: asked, rehearsal: false };
    let Access::Write { dry: false, mounted } = asked else { return one(&work, path, None, touched, out) };
    let memory = Work { access: Access::Write { dry: true, mounted }, rehearsal: true, ..work };
    // A file that is there is locked once for both runs; one that is not is made after the first.
    let medium = match path.exists() {
        true => Some(Medium::open(path, asked)?),
        false => None,
    };
    let copy = medium.as_ref().map(Medium::again_in_memory).transpose().map_err(|failure| io_failure(&path.display().to_string(), &failure))?;
    one(&memory, path, copy, touched, &mut Out::default())?;
    one(&work, path, medium, touched, out)
}

/// The words of a failure behind the card's name. Where bytes of the card were changed before it, they say so.
fn failed_words(failure: &Failure, path: &Path, touched: bool) -> String {
    let words = failure.words().unwrap_or_default();
    let words = words.strip_prefix(&format!("{}: ", path.display())).unwrap_or(&words).to_string();
    match touched {
        true => words.replace(" Nothing was changed.", " What was done before stays."),
        false => words,
    }
}

/// Every map of the plan can be opened, and none has a label of its own where the plan gives one.
fn sources_are_there(plan: &Plan) -> Outcome {
    for line in &plan.lines {
        let Some(file) = &line.file else { continue };
        let kind = std::fs::metadata(file).map_err(|failure| io_failure(&file.display().to_string(), &failure))?.file_type();
        if !(kind.is_file() || kind.is_block_device() || kind.is_dir()) {
            return Err(Failure::Usage(format!("{} is no file that can be read more than once", file.display()), "apply"));
        }
        let mut mark = [0; 3];
        let mut source = Source::file(file)?;
        let read = source.fill(&mut mark)?;
        if source.length.is_none() && read > 0 {
            return Err(Failure::Usage(format!("{} says that it is empty, and has bytes", file.display()), "apply"));
        }
        if line.label.is_some() && read == 3 && mark == *b"FBM" {
            let words = format!("{} begins with a label of its own: leave date, style and sheet out of slot {}", file.display(), line.slot);
            return Err(Failure::Usage(words, "apply"));
        }
    }
    Ok(())
}

/// One card, in memory or on the file.
fn one(work: &Work, path: &Path, medium: Option<Medium>, touched: &mut bool, out: &mut Out) -> Outcome {
    let mut opened = card_of(work, path, medium, touched, out)?;
    let (shown, mut notes, mut changed) = (opened.shown(), Vec::new(), 0);
    let dry = opened.card.get_ref().is_dry();
    for line in &work.plan.lines {
        let done = slot(work, &mut opened, line, &mut notes);
        *touched |= opened.card.get_ref().written() > 0 && !dry;
        let done = done?;
        changed += usize::from(!done.is_empty());
        let would = if dry { "would be " } else { "" };
        let done = if done.is_empty() { "as planned".to_string() } else { format!("{would}{}", done.join(", ")) };
        out.line(format!("{shown}: slot {}: {done}", line.slot));
        older_bytes(&mut opened, line, out)?;
    }
    others(&mut opened, work.plan, out)?;
    let screen = screen(&mut opened, work)?;
    let slots = count(work.plan.lines.len(), "slot");
    if dry {
        dry::changes(&opened.card, &shown, &notes, out)?;
        out.line(format!("{shown}: would be done: {slots}, {changed} changed; {screen}"));
        return Ok(());
    }
    if changed > 0 {
        tell_kernel(opened.card.get_ref(), out);
    }
    out.line(format!("{shown}: done: {slots}, {changed} changed; {screen}"));
    Ok(())
}

/// Says which slots the plan does not name, and the dates of their maps.
fn others(opened: &mut Opened, plan: &Plan, out: &mut Out) -> Outcome {
    for entry in opened.checked(opened.card.list())? {
        if plan.lines.iter().any(|line| line.slot == entry.slot) {
            continue;
        }
        let dated = match label_of(opened, entry.slot)? {
            Some(label) => format!(", dated {}", words::date(label.year, label.month, label.day)),
            None => String::new(),
        };
        out.line(format!("{}: slot {} {} is not in the plan and stays{dated}", opened.shown(), entry.slot, quoted(&entry.record.name)));
    }
    Ok(())
}

/// The label that a slot's map has, if it has one that can be read.
fn label_of(opened: &mut Opened, slot: u32) -> Outcome<Option<Label>> {
    match opened.card.read_label(slot) {
        Ok(label) => Ok(Some(label)),
        Err(error @ FileError::Io(_)) => Err(io_words(&opened.path, error)),
        Err(_) => Ok(None),
    }
}

/// The judgement of the plan's maps: those that have a label, from the plan or of their own.
fn screen(opened: &mut Opened, work: &Work) -> Outcome<String> {
    let mut judged = Vec::new();
    for line in &work.plan.lines {
        match opened.card.read_label(line.slot) {
            Err(error @ FileError::Io(_)) => return Err(io_words(&opened.path, error)),
            Err(FileError::Refused(refused)) if refused.refusal == Refusal::BadMark => {}
            _ => judged.push(line.slot),
        }
    }
    if judged.is_empty() {
        return Ok("no dates".to_string());
    }
    let all = judged.iter().copied().eq(work.plan.lines.iter().filter(|line| line.label.is_some()).map(|line| line.slot));
    // A plan of two dates is carried out, and then refused: so a rehearsal does not judge.
    let said = match work.rehearsal {
        true => String::new(),
        false => payload::judge(opened, &judged).map_err(|failure| match failure {
            Failure::Refused(words) => Failure::Refused(format!("the slots are as planned, but {words}")),
            other => other,
        })?,
    };
    Ok(if all { said.split(" (slot").next().unwrap_or_default().to_string() } else { said })
}

/// The card in a file, which is laid first where the plan asks for it and the file is none.
fn card_of(work: &Work, path: &Path, medium: Option<Medium>, touched: &mut bool, out: &mut Out) -> Outcome<Opened> {
    let Work { args, plan, access, .. } = *work;
    let shown = path.display().to_string();
    let (medium, made) = match (medium, plan.lay) {
        (Some(medium), _) => (medium, false),
        (None, true) => medium_to_lay(args, path, work.size, access)?,
        (None, false) => (Medium::open(path, access)?, false),
    };
    let lock = medium.file().try_clone();
    let opened = opened_or_laid(work, medium, path, touched, out);
    if opened.is_err() && made {
        // The failure that counts is the first one.
        let _ = std::fs::remove_file(path);
    }
    drop(lock);
    let opened = opened?;
    match plan.guid {
        Some(planned) if opened.checked(opened.card.disk_guid())? != planned => {
            let guid = opened.checked(opened.card.disk_guid())?;
            Err(Failure::Refused(format!("{shown}: the card's GUID is {guid}, and the plan's {planned}. Nothing was changed.")))
        }
        _ => Ok(opened),
    }
}

/// The card in a medium; laid, where the plan asks for it and nothing is there.
fn opened_or_laid(work: &Work, medium: Medium, path: &Path, touched: &mut bool, out: &mut Out) -> Outcome<Opened> {
    let Work { args, plan, access, .. } = *work;
    let shown = path.display().to_string();
    let failed = |failure: std::io::Error| io_failure(&shown, &failure);
    let block_size = match (given_block_size(args)?, plan.block_size) {
        (None, Some(block_size)) => block_size,
        _ => block_size(args, &medium, &shown)?,
    };
    let guid = match plan.guid {
        Some(guid) => guid,
        None => drawn_guid()?,
    };
    let medium = match work.size.filter(|_| plan.lay) {
        Some(size) => lengthened(medium, path, size, block_size, access)?,
        None => medium,
    };
    let bytes = medium.length_now().map_err(failed)?;
    if let Some(size) = work.size.filter(|size| *size != bytes) {
        return Err(Failure::Refused(format!("{shown} has {bytes} bytes, not the {size} of --size. Nothing was changed.")));
    }
    let again = medium.again(None).map_err(failed)?;
    let given = given_block_size(args)?.or(plan.block_size);
    let opened = Opened::of(medium, path, block_size, given, access)?;
    let whole = opened.card.check().is_ok();
    let no_card = !whole && opened.reader_table()?.is_none() && opened.shorter()?.is_none() && opened.at_other_size()?.is_none();
    if !(plan.lay && no_card) {
        opened.checked(opened.card.check())?;
        return Ok(opened);
    }
    over::refused(&opened)?;
    let card = lay_on(again, path, block_size, guid)?;
    let dry = card.get_ref().is_dry();
    *touched |= !dry;
    let (laid, guid) = if dry { ("would be laid", String::new()) } else { ("laid", format!(", GUID {guid}")) };
    out.line(format!("{shown}: {laid}: {} blocks of {} bytes ({}){guid}", card.blocks(), opened.b(), words::size(card.blocks() * opened.b())));
    Opened::of(card.into_inner(), path, block_size, given, access)
}

/// Brings one slot to what its line says. Says what was done; nothing, where it was so already.
fn slot(work: &Work, opened: &mut Opened, line: &Line, notes: &mut Vec<String>) -> Outcome<Vec<&'static str>> {
    let mut done = Vec::new();
    // A slot that is none is refused by the put, in the library's words.
    let there = if (1..=128).contains(&line.slot) { opened.checked(opened.card.get(line.slot))? } else { None };
    let record = match there.is_some_and(|record| as_planned(&record, line, opened.b())) {
        true => None,
        false => Some(record_for(opened, line, there)?),
    };
    let stays = there.is_some_and(|there| record.map_or(true, |record| record.first == there.first));
    let write = match &line.file {
        Some(file) => work.rehearsal || !stays || !same_bytes(opened, line, file)?,
        None => false,
    };
    if stays && write {
        unlabel(opened, line.slot)?;
    }
    if let Some(record) = record {
        put_record(opened, line.slot, &record, 4)?;
        done.push("put");
    }
    if let Some(file) = line.file.as_ref().filter(|_| write) {
        fits(opened, line, file)?;
        // On other ground the label of a map before may stand.
        unlabel(opened, line.slot)?;
        written(work, opened, line, file, notes)?;
        done.push("written");
    }
    if let Some(label) = line.label {
        if label_of(opened, line.slot)? != Some(label) {
            labelled(opened, line.slot, label, notes)?;
            done.push("labelled");
        }
    }
    if done.iter().any(|word| *word != "put") && !opened.card.get_ref().is_dry() {
        done.push("verified");
    }
    Ok(done)
}

/// Whether a slot's record is what a line asks for. Type, name and flags that the line leaves out are data, none and none, as in sfdisk's scripts; any start, size and GUID is right where it names none.
fn as_planned(record: &Record, line: &Line, b: u64) -> bool {
    let blocks = record.last - record.first + 1;
    record.type_guid == line.type_guid
        && record.name == line.name
        && record.flags == line.flags
        && line.guid.map_or(true, |guid| guid == record.guid)
        && line.start.map_or(true, |start| start == record.first)
        && line.size.map_or(true, |size| size.blocks(b) == blocks)
}

/// The record to put: where the line leaves it open, at the old place if it fits there, or else on the lowest ground with room; without a size, to the end of the ground.
fn record_for(opened: &Opened, line: &Line, there: Option<Record>) -> Outcome<Record> {
    let b = opened.b();
    let runs = opened.checked(opened.card.free_runs())?;
    let largest = runs.iter().map(|run| run.end() - run.start() + 1).max().unwrap_or(0);
    let old = there.map(|record| record.last - record.first + 1);
    let blocks = line.size.map(|size| size.blocks(b)).or(old.filter(|_| line.start.is_none()));
    let place = match (line.start, blocks) {
        (Some(start), Some(blocks)) => Some((start, start.saturating_add(blocks - 1))),
        (Some(start), None) => Some((start, end_of_ground(&runs, there, start))),
        (None, Some(blocks)) => {
            let kept = there.filter(|record| end_of_ground(&runs, there, record.first) - record.first >= blocks - 1).map(|record| record.first);
            if kept.is_none() && there.is_some() && line.file.is_none() {
                let words = format!(
                    "slot {} not put: it has no room for {blocks} blocks where it is, and the plan has no file to write elsewhere. Nothing was changed.",
                    line.slot
                );
                return Err(Failure::Refused(words));
            }
            kept.or_else(|| room_in(&runs, blocks, b)).map(|first| (first, first + (blocks - 1)))
        }
        (None, None) => runs
            .iter()
            .find(|run| run.end() - run.start() + 1 == largest)
            .map(|run| (room_in(std::slice::from_ref(run), 1, b).unwrap_or(*run.start()), *run.end())),
    };
    let Some((first, last)) = place else {
        let asked = blocks.map_or("a block".to_string(), |blocks| format!("{blocks} blocks ({})", words::size(blocks.saturating_mul(b))));
        let words =
            format!("slot {} not put: no free run has {asked}; the largest has {largest} ({}). Nothing was changed.", line.slot, words::size(largest * b));
        return Err(Failure::Refused(words));
    };
    let guid = match line.guid.or(there.map(|record| record.guid)) {
        Some(guid) => guid,
        None => drawn_guid()?,
    };
    Ok(Record { type_guid: line.type_guid, guid, first, last, flags: line.flags, name: line.name })
}

/// The last block of the ground from a block on: of a free run, or of what the slot has now with the free run behind it. The block itself where there is no ground, which the library refuses.
fn end_of_ground(runs: &[RangeInclusive<u64>], there: Option<Record>, start: u64) -> u64 {
    let run_at = |block: u64| runs.iter().find(|run| run.contains(&block)).map(|run| *run.end());
    let own = there.filter(|record| (record.first..=record.last).contains(&start)).map(|record| run_at(record.last + 1).unwrap_or(record.last));
    own.or_else(|| run_at(start)).unwrap_or(start)
}

/// Whether a slot has a file's bytes already. They are compared chunk by chunk up to the first that differs.
fn same_bytes(opened: &mut Opened, line: &Line, file: &Path) -> Outcome<bool> {
    let mut source = Source::file(file)?;
    let (mut ours, mut theirs, mut done) = (vec![0; CHUNK], vec![0; CHUNK], 0);
    loop {
        let count = source.fill(&mut ours)?;
        if count == 0 {
            return Ok(true);
        }
        match opened.card.read_payload(line.slot, line.at.saturating_add(done), &mut theirs[..count]) {
            Ok(_) if ours[..count] == theirs[..count] => done += count as u64,
            Err(FileError::Io(failure)) => return Err(io_failure(&opened.shown(), &failure)),
            _ => return Ok(false),
        }
    }
}

/// A file that is too long is refused before a byte of its slot changes.
fn fits(opened: &Opened, line: &Line, file: &Path) -> Outcome {
    let length = Source::file(file)?.length.unwrap_or(0);
    opened.card.payload_place(line.slot, line.at, length as usize).map(|_| ()).map_err(|error| {
        opened.failure(error, |refusal| {
            let why = payload::refusal_words(opened, line.slot, line.at, length, refusal);
            format!("slot {} not written: {}: {why}. Nothing was changed.", line.slot, file.display())
        })
    })
}

/// Takes the old label away before anything of its slot changes, so that a card that is pulled meanwhile shows no map under another map's date. The new label comes last.
fn unlabel(opened: &mut Opened, slot: u32) -> Outcome {
    if label_of(opened, slot)?.is_none() {
        return Ok(());
    }
    opened.card.write_payload(slot, 0, &[0; 13]).map_err(|error| io_words(&opened.path, error))?;
    opened.card.sync().map_err(|error| io_words(&opened.path, error))
}

/// Writes a file into a slot and reads it back.
fn written(work: &Work, opened: &mut Opened, line: &Line, file: &Path, notes: &mut Vec<String>) -> Outcome {
    let mut source = Source::file(file)?;
    if opened.card.get_ref().is_dry() {
        notes.push(payload::dry_note(opened, line.slot, line.at, source.length)?);
        // Of the map only what stands at the label's place is kept, so that it can be judged.
        let mut first = vec![0; 13u64.saturating_sub(line.at) as usize];
        let count = source.fill(&mut first)?;
        opened.card.write_payload(line.slot, line.at, &first[..count]).map_err(|error| io_words(&opened.path, error))?;
        return Ok(());
    }
    let mut progress = Progress::new(work.args, "written", source.length);
    let (bytes, sum) = payload::copy_in(opened, line.slot, line.at, &mut source, &mut progress)?;
    payload::verify(opened, line.slot, line.at, bytes, sum, &mut progress)?;
    progress.end();
    Ok(())
}

/// Says so where other bytes than zeros stand right behind a map: a longer map was there before.
fn older_bytes(opened: &mut Opened, line: &Line, out: &mut Out) -> Outcome {
    let Some(length) = line.file.as_ref().map(|file| Source::file(file)).transpose()?.and_then(|source| source.length) else { return Ok(()) };
    let Some(record) = opened.checked(opened.card.get(line.slot))? else { return Ok(()) };
    let (end, all) = (line.at.saturating_add(length), words::bytes_of(record.first, record.last, opened.b()));
    let mut bytes = vec![0; all.saturating_sub(end).min(4096) as usize];
    opened.card.read_payload(line.slot, end, &mut bytes).map_err(|error| io_words(&opened.path, error))?;
    if bytes.iter().any(|byte| *byte != 0) {
        let (shown, word, slot) = (opened.shown(), opened.word(), line.slot);
        out.line(format!(
            "{shown}: slot {slot}: other bytes stand behind the map's last one; card clear --wipe {word} {slot} and then the plan again take them away"
        ));
    }
    Ok(())
}

/// Writes a label and reads it back.
fn labelled(opened: &mut Opened, slot: u32, label: Label, notes: &mut Vec<String>) -> Outcome {
    payload::write_label(opened, slot, label)?;
    if opened.card.get_ref().is_dry() {
        notes.push(payload::dry_note(opened, slot, 0, Some(13))?);
        return Ok(());
    }
    match label_of(opened, slot)? == Some(label) {
        true => Ok(()),
        false => Err(Failure::Io(format!("{}: slot {slot} reads back another label than was written", opened.shown()))),
    }
}

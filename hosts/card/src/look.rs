//! The commands that only look at a card: check, list, free, show, uefi.
use crate::args::Args;
use crate::failure::{io_failure, Failure, Outcome};
use crate::medium::{Access, Medium};
use crate::opened::{block_size, Opened};
use crate::output::Out;
use crate::words::{self, count};
use crate::{drawn, json, system};
use card::{ffi, BlockSize, Entry, Table};
use std::path::PathBuf;

/// Opens the card that the next word names, to be read.
fn opened(args: &mut Args) -> Outcome<Opened> {
    let path = PathBuf::from(args.word("FILE")?);
    args.end()?;
    Opened::open(args, &path, Access::Read)
}

/// `check FILE`
pub fn check(mut args: Args, out: &mut Out) -> Outcome {
    let opened = opened(&mut args)?;
    opened.checked(opened.card.check())?;
    let (card, b) = (&opened.card, opened.b());
    let (used, guid) = (opened.checked(card.count())?, opened.checked(card.disk_guid())?);
    let size = words::size(card.blocks() * b);
    out.line(format!("{}: whole: {} blocks of {b} bytes ({size}), {used} of 128 slots used, GUID {guid}", opened.shown(), card.blocks()));
    for warning in warnings(&opened)? {
        out.line(format!("warning: {warning}"));
    }
    Ok(())
}

/// What is unwise about a card that the check accepts.
pub fn warnings(opened: &Opened) -> Outcome<Vec<String>> {
    let (card, b) = (&opened.card, opened.b());
    let mut warnings = Vec::new();
    if !has_protective_mbr(card.head(), b) {
        warnings.push("block 0 has no protective MBR: other tools see a blank card".to_string());
    }
    let bytes = card.get_ref().length_now().map_err(|failure| io_failure(&opened.shown(), &failure))?;
    if bytes % b != 0 {
        warnings.push(format!("{} after the last whole block are no part of the card", count((bytes % b) as usize, "byte")));
    }
    for entry in opened.checked(card.list())? {
        if entry.record.first % ((1 << 20) / b) != 0 {
            warnings.push(format!("slot {} begins at block {}, which is no multiple of 1 MiB", entry.slot, entry.record.first));
        }
    }
    Ok(warnings)
}

/// Whether block 0 is an MBR with a record of the type that protects a GPT.
fn has_protective_mbr(head: &[u8], b: u64) -> bool {
    // SAFETY: the pointer and the length are those of one slice, which is only read.
    let read = unsafe { ffi::gpt_mbr_from_image(head.as_ptr(), head.len(), b) };
    read.number == 0 && read.mbr.partitions.iter().any(|record| record.os_type == 0xee)
}

/// `list FILE [--json] [--map]`
pub fn list(mut args: Args, out: &mut Out) -> Outcome {
    if args.has("json") && args.has("map") {
        return args.usage("--json and --map are two lists: say one of them");
    }
    let opened = opened(&mut args)?;
    let entries: Vec<Entry> = opened.checked(opened.card.list())?.collect();
    if args.has("json") {
        out.text(&json::table(&opened, &entries)?);
    } else if args.has("map") {
        out.text(&drawn::map(&opened, &entries)?);
    } else {
        out.text(&words::entries(&entries, opened.b()));
        out.line(format!("used {} of 128", entries.len()));
    }
    Ok(())
}

/// `free FILE`
pub fn free(mut args: Args, out: &mut Out) -> Outcome {
    let opened = opened(&mut args)?;
    let runs = opened.checked(opened.card.free_runs())?;
    let (b, mut all) = (opened.b(), 0);
    let mut rows = vec![["first", "last", "blocks", "size"].map(String::from).to_vec()];
    for run in &runs {
        let blocks = run.end() - run.start() + 1;
        all += blocks;
        rows.push(vec![run.start().to_string(), run.end().to_string(), blocks.to_string(), words::size(blocks * b)]);
    }
    out.text(&words::columns(&rows, &[true; 4]));
    out.line(format!("free {}, {all} blocks ({})", count(runs.len(), "run"), words::size(all * b)));
    Ok(())
}

/// `show FILE`
pub fn show(mut args: Args, out: &mut Out) -> Outcome {
    let opened = opened(&mut args)?;
    let checked = opened.card.check();
    let Some(table) = opened.reader_table()? else {
        return Err(Failure::Refused(format!("{}: neither table can be read: {}. [27]", opened.shown(), opened.unread_words()?)));
    };
    out.line(format!("the reader takes the {} table", name_of(table)));
    let entries: Vec<Entry> = opened.checked(opened.card.reader_list())?.collect();
    out.text(&words::entries(&entries, opened.b()));
    out.line(format!("used {} of 128", entries.len()));
    match checked.err().and_then(|error| error.refused()) {
        None => out.line("the check accepts the card".to_string()),
        Some(refused) => out.line(format!("the check refuses the card: {} [{}]", opened.check_words(refused)?, refused.number())),
    }
    Ok(())
}

/// A table in a word.
pub fn name_of(table: Table) -> &'static str {
    match table {
        Table::Front => "front",
        Table::Back => "back",
    }
}

/// `uefi FILE`
pub fn uefi(mut args: Args, out: &mut Out) -> Outcome {
    let path = PathBuf::from(args.word("FILE")?);
    args.end()?;
    let shown = path.display().to_string();
    let medium = Medium::open(&path, Access::Read)?;
    let block_size = block_size(&args, &medium, &shown)?;
    let length = medium.length_now().map_err(|failure| io_failure(&shown, &failure))?;
    let image = system::map(medium.file(), length as usize).map_err(|failure| io_failure(&shown, &failure))?;
    let mut refusals = Vec::new();
    for table in [Table::Front, Table::Back] {
        match card::uefi_list(image, block_size, table) {
            Ok(entries) => {
                let entries: Vec<Entry> = entries.collect();
                out.line(format!("{} table:", name_of(table)));
                out.text(&words::entries(&entries, block_size.bytes()));
                out.line(format!("used {}", entries.len()));
            }
            Err(refused) => {
                let words = refused.to_string();
                let meaning = words.split_once(": ").map_or(words.as_str(), |(_, meaning)| meaning);
                let line = format!("{} table: refused: {meaning} [{}]", name_of(table), refused.number());
                out.line(line.clone());
                refusals.push(line);
            }
        }
    }
    let other = 512 + 4096 - block_size.bytes();
    let there = BlockSize::try_from(other).is_ok_and(|other| [Table::Front, Table::Back].iter().any(|table| card::uefi_list(image, other, *table).is_ok()));
    match (refusals.len(), there) {
        (2, true) => {
            Err(Failure::Refused(format!("{shown}: no table that the second edition reads; one with blocks of {other} bytes is there: try -b {other}")))
        }
        (2, false) => Err(Failure::Refused(format!("{shown}: no table that the second edition reads"))),
        _ => Ok(()),
    }
}

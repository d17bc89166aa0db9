//! `report FILE`: one page for the briefing, without a script and with nothing to fetch.
use crate::args::Args;
use crate::drawn::{parts, Part};
use crate::failure::{io_failure, Outcome};
use crate::look::{name_of, warnings};
use crate::medium::Access;
use crate::opened::{io_words, Opened};
use crate::output::Out;
use crate::words;
use card::{ffi, Device, Entry, FileCard, FileError, Flags, Guid, Name, Record, Refused, Table};
use std::io::{Seek, SeekFrom, Write};
use std::path::PathBuf;

const STYLE: &str = "body{font:16px/1.4 sans-serif;margin:2em;color:#222;background:#fff}h1{font-size:1.4em}h2{font-size:1.1em;margin-top:2em}\
table{border-collapse:collapse}td,th{border:1px solid #bbb;padding:.2em .6em;text-align:left}td.n{text-align:right}tr.differs td{background:#ffe2d5}\
p.good{color:#0a5c1c}p.bad{color:#a01010;font-weight:bold}svg{width:100%;height:70px;border:1px solid #888}small{color:#555}";

/// `report FILE`
pub fn report(mut args: Args, out: &mut Out) -> Outcome {
    let path = PathBuf::from(args.word("FILE")?);
    args.end()?;
    let mut opened = Opened::open(&args, &path, Access::Read)?;
    let refused = opened.card.check().err().and_then(|error| error.refused());
    let (name, b) = (escaped(&opened.shown()), opened.b());
    let blocks = opened.card.blocks();
    out.line(format!("<!doctype html>\n<html lang=\"en\"><head><meta charset=\"utf-8\"><title>Card {name}</title><style>{STYLE}</style></head><body>"));
    out.line(format!("<h1>Card {name}</h1>\n<p>{blocks} blocks of {b} bytes, {}</p>", words::size(blocks * b)));
    verdict(&opened, refused, out)?;
    picture(&opened, out)?;
    tables(&opened, out)?;
    labels(&mut opened, out)?;
    out.line("</body></html>".to_string());
    Ok(())
}

/// A text as HTML has it.
fn escaped(text: &str) -> String {
    let mut out = String::new();
    for c in text.chars() {
        match c {
            '<' => out += "&lt;",
            '>' => out += "&gt;",
            '&' => out += "&amp;",
            '"' => out += "&quot;",
            _ if c.is_control() => out += "\u{fffd}",
            _ => out.push(c),
        }
    }
    out
}

/// What the check says, which copy the reader takes, and the warnings.
fn verdict(opened: &Opened, refused: Option<Refused>, out: &mut Out) -> Outcome {
    match refused {
        None => out.line("<p class=\"good\">The check accepts the card.</p>".to_string()),
        Some(refused) => {
            out.line(format!("<p class=\"bad\">The check refuses the card: {} [{}]</p>", escaped(&opened.check_words(refused)?), refused.number()))
        }
    }
    match opened.card.reader_copy() {
        Ok(table) => out.line(format!("<p>The reader takes the {} table.</p>", name_of(table))),
        Err(_) => out.line("<p class=\"bad\">Neither table can be read. [27]</p>".to_string()),
    }
    if refused.is_none() {
        for warning in warnings(opened)? {
            out.line(format!("<p class=\"bad\">Warning: {}</p>", escaped(&warning)));
        }
    }
    Ok(())
}

/// The card to scale, as the check or else the reader shows it.
fn picture(opened: &Opened, out: &mut Out) -> Outcome {
    let Ok(list) = opened.card.reader_list() else { return Ok(()) };
    let mut entries: Vec<Entry> = list.collect();
    entries.sort_by_key(|entry| entry.record.first);
    let blocks = opened.card.blocks() as f64;
    out.line(
        "<h2>The card to scale</h2>\n<svg viewBox=\"0 0 1000 70\" preserveAspectRatio=\"none\" role=\"img\" aria-label=\"the card to scale\">".to_string(),
    );
    let draw = |first: u64, last: u64, colour: &str, title: &str| {
        let (x, wide) = (first as f64 * 1000.0 / blocks, ((last - first + 1) as f64 * 1000.0 / blocks).max(0.8));
        format!(
            "<rect x=\"{x:.3}\" y=\"0\" width=\"{wide:.3}\" height=\"70\" fill=\"{colour}\" stroke=\"#fff\" stroke-width=\".3\"><title>{}</title></rect>",
            escaped(title)
        )
    };
    match parts(opened, &entries) {
        Ok(parts) => {
            for ((first, last, part), order) in parts.iter().zip(0..) {
                out.line(match part {
                    Part::Free => draw(*first, *last, "#eeeeee", &format!("free: {first} to {last}")),
                    Part::Tables(what) => draw(*first, *last, "#555555", what),
                    Part::Slot(entry) => draw(*first, *last, colour(order), &slot_title(entry)),
                });
            }
        }
        // A card that the check refuses has no free ground to show, but what the reader shows has a place.
        Err(_) => entries.iter().zip(0..).for_each(|(entry, order)| out.line(draw(entry.record.first, entry.record.last, colour(order), &slot_title(entry)))),
    }
    out.line("</svg>".to_string());
    Ok(())
}

fn slot_title(entry: &Entry) -> String {
    format!("slot {}: {}, blocks {} to {}", entry.slot, entry.record.name, entry.record.first, entry.record.last)
}

/// Colours that neighbours do not share.
fn colour(order: usize) -> &'static str {
    ["#2f6db3", "#c8791a", "#3c8d4f", "#8d4f9c", "#b3452f"][order % 5]
}

/// Both tables side by side. A slot whose bytes differ is marked.
fn tables(opened: &Opened, out: &mut Out) -> Outcome {
    let b = opened.b() as usize;
    let (front, back) = (&opened.card.head()[2 * b..], opened.card.tail());
    let good = [alone(opened, Table::Front)?, alone(opened, Table::Back)?];
    let state = |good: bool| if good { "good" } else { "cannot be read" };
    out.line("<h2>Both tables</h2>".to_string());
    out.line(format!("<table><tr><th>slot</th><th>front table: {}</th><th>back table: {}</th><th></th></tr>", state(good[0]), state(good[1])));
    for slot in 1..=128 {
        let at = 128 * (slot - 1);
        let (one, other) = (&front[at..at + 128], &back[at..at + 128]);
        if one == [0; 128] && other == [0; 128] {
            continue;
        }
        let (class, mark) = if one == other { ("", "") } else { (" class=\"differs\"", "differs") };
        out.line(format!("<tr{class}><td class=\"n\">{slot}</td><td>{}</td><td>{}</td><td>{mark}</td></tr>", cell(one, opened.b()), cell(other, opened.b())));
    }
    out.line("</table>".to_string());
    Ok(())
}

/// Whether the reader takes a table where the other one is not there.
fn alone(opened: &Opened, table: Table) -> Outcome<bool> {
    let shown = opened.shown();
    let mut medium = opened.card.get_ref().again_in_memory().map_err(|failure| io_failure(&shown, &failure))?;
    let (b, length) = (opened.b(), opened.card.blocks() * opened.b());
    // Without its header a table cannot be read.
    let other = if table == Table::Front { length - b } else { b };
    let blanked = medium.seek(SeekFrom::Start(other)).and_then(|_| medium.write_all(&vec![0; b as usize])).and_then(|()| medium.sync());
    blanked.map_err(|failure| io_failure(&shown, &failure))?;
    let taken = FileCard::open(medium, opened.card.block_size()).and_then(|card| card.reader_copy());
    match taken {
        Err(error @ FileError::Io(_)) => Err(io_words(&opened.path, error)),
        taken => Ok(taken.is_ok_and(|taken| taken == table)),
    }
}

/// What an entry of an array says.
fn cell(bytes: &[u8], b: u64) -> String {
    // SAFETY: the pointer and the length are those of one slice, which is only read.
    let read = unsafe { ffi::gpt_entry_from_bytes(bytes.as_ptr(), bytes.len()) };
    let guid = |guid: ffi::gpt_guid| Guid::from_fields(guid.time_low, guid.time_mid, guid.time_high, guid.tail);
    let partition = read.partition;
    let record = Record {
        type_guid: guid(partition.part_type_guid),
        guid: guid(partition.part_guid),
        first: partition.first_lba,
        last: partition.last_lba,
        flags: Flags::NONE,
        name: Name::from_raw(partition.name),
    };
    if record.type_guid == Guid::NIL {
        return "unused".into();
    }
    let size = words::size(words::bytes_of(record.first, record.last, b));
    format!(
        "{} <small>{} to {}, {size}, {}, {}</small>",
        escaped(&words::quoted(&record.name)),
        record.first,
        record.last,
        words::type_of(record.type_guid),
        record.guid
    )
}

/// The labels by slot, and whether all have one date.
fn labels(opened: &mut Opened, out: &mut Out) -> Outcome {
    let Ok(list) = opened.card.list() else {
        out.line("<p>Labels are read once the check accepts the card.</p>".to_string());
        return Ok(());
    };
    let slots: Vec<u32> = list.map(|entry| entry.slot).collect();
    out.line("<h2>Maps</h2>\n<table><tr><th>slot</th><th>date</th><th>style</th><th>sheet</th></tr>".to_string());
    let mut dated = Vec::new();
    for slot in slots {
        match opened.card.read_label(slot) {
            Ok(label) => {
                dated.push(slot);
                let date = words::date(label.year, label.month, label.day);
                out.line(format!(
                    "<tr><td class=\"n\">{slot}</td><td>{date}</td><td class=\"n\">{}</td><td class=\"n\">{}</td></tr>",
                    label.style, label.sheet
                ));
            }
            Err(card::FileError::Io(failure)) => return Err(io_failure(&opened.shown(), &failure)),
            Err(_) => out.line(format!("<tr><td class=\"n\">{slot}</td><td colspan=\"3\">no label</td></tr>")),
        }
    }
    out.line("</table>".to_string());
    if !dated.is_empty() {
        match crate::payload::judge(opened, &dated) {
            Ok(words) => out.line(format!("<p class=\"good\">{}</p>", escaped(&words))),
            Err(failure) => out.line(format!("<p class=\"bad\">{}</p>", escaped(&failure.words().unwrap_or_default()))),
        }
    }
    Ok(())
}

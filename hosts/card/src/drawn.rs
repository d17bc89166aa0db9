//! A card drawn to the terminal's width.
use crate::failure::Outcome;
use crate::opened::Opened;
use crate::{system, words};
use card::Entry;

/// What stands in a run of blocks.
pub enum Part<'a> {
    Tables(&'static str),
    Slot(&'a Entry),
    Free,
}

/// The parts of a card from its first block to its last, each with its first and last block.
pub fn parts<'a>(opened: &Opened, entries: &'a [Entry]) -> Outcome<Vec<(u64, u64, Part<'a>)>> {
    let usable = opened.checked(opened.card.usable())?;
    let mut parts = vec![(0, usable.start() - 1, Part::Tables("MBR and front table"))];
    parts.extend(entries.iter().map(|entry| (entry.record.first, entry.record.last, Part::Slot(entry))));
    parts.extend(opened.checked(opened.card.free_runs())?.into_iter().map(|run| (*run.start(), *run.end(), Part::Free)));
    parts.push((usable.end() + 1, opened.card.blocks() - 1, Part::Tables("back table")));
    parts.sort_by_key(|(first, ..)| *first);
    Ok(parts)
}

/// How many columns there are.
fn width() -> usize {
    let told = std::env::var("COLUMNS").ok().and_then(|text| text.parse().ok());
    told.or_else(system::terminal_width).unwrap_or(80).clamp(20, 1000)
}

/// The line of the card to scale, and a line a part.
pub fn map(opened: &Opened, entries: &[Entry]) -> Outcome<String> {
    let parts = parts(opened, entries)?;
    let cells = width() - 2;
    let blocks = u128::from(opened.card.blocks());
    let cell_of = |block: u64| (u128::from(block) * cells as u128 / blocks) as usize;
    let mut line = vec!['.'; cells];
    for (first, last, part) in &parts {
        let (from, to) = (cell_of(*first), cell_of(*last));
        match part {
            Part::Free => {}
            Part::Tables(_) => line[from..=to].fill('#'),
            Part::Slot(entry) => {
                line[from..=to].fill('=');
                let number = entry.slot.to_string();
                if number.len() <= to - from + 1 {
                    line.splice(from..from + number.len(), number.chars());
                }
            }
        }
    }
    let mut out = format!("[{}]\n", line.into_iter().collect::<String>());
    for (first, last, part) in &parts {
        let size = words::size(words::bytes_of(*first, *last, opened.b()));
        out += &match part {
            Part::Free => format!("  free {first}..{last} {size}\n"),
            Part::Tables(what) => format!("  #### {first}..{last} {size} {what}\n"),
            Part::Slot(entry) => format!("  [{:>2}] {first}..{last} {size} {}\n", entry.slot, words::quoted(&entry.record.name)),
        };
    }
    Ok(out)
}

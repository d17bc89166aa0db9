//! What a dry run says: the blocks that would change, each with what it is.
use crate::failure::{io_failure, Outcome};
use crate::medium::Medium;
use crate::output::Out;
use crate::words::count;
use card::FileCard;

/// What a block of the tables is; `None` for one between them.
fn name_of(card: &FileCard<Medium>, block: u64) -> Option<String> {
    let (b, last) = (card.block_size().bytes(), card.blocks() - 1);
    let (array, in_block) = (16384 / b, b / 128);
    let slots = |table: &str, at: u64| format!("{table} array, slots {} to {}", at * in_block + 1, (at + 1) * in_block);
    let back = last - array;
    match block {
        0 => Some("protective MBR".into()),
        1 => Some("front header".into()),
        _ if block < 2 + array => Some(slots("front", block - 2)),
        _ if block == last => Some("back header".into()),
        _ if (back..last).contains(&block) => Some(slots("back", block - back)),
        _ => None,
    }
}

/// The last line of a dry run.
pub fn end(out: &mut Out) {
    out.line("dry run: nothing was written".to_string());
}

/// A line a block, the payload's notes, and the last line.
pub fn report(card: &FileCard<Medium>, shown: &str, notes: &[String], out: &mut Out) -> Outcome {
    changes(card, shown, notes, out)?;
    end(out);
    Ok(())
}

/// A line a block, then the payload's notes.
pub fn changes(card: &FileCard<Medium>, shown: &str, notes: &[String], out: &mut Out) -> Outcome {
    let changes = card.get_ref().changes(card.block_size().bytes()).map_err(|failure| io_failure(shown, &failure))?;
    for (block, differ) in changes {
        if let Some(name) = name_of(card, block) {
            let verb = if differ == 1 { "differs" } else { "differ" };
            out.line(format!("would write block {block} ({name}): {} {verb}", count(differ, "byte")));
        }
    }
    for note in notes {
        out.line(note.clone());
    }
    Ok(())
}

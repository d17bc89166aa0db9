//! Sizes, names, types and flags in words, and lists of slots in columns.
use crate::args::TYPES;
use card::{Entry, Flags, Guid, Label, Name};

/// A number of bytes in words, as `1007 KiB` or `1.5 GiB`: one decimal, rounded down.
pub fn size(bytes: u64) -> String {
    let power = (1..6).rev().find(|power| bytes >> (10 * power) != 0).unwrap_or(0);
    let unit = ["B", "KiB", "MiB", "GiB", "TiB", "PiB"][power];
    let (whole, part) = (bytes >> (10 * power), bytes & ((1 << (10 * power)) - 1));
    match ((u128::from(part) * 10) >> (10 * power)) as u64 {
        0 => format!("{whole} {unit}"),
        tenths => format!("{whole}.{tenths} {unit}"),
    }
}

/// A name in quotes, with what a terminal would act on made visible.
pub fn quoted(name: &Name) -> String {
    quoted_text(&name.to_string())
}

/// The same of any text.
pub fn quoted_text(text: &str) -> String {
    let mut out = String::from("\"");
    for c in text.chars() {
        match c {
            '"' | '\\' => out.extend(['\\', c]),
            // The characters that turn the direction of writing can make a name look like another one.
            '\u{200e}' | '\u{200f}' | '\u{202a}'..='\u{202e}' | '\u{2066}'..='\u{2069}' => out.extend(c.escape_unicode()),
            _ if c.is_control() => out.extend(c.escape_unicode()),
            _ => out.push(c),
        }
    }
    out + "\""
}

/// A type by its word, or else its GUID.
pub fn type_of(guid: Guid) -> String {
    let text = guid.to_string();
    TYPES.iter().find(|(_, known)| *known == text).map_or(text, |(word, _)| word.to_string())
}

/// Flags by sfdisk's words, with one of two signs between them.
pub fn flags(flags: Flags, between: &str) -> String {
    let mut words = Vec::new();
    let mut add = |set: bool, word: String| {
        if set {
            words.push(word)
        }
    };
    add(flags.required, "RequiredPartition".into());
    add(flags.no_block_io, "NoBlockIOProtocol".into());
    add(flags.legacy_bootable, "LegacyBIOSBootable".into());
    let bits: Vec<String> = (0..16).filter(|bit| flags.owner >> bit & 1 == 1).map(|bit| (bit + 48).to_string()).collect();
    add(!bits.is_empty(), format!("GUID:{}", bits.join(",")));
    add(flags.reserved != 0, format!("reserved:{:#x}", flags.reserved));
    words.join(between)
}

/// How many bytes so many blocks from first to last have.
pub fn bytes_of(first: u64, last: u64, block_size: u64) -> u64 {
    last.saturating_sub(first).saturating_add(1).saturating_mul(block_size)
}

/// A label without its slot.
pub fn label(label: Label) -> String {
    format!("{}, style {}, sheet {}", date(label.year, label.month, label.day), label.style, label.sheet)
}

/// A date in the form 2026-05-01.
pub fn date(year: u16, month: u8, day: u8) -> String {
    format!("{year:04}-{month:02}-{day:02}")
}

/// `1 slot`, `2 slots`.
pub fn count(n: usize, what: &str) -> String {
    format!("{n} {what}{}", if n == 1 { "" } else { "s" })
}

/// Rows in columns that are as wide as they need to be, the numbers to the right. The last column is not filled up.
pub fn columns(rows: &[Vec<String>], right: &[bool]) -> String {
    let width = |column: usize| rows.iter().map(|row| row[column].chars().count()).max().unwrap_or(0);
    let widths: Vec<usize> = (0..right.len()).map(width).collect();
    let mut out = String::new();
    for row in rows {
        for (column, cell) in row.iter().enumerate() {
            let fill = " ".repeat(widths[column] - cell.chars().count());
            let last = column + 1 == row.len();
            match (right[column], last) {
                (true, _) => out += &format!("{fill}{cell}"),
                (false, true) => out += cell,
                (false, false) => out += &format!("{cell}{fill}"),
            }
            out += if last { "\n" } else { " " };
        }
    }
    out
}

/// Used slots as a table with a head.
pub fn entries(entries: &[Entry], block_size: u64) -> String {
    let head = ["slot", "first", "last", "size", "type", "guid", "flags", "name"].map(String::from).to_vec();
    let row = |entry: &Entry| {
        let record = &entry.record;
        let flags = flags(record.flags, ",");
        vec![
            entry.slot.to_string(),
            record.first.to_string(),
            record.last.to_string(),
            size(bytes_of(record.first, record.last, block_size)),
            type_of(record.type_guid),
            record.guid.to_string(),
            if flags.is_empty() { "-".to_string() } else { flags },
            quoted(&record.name),
        ]
    };
    let rows: Vec<Vec<String>> = std::iter::once(head).chain(entries.iter().map(row)).collect();
    columns(&rows, &[true, true, true, true, false, false, false, false])
}

#[cfg(test)]
mod tests {
    use super::*;

    /// Sizes in words, at the edges of the units.
    #[test]
    fn sizes() {
        let said = [
            (0, "0 B"),
            (512, "512 B"),
            (1023, "1023 B"),
            (1024, "1 KiB"),
            (1031168, "1007 KiB"),
            (1536 << 20, "1.5 GiB"),
            (8 << 30, "8 GiB"),
            (u64::MAX, "16383.9 PiB"),
        ];
        for (bytes, words) in said {
            assert_eq!(size(bytes), words);
        }
    }

    /// Names cannot act on a terminal.
    #[test]
    fn names() {
        assert_eq!(quoted_text("a\"b\\c\x1b[31m\u{202e}"), "\"a\\\"b\\\\c\\u{1b}[31m\\u{202e}\"");
    }
}

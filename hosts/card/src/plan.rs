//! Plans: what is to be in each slot, in the form of sfdisk's scripts with a few keys more.
use crate::args::{self, number, LabelParts, Size};
use crate::failure::{Failure, Outcome};
use card::{BlockSize, Flags, Guid, Label, Name};
use std::fs;
use std::path::{Path, PathBuf};

/// What a plan asks for.
#[derive(Debug, Default)]
pub struct Plan {
    /// Whether a file that is no card yet is to be laid.
    pub lay: bool,
    pub guid: Option<Guid>,
    pub block_size: Option<BlockSize>,
    pub lines: Vec<Line>,
}

/// What is to be in a slot.
#[derive(Debug)]
pub struct Line {
    pub slot: u32,
    pub start: Option<u64>,
    pub size: Option<Size>,
    pub type_guid: Guid,
    pub guid: Option<Guid>,
    pub name: Name,
    pub flags: Flags,
    pub file: Option<PathBuf>,
    /// The place of the file's first byte in the partition.
    pub at: u64,
    pub label: Option<Label>,
}

/// Reads a plan. Every line is read before any card is touched.
pub fn read(path: &Path) -> Outcome<Plan> {
    let shown = path.display().to_string();
    let text = fs::read(path).map_err(|failure| crate::failure::io_failure(&shown, &failure))?;
    let text = String::from_utf8(text).map_err(|_| Failure::Usage(format!("{shown} is no text"), "apply"))?;
    let folder = path.parent().unwrap_or(Path::new(""));
    let mut plan = Plan::default();
    for (line, i) in text.lines().zip(1..) {
        plan.take(line.trim(), folder).map_err(|words| Failure::Usage(format!("{shown}, line {i}: {words}"), "apply"))?;
    }
    Ok(plan)
}

impl Plan {
    /// Takes one line in.
    fn take(&mut self, line: &str, folder: &Path) -> Result<(), String> {
        if line.is_empty() || line.starts_with('#') {
            return Ok(());
        }
        let (key, rest) = line.split_once(':').ok_or("neither a head, as label: gpt, nor a slot, as 1: size=2G")?;
        let (key, rest) = (key.trim(), rest.trim());
        match key {
            "label" if rest == "gpt" => self.lay = true,
            "label" => return Err(format!("label: {rest}: a card's label is gpt")),
            "label-id" => self.guid = Some(args::guid(rest)?),
            "sector-size" => {
                self.block_size = Some(number::<u64>(rest).ok().and_then(|bytes| BlockSize::try_from(bytes).ok()).ok_or("sector-size is 512 or 4096")?)
            }
            "unit" if rest == "sectors" => {}
            "unit" => return Err(format!("unit: {rest}: only sectors are known")),
            "device" | "first-lba" | "last-lba" | "table-length" | "grain" => {}
            _ => {
                let line = slot_line(key, rest, folder)?;
                if self.lines.iter().any(|other| other.slot == line.slot) {
                    return Err(format!("slot {} has a line already", line.slot));
                }
                self.lines.push(line);
            }
        }
        Ok(())
    }
}

/// The slot that a line begins with: a number, or the number at the end of a device's name.
fn slot_of(key: &str) -> Result<u32, String> {
    let digits = key.len() - key.bytes().rev().take_while(u8::is_ascii_digit).count();
    number(&key[digits..]).map_err(|_| format!("{key:?} is no slot and no head that is known"))
}

/// A line of a slot.
fn slot_line(key: &str, rest: &str, folder: &Path) -> Result<Line, String> {
    let slot = slot_of(key)?;
    let mut line =
        Line { slot, start: None, size: None, type_guid: Guid::BASIC_DATA, guid: None, name: Name::EMPTY, flags: Flags::NONE, file: None, at: 0, label: None };
    let (mut parts, mut at) = (LabelParts::default(), None);
    let fields = fields(rest)?;
    if let Some((key, _)) = fields.iter().enumerate().find(|(i, (key, _))| fields[..*i].iter().any(|(other, _)| other == key)).map(|(_, field)| field) {
        return Err(format!("{key} stands twice"));
    }
    for (key, value) in fields {
        match key.as_str() {
            "start" => line.start = Some(number(&value)?),
            "size" if value == "+" => line.size = None,
            "size" => line.size = Some(args::size(&value, Size::Blocks)?),
            "type" => line.type_guid = args::type_guid(&value)?,
            "uuid" => line.guid = Some(args::guid(&value)?),
            "name" => line.name = Name::new(&value).map_err(|error| error.to_string())?,
            "attrs" => line.flags = args::flags(&value)?,
            "file" => line.file = Some(folder.join(value)),
            "at" => at = Some(args::bytes(&value)?),
            "date" => parts.date = Some(args::date(&value)?),
            "style" => parts.style = Some(number(&value)?),
            "sheet" => parts.sheet = Some(number(&value)?),
            _ => return Err(format!("{key:?} is no key: start, size, type, uuid, name, attrs, file, at, date, style, sheet")),
        }
    }
    line.label = parts.over(None);
    if line.label.is_none() && !parts.is_empty() {
        return Err("a label has date, style and sheet: all three".into());
    }
    if matches!(line.size, Some(Size::Blocks(0) | Size::Bytes(0))) {
        return Err("size=0: a partition has at least one block".into());
    }
    // Behind the label's 13 bytes, where the line gives one.
    line.at = at.unwrap_or(if line.label.is_some() { 13 } else { 0 });
    if line.label.is_some() && line.file.is_some() && line.at < 13 {
        return Err(format!("at={}: the file would stand where the label's 13 bytes are", line.at));
    }
    Ok(line)
}

/// The keys and values of a line, with commas between them; a value may stand in quotes.
fn fields(text: &str) -> Result<Vec<(String, String)>, String> {
    let mut fields = Vec::new();
    let mut rest = text.trim_start_matches([' ', '\t', ',']);
    while !rest.is_empty() {
        let (key, behind) = rest.split_once('=').ok_or_else(|| format!("{rest:?} has no =value"))?;
        let behind = behind.trim_start();
        let (value, behind) = match behind.strip_prefix('"') {
            Some(quoted) => unquote(quoted)?,
            None => {
                let end = behind.find(',').unwrap_or(behind.len());
                (behind[..end].trim().to_string(), &behind[end..])
            }
        };
        fields.push((key.trim().to_string(), value));
        rest = behind.trim_start();
        if !rest.is_empty() && !rest.starts_with(',') {
            return Err(format!("a comma is missing before {rest:?}"));
        }
        rest = rest.trim_start_matches([' ', '\t', ',']);
    }
    Ok(fields)
}

/// The text up to the closing quote, and what stands behind it. Behind a backslash `x` and two hexadecimal digits are a byte, as sfdisk writes what is not plain; any other character is itself.
fn unquote(text: &str) -> Result<(String, &str), String> {
    let bytes = text.as_bytes();
    let (mut value, mut place) = (Vec::new(), 0);
    while let Some(byte) = bytes.get(place) {
        match (byte, bytes.get(place + 1), text.get(place + 2..place + 4).and_then(|digits| u8::from_str_radix(digits, 16).ok())) {
            (b'"', ..) => {
                let value = String::from_utf8(value).map_err(|_| "a value is no text")?;
                return Ok((value, &text[place + 1..]));
            }
            (b'\\', Some(b'x'), Some(byte)) => {
                value.push(byte);
                place += 4;
            }
            (b'\\', Some(other), _) => {
                value.push(*other);
                place += 2;
            }
            (other, ..) => {
                value.push(*other);
                place += 1;
            }
        }
    }
    Err("a quote is not closed".into())
}

#[cfg(test)]
mod tests {
    use super::*;

    /// The form of the issue's own example, and of a line of sfdisk's dump.
    #[test]
    fn lines() {
        let mut plan = Plan::default();
        plan.take("1: size=2G, type=data, name=\"north, ridge\", file=north.map, date=2026-05-01, style=3, sheet=12", Path::new("maps")).unwrap();
        plan.take(
            "card.img2 : start=        4096, size=        2048, type=0FC63DAF-8483-4772-8E79-3D69D8477DE4, attrs=\"RequiredPartition GUID:48\"",
            Path::new(""),
        )
        .unwrap();
        let [north, second] = &plan.lines[..] else { panic!("{plan:?}") };
        assert_eq!((north.slot, north.size, north.at, north.name == "north, ridge"), (1, Some(Size::Bytes(2 << 30)), 13, true));
        assert_eq!((north.file.as_deref(), north.label.map(|label| label.sheet)), (Some(Path::new("maps/north.map")), Some(12)));
        assert_eq!((second.slot, second.start, second.size, second.flags.owner, second.flags.required), (2, Some(4096), Some(Size::Blocks(2048)), 1, true));
    }

    /// What a plan must not say.
    #[test]
    fn wrong_lines() {
        for line in [
            "1",
            "1: size",
            "x: size=1",
            "1: size=1, date=2026-05-01",
            "1: size=0",
            "label: dos",
            "1: name=\"a",
            "1: name=\"a\" size=1",
            "1: colour=red",
            "1: start=40, size=1, start=41",
        ] {
            assert!(Plan::default().take(line, Path::new("")).is_err(), "{line}");
        }
    }
}

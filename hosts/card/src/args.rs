//! What stands behind a command's name: words and options, and the numbers, sizes, GUIDs and dates among them. Nothing here decides what a card takes.
use crate::failure::{Failure, Outcome};
use card::{Flags, Guid, Label};
use std::ffi::OsString;

/// An option of a command: its name without dashes, and what its value is called; `None` for one without a value.
pub type Switch = (&'static str, Option<&'static str>);

/// The words and options of a command.
pub struct Args {
    pub command: &'static str,
    words: std::vec::IntoIter<OsString>,
    options: Vec<(&'static str, String)>,
}

impl Args {
    /// Takes the words behind the command's name apart.
    pub fn new(command: &'static str, given: Vec<OsString>, known: &[Switch]) -> Outcome<Args> {
        let (mut words, mut options) = (Vec::new(), Vec::new());
        let mut given = given.into_iter();
        while let Some(word) = given.next() {
            match word.to_string_lossy().strip_prefix('-') {
                Some("-") => words.extend(given.by_ref()),
                Some(rest) if !rest.is_empty() => options.push(option(&word, &mut given, known).map_err(|words| Failure::Usage(words, command))?),
                _ => words.push(word),
            }
        }
        Ok(Args { command, words: words.into_iter(), options })
    }

    /// What was not understood, with this command's help.
    pub fn usage<T>(&self, words: impl Into<String>) -> Outcome<T> {
        Err(Failure::Usage(words.into(), self.command))
    }

    /// The next word, which the usage line calls so.
    pub fn word(&mut self, what: &str) -> Outcome<OsString> {
        match self.words.next() {
            Some(word) => Ok(word),
            None => self.usage(format!("{what} is missing")),
        }
    }

    /// All words that are left.
    pub fn rest(&mut self) -> Vec<OsString> {
        self.words.by_ref().collect()
    }

    /// No further word.
    pub fn end(&mut self) -> Outcome {
        match self.words.next() {
            Some(word) => self.usage(format!("{} is one word too many", word.to_string_lossy())),
            None => Ok(()),
        }
    }

    /// Whether an option without a value was given.
    pub fn has(&self, name: &str) -> bool {
        self.text(name).is_some()
    }

    /// The value of an option; of several the last one.
    pub fn text(&self, name: &str) -> Option<&str> {
        self.options.iter().rev().find(|(known, _)| *known == name).map(|(_, value)| value.as_str())
    }

    /// The value of an option, read by a function that says what is wrong with it.
    pub fn value<T>(&self, name: &str, read: impl FnOnce(&str) -> Result<T, String>) -> Outcome<Option<T>> {
        match self.text(name).map(read) {
            None => Ok(None),
            Some(Ok(value)) => Ok(Some(value)),
            Some(Err(words)) => self.usage(format!("--{name}: {words}")),
        }
    }

    /// A word, read by such a function.
    pub fn read<T>(&self, word: &OsString, read: impl FnOnce(&str) -> Result<T, String>) -> Outcome<T> {
        match read(&word.to_string_lossy()) {
            Ok(value) => Ok(value),
            Err(words) => self.usage(words),
        }
    }
}

/// An option and its value, which stands behind an equals sign or is the next word.
fn option(word: &OsString, given: &mut impl Iterator<Item = OsString>, known: &[Switch]) -> Result<(&'static str, String), String> {
    let text = word.to_str().ok_or_else(|| format!("{} is no text", word.to_string_lossy()))?;
    let (name, value) = text.split_once('=').map_or((text, None), |(name, value)| (name, Some(value)));
    let name = match name {
        "-b" => "block-size",
        "-h" => "help",
        _ => name.strip_prefix("--").unwrap_or(""),
    };
    let Some((name, takes)) = known.iter().find(|(known, _)| *known == name) else {
        return Err(format!("{text} is no option here"));
    };
    let value = match (takes, value) {
        (None, None) => String::new(),
        (None, Some(_)) => return Err(format!("--{name} takes no value")),
        (Some(_), Some(value)) => value.to_string(),
        (Some(what), None) => {
            let value = given.next().ok_or_else(|| format!("--{name} wants {what}"))?;
            value.into_string().map_err(|value| format!("--{name} {} is no text", value.to_string_lossy()))?
        }
    };
    Ok((name, value))
}

/// A number, in digits.
pub fn number<T: TryFrom<u64>>(text: &str) -> Result<T, String> {
    let digits = !text.is_empty() && text.bytes().all(|byte| byte.is_ascii_digit());
    let value: Option<u64> = digits.then(|| text.parse().ok()).flatten();
    value.and_then(|value| T::try_from(value).ok()).ok_or_else(|| if digits { format!("{text} is too large") } else { format!("{text:?} is no number") })
}

/// A slot's number. One that no slot has is the library's to refuse, as far as it takes the number.
pub fn slot(text: &str) -> Result<u64, String> {
    number(text).map_err(|_| format!("{text:?} is no slot: a number from 1 to 128"))
}

/// A size with its unit.
#[derive(Clone, Copy, Debug, PartialEq, Eq)]
pub enum Size {
    Bytes(u64),
    /// As sfdisk counts where no unit is given.
    Blocks(u64),
}

impl Size {
    /// How many whole blocks it takes.
    pub fn blocks(self, block_size: u64) -> u64 {
        match self {
            Size::Blocks(blocks) => blocks,
            Size::Bytes(bytes) => bytes / block_size + u64::from(bytes % block_size != 0),
        }
    }
}

/// A size with a unit, as 8G, or without one.
pub fn size(text: &str, plain: fn(u64) -> Size) -> Result<Size, String> {
    let end = text.find(|c: char| !c.is_ascii_digit()).unwrap_or(text.len());
    let value: u64 = number(&text[..end]).map_err(|_| format!("{text:?} is no size, such as 8G"))?;
    let power = match text[end..].to_ascii_uppercase().as_str() {
        "" => return Ok(plain(value)),
        "B" => 0,
        "K" | "KIB" => 10,
        "M" | "MIB" => 20,
        "G" | "GIB" => 30,
        "T" | "TIB" => 40,
        _ => return Err(format!("{text:?} is no size, such as 8G")),
    };
    value.checked_mul(1 << power).map(Size::Bytes).ok_or_else(|| format!("{text} is too large"))
}

/// A size in bytes, where a plain number counts bytes.
pub fn bytes(text: &str) -> Result<u64, String> {
    match size(text, Size::Bytes)? {
        Size::Bytes(bytes) | Size::Blocks(bytes) => Ok(bytes),
    }
}

/// A GUID in its usual form.
pub fn guid(text: &str) -> Result<Guid, String> {
    text.parse().map_err(|error: card::GuidError| format!("{text:?} is {error}"))
}

/// The types that have a word of their own.
pub const TYPES: [(&str, &str); 4] = [
    ("data", "ebd0a0a2-b9e5-4433-87c0-68b6b72699c7"),
    ("linux", "0fc63daf-8483-4772-8e79-3d69d8477de4"),
    ("efi", "c12a7328-f81f-11d2-ba4b-00a0c93ec93b"),
    ("swap", "0657fd6d-a4ab-43c4-84e5-0933c84b4f4f"),
];

/// A type, by its word or as a GUID.
pub fn type_guid(text: &str) -> Result<Guid, String> {
    let known = TYPES.iter().find(|(word, _)| *word == text).map_or(text, |(_, guid)| guid);
    guid(known).map_err(|_| format!("{text:?} is no type: data, linux, efi, swap, or a GUID"))
}

/// Flags by sfdisk's words.
pub fn flags(text: &str) -> Result<Flags, String> {
    let mut flags = Flags::NONE;
    for word in text.split([',', ' ']).filter(|word| !word.is_empty()) {
        match word {
            "RequiredPartition" => flags.required = true,
            "NoBlockIOProtocol" => flags.no_block_io = true,
            "LegacyBIOSBootable" => flags.legacy_bootable = true,
            _ => match number::<u32>(word.strip_prefix("GUID:").unwrap_or(word)) {
                Ok(bit @ 48..=63) => flags.owner |= 1 << (bit - 48),
                _ => return Err(format!("{word:?} is no flag: RequiredPartition, NoBlockIOProtocol, LegacyBIOSBootable, GUID:48 to GUID:63")),
            },
        }
    }
    Ok(flags)
}

/// Year, month and day of a date in the form 2026-05-01. Whether there is such a month and day is the library's to say.
pub fn date(text: &str) -> Result<(u16, u8, u8), String> {
    let wrong = || format!("{text:?} is no date of the form 2026-05-01");
    let mut parts = text.split('-');
    let (Some(year), Some(month), Some(day), None) = (parts.next(), parts.next(), parts.next(), parts.next()) else {
        return Err(wrong());
    };
    Ok((number(year).map_err(|_| wrong())?, number(month).map_err(|_| wrong())?, number(day).map_err(|_| wrong())?))
}

/// The parts of a label that were given.
#[derive(Clone, Copy, Debug, Default, PartialEq, Eq)]
pub struct LabelParts {
    pub date: Option<(u16, u8, u8)>,
    pub style: Option<u16>,
    pub sheet: Option<u16>,
}

impl LabelParts {
    /// Whether there is none.
    pub fn is_empty(self) -> bool {
        self == LabelParts::default()
    }

    /// The label, with what was not given as the one before has it; `None` if neither has it.
    pub fn over(self, before: Option<Label>) -> Option<Label> {
        let (year, month, day) = self.date.or(before.map(|label| (label.year, label.month, label.day)))?;
        let (style, sheet) = (self.style.or(before.map(|label| label.style))?, self.sheet.or(before.map(|label| label.sheet))?);
        Some(Label { year, month, day, style, sheet })
    }
}

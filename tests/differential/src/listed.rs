//! Where the original and document 01 part, each as a predicate on the input alone: docs/DIFFERENCES.md has the reasons.
//! A difference on any other input fails the run. On a listed input the port is held to the number that is given here, and the original to what it
//! is said to do.

use crate::case::{Build, Call, Case, Head};
use crate::port::{u16_at, u32_at, u64_at};

pub const CLASSES: [(&str, &str); 13] = [
    ("A1", "builder: count times size passes 32 bits; the original panics, 3"),
    ("A2", "builder: the array's start passes 64 bits; the original panics, 3"),
    ("A3", "reading an array whose entry size is not 128; the original panics, 7"),
    ("A4", "device write: start and index sum passes 64 bits; the original panics, 3"),
    ("A5", "zeroing no entries where that sum passes 64 bits; the original panics, 3"),
    ("A6", "zeroing 2^63 bytes or more; the original panics, 2 or 3"),
    ("B", "device write with an entry size of 0 or above 4,096; the original has no such rule, 7"),
    ("C", "a write that does not fit; the original writes a part of it, 2 and no byte changed"),
    ("D", "device write that ends at 2^64 or later; the original answers 2, 3"),
    ("E", "a lone surrogate in a name; the original reads FFFD, the unit is kept"),
    ("G", "a refused header write; the original's header in memory has the new sums, nothing is returned"),
    ("H", "summing an array of 2^63 bytes or more; the original panics, 2"),
    ("I", "summing or zeroing more than 256 MiB, which memory may not give; the original would end the process and is not asked, 2, 3 or 7"),
];

pub enum Original {
    Panics,
    Answers(u32),
    Anything,
    /// It writes the part from this place to the image's end, and answers 2.
    WritesFrom(u128),
    /// It accepts, with FFFD for each lone surrogate.
    Replaces,
}

pub struct Listed {
    pub class: &'static str,
    /// Document 01's number.
    pub number: u32,
    pub original: Original,
}

const PAST: u128 = 1 << 64;

fn listed_as(class: &'static str, number: u32, original: Original) -> Option<Listed> {
    Some(Listed { class, number, original })
}

fn good(b: u64) -> bool {
    b == 512 || b == 4096
}

/// What a builder holds when it builds.
struct Plan {
    b: u64,
    primary: bool,
    front: u64,
    back: u64,
    first: u64,
    last: u64,
    count: u32,
    size: u32,
}

fn plan_new(s: &Build) -> Plan {
    let set = |bit: u8, v: u64, default: u64| if s.which & bit != 0 { v } else { default };
    Plan {
        b: s.b,
        primary: s.primary,
        front: 1,
        back: set(1, s.backup, 0),
        first: set(2, s.first, 0),
        last: set(4, s.last, 0),
        count: if s.which & 8 != 0 { s.count.max(128) } else { 128 },
        size: if s.which & 16 != 0 { s.size } else { 128 },
    }
}

fn plan_from(b: u64, head: &Head) -> Plan {
    let (current, other) = (u64_at(head, 16), u64_at(head, 24));
    Plan {
        b,
        primary: current < other,
        front: current.min(other),
        back: current.max(other),
        first: u64_at(head, 32),
        last: u64_at(head, 40),
        count: u32_at(head, 72),
        size: u32_at(head, 76),
    }
}

fn build(p: &Plan) -> Option<Listed> {
    if !good(p.b) || p.back < p.front {
        return None;
    }
    let bytes = u128::from(p.count) * u128::from(p.size);
    if bytes > u128::from(u32::MAX) {
        return listed_as("A1", 3, Original::Panics);
    }
    let blocks = bytes.div_ceil(u128::from(p.b));
    let back = u128::from(p.back);
    if back < blocks + 1 {
        return None;
    }
    let first = u128::from(p.first).max(2 + blocks);
    let last = u128::from(p.last).max(back - blocks - 1);
    let start = if p.primary { u128::from(p.front) + 1 } else { last + 1 };
    if first <= last && start >= PAST {
        return listed_as("A2", 3, Original::Panics);
    }
    None
}

/// Where the array that a header names starts, and how many bytes it has; none where the start passes 64 bits.
pub fn array(b: u64, head: &Head) -> Option<(u128, u128)> {
    let start = u128::from(u64_at(head, 64)) * u128::from(b);
    let bytes = u128::from(u32_at(head, 72)) * u128::from(u32_at(head, 76));
    (start < PAST).then_some((start, bytes))
}

/// Whether so many bytes from there on are inside; none at all are, anywhere.
fn inside(start: u128, bytes: u128, len: usize) -> bool {
    bytes == 0 || start + bytes <= len as u128
}

fn lone_surrogate(entry: &[u8]) -> bool {
    let name: Vec<u16> = (0..36).map(|i| u16_at(entry, 56 + 2 * i)).take_while(|u| *u != 0).collect();
    String::from_utf16(&name).is_err()
}

fn read_array(b: u64, head: &Head, img: &[u8]) -> Option<Listed> {
    let (start, bytes) = array(b, head)?;
    if u32_at(head, 76) != 128 {
        return listed_as("A3", 7, Original::Panics);
    }
    if bytes == 0 || !inside(start, bytes, img.len()) {
        return None;
    }
    let entries = &img[start as usize..(start + bytes) as usize];
    if crc32fast::hash(entries) == u32_at(head, 80) && entries.chunks(128).any(lone_surrogate) {
        return listed_as("E", 0, Original::Replaces);
    }
    None
}

fn array_sum(b: u64, head: &Head) -> Option<Listed> {
    let (_, bytes) = array(b, head)?;
    if bytes >= 1 << 63 {
        return listed_as("H", 2, Original::Panics);
    }
    None
}

/// The header's own block does not fit, after the sums were made.
fn header_does_not_fit(b: u64, head: &Head, len: usize) -> bool {
    let summed = array(b, head).is_some_and(|(start, bytes)| inside(start, bytes, len));
    summed && u128::from(u64_at(head, 16)) * u128::from(b) + u128::from(b) > len as u128
}

fn right_place(primary: bool, head: &Head) -> bool {
    let (current, other) = (u64_at(head, 16), u64_at(head, 24));
    if primary {
        current < other
    } else {
        current > other
    }
}

fn write_header(b: u64, head: &Head, primary: bool, img: &[u8]) -> Option<Listed> {
    if !right_place(primary, head) {
        return None;
    }
    if let Some(l) = array_sum(b, head) {
        return Some(l);
    }
    let own = u128::from(u64_at(head, 16)) * u128::from(b);
    if header_does_not_fit(b, head, img.len()) && own < img.len() as u128 {
        return listed_as("C", 2, Original::WritesFrom(own));
    }
    None
}

/// `bytes`: how many are to be stored; `zeroing`: they are zeros over entries.
fn device_write(index: u64, start: u64, b: u64, size: u32, bytes: u128, zeroing: bool, img: &[u8]) -> Option<Listed> {
    if size == 0 || size > 4096 {
        return listed_as("B", 7, Original::Anything);
    }
    let front = u128::from(start) * u128::from(b);
    let offset = u128::from(index) * u128::from(size);
    if front >= PAST || offset >= PAST {
        return None;
    }
    let at = front + offset;
    if at >= PAST {
        return listed_as(if zeroing && bytes == 0 { "A5" } else { "A4" }, 3, Original::Panics);
    }
    if bytes >= PAST {
        return None;
    }
    let end_number = if at + bytes >= PAST { 3 } else { 2 };
    if bytes >= 1 << 63 {
        return listed_as("A6", end_number, Original::Panics);
    }
    if end_number == 3 {
        return listed_as("D", 3, Original::Answers(2));
    }
    if at + bytes > img.len() as u128 && at < img.len() as u128 {
        return listed_as("C", 2, Original::WritesFrom(at));
    }
    None
}

/// A write of bytes at a fixed place of block 0.
fn fixed_write(at: usize, bytes: usize, img: &[u8]) -> Option<Listed> {
    if at < img.len() && img.len() < at + bytes {
        return listed_as("C", 2, Original::WritesFrom(at as u128));
    }
    None
}

/// The class of an input, if it is of one. G is asked for by `sums_stay`.
pub fn listed(case: &Case) -> Option<Listed> {
    let img = &case.img[..];
    match &case.call {
        Call::Build(s) => build(&plan_new(s)),
        Call::BuildFrom { b, head } => build(&plan_from(*b, head)),
        Call::ReadArray { b, head } if good(*b) => read_array(*b, head, img),
        Call::EntryFromBytes if img.len() >= 128 && lone_surrogate(img) => listed_as("E", 0, Original::Replaces),
        Call::ArraySum { b, head } if good(*b) => array_sum(*b, head),
        Call::WritePrimary { b, head } if good(*b) => write_header(*b, head, true, img),
        Call::WriteBackup { b, head } if good(*b) => write_header(*b, head, false, img),
        Call::WriteEntry { index, start, b, size, .. } if good(*b) => {
            device_write(*index, *start, *b, *size, u128::from(*size), false, img)
        }
        Call::WriteZero { index, count, start, b, size } if good(*b) => {
            device_write(*index, *start, *b, *size, u128::from(*size) * u128::from(*count), true, img)
        }
        Call::Overwrite { .. } => fixed_write(0, 512, img),
        Call::Conservative { .. } => fixed_write(446, 66, img),
        Call::WriteBoot { .. } => fixed_write(0, 440, img),
        Call::WriteSignature { .. } => fixed_write(440, 4, img),
        _ => None,
    }
}

/// G: the original's header has new sums though the write was refused.
pub fn sums_stay(case: &Case) -> bool {
    match &case.call {
        Call::WritePrimary { b, head } => good(*b) && right_place(true, head) && header_does_not_fit(*b, head, case.img.len()),
        Call::WriteBackup { b, head } => good(*b) && right_place(false, head) && header_does_not_fit(*b, head, case.img.len()),
        _ => false,
    }
}

/// No more than so many bytes are asked of the original in one buffer, or 2^63 and more, where it panics.
const MOST: u128 = 1 << 28;

fn too_many(bytes: u128) -> bool {
    MOST < bytes && bytes < 1 << 63
}

fn array_too_big(b: u64, head: &Head) -> bool {
    array(b, head).is_some_and(|(_, bytes)| too_many(bytes))
}

/// I: the original would take a buffer that memory may not give, and end the process. The answer is document 01's number.
pub fn ends_process(case: &Case) -> Option<u32> {
    match &case.call {
        Call::ArraySum { b, head } if good(*b) && array_too_big(*b, head) => Some(2),
        Call::WritePrimary { b, head } if good(*b) && right_place(true, head) && array_too_big(*b, head) => Some(2),
        Call::WriteBackup { b, head } if good(*b) && right_place(false, head) && array_too_big(*b, head) => Some(2),
        Call::WriteEntry { index, start, b, size, .. } if good(*b) && too_many(u128::from(*size)) => {
            let at = u128::from(*start) * u128::from(*b) + u128::from(*index) * u128::from(*size);
            (at < PAST).then_some(7)
        }
        Call::WriteZero { index, count, start, b, size } if good(*b) => {
            let bytes = u128::from(*count) * u128::from(*size);
            let at = u128::from(*start) * u128::from(*b) + u128::from(*index) * u128::from(*size);
            let number = match size {
                1..=4096 if at + bytes >= PAST => 3,
                1..=4096 => 2,
                _ => 7,
            };
            (at < PAST && too_many(bytes)).then_some(number)
        }
        _ => None,
    }
}

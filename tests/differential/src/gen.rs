//! The parts that cases are made of: entries, headers, images, numbers at the edges. All of them are made from bytes here, by neither side.

use crate::case::{Entry, Head};
use crate::rng::Rng;

pub const CURRENT: usize = 16;
pub const BACKUP: usize = 24;
pub const FIRST: usize = 32;
pub const LAST: usize = 40;
pub const START: usize = 64;
pub const COUNT: usize = 72;
pub const SIZE: usize = 76;
pub const ARRAY_SUM: usize = 80;

/// Where a header's fields stand in its bytes 8 to 91, and how wide they are.
pub const FIELDS: [(usize, usize); 17] = [
    (0, 2),
    (2, 2),
    (4, 4),
    (8, 4),
    (12, 4),
    (CURRENT, 8),
    (BACKUP, 8),
    (FIRST, 8),
    (LAST, 8),
    (48, 4),
    (52, 2),
    (54, 2),
    (56, 8),
    (START, 8),
    (COUNT, 4),
    (SIZE, 4),
    (ARRAY_SUM, 4),
];

pub fn set64(bytes: &mut [u8], at: usize, v: u64) {
    bytes[at..at + 8].copy_from_slice(&v.to_le_bytes());
}

pub fn set32(bytes: &mut [u8], at: usize, v: u32) {
    bytes[at..at + 4].copy_from_slice(&v.to_le_bytes());
}

/// A header's 92 bytes on a card, its own sum right.
pub fn on_card(head: &Head) -> [u8; 92] {
    let mut b = [0; 92];
    b[..8].copy_from_slice(b"EFI PART");
    b[8..].copy_from_slice(head);
    b[16..20].fill(0);
    let sum = crc32fast::hash(&b);
    set32(&mut b, 16, sum);
    b
}

/// A header of revision 1.0 and 92 bytes.
pub fn head(current: u64, backup: u64, first: u64, last: u64, guid: [u8; 16], start: u64, count: u32, size: u32) -> Head {
    let mut h = [0; 84];
    h[2] = 1;
    set32(&mut h, 4, 92);
    set64(&mut h, CURRENT, current);
    set64(&mut h, BACKUP, backup);
    set64(&mut h, FIRST, first);
    set64(&mut h, LAST, last);
    h[48..64].copy_from_slice(&guid);
    set64(&mut h, START, start);
    set32(&mut h, COUNT, count);
    set32(&mut h, SIZE, size);
    h
}

/// 36 units of valid UTF-16: letters of every width, pairs, zeros inside and behind.
pub fn name(r: &mut Rng) -> [u16; 36] {
    let mut n = [0; 36];
    let long = match r.below(5) {
        0 => 0,
        1 => 36,
        2 => 35,
        _ => r.range(1, 34) as usize,
    };
    let mut i = 0;
    while i < long {
        match r.below(8) {
            0 if i + 2 <= long => {
                n[i] = 0xD800 + r.below(0x400) as u16;
                n[i + 1] = 0xDC00 + r.below(0x400) as u16;
                i += 1;
            }
            1 => n[i] = r.pick(&[0xFFFD, 0xFFFF, 0xD7FF, 0xE000, 0x0001, 0x0080, 0x0800]),
            2 if r.one_in(4) => n[i] = 0,
            _ => n[i] = 0x21 + r.below(0x5E) as u16,
        }
        i += 1;
    }
    n
}

pub fn set_name(entry: &mut [u8], name: &[u16; 36]) {
    for (i, u) in name.iter().enumerate() {
        entry[56 + 2 * i..58 + 2 * i].copy_from_slice(&u.to_le_bytes());
    }
}

/// An entry with a valid name: absent, of nil type, with one byte alone, or full.
pub fn entry(r: &mut Rng) -> Entry {
    let mut e = [0; 128];
    match r.below(10) {
        0 => {}
        1 => {
            let at = r.pick(&[0usize, 3, 4, 5, 6, 7, 8, 15, 16, 31, 32, 39, 40, 47, 48, 55, 56, 127, 126, 57]);
            e[at] = if at == 127 || at == 57 { 1 } else { 1 + r.below(255) as u8 };
        }
        kind => {
            r.fill(&mut e[..56]);
            if kind == 2 {
                e[..16].fill(0);
            }
            if kind == 3 {
                let first = r.next() >> r.below(64);
                set64(&mut e, 32, first);
                set64(&mut e, 40, first.wrapping_add(r.below(5)).wrapping_sub(1));
            }
            let n = name(r);
            set_name(&mut e, &n);
        }
    }
    e
}

/// A lone surrogate in the name: class E.
pub fn spoil_name(r: &mut Rng, e: &mut [u8]) {
    let at = r.below(3) as usize;
    let unit = r.pick(&[0xD800u16, 0xDBFF, 0xDC00, 0xDFFF]);
    for i in 0..at {
        e[56 + 2 * i..58 + 2 * i].copy_from_slice(&0x41u16.to_le_bytes());
    }
    e[56 + 2 * at..58 + 2 * at].copy_from_slice(&unit.to_le_bytes());
    e[58 + 2 * at..60 + 2 * at].copy_from_slice(&0x42u16.to_le_bytes());
}

pub fn block_size(r: &mut Rng) -> u64 {
    match r.below(40) {
        0 => r.pick(&[0, 1, 511, 513, 1024, 2048, 4095, 4097, 8192, u64::MAX, 512 << 32, 4096 << 32, (1 << 32) + 512]),
        n if n % 3 == 0 => 4096,
        _ => 512,
    }
}

/// A block number: inside an image of so many blocks, at its end, or where times b passes 64 bits.
pub fn block(r: &mut Rng, b: u64, blocks: u64) -> u64 {
    let b = b.max(1);
    let most = u64::MAX / b;
    match r.below(8) {
        0 => r.range(0, 3),
        1 => blocks.wrapping_sub(2).wrapping_add(r.below(5)),
        2 => most.wrapping_sub(2).wrapping_add(r.below(5)),
        3 => r.pick(&[u64::MAX, u64::MAX - 1, 1 << 63, (1 << 63) / b, 1 << 32, u64::from(u32::MAX), (1 << 32) / b, 1 << 55, (1 << 55) + 1]),
        _ => r.below(blocks.max(1)),
    }
}

/// A length of one of the classes: empty, within a block, at a boundary, some blocks, a whole card.
pub fn length(r: &mut Rng, b: u64) -> usize {
    let b = if b == 4096 { 4096 } else { 512 };
    (match r.below(12) {
        0 => r.below(b + 1),
        1 => r.below(600),
        2 => b + r.range(80, 100),
        3 => 2 * b + r.below(100),
        4 => 3 * b - 2 + r.below(5),
        5 => 3 * b + r.below(200),
        6 => b * r.range(3, 8),
        7 => b * r.range(3, 12) + r.below(b),
        8 => r.below(3 * b + 100),
        9 => b * r.range(0, 4) + r.pick(&[0, 1, 91, 92, 93, 127, 128, 439, 440, 443, 444, 445, 446, 511]),
        10 => b * r.range(8, 16) + r.below(2),
        _ => b * if b == 512 { r.range(60, 72) } else { r.range(8, 14) },
    }) as usize
}

/// An image, and what was put into it.
pub struct Card {
    pub img: Vec<u8>,
    pub primary: Head,
    pub backup: Head,
}

/// An image with an MBR, both headers and both arrays as far as they fit, and other bytes between them.
pub fn card(r: &mut Rng, b: u64, len: usize) -> Card {
    let mut img = vec![0; len];
    if r.one_in(2) {
        r.fill(&mut img);
    }
    let unit = if b == 4096 { 4096usize } else { 512 };
    let count = if r.one_in(60) { 128 } else { r.below(9) as u32 };
    let (bytes, blocks) = (count as usize * 128, len / unit);
    let last = blocks.saturating_sub(1) as u64;
    let array_blocks = bytes.div_ceil(unit);
    let guid = r.bytes();
    let (first, end) = (2 + array_blocks as u64, last.saturating_sub(1 + array_blocks as u64));
    let mut primary = head(1, last, first, end, guid, 2, count, 128);
    let mut backup = head(last, 1, first, end, guid, end + 1, count, 128);
    let mut entries = vec![0; bytes];
    for e in entries.chunks_mut(128) {
        e.copy_from_slice(&entry(r));
    }
    let sum = crc32fast::hash(&entries);
    for (h, start) in [(&mut primary, 2), (&mut backup, end as usize + 1)] {
        let at = start * unit;
        if at + bytes <= len {
            img[at..at + bytes].copy_from_slice(&entries);
        }
        set32(h, ARRAY_SUM, sum);
        if r.one_in(4) {
            set32(h, 12, r.next() as u32);
        }
        if r.one_in(4) {
            set32(h, 4, r.pick(&[0, 91, 93, 96, 512, u32::MAX]));
        }
    }
    for (h, at) in [(&mut primary, unit), (&mut backup, last as usize * unit)] {
        let whole = on_card(h);
        h.copy_from_slice(&whole[8..]);
        if at >= unit && at + 92 <= len {
            img[at..at + 92].copy_from_slice(&whole);
        }
    }
    if len >= 512 && !r.one_in(4) {
        img[510] = 0x55;
        img[511] = 0xAA;
    }
    Card { img, primary, backup }
}

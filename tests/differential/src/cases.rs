//! The cases: a fixed list around every boundary, and as many from a seed as are asked for.

use crate::case::{Build, Call, Case, Entry, Head};
use crate::gen::*;
use crate::listed::array;
use crate::rng::Rng;

const BLOCKS: [u64; 2] = [512, 4096];

/// Hands on every part-th case of the list: the others are not made.
pub struct Share<'a> {
    part: usize,
    of: usize,
    at: usize,
    to: &'a mut dyn FnMut(Case),
}

impl Share<'_> {
    fn case(&mut self, img: &[u8], call: impl FnOnce() -> Call) {
        let mine = self.at % self.of == self.part;
        self.at += 1;
        if mine {
            (self.to)(Case { img: img.to_vec(), call: call() });
        }
    }
}

/// The whole fixed list, or one part of it.
pub fn fixed(part: usize, of: usize, to: &mut dyn FnMut(Case)) {
    let mut s = Share { part, of, at: 0, to };
    for b in BLOCKS {
        for len in 0..3 * b as usize + 200 {
            at_length(&mut s, b, len);
        }
        block_zero(&mut s, b);
        damaged(&mut s, b);
        array_bytes(&mut s, b);
        header_edges(&mut s, b);
        builders(&mut s, b);
        device_edges(&mut s, b);
    }
    records(&mut s);
    lengths(&mut s);
    buffers(&mut s);
}

/// Each call that is lent an image, at one length. Headers and arrays end around the image's end.
fn at_length(s: &mut Share, b: u64, len: usize) {
    let r = &mut Rng::new(b, len as u64);
    let made = card(r, b, len);
    let img = &made.img[..];
    s.case(img, || Call::ReadPrimary { b });
    s.case(img, || Call::ReadBackup { b });
    s.case(&[], || Call::FindBackup { len: len as u64, b });
    if b == 4096 && (140..508).contains(&(len % 512)) {
        return;
    }
    s.case(img, || Call::MbrFromBytes { b });
    s.case(img, || Call::MbrFromImage { b });
    s.case(img, || Call::ReadBoot);
    s.case(img, || Call::ReadSignature);
    s.case(img, || Call::EntryFromBytes);
    s.case(img, || Call::Sum);
    let mbr = Box::new(r.bytes());
    s.case(img, || Call::Overwrite { mbr: mbr.clone() });
    s.case(img, || Call::Conservative { mbr });
    s.case(img, || Call::WriteBoot { boot: Box::new([0x90; 440]) });
    s.case(img, || Call::WriteSignature { signature: [1, 2, 3, 4] });
    for block in 0..3 {
        at_block(s, r, b, img, block);
    }
}

/// Headers in and behind a block; arrays and entries from it on that end at the image's end, or pass it.
fn at_block(s: &mut Share, r: &mut Rng, b: u64, img: &[u8], block: u64) {
    let (n, len) = (b as usize, img.len());
    let write = head(block, 9, 3, 4, [7; 16], 0, (len as u32 / 128).min(2), 128);
    s.case(img, || Call::WritePrimary { b, head: Box::new(write) });
    let write = head(block + 1, 0, 3, 4, [7; 16], block, 1, 64);
    s.case(img, || Call::WriteBackup { b, head: Box::new(write) });
    let rest = len.saturating_sub(block as usize * n) as u32;
    for bytes in [rest.saturating_sub(1), rest, rest + 1] {
        let sum = head(1, 2, 3, 4, [7; 16], block, 1, bytes);
        s.case(img, || Call::ArraySum { b, head: Box::new(sum) });
    }
    for count in [rest / 128, rest / 128 + 1] {
        let mut read = head(1, 2, 3, 4, [7; 16], block, count, 128);
        if let Some(bytes) = img.get(block as usize * n..).and_then(|i| i.get(..count as usize * 128)) {
            if count > 16 {
                continue;
            }
            set32(&mut read, ARRAY_SUM, crc32fast::hash(bytes));
        }
        s.case(img, || Call::ReadArray { b, head: Box::new(read) });
    }
    let size = r.pick(&[1, 100, 128, 200]);
    for index in [rest / size, (rest / size).saturating_sub(1)] {
        let (index, start) = (u64::from(index), block);
        let entry = Box::new(entry(r));
        let count = r.below(3);
        s.case(img, || Call::WriteEntry { index, start, b, size, entry });
        s.case(img, || Call::WriteZero { index, count, start, b, size });
    }
}

/// A good table, and copies of it with one bit, one field or one byte of the array changed.
fn damaged(s: &mut Share, b: u64) {
    let n = b as usize;
    let r = &mut Rng::new(b, 1 << 20);
    let mut made = card(r, b, 8 * n);
    let last = 7 * n;
    made.primary[12..16].fill(0);
    for (h, at) in [(&mut made.primary, n), (&mut made.backup, last)] {
        let whole = on_card(h);
        h.copy_from_slice(&whole[8..]);
        made.img[at..at + 92].copy_from_slice(&whole);
    }
    for at in 0..96 {
        for bit in 0..8 {
            let mut img = made.img.clone();
            img[n + at] ^= 1 << bit;
            img[last + at] ^= 1 << bit;
            s.case(&img, || Call::ReadPrimary { b });
            s.case(&img, || Call::ReadBackup { b });
        }
    }
    for (at, wide) in FIELDS {
        for v in [0, 1, 2, 92, 127, 129, u64::MAX >> 1, u64::MAX - 1, u64::MAX] {
            for h in [made.primary, made.backup] {
                let mut h = h;
                h[at..at + wide].copy_from_slice(&v.to_le_bytes()[..wide]);
                one_header(s, b, &made.img, &h);
            }
        }
    }
}

/// Every call that a header is given to, and its reading with the sum right and as it was.
fn one_header(s: &mut Share, b: u64, img: &[u8], h: &Head) {
    let n = b as usize;
    let right = on_card(h);
    let mut as_it_was = right;
    as_it_was[8..].copy_from_slice(h);
    for whole in [right, as_it_was] {
        let mut img = img.to_vec();
        img[n..n + 92].copy_from_slice(&whole);
        img[7 * n..7 * n + 92].copy_from_slice(&whole);
        s.case(&img, || Call::ReadPrimary { b });
        s.case(&img, || Call::ReadBackup { b });
    }
    s.case(img, || Call::ArraySum { b, head: Box::new(*h) });
    s.case(img, || Call::WritePrimary { b, head: Box::new(*h) });
    s.case(img, || Call::WriteBackup { b, head: Box::new(*h) });
    s.case(img, || Call::BuildFrom { b, head: Box::new(*h) });
    s.case(img, || Call::ReadArray { b, head: Box::new(*h) });
}

fn with_sum(img: &[u8], mut h: Head, b: u64) -> Head {
    if let Some((start, bytes)) = array(b, &h) {
        if start + bytes <= img.len() as u128 {
            let sum = crc32fast::hash(&img[start as usize..(start + bytes) as usize]);
            set32(&mut h, ARRAY_SUM, sum);
        }
    }
    h
}

/// One byte alone in the second of three entries; one byte changed in a full one.
fn array_bytes(s: &mut Share, b: u64) {
    let n = b as usize;
    let r = &mut Rng::new(b, 2 << 20);
    let h = head(1, 2, 3, 4, [9; 16], 1, 3, 128);
    let full = entry(&mut Rng::new(5, 5));
    for at in 0..128 {
        for v in [1, 0x80, 0xD8, 0xDC, 0xFF] {
            let mut img = vec![0; 2 * n];
            img[n + 128 + at] = v;
            let mut h = with_sum(&img, h, b);
            s.case(&img, || Call::ReadArray { b, head: Box::new(h) });
            s.case(&img[n + 128..n + 256], || Call::EntryFromBytes);
            img[n..n + 128].copy_from_slice(&full);
            img[n + 256..n + 384].copy_from_slice(&full);
            s.case(&img, || Call::ReadArray { b, head: Box::new(h) });
            h = with_sum(&img, h, b);
            s.case(&img, || Call::ReadArray { b, head: Box::new(h) });
        }
    }
    for count in 0..40 {
        let mut img = vec![0; 2 * n + 4096];
        for e in img[n..].chunks_exact_mut(128).take(count) {
            e.copy_from_slice(&entry(r));
        }
        let mut h = h;
        set32(&mut h, COUNT, count as u32);
        h = with_sum(&img, h, b);
        s.case(&img, || Call::ReadArray { b, head: Box::new(h) });
    }
}

/// Headers whose array or own block stands where a product or an end passes 64 bits, and shapes of the array that meet it; block sizes that are none.
fn header_edges(s: &mut Share, b: u64) {
    let img = [0x33; 1100];
    let most = u64::MAX / b;
    let blocks = [0, 1, 2, most - 1, most, most + 1, u64::MAX];
    for start in blocks {
        for (count, size) in [(0, 128), (0, 127), (1, 128), (1, 129), (4, 128), (9, 128), (1, 0), (u32::MAX, u32::MAX), (1 << 31, 1 << 31)]
        {
            for (current, backup) in blocks.into_iter().flat_map(|c| [(c, 1), (c, c), (c, u64::MAX)]) {
                let h = with_sum(&img, head(current, backup, 0, 0, [3; 16], start, count, size), b);
                s.case(&img, || Call::ArraySum { b, head: Box::new(h) });
                s.case(&img, || Call::WritePrimary { b, head: Box::new(h) });
                s.case(&img, || Call::WriteBackup { b, head: Box::new(h) });
                s.case(&img, || Call::ReadArray { b, head: Box::new(h) });
            }
        }
    }
    for none in [0, 1, 511, 513, 1024, 2048, 4095, 4097, 8192, b << 32, b + (1 << 32), u64::MAX] {
        no_block_size(s, none, &img);
    }
}

fn no_block_size(s: &mut Share, b: u64, img: &[u8]) {
    let h = head(1, 2, 0, 0, [3; 16], 1, 1, 127);
    let e = [1; 128];
    s.case(img, || Call::ReadPrimary { b });
    s.case(img, || Call::ReadBackup { b });
    s.case(img, || Call::ArraySum { b, head: Box::new(h) });
    s.case(img, || Call::WritePrimary { b, head: Box::new(h) });
    s.case(img, || Call::WriteBackup { b, head: Box::new(h) });
    s.case(img, || Call::ReadArray { b, head: Box::new(h) });
    s.case(img, || Call::BuildFrom { b, head: Box::new(h) });
    s.case(img, || Call::Build(Build { b, primary: true, guid: [0; 16], backup: 0, first: 0, last: 0, count: 0, size: 0, which: 0 }));
    s.case(img, || Call::WriteEntry { index: 0, start: 0, b, size: 0, entry: Box::new(e) });
    s.case(img, || Call::WriteZero { index: 0, count: 0, start: 0, b, size: 0 });
    s.case(img, || Call::MbrFromBytes { b });
    s.case(img, || Call::MbrFromImage { b });
}

fn builders(s: &mut Share, b: u64) {
    let guid = [0x11; 16];
    for primary in [true, false] {
        for (count, size) in [(0, 128), (128, 128), (129, 128), (128, 0), (128, 1), (200, 132), (128, 4096), (u32::MAX, 1), (1 << 20, 4096)]
        {
            let p = (u64::from(count.max(128)) * u64::from(size)).div_ceil(b);
            for d in 0..6 {
                for backup in [d, p + d, (2 * p + 2 + d).saturating_sub(2), u64::MAX - d] {
                    for (first, last) in
                        [(0, 0), (2 + p, 0), (3 + p, 0), (0, backup), (backup, backup), (9, u64::MAX), (u64::MAX, u64::MAX)]
                    {
                        let build = Build { b, primary, guid, backup, first, last, count, size, which: 31 };
                        s.case(&[], || Call::Build(build));
                        let (x, y) = if primary { (1, backup) } else { (backup, 1) };
                        let h = head(x, y, first, last, guid, 5, count, size);
                        s.case(&[], || Call::BuildFrom { b, head: Box::new(h) });
                    }
                }
            }
        }
        for which in 0..32 {
            let build = Build { b, primary, guid, backup: 90, first: 50, last: 60, count: 130, size: 64, which };
            s.case(&[], || Call::Build(build));
        }
    }
    for x in [0, 1, 2, 67, u64::MAX - 1, u64::MAX] {
        for y in [0, 1, 2, 67, u64::MAX - 1, u64::MAX] {
            for (count, size) in [(0, 128), (4, 128), (128, 128), (1 << 16, 1 << 16)] {
                let h = head(x, y, 0, 0, guid, 0, count, size);
                s.case(&[], || Call::BuildFrom { b, head: Box::new(h) });
            }
        }
    }
}

/// Device writes where a product, the sum, the length or the end passes 64 bits or just does not; every entry size.
fn device_edges(s: &mut Share, b: u64) {
    let img = [0xEE; 1024];
    let most = u64::MAX / b;
    let entry: Entry = std::array::from_fn(|i| if i < 56 { i as u8 } else { (i % 2 == 0) as u8 * 65 });
    for start in [most, most + 1, u64::MAX] {
        for size in [0, 4097] {
            s.case(&img, || Call::WriteEntry { index: 1, start, b, size, entry: Box::new(entry) });
            s.case(&img, || Call::WriteZero { index: 1, count: 1, start, b, size });
        }
    }
    every_size(s, b, &entry);
    let starts = [0, 1, 2, most - 1, most, most + 1, (1 << 63) / b, (1 << 63) / b - 1, u64::MAX];
    for start in starts {
        for size in [1u32, 127, 128, 129, 256, 4096] {
            let wide = u64::from(size);
            let indexes = [
                0,
                1,
                2,
                3,
                4,
                5,
                7,
                8,
                b / wide,
                b / wide + 1,
                (1 << 63) / wide,
                u64::MAX / wide,
                (u64::MAX / wide).saturating_add(1),
                u64::MAX,
            ];
            for index in indexes {
                s.case(&img, || Call::WriteEntry { index, start, b, size, entry: Box::new(entry) });
                let counts = [
                    0,
                    1,
                    2,
                    1 << 12,
                    (1 << 63) / wide,
                    (1 << 63) / wide + 1,
                    u64::MAX / wide,
                    (u64::MAX / wide).saturating_add(1),
                    u64::MAX,
                ];
                for count in counts {
                    s.case(&img, || Call::WriteZero { index, count, start, b, size });
                }
            }
        }
    }
}

/// Device writes with every entry size around 128 and 4,096.
fn every_size(s: &mut Share, b: u64, entry: &Entry) {
    let most = u64::MAX / b;
    for size in (0..300).chain(4000..4200).chain([1 << 13, 1 << 20]) {
        let img = [0xEE; 4200];
        s.case(&img, || Call::WriteEntry { index: 0, start: 0, b, size, entry: Box::new(*entry) });
        s.case(&img, || Call::WriteZero { index: 0, count: 1, start: 0, b, size });
        s.case(&img[..600], || Call::WriteEntry { index: 1, start: 0, b, size, entry: Box::new(*entry) });
        s.case(&img, || Call::WriteZero { index: 2, count: 0, start: most, b, size });
    }
}

/// Block 0 alone, with each of its first 512 bytes changed.
fn block_zero(s: &mut Share, b: u64) {
    let r = &mut Rng::new(b, 5 << 20);
    for at in 0..=512 {
        for bit in [0, 7] {
            let mut img = vec![0; b as usize];
            r.fill(&mut img);
            img[510] = 0x55;
            img[511] = 0xAA;
            if at < 512 {
                img[at] ^= 1 << bit;
            }
            s.case(&img, || Call::MbrFromBytes { b });
            s.case(&img, || Call::MbrFromImage { b });
            s.case(&img[..512], || Call::MbrFromBytes { b });
        }
    }
}

fn records(s: &mut Share) {
    let r = &mut Rng::new(3, 3 << 20);
    for n in 0..48 {
        let some = r.bytes::<48>();
        s.case(&some[..n], || Call::RecordFromBytes);
    }
    for i in 0..16 {
        for v in [1, 0x80, 0xFF] {
            let mut one = [0; 16];
            one[i] = v;
            s.case(&one, || Call::RecordFromBytes);
        }
    }
    for place in [0, 1, 2, 3, 4, 5, 255, 256, 1 << 32, usize::MAX] {
        for _ in 0..20 {
            let (mbr, record) = (Box::new(r.bytes()), r.bytes());
            s.case(&[], || Call::RecordGet { mbr: mbr.clone(), place });
            s.case(&[], || Call::RecordSet { mbr, place, record });
        }
    }
    for size in [0, 1, 2, 66, 67, 0xFF, 0x100, 1 << 31, u32::MAX - 1, u32::MAX] {
        s.case(&[], || Call::MbrNew { size });
    }
    for b in [0, 512, 4096] {
        for len in [0, 1, 511, 512, 513, 1024, 1535, 1536, 1537, 12_287, 12_288, 12_289, 1 << 32, 1 << 63, u64::MAX - 1, u64::MAX] {
            s.case(&[], || Call::FindBackup { len, b });
        }
    }
}

fn lengths(s: &mut Share) {
    for b in [0, 1, 511, 512, 4096, 4097, u64::MAX] {
        let most = u64::MAX / b.max(1);
        let edges = [
            0,
            1,
            2,
            33,
            34,
            35,
            1 << 32,
            most.saturating_sub(2),
            most.saturating_sub(1),
            most,
            most.wrapping_add(1),
            1 << 63,
            u64::MAX - 1,
            u64::MAX,
        ];
        for first in edges {
            for last in edges {
                let mut e = [0; 128];
                e[(first % 128) as usize] = 1;
                set64(&mut e, 32, first);
                set64(&mut e, 40, last);
                s.case(&[], || Call::Lengths { b, entry: Box::new(e) });
            }
        }
    }
    for at in 0..128 {
        let mut e = [0; 128];
        e[at] = 1;
        s.case(&[], || Call::Lengths { b: 512, entry: Box::new(e) });
    }
}

fn buffers(s: &mut Share) {
    let r = &mut Rng::new(4, 4 << 20);
    for n in (0..300).chain([511, 512, 513, 4095, 4096, 4097, 10_000]) {
        for _ in 0..4 {
            let e = entry(r);
            s.case(&[], || Call::EntryToBytes { n, entry: Box::new(e) });
        }
    }
}

/// The header of a card, or one with fields at the edges.
fn some_head(r: &mut Rng, made: &Card, b: u64) -> Head {
    let blocks = made.img.len() as u64 / b.max(1);
    let mut h = if r.one_in(2) { made.primary } else { made.backup };
    for _ in 0..r.below(4) {
        match r.below(7) {
            0 => set64(&mut h, CURRENT, block(r, b, blocks)),
            1 => set64(&mut h, BACKUP, block(r, b, blocks)),
            2 => set64(&mut h, START, block(r, b, blocks)),
            3 => set32(&mut h, COUNT, r.pick(&[0, 1, 2, 3, 4, 7, 8, 9, 31, 32, 33, 127, 128, 129, 1 << 13])),
            4 => set32(&mut h, SIZE, r.pick(&[0, 1, 7, 127, 128, 129, 256, 4096, 4097])),
            5 => {
                set32(&mut h, COUNT, r.pick(&[1 << 31, u32::MAX, u32::MAX - 1]));
                set32(&mut h, SIZE, r.pick(&[u32::MAX, u32::MAX - 1, 0]));
            }
            _ => {
                let (at, wide) = r.pick(&FIELDS[..13]);
                r.fill(&mut h[at..at + wide]);
            }
        }
    }
    h
}

/// A header that stands in an image: as made, with a bit changed, with a field changed and the sum right or not, or no header at all.
fn header_image(r: &mut Rng, b: u64, len: usize) -> Vec<u8> {
    let made = card(r, b, len);
    let unit = if b == 4096 { 4096usize } else { 512 };
    let mut img = made.img.clone();
    let places = [unit, (len.saturating_sub(unit) / unit) * unit];
    match r.below(6) {
        0 | 1 => {}
        2 | 3 => {
            for at in places {
                let at = at + r.below(96) as usize;
                if at < len {
                    img[at] ^= 1 << r.below(8);
                }
            }
        }
        4 => {
            let h = some_head(r, &made, b);
            let mut whole = on_card(&h);
            if r.one_in(3) {
                whole[16..20].copy_from_slice(&h[8..12]);
            }
            for at in places {
                if at + 92 <= len {
                    img[at..at + 92].copy_from_slice(&whole);
                }
            }
        }
        _ => r.fill(&mut img),
    }
    img
}

/// An array of more than a card's size, up to 1 MiB.
fn big_array(r: &mut Rng) -> Case {
    let b = r.pick(&BLOCKS);
    let count = r.pick(&[129, 1000, 8191, 8192]) as usize;
    let mut img = vec![0; 2 * b as usize + count * 128 + r.below(3) as usize];
    for _ in 0..r.below(6) {
        let slot = r.below(count as u64) as usize;
        let at = 2 * b as usize + slot * 128;
        img[at..at + 128].copy_from_slice(&entry(r));
    }
    let h = with_sum(&img, head(1, 9, 0, 0, r.bytes(), 2, count as u32, 128), b);
    let call = match r.below(3) {
        0 => Call::ArraySum { b, head: Box::new(h) },
        1 => Call::WritePrimary { b, head: Box::new(h) },
        _ => Call::ReadArray { b, head: Box::new(h) },
    };
    Case { img, call }
}

fn array_case(r: &mut Rng, b: u64, made: Card) -> Case {
    let mut img = made.img.clone();
    let mut h = some_head(r, &made, b);
    if !r.one_in(4) {
        set32(&mut h, SIZE, 128);
    }
    if r.one_in(12) {
        if let Some((start, bytes)) = array(b, &h) {
            if bytes >= 128 && start + bytes <= img.len() as u128 {
                let at = start as usize + 128 * r.below(bytes as u64 / 128) as usize;
                spoil_name(r, &mut img[at..at + 128]);
            }
        }
    }
    // Other bytes than entries have names that are no UTF-16: zeroed, so that few cases go to class E.
    let known = h[START..START + 8] == made.primary[START..START + 8] || h[START..START + 8] == made.backup[START..START + 8];
    if !known && !r.one_in(8) {
        img.fill(0);
    }
    if !r.one_in(5) {
        h = with_sum(&img, h, b);
    }
    Case { img, call: Call::ReadArray { b, head: Box::new(h) } }
}

fn device_case(r: &mut Rng, b: u64, img: Vec<u8>) -> Case {
    let size = match r.below(6) {
        0 => r.pick(&[0, 1, 2, 127, 129, 255, 256, 4095, 4096, 4097, 1 << 16]),
        1 => r.range(1, 4096) as u32,
        _ => 128,
    };
    let wide = u64::from(size.max(1));
    let start = block(r, b, img.len() as u64 / b.max(1));
    let index = match r.below(6) {
        0 => (img.len() as u64 / wide).wrapping_sub(2).wrapping_add(r.below(5)),
        1 => (u64::MAX / wide).wrapping_sub(1).wrapping_add(r.below(3)),
        2 => (start.wrapping_mul(b).wrapping_neg() / wide).wrapping_sub(2).wrapping_add(r.below(5)),
        _ => r.below(12),
    };
    let call = if r.one_in(2) {
        Call::WriteEntry { index, start, b, size, entry: Box::new(entry(r)) }
    } else {
        let count = match r.below(8) {
            0 => 0,
            1 => r.pick(&[(1 << 63) / wide + 1, u64::MAX / wide, (u64::MAX / wide).saturating_add(1), u64::MAX]),
            2 => 1 << r.below(12),
            _ => r.below(40),
        };
        Call::WriteZero { index, count, start, b, size }
    };
    Case { img, call }
}

fn build_case(r: &mut Rng, b: u64) -> Call {
    let (count, size) = (
        r.pick(&[0, 1, 127, 128, 129, 130, 256, 4096, u32::MAX]),
        r.pick(&[0, 1, 64, 128, 128, 128, 129, 256, 4096, 33_554_431, 33_554_432, u32::MAX]),
    );
    let p = (u64::from(count.max(128)) * u64::from(size)).div_ceil(b.max(1));
    let near = |r: &mut Rng, v: u64| v.wrapping_add(r.below(7)).wrapping_sub(3);
    let backup = match r.below(6) {
        0 => near(r, 1),
        1 => near(r, p),
        2 => near(r, u64::MAX),
        3 => r.next() >> r.below(64),
        _ => near(r, p.wrapping_mul(2).wrapping_add(3)),
    };
    let first = if r.one_in(2) {
        0
    } else if r.one_in(2) {
        near(r, p.wrapping_add(2))
    } else {
        r.next() >> r.below(64)
    };
    let last = if r.one_in(2) {
        0
    } else if r.one_in(2) {
        near(r, backup)
    } else {
        near(r, u64::MAX - 3)
    };
    if r.one_in(2) {
        let which = (r.next() & r.next()) as u8 ^ 31;
        Call::Build(Build { b, primary: r.one_in(2), guid: r.bytes(), backup, first, last, count, size, which: which & 31 })
    } else {
        let front = match r.below(5) {
            0 => backup,
            1 => near(r, backup),
            _ => r.below(3),
        };
        let (x, y) = if r.one_in(2) { (front, backup) } else { (backup, front) };
        let mut h = head(x, y, first, last, r.bytes(), r.next(), count, size);
        r.fill(&mut h[..16]);
        Call::BuildFrom { b, head: Box::new(h) }
    }
}

fn small_case(r: &mut Rng, b: u64, img: Vec<u8>) -> Case {
    let call = match r.below(14) {
        0 => {
            let mut img = img;
            if !r.one_in(4) {
                img.resize(if b == 4096 { 4096 } else { 512 }, 0);
            }
            return Case { img, call: Call::MbrFromBytes { b } };
        }
        1 => Call::MbrFromImage { b },
        2 => Call::Overwrite { mbr: Box::new(r.bytes()) },
        3 => Call::Conservative { mbr: Box::new(r.bytes()) },
        4 => Call::WriteBoot { boot: Box::new(r.bytes()) },
        5 => Call::WriteSignature { signature: r.bytes() },
        6 => Call::ReadBoot,
        7 => Call::ReadSignature,
        8 => Call::RecordGet { mbr: Box::new(r.bytes()), place: r.below(5) as usize },
        9 => Call::RecordSet { mbr: Box::new(r.bytes()), place: r.below(5) as usize, record: r.bytes() },
        10 => Call::MbrNew { size: (r.next() >> r.below(64)) as u32 },
        11 => {
            let n = if r.one_in(3) { r.below(40) } else { 16 };
            let some = r.bytes::<40>();
            return Case { img: some[..n as usize].to_vec(), call: Call::RecordFromBytes };
        }
        12 => Call::EntryToBytes { n: r.below(260) as usize, entry: Box::new(entry(r)) },
        _ => Call::Sum,
    };
    Case { img, call }
}

/// The i-th case of a seed.
pub fn random(seed: u64, i: u64) -> Case {
    let r = &mut Rng::new(seed, i);
    let b = block_size(r);
    let len = length(r, b);
    match r.below(16) {
        0 | 1 => Case { img: header_image(r, b, len), call: Call::ReadPrimary { b } },
        2 => Case { img: header_image(r, b, len), call: Call::ReadBackup { b } },
        3 | 4 | 5 => {
            if r.one_in(300) {
                return big_array(r);
            }
            let made = card(r, b, len);
            array_case(r, b, made)
        }
        6 => {
            let made = card(r, b, len);
            let head = Box::new(some_head(r, &made, b));
            Case { img: made.img, call: Call::ArraySum { b, head } }
        }
        7 | 8 => {
            let made = card(r, b, len);
            let head = Box::new(some_head(r, &made, b));
            let call = if r.one_in(2) { Call::WritePrimary { b, head } } else { Call::WriteBackup { b, head } };
            Case { img: made.img, call }
        }
        9 | 10 => Case { img: Vec::new(), call: build_case(r, b) },
        11 | 12 => {
            let made = card(r, b, len);
            device_case(r, b, made.img)
        }
        13 => {
            let mut e = entry(r);
            if r.one_in(2) {
                return Case { img: e[..if r.one_in(8) { r.below(128) as usize } else { 128 }].to_vec(), call: Call::EntryFromBytes };
            }
            if r.one_in(2) {
                set64(&mut e, 32, block(r, b, 70));
                set64(&mut e, 40, block(r, b, 70));
            }
            Case { img: Vec::new(), call: Call::Lengths { b, entry: Box::new(e) } }
        }
        14 => Case { img: Vec::new(), call: Call::FindBackup { len: r.next() >> r.below(64), b } },
        _ => {
            let made = card(r, b, len);
            small_case(r, b, made.img)
        }
    }
}

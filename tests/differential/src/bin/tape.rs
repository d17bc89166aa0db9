//! Writes tape.bin and its copy, crates/replay/stdin (with --check compares both with what would be written, with --slips tells which slips it does not catch): answers of the Rust original, in the format that README.md describes. Inputs of a listed class are left out. Each answer is
//! also compared with the port's; a difference ends the program.

use differential::case::{Answer, Build, Call, Case, Entry, Head};
use differential::compare::{describe, judge, run, Verdict};
use differential::gen::*;
use differential::listed::{ends_process, listed};
use differential::original::Did;
use differential::rng::Rng;
use differential::slips::{Slip, SLIPS};
use std::collections::BTreeMap;

const SEED: u64 = 41;
const MOST_STORED: usize = 1024;

struct Tape {
    bytes: Vec<u8>,
    img: Vec<u8>,
    steps: usize,
    left_out: usize,
    cases: Vec<Case>,
    /// How often a kind of step has a number as its answer.
    met: BTreeMap<(u8, u32), usize>,
}

impl Tape {
    fn image(&mut self, len: usize) {
        assert!(len <= 65_536);
        self.bytes.push(0x01);
        self.bytes.extend((len as u32).to_le_bytes());
        self.img = vec![0; len];
        self.steps += 1;
    }

    /// Stores bytes, as many as are inside.
    fn store(&mut self, at: usize, bytes: &[u8]) {
        let n = bytes.len().min(self.img.len().saturating_sub(at));
        for (i, part) in bytes[..n].chunks(MOST_STORED).enumerate() {
            let at = at + i * MOST_STORED;
            self.bytes.push(0x02);
            self.bytes.extend((at as u32).to_le_bytes());
            self.bytes.extend((part.len() as u16).to_le_bytes());
            self.bytes.extend(part);
            self.img[at..at + part.len()].copy_from_slice(part);
            self.steps += 1;
        }
    }

    /// Asks the original; none if the input is of a listed class.
    fn ask(&mut self, call: Call, img: Vec<u8>) -> Option<(Answer, Vec<u8>)> {
        let case = Case { img, call };
        if ends_process(&case).is_some() || listed(&case).is_some() {
            self.left_out += 1;
            return None;
        }
        let ran = run(&case);
        if !matches!(judge(&case, &ran), Verdict::Agree) {
            panic!("the port parts from the original: {:?}\n{}", case.call, describe(&case, &ran));
        }
        self.cases.push(case);
        match ran.original {
            Did::Answered { answer, .. } => Some((answer, ran.original_img)),
            Did::Panicked => unreachable!("a panic is no agreement"),
        }
    }

    fn note(&mut self, kind: u8, number: u32) {
        *self.met.entry((kind, number)).or_default() += 1;
        self.steps += 1;
    }

    /// A step on the working image: `values` are written beside 0, `sum` always if the kind has it.
    fn step(&mut self, kind: u8, arguments: &[u8], call: Call, sum: bool, values: impl Fn(&Answer) -> Vec<u8>) {
        let Some((answer, img)) = self.ask(call, self.img.clone()) else { return };
        self.bytes.push(kind);
        self.bytes.extend(arguments);
        self.bytes.push(answer.number as u8);
        if answer.number == 0 {
            self.bytes.extend(values(&answer));
        }
        if sum {
            self.bytes.extend(crc32fast::hash(&img).to_le_bytes());
        }
        self.img = img;
        self.note(kind, answer.number);
    }

    fn read_primary(&mut self, b: u64) {
        self.step(0x10, &b.to_le_bytes(), Call::ReadPrimary { b }, false, |a| a.values.clone());
    }

    fn read_backup(&mut self, b: u64) {
        self.step(0x11, &b.to_le_bytes(), Call::ReadBackup { b }, false, |a| a.values.clone());
    }

    fn find_backup(&mut self, b: u64) {
        let len = self.img.len() as u64;
        self.step(0x12, &b.to_le_bytes(), Call::FindBackup { len, b }, false, |a| a.values.clone());
    }

    fn array_sum(&mut self, b: u64, head: &Head) {
        self.step(0x13, &[&b.to_le_bytes()[..], head].concat(), Call::ArraySum { b, head: Box::new(*head) }, false, |a| a.values.clone());
    }

    /// The byte count is 4 bytes on the tape and 8 in the answer.
    fn write_header(&mut self, b: u64, head: &Head, primary: bool) {
        let boxed = Box::new(*head);
        let (kind, call) =
            if primary { (0x14, Call::WritePrimary { b, head: boxed }) } else { (0x15, Call::WriteBackup { b, head: boxed }) };
        let values = |a: &Answer| [&a.values[..4], &a.values[8..]].concat();
        self.step(kind, &[&b.to_le_bytes()[..], head].concat(), call, true, values);
    }

    fn build(&mut self, s: Build) {
        let mut arguments = s.b.to_le_bytes().to_vec();
        arguments.push(s.primary as u8);
        arguments.extend(s.guid);
        for v in [s.backup, s.first, s.last] {
            arguments.extend(v.to_le_bytes());
        }
        arguments.extend(s.count.to_le_bytes());
        arguments.extend(s.size.to_le_bytes());
        arguments.push(s.which);
        self.step(0x16, &arguments, Call::Build(s), false, |a| a.values.clone());
    }

    fn build_from(&mut self, b: u64, head: &Head) {
        self.step(0x17, &[&b.to_le_bytes()[..], head].concat(), Call::BuildFrom { b, head: Box::new(*head) }, false, |a| a.values.clone());
    }

    fn read_array(&mut self, b: u64, head: &Head) {
        let values = |a: &Answer| {
            let count = u32::from_le_bytes(a.values[..4].try_into().unwrap()) as usize;
            let sum = crc32fast::hash(&a.values[4..4 + 132 * count]);
            [&a.values[..4], &sum.to_le_bytes()].concat()
        };
        self.step(0x20, &[&b.to_le_bytes()[..], head].concat(), Call::ReadArray { b, head: Box::new(*head) }, false, values);
    }

    fn write_entry(&mut self, index: u64, start: u64, b: u64, size: u32, entry: &Entry) {
        let mut arguments = [index, start, b].map(u64::to_le_bytes).concat();
        arguments.extend(size.to_le_bytes());
        arguments.extend(entry);
        self.step(0x21, &arguments, Call::WriteEntry { index, start, b, size, entry: Box::new(*entry) }, true, |_| Vec::new());
    }

    fn write_zero(&mut self, index: u64, count: u64, start: u64, b: u64, size: u32) {
        let mut arguments = [index, count, start, b].map(u64::to_le_bytes).concat();
        arguments.extend(size.to_le_bytes());
        self.step(0x22, &arguments, Call::WriteZero { index, count, start, b, size }, true, |_| Vec::new());
    }

    /// The three numbers stand in the answer's values.
    fn lengths(&mut self, first: u64, last: u64, b: u64) {
        let mut entry = [0; 128];
        set64(&mut entry, 32, first);
        set64(&mut entry, 40, last);
        let Some((answer, _)) = self.ask(Call::Lengths { b, entry: Box::new(entry) }, Vec::new()) else { return };
        self.bytes.push(0x23);
        self.bytes.extend([first, last, b].map(u64::to_le_bytes).concat());
        self.bytes.extend(&answer.values[..27]);
        for at in [0, 9, 18] {
            *self.met.entry((0x23, answer.values[at].into())).or_default() += 1;
        }
        self.steps += 1;
    }

    fn entry_to_buffer(&mut self, n: usize, entry: &Entry) {
        let Some((answer, _)) = self.ask(Call::EntryToBytes { n, entry: Box::new(*entry) }, Vec::new()) else { return };
        self.bytes.push(0x24);
        self.bytes.extend((n as u16).to_le_bytes());
        self.bytes.extend(entry);
        self.bytes.extend(crc32fast::hash(&answer.values).to_le_bytes());
        self.note(0x24, 0);
    }

    fn mbr_read(&mut self, b: u64) {
        let values = |a: &Answer| crc32fast::hash(&a.values).to_le_bytes().to_vec();
        self.step(0x30, &b.to_le_bytes(), Call::MbrFromBytes { b }, false, values);
        self.step(0x31, &b.to_le_bytes(), Call::MbrFromImage { b }, false, values);
    }

    fn mbr_write(&mut self, size: u32, conservative: bool) {
        let Some((made, _)) = self.ask(Call::MbrNew { size }, Vec::new()) else { return };
        let mbr = Box::new(made.values[..512].try_into().unwrap());
        let (kind, call) = if conservative { (0x33, Call::Conservative { mbr }) } else { (0x32, Call::Overwrite { mbr }) };
        self.step(kind, &size.to_le_bytes(), call, true, |_| Vec::new());
    }

    fn record(&mut self, bytes: &[u8]) {
        let Some((answer, _)) = self.ask(Call::RecordFromBytes, bytes.to_vec()) else { return };
        self.bytes.push(0x34);
        self.bytes.push(bytes.len() as u8);
        self.bytes.extend(bytes);
        self.bytes.push(answer.number as u8);
        if answer.number == 0 {
            self.bytes.extend(&answer.values[..16]);
        }
        self.note(0x34, answer.number);
    }
}

const BLOCKS: [u64; 2] = [512, 4096];
const NO_BLOCKS: [u64; 12] = [0, 1, 511, 513, 1024, 2048, 4095, 4097, 8192, 1 << 32, (1 << 32) + 512, u64::MAX];

/// Every read at lengths around each boundary, with a good header where one is looked for.
fn lengths_of_images(t: &mut Tape, r: &mut Rng) {
    for b in BLOCKS {
        let n = b as usize;
        let mut lens =
            vec![0, 1, 91, 92, 127, 128, 439, 440, 443, 444, 446, 510, 511, 512, 513, n - 1, n, n + 1, n + 8, n + 91, n + 92, n + 93];
        lens.extend([2 * n - 1, 2 * n, 2 * n + 92, 3 * n - 1, 3 * n, 3 * n + 1, 3 * n + 64, 3 * n + 91, 3 * n + 92, 4 * n - 1, 4 * n]);
        for len in lens {
            t.image(len);
            let mut h = head(1, 2, 3, 4, r.bytes(), 2, 0, 128);
            set32(&mut h, 12, r.next() as u32);
            t.store(n, &on_card(&h));
            t.read_primary(b);
            t.find_backup(b);
            t.read_backup(b);
            if len >= 3 * n {
                set64(&mut h, CURRENT, 2);
                t.store((len - n) / n * n, &on_card(&h));
                t.read_backup(b);
            }
            t.mbr_read(b);
            t.store(510, &[0x55, 0xAA]);
            t.mbr_read(b);
            t.mbr_write(r.next() as u32, false);
            t.mbr_read(b);
            t.mbr_write(r.next() as u32, true);
            let b = b ^ 0x1200;
            t.read_primary(b);
            t.find_backup(b);
        }
    }
}

/// Block sizes that are none, for each call that takes one.
fn no_block_sizes(t: &mut Tape, r: &mut Rng) {
    t.image(2048);
    let h = head(1, 3, 2, 2, r.bytes(), 2, 1, 128);
    t.store(512, &on_card(&h));
    for b in NO_BLOCKS {
        t.read_primary(b);
        t.read_backup(b);
        t.find_backup(b);
        t.array_sum(b, &h);
        t.write_header(b, &h, true);
        t.write_header(b, &h, false);
        t.build(Build { b, primary: true, guid: r.bytes(), backup: 67, first: 0, last: 0, count: 0, size: 0, which: 1 });
        t.build_from(b, &h);
        t.read_array(b, &h);
        t.write_entry(0, 2, b, 128, &entry(r));
        t.write_zero(0, 1, 2, b, 128);
        t.lengths(5, 4, b);
        t.mbr_read(b);
    }
}

/// A card made by the original's own calls, read back, and then damaged byte by byte.
fn made_card(t: &mut Tape, r: &mut Rng, b: u64, blocks: u64) {
    t.image((blocks * b) as usize);
    let guid = r.bytes();
    let p = 16_384 / b;
    t.mbr_write((blocks - 1) as u32, false);
    let (back, first, last) = (blocks - 1, 2 + p, blocks - 2 - p);
    let mut front = head(1, back, first, last, guid, 2, 128, 128);
    let mut rear = head(back, 1, first, last, guid, last + 1, 128, 128);
    let set = Build { b, primary: true, guid, backup: back, first: 0, last: 0, count: 0, size: 0, which: 1 };
    t.build(set.clone());
    t.build(Build { primary: false, ..set });
    for i in [0, 1, 2, 5, 63, 126, 127] {
        let e = entry(r);
        t.write_entry(i, 2, b, 128, &e);
        t.write_entry(i, last + 1, b, 128, &e);
    }
    t.write_header(b, &front, true);
    t.write_header(b, &rear, false);
    t.read_primary(b);
    t.read_backup(b);
    t.find_backup(b);
    t.mbr_read(b);
    for h in [&mut front, &mut rear] {
        t.array_sum(b, h);
        t.read_array(b, h);
        let start = u64::from_le_bytes(h[START..START + 8].try_into().unwrap());
        let array = &t.img[(start * b) as usize..][..16_384];
        set32(h, ARRAY_SUM, crc32fast::hash(array));
        t.read_array(b, h);
    }
    for at in (0..92).step_by(if b == 512 { 1 } else { 3 }) {
        for (place, primary) in [(b as usize, true), ((back * b) as usize, false)] {
            let old = t.img[place + at];
            t.store(place + at, &[old ^ (1 << r.below(8))]);
            if primary {
                t.read_primary(b);
            } else {
                t.read_backup(b);
            }
            t.store(place + at, &[old]);
        }
    }
    for at in [92, 93, 255, 511] {
        t.store(b as usize + at, &[7]);
    }
    t.read_primary(b);
    for slot in [0, 3, 127] {
        for at in [0, 15, 16, 32, 55, 56, 127] {
            let place = (2 * b) as usize + slot * 128 + at;
            t.store(place, &[t.img[place] ^ 1]);
            t.read_array(b, &front);
            t.store(place, &[t.img[place] ^ 1]);
        }
    }
    t.write_zero(0, 128, 2, b, 128);
    t.read_array(b, &front);
    set32(&mut front, ARRAY_SUM, crc32fast::hash(&[0; 16_384]));
    t.read_array(b, &front);
    t.write_zero(5, 123, last + 1, b, 128);
    t.write_header(b, &rear, false);
}

/// Each field of a good header at 0, 1 and its greatest, the sum right.
fn fields(t: &mut Tape, r: &mut Rng) {
    for b in BLOCKS {
        t.image(6 * b as usize);
        let base = head(1, 5, 3, 3, r.bytes(), 2, 2, 128);
        for (at, wide) in FIELDS {
            for v in [0, 1, u64::MAX] {
                let mut h = base;
                h[at..at + wide].copy_from_slice(&v.to_le_bytes()[..wide]);
                t.store(b as usize, &on_card(&h));
                t.read_primary(b);
                t.array_sum(b, &h);
                if b == 4096 {
                    continue;
                }
                t.build_from(b, &h);
                t.write_header(b, &h, true);
                h[CURRENT..LAST].rotate_left(8);
                t.write_header(b, &h, false);
            }
        }
    }
}

/// Header writes and array sums at the edges of image and number.
fn header_writes(t: &mut Tape, r: &mut Rng) {
    for round in 0..170 {
        let b = BLOCKS[round % 2];
        if round % 20 < 2 {
            t.image(length(r, b).min(65_536));
            let mut some = r.bytes::<64>();
            for part in some.chunks_mut(8) {
                let at = r.below(t.img.len() as u64 + 1) as usize;
                t.store(at, part);
            }
            for block in 1..6 {
                t.store(block * b as usize - 1, &[0x5A]);
            }
        }
        let blocks = t.img.len() as u64 / b;
        let (count, size) = (r.pick(&[0, 0, 1, 2, 3, 4, 128]), r.pick(&[0, 1, 7, 128, 128, 128, 129, 4096, 4097]));
        let (x, y) = (block(r, b, blocks), block(r, b, blocks));
        let start = if r.one_in(4) { x } else { block(r, b, blocks) };
        let mut h = head(x, y, r.next(), r.next(), r.bytes(), start, count, size);
        r.fill(&mut h[..16]);
        t.array_sum(b, &h);
        t.write_header(b, &h, if r.one_in(8) { x >= y } else { x < y });
        if r.one_in(3) {
            t.build_from(b, &h);
        }
    }
    for (x, y) in [(1, 1), (0, 0), (2, 1), (1, 2), (u64::MAX, u64::MAX)] {
        t.image(2048);
        let h = head(x, y, 0, 0, r.bytes(), 3, 1, 64);
        t.write_header(512, &h, true);
        t.write_header(512, &h, false);
    }
}

/// The builder: the table's cases, and numbers around each test.
fn builds(t: &mut Tape, r: &mut Rng) {
    let plain = Build { b: 512, primary: true, guid: r.bytes(), backup: 67, first: 0, last: 0, count: 0, size: 0, which: 1 };
    for primary in [true, false] {
        for (b, smallest) in [(512, 67), (4096, 11)] {
            for backup in [0, 1, 2, 4, 5, 32, 33, 34, smallest - 1, smallest, smallest + 1, 1 << 40, u64::MAX] {
                t.build(Build { b, primary, backup, ..plain.clone() });
            }
        }
        t.build(Build { primary, which: 0, ..plain.clone() });
        t.build(Build { primary, backup: 0, count: u32::MAX, size: u32::MAX, which: 25, ..plain.clone() });
        t.build(Build { primary, last: 100, which: 5, ..plain.clone() });
        t.build(Build { primary, count: 4, which: 9, ..plain.clone() });
        for backup in [68, 69] {
            t.build(Build { primary, count: 129, backup, which: 9, ..plain.clone() });
        }
        for size in [0, 1, 127, 128, 129, 255, 256, 33_554_431] {
            t.build(Build { primary, size, which: 17, ..plain.clone() });
        }
        t.build(Build { primary, size: 33_554_431, backup: u64::MAX, which: 17, ..plain.clone() });
    }
    for _ in 0..240 {
        let b = r.pick(&BLOCKS);
        let around = |r: &mut Rng, v: u64| v.wrapping_add(r.below(5)).wrapping_sub(2);
        let backup = match r.below(4) {
            0 => r.next() >> r.below(64),
            1 => around(r, u64::MAX - 1),
            _ => around(r, if b == 512 { 67 } else { 11 }),
        };
        let first = if r.one_in(4) { r.next() >> r.below(64) } else { r.below(2) * around(r, 34) };
        let last = if r.one_in(4) { r.next() >> r.below(64) } else { r.below(2) * around(r, backup) };
        let count = r.pick(&[0, 1, 127, 128, 129, 132, 256, 1 << 20]);
        let size = r.pick(&[0, 1, 128, 128, 256, 4096]);
        let which = r.next() as u8 | u8::from(!r.one_in(6));
        t.build(Build { b, primary: r.one_in(2), guid: r.bytes(), backup, first, last, count, size, which: which & 31 });
        if r.one_in(3) {
            let current = r.pick(&[0, 1, 1, 2, backup]);
            t.build_from(b, &head(current, backup, first, last, r.bytes(), 0, count, size));
            t.build_from(b, &head(backup, current, first, last, r.bytes(), 9, count, size));
        }
    }
}

/// Arrays: presence, names, counts, sums right and wrong, starts at the edges.
fn arrays(t: &mut Tape, r: &mut Rng) {
    for round in 0..125 {
        let b = BLOCKS[round % 2];
        let blocks = r.range(1, 4);
        let count = r.below(7) as u32;
        let extra = r.pick(&[0, 0, 1, b - 1]);
        t.image((blocks * b + extra) as usize);
        let start = r.below(blocks + 1);
        let at = (start * b) as usize;
        let mut entries = Vec::new();
        for i in 0..count as usize {
            let e = entry(r);
            entries.extend(e);
            if e != [0; 128] {
                t.store(at + i * 128, &e);
            }
        }
        let mut h = head(r.next(), r.next(), r.next(), r.next(), r.bytes(), start, count, 128);
        let inside = at + entries.len() <= t.img.len();
        set32(&mut h, ARRAY_SUM, if inside { crc32fast::hash(&entries) } else { r.next() as u32 });
        t.read_array(b, &h);
        if r.one_in(3) {
            let bad = h[ARRAY_SUM] ^ 1;
            h[ARRAY_SUM] = bad;
            t.read_array(b, &h);
        }
        if r.one_in(2) {
            set32(&mut h, COUNT, r.pick(&[0, count + 1, 4 * blocks as u32, 4 * blocks as u32 + 1, u32::MAX]));
            t.read_array(b, &h);
        }
    }
    for b in BLOCKS {
        t.image(b as usize);
        for start in [0, 1, 2, u64::MAX / b - 1, u64::MAX / b, u64::MAX / b + 1, u64::MAX, 1 << 63] {
            for (count, size, sum) in [(0, 128, 0), (0, 128, 1), (1, 128, 0xC2A8_FA9D), (1, 127, 0), (0, 0, 0), (u32::MAX, 128, 0)] {
                let mut h = head(0, 0, 0, 0, [0; 16], start, count, size);
                set32(&mut h, ARRAY_SUM, sum);
                t.read_array(b, &h);
                t.array_sum(b, &h);
            }
        }
    }
}

/// Device writes: every test's edge, sizes cut and filled, images read back by their sum.
fn device_writes(t: &mut Tape, r: &mut Rng) {
    for round in 0..180 {
        let b = BLOCKS[round % 2];
        if round % 24 < 2 {
            t.image(length(r, b).clamp(200, 20_000));
            t.store(0, &r.bytes::<800>());
            t.store(2 * b as usize, &r.bytes::<300>());
        }
        let blocks = t.img.len() as u64 / b;
        let size = r.pick(&[1, 2, 16, 56, 57, 127, 128, 128, 128, 129, 256, 4095, 4096]);
        let index = r.pick(&[0, 0, 1, 2, 3, 7, 31, 1 << 40, u64::MAX / u64::from(size), u64::MAX]);
        let start = block(r, b, blocks);
        let e = entry(r);
        t.write_entry(index, start, b, size, &e);
        for count in [0, 1, r.pick(&[2, 3, 8, u64::MAX, u64::MAX / u64::from(size), 1 << 20])] {
            t.write_zero(index, count, start, b, size);
        }
        if r.one_in(3) {
            let fits = (t.img.len() as u64 / u64::from(size)).saturating_sub(r.below(3));
            t.write_zero(fits, r.below(2), 0, b, size);
            t.write_zero(fits.saturating_sub(1), 1, 0, b, size);
        }
    }
}

fn lengths(t: &mut Tape, r: &mut Rng) {
    let cases = [(34, 34), (5, 4), (0, u64::MAX), (1, u64::MAX), (0, 0), (u64::MAX, u64::MAX), (u64::MAX, 0), (0, u64::MAX - 1)];
    for b in BLOCKS {
        for (first, last) in cases {
            t.lengths(first, last, b);
        }
        let most = u64::MAX / b;
        for d in 0..4 {
            t.lengths(0, most - 2 + d, b);
            t.lengths(most - 2 + d, most + 9, b);
            t.lengths(most + d, 3, b);
        }
    }
    for _ in 0..90 {
        let first = r.next() >> r.below(64);
        let last = if r.one_in(2) { first.wrapping_add(r.below(7)).wrapping_sub(3) } else { r.next() >> r.below(64) };
        t.lengths(first, last, block_size(r));
    }
}

fn buffers_and_records(t: &mut Tape, r: &mut Rng) {
    for n in [0, 1, 15, 16, 17, 31, 32, 39, 40, 48, 55, 56, 57, 58, 126, 127, 128, 129, 130, 256, 512, 1000, 1024] {
        for _ in 0..3 {
            t.entry_to_buffer(n, &entry(r));
        }
    }
    for n in 0..=32 {
        let some = r.bytes::<32>();
        t.record(&some[..n]);
    }
    for _ in 0..40 {
        let some = r.bytes::<16>();
        t.record(&some);
    }
    for i in 0..16 {
        let mut one = [0; 16];
        one[i] = 1 + i as u8;
        t.record(&one);
    }
}

/// Block 0 with random content: the bytes that each write keeps.
fn block_zero(t: &mut Tape, r: &mut Rng) {
    for len in [512, 513, 600, 4096, 4097] {
        for conservative in [true, false] {
            for size in [1, 0x1234_5678, u32::MAX] {
                t.image(len);
                let some = r.bytes::<80>();
                t.store(432, &some);
                t.mbr_read(512);
                t.mbr_read(4096);
                t.mbr_write(size, conservative);
                t.mbr_read(512);
                t.mbr_read(4096);
                let at = r.below(512) as usize;
                t.store(at, &[t.img[at] ^ 0x10]);
                t.mbr_read(if len < 4096 { 512 } else { 4096 });
            }
        }
    }
}

/// Which of the slips the tape's inputs do not catch. Those of a listed class cannot be on it.
fn tell_slips(cases: &[Case]) {
    let caught = |slip: &Slip| {
        cases.iter().any(|case| {
            let mut ran = run(case);
            (slip.put)(case, &mut ran);
            matches!(judge(case, &ran), Verdict::Unlisted(_))
        })
    };
    let missed: Vec<&Slip> = SLIPS.iter().filter(|s| !caught(s)).collect();
    println!("of {} slips the tape catches {}; not these:", SLIPS.len(), SLIPS.len() - missed.len());
    for slip in missed {
        println!("  {}", slip.what);
    }
}

fn main() {
    differential::run::silence();
    let mut t = Tape { bytes: Vec::new(), img: Vec::new(), steps: 0, left_out: 0, cases: Vec::new(), met: BTreeMap::new() };
    let r = &mut Rng::new(SEED, 0);
    lengths_of_images(&mut t, r);
    no_block_sizes(&mut t, r);
    made_card(&mut t, r, 512, 68);
    made_card(&mut t, r, 4096, 12);
    fields(&mut t, r);
    header_writes(&mut t, r);
    builds(&mut t, r);
    arrays(&mut t, r);
    device_writes(&mut t, r);
    lengths(&mut t, r);
    buffers_and_records(&mut t, r);
    block_zero(&mut t, r);
    t.bytes.push(0x00);
    let paths = [
        concat!(env!("CARGO_MANIFEST_DIR"), "/tape.bin"),
        concat!(env!("CARGO_MANIFEST_DIR"), "/../../crates/replay/stdin"),
    ];
    if std::env::args().any(|a| a == "--slips") {
        return tell_slips(&t.cases);
    }
    if std::env::args().any(|a| a == "--check") {
        let same = paths.iter().all(|path| std::fs::read(path).is_ok_and(|b| b == t.bytes));
        println!("tape.bin: {} steps, {}", t.steps, if same { "the original's answers" } else { "NOT the original's answers" });
        std::process::exit(!same as i32);
    }
    for path in paths {
        std::fs::write(path, &t.bytes).expect("the tape can be written");
    }
    println!(
        "tape.bin: {} steps, {} bytes, CRC-32 {:08x}; {} inputs left out",
        t.steps,
        t.bytes.len(),
        crc32fast::hash(&t.bytes),
        t.left_out
    );
    tell_numbers(&t.met);
}

/// How often each kind of step has each number.
fn tell_numbers(met: &BTreeMap<(u8, u32), usize>) {
    let mut kind = 0;
    for ((k, number), n) in met {
        if *k != kind {
            print!("{}{k:02x}:", if kind == 0 { "" } else { "\n" });
            kind = *k;
        }
        print!(" {number}: {n};");
    }
    println!();
}

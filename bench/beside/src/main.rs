//! The ported calls and the card's put beside the Rust original doing the same work on the same image, in one run. Before anything is measured, all three sides do
//! each job on a copy of the image of their own, and must answer the same and leave the same bytes.

mod ours;
#[path = "../../../tests/differential/src/port.rs"]
#[allow(dead_code)]
mod port;

use std::hint::black_box;
use std::time::Instant;

const SAMPLES: usize = 301;
const CALLS: usize = 16;
const IMAGE: usize = 1 << 20;
const ARRAY: u64 = 16384;
/// Each used slot has so many bytes.
const PAYLOAD: u64 = 4096;

/// What a job leaves of what it read or wrote, so that two sides can be compared and no work is left out.
type Said = u64;

/// One side: the last used slot is read once, and is what the storing jobs store, its flags changed at each call.
trait Side {
    fn read_primary(&mut self, img: &mut [u8]) -> Said;
    fn read_all(&mut self, img: &mut [u8]) -> Said;
    fn store(&mut self, img: &mut [u8]) -> Said;
    fn put(&mut self, img: &mut [u8]) -> Said;
}

/// The original over one check sum.
macro_rules! original {
    ($module:ident, $gpt:ident) => {
        mod $module {
            use super::{mixed, Said};
            use std::collections::BTreeMap;
            use std::io::Cursor;
            use $gpt::disk::LogicalBlockSize;
            use $gpt::header::{read_header_from_arbitrary_device, Header};
            use $gpt::partition::{file_read_partitions, Partition};

            type Device<'a> = Cursor<&'a mut [u8]>;

            pub struct Side {
                b: LogicalBlockSize,
                slot: u32,
                record: Partition,
            }

            impl Side {
                pub fn new(img: &mut [u8], b: u64, slot: u32) -> Self {
                    let b = if b == 512 { LogicalBlockSize::Lb512 } else { LogicalBlockSize::Lb4096 };
                    let mut device = Cursor::new(img);
                    let (h, _) = headers(&mut device, b);
                    let record = file_read_partitions(&mut device, &h, b).unwrap().remove(&slot).unwrap();
                    Side { b, slot, record }
                }

                fn store_under(&mut self, device: &mut Device, mut h1: Header, mut h2: Header) -> Said {
                    self.record.flags ^= 1;
                    let place = u64::from(self.slot - 1);
                    self.record.write_to_device(device, place, h1.part_start, self.b, 128).unwrap();
                    self.record.write_to_device(device, place, h2.part_start, self.b, 128).unwrap();
                    h1.write_primary(device, self.b).unwrap();
                    h2.write_backup(device, self.b).unwrap();
                    mixed([h1.crc32.into(), h2.crc32.into()])
                }
            }

            fn headers(device: &mut Device, b: LogicalBlockSize) -> (Header, Header) {
                let primary = read_header_from_arbitrary_device(device, b).unwrap();
                (primary, Header::oracle_read_backup(device, b).unwrap())
            }

            fn arrays(device: &mut Device, b: LogicalBlockSize) -> (Header, Header, [BTreeMap<u32, Partition>; 2]) {
                let (h1, h2) = headers(device, b);
                let p1 = file_read_partitions(device, &h1, b).unwrap();
                let p2 = file_read_partitions(device, &h2, b).unwrap();
                (h1, h2, [p1, p2])
            }

            fn of_header(h: &Header) -> Said {
                mixed([h.crc32.into(), h.crc32_parts.into(), h.current_lba, h.backup_lba, h.first_usable, h.last_usable])
            }

            impl super::Side for Side {
                fn read_primary(&mut self, img: &mut [u8]) -> Said {
                    of_header(&read_header_from_arbitrary_device(&mut Cursor::new(img), self.b).unwrap())
                }

                fn read_all(&mut self, img: &mut [u8]) -> Said {
                    let (h1, h2, both) = arrays(&mut Cursor::new(img), self.b);
                    let entries = both.iter().flatten().fold(0, |said, (slot, p)| mixed([said, (*slot).into(), p.first_lba, p.last_lba]));
                    mixed([of_header(&h1), of_header(&h2), entries])
                }

                fn store(&mut self, img: &mut [u8]) -> Said {
                    let mut device = Cursor::new(img);
                    let (h1, h2) = headers(&mut device, self.b);
                    self.store_under(&mut device, h1, h2)
                }

                fn put(&mut self, img: &mut [u8]) -> Said {
                    let mut device = Cursor::new(img);
                    let (h1, h2, both) = arrays(&mut device, self.b);
                    std::hint::black_box(&both);
                    self.store_under(&mut device, h1, h2);
                    0
                }
            }
        }
    };
}

original!(fast, gpt_fast);
original!(table, gpt_table);

/// Many numbers as one.
fn mixed<const N: usize>(numbers: [u64; N]) -> Said {
    numbers.into_iter().fold(0, |said: u64, n| said.rotate_left(7).wrapping_add(n))
}

type Job = (&'static str, fn(&mut dyn Side, &mut [u8]) -> Said);

const JOBS: [Job; 4] = [
    ("read primary header", |side, img| side.read_primary(img)),
    ("both headers, both arrays", |side, img| side.read_all(img)),
    ("store in both, by ported calls", |side, img| side.store(img)),
    ("put", |side, img| side.put(img)),
];

/// Every side does the job on a copy of its own.
fn must_agree(name: &str, job: fn(&mut dyn Side, &mut [u8]) -> Said, sides: &mut [&mut dyn Side; 3], img: &[u8]) {
    let mut did: Vec<(Said, Vec<u8>)> = Vec::new();
    for side in sides.iter_mut() {
        let mut copy = img.to_vec();
        let said = job(*side, &mut copy);
        did.push((said, copy));
    }
    assert!(did.iter().all(|d| *d == did[0]), "{name}: the sides do not agree");
}

/// The median time of a call in nanoseconds, for each side; the sides take turns.
fn measure(job: fn(&mut dyn Side, &mut [u8]) -> Said, sides: &mut [&mut dyn Side; 3], img: &mut [u8]) -> [f64; 3] {
    let mut times = [(); 3].map(|_| Vec::with_capacity(SAMPLES));
    for _ in 0..SAMPLES {
        for (side, times) in sides.iter_mut().zip(&mut times) {
            let from = Instant::now();
            for _ in 0..CALLS {
                black_box(job(*side, black_box(&mut *img)));
            }
            times.push(from.elapsed().as_nanos() as f64 / CALLS as f64);
        }
    }
    times.map(|mut t| {
        t.sort_by(f64::total_cmp);
        t[SAMPLES / 2]
    })
}

fn main() {
    println!("microseconds a call, median of {SAMPLES} samples of {CALLS} calls; image in memory, {} KiB", IMAGE >> 10);
    println!(
        "{:<32}{:>6}{:>5}{:>9}{:>13}{:>17}{:>12}{:>16}",
        "job", "block", "used", "ours", "Rust, table", "Rust, crc32fast", "table/ours", "crc32fast/ours"
    );
    for (name, job) in JOBS {
        for b in [512, 4096] {
            for used in [1, 120] {
                let mut img = ours::card(b, used);
                let mut port = ours::Side::new(&img, b, used);
                let mut table = table::Side::new(&mut img, b, used);
                let mut fast = fast::Side::new(&mut img, b, used);
                let mut sides: [&mut dyn Side; 3] = [&mut port, &mut table, &mut fast];
                must_agree(name, job, &mut sides, &img);
                let [o, t, f] = measure(job, &mut sides, &mut img);
                let us = 1000.0;
                println!("{name:<32}{b:>6}{used:>5}{:>9.2}{:>13.2}{:>17.2}{:>12.2}{:>16.2}", o / us, t / us, f / us, t / o, f / o);
            }
        }
    }
}

//! The port's side, through include/card.h.

use crate::port::*;
use crate::{mixed, Said, ARRAY, IMAGE, PAYLOAD};

/// One row of a listing into lent bytes: card_row.
const ROW: usize = 136;

/// card_answer.
#[repr(C)]
struct Answer {
    number: u32,
    _slot: u32,
    _place: u32,
    _differs: u32,
}

extern "C" {
    fn card_lay(img: *mut u8, n: usize, b: u64, guid: Guid) -> Answer;
    fn card_put(img: *mut u8, n: usize, b: u64, slot: u32, partition: Partition) -> Answer;
}

fn guid(low: u32) -> Guid {
    Guid { time_low: low, time_mid: 2, time_high: 3, tail: [4; 8] }
}

/// A card with the slots from 1 to `used`, one behind the other.
pub fn card(b: u64, used: u32) -> Vec<u8> {
    let mut img = vec![0; IMAGE];
    assert_eq!(unsafe { card_lay(img.as_mut_ptr(), IMAGE, b, guid(1)) }.number, 0);
    let blocks = PAYLOAD / b;
    for slot in 1..=used {
        let first = 2 + ARRAY / b + u64::from(slot - 1) * blocks;
        let mut name = [0; 36];
        name[..3].copy_from_slice(&[b'm', b'a', b'p'].map(u16::from));
        let record = Partition {
            part_type_guid: guid(5),
            part_guid: guid(slot),
            first_lba: first,
            last_lba: first + blocks - 1,
            flags: flags_of(0),
            name,
        };
        assert_eq!(unsafe { card_put(img.as_mut_ptr(), IMAGE, b, slot, record) }.number, 0);
    }
    img
}

pub struct Side {
    b: u64,
    slot: u32,
    record: Partition,
    rows: [Vec<u8>; 2],
}

fn of_header(h: &Header) -> Said {
    mixed([h.crc32.into(), h.crc32_parts.into(), h.current_lba, h.backup_lba, h.first_usable, h.last_usable])
}

impl Side {
    pub fn new(img: &[u8], b: u64, slot: u32) -> Self {
        let mut side = Side { b, slot, record: partition_of(&[0; 128]), rows: [(); 2].map(|_| vec![0; 128 * ROW]) };
        let (h, _) = side.headers(img);
        side.record = unsafe { gpt_read_partition(img.as_ptr(), img.len(), h, b, slot) }.partition;
        side
    }

    fn headers(&self, img: &[u8]) -> (Header, Header) {
        let h1 = unsafe { gpt_read_primary_header(img.as_ptr(), img.len(), self.b) };
        let h2 = unsafe { gpt_read_backup_header(img.as_ptr(), img.len(), self.b) };
        assert!(h1.number == 0 && h2.number == 0);
        (h1.header, h2.header)
    }
}

impl crate::Side for Side {
    fn read_primary(&mut self, img: &mut [u8]) -> Said {
        let h = unsafe { gpt_read_primary_header(img.as_ptr(), img.len(), self.b) };
        assert_eq!(h.number, 0);
        of_header(&h.header)
    }

    fn read_all(&mut self, img: &mut [u8]) -> Said {
        let (h1, h2) = self.headers(img);
        let mut entries = 0;
        for (h, rows) in [h1, h2].into_iter().zip(&mut self.rows) {
            let read = unsafe { gpt_file_read_partitions(img.as_ptr(), img.len(), h, self.b, rows.as_mut_ptr(), rows.len()) };
            assert_eq!(read.number, 0);
            for row in rows.chunks_exact(ROW).take(read.value as usize) {
                entries = mixed([entries, u64_at(row, 0), u64_at(row, 40), u64_at(row, 48)]);
            }
        }
        mixed([of_header(&h1), of_header(&h2), entries])
    }

    fn store(&mut self, img: &mut [u8]) -> Said {
        let (h1, h2) = self.headers(img);
        self.record.flags.required ^= true;
        let (p, n, place) = (img.as_mut_ptr(), img.len(), u64::from(self.slot - 1));
        unsafe {
            assert_eq!(gpt_write_entry(p, n, self.record, place, h1.part_start, self.b, 128).number, 0);
            assert_eq!(gpt_write_entry(p, n, self.record, place, h2.part_start, self.b, 128).number, 0);
            let (h1, h2) = (gpt_write_primary(p, n, h1, self.b), gpt_write_backup(p, n, h2, self.b));
            assert!(h1.number == 0 && h2.number == 0);
            mixed([h1.header.crc32.into(), h2.header.crc32.into()])
        }
    }

    fn put(&mut self, img: &mut [u8]) -> Said {
        self.record.flags.required ^= true;
        let done = unsafe { card_put(img.as_mut_ptr(), img.len(), self.b, self.slot, self.record) };
        assert_eq!(done.number, 0);
        0
    }
}

//! The Rust original's side of a case. A panic is caught; an error becomes document 01's number.

use crate::case::{probes, Answer, Build, Call, Case, Entry, Head};
use crate::port::{u16_at, u32_at, u64_at};
use gpt::disk::LogicalBlockSize;
use gpt::header::{Header, HeaderBuilder, HeaderError};
use gpt::mbr::{self, MBRError, PartRecord, ProtectiveMBR};
use gpt::partition::{file_read_partitions, Partition};
use std::io::{self, Cursor, ErrorKind, Read, Seek, SeekFrom};
use std::panic::{catch_unwind, AssertUnwindSafe};
use uuid::Uuid;

/// What the original did; `img` is changed where it stands.
#[derive(Clone, Debug)]
pub enum Did {
    /// `sums`: the header in memory has other sums after a refusal (class G).
    Answered {
        answer: Answer,
        sums: bool,
    },
    Panicked,
}

/// An error that document 01 has no number for; no such one may be met.
pub const NO_NUMBER: u32 = 254;

/// A device of a length and no bytes, for lengths that no memory holds.
struct Long {
    len: u64,
    at: u64,
}

impl Read for Long {
    fn read(&mut self, _: &mut [u8]) -> io::Result<usize> {
        Ok(0)
    }
}

impl Seek for Long {
    fn seek(&mut self, to: SeekFrom) -> io::Result<u64> {
        self.at = match to {
            SeekFrom::Start(at) => at,
            SeekFrom::End(by) => self.len.wrapping_add_signed(by),
            SeekFrom::Current(by) => self.at.wrapping_add_signed(by),
        };
        Ok(self.at)
    }
}

/// From bytes on a card; not by the original's parse_uuid, which is what is compared.
fn uuid_of(b: &[u8]) -> Uuid {
    Uuid::from_fields(u32_at(b, 0), u16_at(b, 4), u16_at(b, 6), b[8..16].try_into().unwrap())
}

pub fn header_of(b: &Head) -> Header {
    Header {
        signature: "EFI PART".to_string(),
        revision: (u16_at(b, 2), u16_at(b, 0)),
        header_size_le: u32_at(b, 4),
        crc32: u32_at(b, 8),
        reserved: u32_at(b, 12),
        current_lba: u64_at(b, 16),
        backup_lba: u64_at(b, 24),
        first_usable: u64_at(b, 32),
        last_usable: u64_at(b, 40),
        disk_guid: uuid_of(&b[48..64]),
        part_start: u64_at(b, 64),
        num_parts: u32_at(b, 72),
        part_size: u32_at(b, 76),
        crc32_parts: u32_at(b, 80),
    }
}

pub fn header_bytes(h: &Header) -> Head {
    let mut b = Vec::with_capacity(84);
    b.extend(h.revision.1.to_le_bytes());
    b.extend(h.revision.0.to_le_bytes());
    for v in [h.header_size_le, h.crc32, h.reserved] {
        b.extend(v.to_le_bytes());
    }
    for v in [h.current_lba, h.backup_lba, h.first_usable, h.last_usable] {
        b.extend(v.to_le_bytes());
    }
    b.extend(uuid_bytes(&h.disk_guid));
    b.extend(h.part_start.to_le_bytes());
    for v in [h.num_parts, h.part_size, h.crc32_parts] {
        b.extend(v.to_le_bytes());
    }
    b.try_into().unwrap()
}

fn uuid_bytes(u: &Uuid) -> Vec<u8> {
    let (a, b, c, d) = u.as_fields();
    let mut bytes = a.to_le_bytes().to_vec();
    bytes.extend(b.to_le_bytes());
    bytes.extend(c.to_le_bytes());
    bytes.extend(d);
    bytes
}

/// A name is all 36 units, the zeros too, so that what stands after a zero is given to the original as well.
pub fn partition_of(b: &Entry) -> Partition {
    let name: Vec<u16> = (0..36).map(|i| u16_at(b, 56 + 2 * i)).collect();
    Partition {
        part_type_guid: uuid_of(&b[0..16]).into(),
        part_guid: uuid_of(&b[16..32]),
        first_lba: u64_at(b, 32),
        last_lba: u64_at(b, 40),
        flags: u64_at(b, 48),
        name: String::from_utf16_lossy(&name),
    }
}

fn partition_bytes(p: &Partition) -> Entry {
    let mut b = [0; 128];
    b[0..16].copy_from_slice(&uuid_bytes(&p.part_type_guid.guid));
    b[16..32].copy_from_slice(&uuid_bytes(&p.part_guid));
    b[32..40].copy_from_slice(&p.first_lba.to_le_bytes());
    b[40..48].copy_from_slice(&p.last_lba.to_le_bytes());
    b[48..56].copy_from_slice(&p.flags.to_le_bytes());
    for (i, u) in p.name.encode_utf16().enumerate() {
        b[56 + 2 * i..58 + 2 * i].copy_from_slice(&u.to_le_bytes());
    }
    b
}

fn record_of(b: &[u8; 16]) -> PartRecord {
    PartRecord {
        boot_indicator: b[0],
        start_head: b[1],
        start_sector: b[2],
        start_track: b[3],
        os_type: b[4],
        end_head: b[5],
        end_sector: b[6],
        end_track: b[7],
        lb_start: u32_at(b, 8),
        lb_size: u32_at(b, 12),
    }
}

fn record_bytes(r: &PartRecord) -> Vec<u8> {
    let mut b = vec![r.boot_indicator, r.start_head, r.start_sector, r.start_track, r.os_type, r.end_head, r.end_sector, r.end_track];
    b.extend(r.lb_start.to_le_bytes());
    b.extend(r.lb_size.to_le_bytes());
    b
}

fn mbr_of(b: &[u8; 512]) -> ProtectiveMBR {
    let mut signed = *b;
    signed[510..].copy_from_slice(&[0x55, 0xAA]);
    ProtectiveMBR::from_bytes(&signed, LogicalBlockSize::Lb512).expect("512 bytes with 55 AA")
}

fn io_number(e: &io::Error) -> u32 {
    let text = e.to_string();
    match e.kind() {
        ErrorKind::UnexpectedEof | ErrorKind::WriteZero => 2,
        ErrorKind::Other if text == "partition table CRC mismatch" => 6,
        ErrorKind::Other if text == "Invalid partition.  last_lba < first_lba" => 20,
        ErrorKind::Other if text.contains("overflow") => 3,
        _ => NO_NUMBER,
    }
}

fn header_number(e: &HeaderError) -> u32 {
    match e {
        HeaderError::Io(e) => io_number(e),
        HeaderError::InvalidGptSignature => 4,
        HeaderError::InvalidCRC32Checksum => 5,
        HeaderError::MissingBackupLba => 9,
        HeaderError::BackupLbaToEarly => 10,
        HeaderError::WritingToWrongLba => 11,
        HeaderError::Overflow(_) => 3,
        HeaderError::ToSmallForBackup => 8,
        _ => NO_NUMBER,
    }
}

fn mbr_number(e: &MBRError) -> u32 {
    match e {
        MBRError::Io(e) => io_number(e),
        MBRError::InvalidMBRLength => 12,
        MBRError::InvalidMBRSignature => 13,
        MBRError::InvalidPartitionLength => 14,
        MBRError::Overflow(_) => 3,
        _ => NO_NUMBER,
    }
}

fn of_header(r: Result<Header, HeaderError>) -> Answer {
    match r {
        Ok(h) => Answer::accepted(header_bytes(&h)),
        Err(e) => Answer::refusal(header_number(&e)),
    }
}

fn of_mbr(r: Result<ProtectiveMBR, MBRError>) -> Answer {
    match r {
        Ok(m) => Answer::accepted(m.to_bytes()),
        Err(e) => Answer::refusal(mbr_number(&e)),
    }
}

fn of_stored<E>(r: Result<u64, E>, number: impl Fn(&E) -> u32) -> Answer {
    match r {
        Ok(n) => Answer::accepted(n.to_le_bytes()),
        Err(e) => Answer::refusal(number(&e)),
    }
}

fn builder(s: &Build) -> HeaderBuilder {
    let mut b = HeaderBuilder::new();
    b.disk_guid(uuid_of(&s.guid)).primary(s.primary);
    if s.which & 1 != 0 {
        b.backup_lba(s.backup);
    }
    if s.which & 2 != 0 {
        b.first_usable(s.first);
    }
    if s.which & 4 != 0 {
        b.last_usable(s.last);
    }
    if s.which & 8 != 0 {
        b.num_parts(s.count);
    }
    if s.which & 16 != 0 {
        b.part_size(s.size);
    }
    b
}

fn write_header(img: &mut [u8], b: LogicalBlockSize, head: &Head, primary: bool) -> Did {
    let mut header = header_of(head);
    let mut device = Cursor::new(img);
    let result = if primary { header.write_primary(&mut device, b) } else { header.write_backup(&mut device, b) };
    let after = header_bytes(&header);
    match result {
        Ok(n) => {
            let mut values = (n as u64).to_le_bytes().to_vec();
            values.extend(after);
            Did::Answered { answer: Answer::accepted(values), sums: false }
        }
        Err(e) => Did::Answered { answer: Answer::refusal(header_number(&e)), sums: after != *head },
    }
}

/// The count; slot and record of each present entry, ascending; then for each probed slot its number, presence and record.
fn read_array(img: &mut [u8], b: LogicalBlockSize, head: &Head) -> Answer {
    let header = header_of(head);
    match file_read_partitions(&mut Cursor::new(img), &header, b) {
        Err(e) => Answer::refusal(io_number(&e)),
        Ok(parts) => {
            let mut values = (parts.len() as u32).to_le_bytes().to_vec();
            for (slot, p) in &parts {
                values.extend(slot.to_le_bytes());
                values.extend(partition_bytes(p));
            }
            for slot in probes(header.num_parts) {
                let outside = slot == 0 || slot > header.num_parts;
                values.push(if outside { 18 } else { 0 });
                values.push(parts.contains_key(&slot) as u8);
                values.extend(parts.get(&slot).map_or([0; 128], partition_bytes));
            }
            Answer::accepted(values)
        }
    }
}

/// The original has no such call of its own: an array of this one entry is read.
fn entry_from_bytes(img: &mut [u8]) -> Answer {
    let sum = crc32fast::hash(&img[..img.len().min(128)]);
    let mut head = [0; 84];
    head[72..76].copy_from_slice(&1u32.to_le_bytes());
    head[76..80].copy_from_slice(&128u32.to_le_bytes());
    head[80..84].copy_from_slice(&sum.to_le_bytes());
    match file_read_partitions(&mut Cursor::new(img), &header_of(&head), LogicalBlockSize::Lb512) {
        Err(e) => Answer::refusal(io_number(&e)),
        Ok(parts) => Answer::accepted(parts.get(&1).map_or([0; 128], partition_bytes)),
    }
}

fn lengths(b: u64, entry: &Entry) -> Answer {
    let p = partition_of(entry);
    let block = LogicalBlockSize::try_from(b).ok();
    let three = [
        p.sectors_len().map_err(|e| io_number(&e)),
        block.map_or(Err(1), |b| p.bytes_len(b).map_err(|e| io_number(&e))),
        block.map_or(Err(1), |b| p.bytes_start(b).map_err(|e| io_number(&e))),
    ];
    let mut values = Vec::new();
    for r in three {
        values.push(r.err().unwrap_or(0) as u8);
        values.extend(r.unwrap_or(0).to_le_bytes());
    }
    values.push(p.is_used() as u8);
    Answer::accepted(values)
}

fn answered(answer: Answer) -> Did {
    Did::Answered { answer, sums: false }
}

fn call(case: &Call, img: &mut [u8]) -> Did {
    /// 1 comes first: the original's block size cannot be another.
    macro_rules! block {
        ($b:expr) => {
            match LogicalBlockSize::try_from($b) {
                Ok(b) => b,
                Err(_) => return answered(Answer::refusal(1)),
            }
        };
    }
    answered(match case {
        Call::ReadPrimary { b } => {
            let b = block!(*b);
            of_header(gpt::header::read_header_from_arbitrary_device(&mut Cursor::new(img), b))
        }
        Call::ReadBackup { b } => {
            let b = block!(*b);
            of_header(Header::oracle_read_backup(&mut Cursor::new(img), b))
        }
        Call::FindBackup { len, b } => {
            let b = block!(*b);
            of_stored(Header::oracle_find_backup(&mut Long { len: *len, at: 0 }, b), header_number)
        }
        Call::ArraySum { b, head } => {
            let b = block!(*b);
            match Header::oracle_array_sum(&mut Cursor::new(img), &header_of(head), b) {
                Ok(sum) => Answer::accepted(sum.to_le_bytes()),
                Err(e) => Answer::refusal(header_number(&e)),
            }
        }
        Call::WritePrimary { b, head } => return write_header(img, block!(*b), head, true),
        Call::WriteBackup { b, head } => return write_header(img, block!(*b), head, false),
        Call::Build(s) => {
            let b = block!(s.b);
            of_header(builder(s).build(b))
        }
        Call::BuildFrom { b, head } => {
            let b = block!(*b);
            of_header(HeaderBuilder::from_header(&header_of(head)).build(b))
        }
        Call::ReadArray { b, head } => read_array(img, block!(*b), head),
        Call::EntryFromBytes => entry_from_bytes(img),
        Call::EntryToBytes { n, entry } => {
            let mut out = vec![0xA5; *n];
            let p = partition_of(entry);
            p.write_to_device(&mut Cursor::new(&mut out[..]), 0, 0, LogicalBlockSize::Lb512, *n as u32).expect("it fits");
            Answer::accepted(out)
        }
        Call::Lengths { b, entry } => lengths(*b, entry),
        Call::WriteEntry { index, start, b, size, entry } => {
            let b = block!(*b);
            let done = partition_of(entry).write_to_device(&mut Cursor::new(img), *index, *start, b, *size);
            of_stored(done.map(|()| u64::from(*size)), io_number)
        }
        Call::WriteZero { index, count, start, b, size } => {
            let b = block!(*b);
            let done = Partition::write_zero_entries_to_device(&mut Cursor::new(img), *index, *count, *start, b, *size);
            of_stored(done.map(|()| u64::from(*size) * *count), io_number)
        }
        Call::MbrFromBytes { b } => {
            let b = block!(*b);
            of_mbr(ProtectiveMBR::from_bytes(img, b))
        }
        Call::MbrFromImage { b } => {
            let b = block!(*b);
            of_mbr(ProtectiveMBR::from_disk(&mut Cursor::new(img), b))
        }
        Call::MbrNew { size } => {
            let mut values = ProtectiveMBR::with_lb_size(*size).to_bytes().to_vec();
            values.extend(PartRecord::new_protective(Some(*size)).to_bytes());
            Answer::accepted(values)
        }
        Call::RecordFromBytes => match PartRecord::from_bytes(img) {
            Ok(r) => {
                let mut values = record_bytes(&r);
                values.extend(r.to_bytes());
                Answer::accepted(values)
            }
            Err(e) => Answer::refusal(mbr_number(&e)),
        },
        Call::RecordGet { mbr, place } => match mbr_of(mbr).partition(*place) {
            Some(r) => Answer::accepted(record_bytes(&r)),
            None => Answer::refusal(18),
        },
        Call::RecordSet { mbr, place, record } => {
            let mut mbr = mbr_of(mbr);
            match mbr.set_partition(*place, record_of(record)) {
                Some(old) => {
                    let mut values = record_bytes(&old);
                    values.extend(mbr.to_bytes());
                    Answer::accepted(values)
                }
                None => Answer::refusal(18),
            }
        }
        Call::Overwrite { mbr } => of_stored(mbr_of(mbr).overwrite_lba0(&mut Cursor::new(img)).map(|n| n as u64), mbr_number),
        Call::Conservative { mbr } => of_stored(mbr_of(mbr).update_conservative(&mut Cursor::new(img)).map(|n| n as u64), mbr_number),
        Call::ReadBoot => match mbr::read_bootcode(&mut Cursor::new(img)) {
            Ok(b) => Answer::accepted(b),
            Err(e) => Answer::refusal(io_number(&e)),
        },
        Call::WriteBoot { boot } => of_stored(mbr::write_bootcode(&mut Cursor::new(img), boot).map(|()| 440), io_number),
        Call::ReadSignature => match mbr::read_disk_signature(&mut Cursor::new(img)) {
            Ok(b) => Answer::accepted(b),
            Err(e) => Answer::refusal(io_number(&e)),
        },
        Call::WriteSignature { signature } => of_stored(mbr::write_disk_signature(&mut Cursor::new(img), signature).map(|()| 4), io_number),
        Call::Sum => Answer::accepted(crc32fast::hash(img).to_le_bytes()),
    })
}

/// Runs the original; its panics are caught. `img` holds the case's bytes and then what the original left.
pub fn run(case: &Case, img: &mut [u8]) -> Did {
    catch_unwind(AssertUnwindSafe(|| call(&case.call, img))).unwrap_or(Did::Panicked)
}

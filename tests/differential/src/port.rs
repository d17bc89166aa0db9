//! The port's C interface (include/card.h), as far as the original has the call.

#![allow(improper_ctypes)]

#[repr(C)]
#[derive(Clone, Copy, Debug, PartialEq, Eq)]
pub struct Guid {
    pub time_low: u32,
    pub time_mid: u16,
    pub time_high: u16,
    pub tail: [u8; 8],
}

#[repr(C)]
#[derive(Clone, Copy, Debug, PartialEq, Eq)]
pub struct Flags {
    pub reserved: u64,
    pub owner: u16,
    pub required: bool,
    pub no_block_io: bool,
    pub legacy_bootable: bool,
}

#[repr(C)]
#[derive(Clone, Copy, Debug, PartialEq, Eq)]
pub struct Partition {
    pub part_type_guid: Guid,
    pub part_guid: Guid,
    pub first_lba: u64,
    pub last_lba: u64,
    pub flags: Flags,
    pub name: [u16; 36],
}

#[repr(C)]
#[derive(Clone, Copy, Debug, PartialEq, Eq)]
pub struct Header {
    pub major: u16,
    pub minor: u16,
    pub header_size_le: u32,
    pub crc32: u32,
    pub reserved: u32,
    pub current_lba: u64,
    pub backup_lba: u64,
    pub first_usable: u64,
    pub last_usable: u64,
    pub disk_guid: Guid,
    pub part_start: u64,
    pub num_parts: u32,
    pub part_size: u32,
    pub crc32_parts: u32,
}

#[repr(C)]
#[derive(Clone, Copy)]
pub struct Record {
    pub chs: [u8; 8],
    pub lb_start: u32,
    pub lb_size: u32,
}

#[repr(C)]
#[derive(Clone, Copy)]
pub struct Mbr {
    pub bootcode: [u8; 440],
    pub disk_signature: [u8; 4],
    pub unknown: u16,
    pub partitions: [Record; 4],
}

#[repr(C)]
#[derive(Clone, Copy)]
pub struct Settings {
    pub disk_guid: Guid,
    pub backup_lba: u64,
    pub first_usable: u64,
    pub last_usable: u64,
    pub num_parts: u32,
    pub part_size: u32,
    pub primary: bool,
}

/// A number and one 64-bit value: gpt_stored, gpt_block, gpt_length, gpt_place.
#[repr(C)]
#[derive(Clone, Copy)]
pub struct Wide {
    pub number: u32,
    pub value: u64,
}

/// A number and one 32-bit value: gpt_count, gpt_next, gpt_sum.
#[repr(C)]
#[derive(Clone, Copy)]
pub struct Narrow {
    pub number: u32,
    pub value: u32,
}

#[repr(C)]
#[derive(Clone, Copy)]
pub struct HeaderRead {
    pub number: u32,
    pub header: Header,
}

#[repr(C)]
#[derive(Clone, Copy)]
pub struct HeaderWritten {
    pub number: u32,
    pub bytes: u64,
    pub header: Header,
}

#[repr(C)]
#[derive(Clone, Copy)]
pub struct SlotRead {
    pub number: u32,
    pub present: bool,
    pub partition: Partition,
}

#[repr(C)]
#[derive(Clone, Copy)]
pub struct EntryRead {
    pub number: u32,
    pub partition: Partition,
}

#[repr(C)]
#[derive(Clone, Copy)]
pub struct MbrRead {
    pub number: u32,
    pub mbr: Mbr,
}

#[repr(C)]
#[derive(Clone, Copy)]
pub struct RecordRead {
    pub number: u32,
    pub record: Record,
}

#[repr(C)]
#[derive(Clone, Copy)]
pub struct RecordSet {
    pub number: u32,
    pub old: Record,
    pub mbr: Mbr,
}

#[repr(C)]
#[derive(Clone, Copy)]
pub struct Bytes<const N: usize>(pub [u8; N]);

#[repr(C)]
#[derive(Clone, Copy)]
pub struct BytesRead<const N: usize> {
    pub number: u32,
    pub bytes: [u8; N],
}

extern "C" {
    pub fn gpt_crc32(bytes: *const u8, n: usize) -> u32;
    pub fn gpt_read_primary_header(img: *const u8, n: usize, b: u64) -> HeaderRead;
    pub fn gpt_read_backup_header(img: *const u8, n: usize, b: u64) -> HeaderRead;
    pub fn gpt_find_backup_lba(len: usize, b: u64) -> Wide;
    pub fn gpt_partentry_checksum(img: *const u8, n: usize, header: Header, b: u64) -> Narrow;
    pub fn gpt_slot_sum(sum: u32, was: *const u8, was_len: usize, is: *const u8, is_len: usize, after: usize) -> Narrow;
    pub fn gpt_write_primary(img: *mut u8, n: usize, header: Header, b: u64) -> HeaderWritten;
    pub fn gpt_write_backup(img: *mut u8, n: usize, header: Header, b: u64) -> HeaderWritten;
    pub fn gpt_settings_new(guid: Guid) -> Settings;
    pub fn gpt_build(settings: Settings, b: u64) -> HeaderRead;
    pub fn gpt_build_from_header(header: Header, b: u64) -> HeaderRead;
    pub fn gpt_entry_from_bytes(bytes: *const u8, n: usize) -> EntryRead;
    pub fn gpt_entry_to_bytes(out: *mut u8, n: usize, partition: Partition) -> u32;
    pub fn gpt_is_used(partition: Partition) -> bool;
    pub fn gpt_sectors_len(partition: Partition) -> Wide;
    pub fn gpt_bytes_len(partition: Partition, b: u64) -> Wide;
    pub fn gpt_bytes_start(partition: Partition, b: u64) -> Wide;
    pub fn gpt_write_entry(img: *mut u8, n: usize, partition: Partition, index: u64, start: u64, b: u64, size: u32) -> Wide;
    pub fn gpt_write_zero_entries(img: *mut u8, n: usize, index: u64, count: u64, start: u64, b: u64, size: u32) -> Wide;
    pub fn gpt_read_partition(img: *const u8, n: usize, header: Header, b: u64, slot: u32) -> SlotRead;
    pub fn gpt_count_partitions(img: *const u8, n: usize, header: Header, b: u64) -> Narrow;
    pub fn gpt_next_partition(img: *const u8, n: usize, header: Header, b: u64, after: u32) -> Narrow;
    pub fn gpt_file_read_partitions(img: *const u8, n: usize, header: Header, b: u64, out: *mut u8, room: usize) -> Narrow;
    pub fn gpt_mbr_new(lb_size: u32) -> Mbr;
    pub fn gpt_mbr_protective_record(lb_size: u32) -> Record;
    pub fn gpt_mbr_from_bytes(buf: *const u8, n: usize, b: u64) -> MbrRead;
    pub fn gpt_mbr_from_image(img: *const u8, n: usize, b: u64) -> MbrRead;
    pub fn gpt_mbr_record_from_bytes(buf: *const u8, n: usize) -> RecordRead;
    pub fn gpt_mbr_record_to_bytes(record: Record) -> Bytes<16>;
    pub fn gpt_mbr_record(mbr: Mbr, place: usize) -> RecordRead;
    pub fn gpt_mbr_set_record(mbr: Mbr, place: usize, record: Record) -> RecordSet;
    pub fn gpt_mbr_overwrite(img: *mut u8, n: usize, mbr: Mbr) -> Wide;
    pub fn gpt_mbr_update_conservative(img: *mut u8, n: usize, mbr: Mbr) -> Wide;
    pub fn gpt_mbr_read_bootcode(img: *const u8, n: usize) -> BytesRead<440>;
    pub fn gpt_mbr_write_bootcode(img: *mut u8, n: usize, bootcode: Bytes<440>) -> Wide;
    pub fn gpt_mbr_read_disk_signature(img: *const u8, n: usize) -> BytesRead<4>;
    pub fn gpt_mbr_write_disk_signature(img: *mut u8, n: usize, signature: Bytes<4>) -> Wide;
}

pub fn guid_of(b: &[u8]) -> Guid {
    Guid {
        time_low: u32::from_le_bytes(b[0..4].try_into().unwrap()),
        time_mid: u16::from_le_bytes(b[4..6].try_into().unwrap()),
        time_high: u16::from_le_bytes(b[6..8].try_into().unwrap()),
        tail: b[8..16].try_into().unwrap(),
    }
}

pub fn guid_bytes(g: &Guid) -> [u8; 16] {
    let mut b = [0; 16];
    b[0..4].copy_from_slice(&g.time_low.to_le_bytes());
    b[4..6].copy_from_slice(&g.time_mid.to_le_bytes());
    b[6..8].copy_from_slice(&g.time_high.to_le_bytes());
    b[8..16].copy_from_slice(&g.tail);
    b
}

pub fn u16_at(b: &[u8], at: usize) -> u16 {
    u16::from_le_bytes(b[at..at + 2].try_into().unwrap())
}

pub fn u32_at(b: &[u8], at: usize) -> u32 {
    u32::from_le_bytes(b[at..at + 4].try_into().unwrap())
}

pub fn u64_at(b: &[u8], at: usize) -> u64 {
    u64::from_le_bytes(b[at..at + 8].try_into().unwrap())
}

/// A header from its bytes 8 to 91 on a card.
pub fn header_of(b: &[u8; 84]) -> Header {
    Header {
        minor: u16_at(b, 0),
        major: u16_at(b, 2),
        header_size_le: u32_at(b, 4),
        crc32: u32_at(b, 8),
        reserved: u32_at(b, 12),
        current_lba: u64_at(b, 16),
        backup_lba: u64_at(b, 24),
        first_usable: u64_at(b, 32),
        last_usable: u64_at(b, 40),
        disk_guid: guid_of(&b[48..64]),
        part_start: u64_at(b, 64),
        num_parts: u32_at(b, 72),
        part_size: u32_at(b, 76),
        crc32_parts: u32_at(b, 80),
    }
}

pub fn header_bytes(h: &Header) -> [u8; 84] {
    let mut b = [0; 84];
    b[0..2].copy_from_slice(&h.minor.to_le_bytes());
    b[2..4].copy_from_slice(&h.major.to_le_bytes());
    b[4..8].copy_from_slice(&h.header_size_le.to_le_bytes());
    b[8..12].copy_from_slice(&h.crc32.to_le_bytes());
    b[12..16].copy_from_slice(&h.reserved.to_le_bytes());
    b[16..24].copy_from_slice(&h.current_lba.to_le_bytes());
    b[24..32].copy_from_slice(&h.backup_lba.to_le_bytes());
    b[32..40].copy_from_slice(&h.first_usable.to_le_bytes());
    b[40..48].copy_from_slice(&h.last_usable.to_le_bytes());
    b[48..64].copy_from_slice(&guid_bytes(&h.disk_guid));
    b[64..72].copy_from_slice(&h.part_start.to_le_bytes());
    b[72..76].copy_from_slice(&h.num_parts.to_le_bytes());
    b[76..80].copy_from_slice(&h.part_size.to_le_bytes());
    b[80..84].copy_from_slice(&h.crc32_parts.to_le_bytes());
    b
}

/// The flags in 64 bits, split here and not by the port.
pub fn flags_of(bits: u64) -> Flags {
    Flags {
        reserved: bits >> 3 & ((1 << 45) - 1),
        owner: (bits >> 48) as u16,
        required: bits & 1 != 0,
        no_block_io: bits & 2 != 0,
        legacy_bootable: bits & 4 != 0,
    }
}

/// The 64 bits of flags, joined here and not by the port.
pub fn flag_bits(f: &Flags) -> u64 {
    u64::from(f.required) | u64::from(f.no_block_io) << 1 | u64::from(f.legacy_bootable) << 2 | f.reserved << 3 | u64::from(f.owner) << 48
}

pub fn partition_of(b: &[u8; 128]) -> Partition {
    let mut name = [0; 36];
    for (i, u) in name.iter_mut().enumerate() {
        *u = u16_at(b, 56 + 2 * i);
    }
    Partition {
        part_type_guid: guid_of(&b[0..16]),
        part_guid: guid_of(&b[16..32]),
        first_lba: u64_at(b, 32),
        last_lba: u64_at(b, 40),
        flags: flags_of(u64_at(b, 48)),
        name,
    }
}

pub fn partition_bytes(p: &Partition) -> [u8; 128] {
    let mut b = [0; 128];
    b[0..16].copy_from_slice(&guid_bytes(&p.part_type_guid));
    b[16..32].copy_from_slice(&guid_bytes(&p.part_guid));
    b[32..40].copy_from_slice(&p.first_lba.to_le_bytes());
    b[40..48].copy_from_slice(&p.last_lba.to_le_bytes());
    b[48..56].copy_from_slice(&flag_bits(&p.flags).to_le_bytes());
    for (i, u) in p.name.iter().enumerate() {
        b[56 + 2 * i..58 + 2 * i].copy_from_slice(&u.to_le_bytes());
    }
    b
}

pub fn record_of(b: &[u8]) -> Record {
    Record { chs: b[0..8].try_into().unwrap(), lb_start: u32_at(b, 8), lb_size: u32_at(b, 12) }
}

pub fn record_bytes(r: &Record) -> [u8; 16] {
    let mut b = [0; 16];
    b[0..8].copy_from_slice(&r.chs);
    b[8..12].copy_from_slice(&r.lb_start.to_le_bytes());
    b[12..16].copy_from_slice(&r.lb_size.to_le_bytes());
    b
}

/// The MBR whose bytes on a card these are; 55 AA is no field.
pub fn mbr_of(b: &[u8]) -> Mbr {
    Mbr {
        bootcode: b[0..440].try_into().unwrap(),
        disk_signature: b[440..444].try_into().unwrap(),
        unknown: u16_at(b, 444),
        partitions: std::array::from_fn(|i| record_of(&b[446 + 16 * i..462 + 16 * i])),
    }
}

pub fn mbr_bytes(m: &Mbr) -> [u8; 512] {
    let mut b = [0; 512];
    b[0..440].copy_from_slice(&m.bootcode);
    b[440..444].copy_from_slice(&m.disk_signature);
    b[444..446].copy_from_slice(&m.unknown.to_le_bytes());
    for (i, r) in m.partitions.iter().enumerate() {
        b[446 + 16 * i..462 + 16 * i].copy_from_slice(&record_bytes(r));
    }
    b[510..512].copy_from_slice(&[0x55, 0xAA]);
    b
}

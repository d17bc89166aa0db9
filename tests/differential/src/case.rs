//! A case: one call with its arguments and the bytes that it is lent. Headers are bytes 8 to 91 of a header on a card, records and MBRs the
//! bytes on a card, so that both sides are given the same bytes and nothing that one of them has made.

pub type Head = [u8; 84];
pub type Entry = [u8; 128];

#[derive(Clone, Debug)]
pub struct Build {
    pub b: u64,
    pub primary: bool,
    pub guid: [u8; 16],
    pub backup: u64,
    pub first: u64,
    pub last: u64,
    pub count: u32,
    pub size: u32,
    /// Bit 0 backup, 1 first, 2 last, 3 count, 4 size: a setter is called only where its bit is set.
    pub which: u8,
}

#[derive(Clone, Debug)]
pub enum Call {
    ReadPrimary { b: u64 },
    ReadBackup { b: u64 },
    FindBackup { len: u64, b: u64 },
    ArraySum { b: u64, head: Box<Head> },
    WritePrimary { b: u64, head: Box<Head> },
    WriteBackup { b: u64, head: Box<Head> },
    Build(Build),
    BuildFrom { b: u64, head: Box<Head> },
    ReadArray { b: u64, head: Box<Head> },
    EntryFromBytes,
    EntryToBytes { n: usize, entry: Box<Entry> },
    Lengths { b: u64, entry: Box<Entry> },
    WriteEntry { index: u64, start: u64, b: u64, size: u32, entry: Box<Entry> },
    WriteZero { index: u64, count: u64, start: u64, b: u64, size: u32 },
    MbrFromBytes { b: u64 },
    MbrFromImage { b: u64 },
    MbrNew { size: u32 },
    RecordFromBytes,
    RecordGet { mbr: Box<[u8; 512]>, place: usize },
    RecordSet { mbr: Box<[u8; 512]>, place: usize, record: [u8; 16] },
    Overwrite { mbr: Box<[u8; 512]> },
    Conservative { mbr: Box<[u8; 512]> },
    ReadBoot,
    WriteBoot { boot: Box<[u8; 440]> },
    ReadSignature,
    WriteSignature { signature: [u8; 4] },
    Sum,
}

#[derive(Clone, Debug)]
pub struct Case {
    pub img: Vec<u8>,
    pub call: Call,
}

/// What a side answers: the number, and its values as bytes.
#[derive(Clone, Debug, PartialEq, Eq, Default)]
pub struct Answer {
    pub number: u32,
    pub values: Vec<u8>,
}

impl Answer {
    pub fn refusal(number: u32) -> Self {
        Self { number, values: Vec::new() }
    }

    pub fn accepted(values: impl Into<Vec<u8>>) -> Self {
        Self { number: 0, values: values.into() }
    }
}

pub const CALLS: [&str; 27] = [
    "read_primary_header",
    "read_backup_header",
    "find_backup_lba",
    "partentry_checksum",
    "write_primary",
    "write_backup",
    "builder new",
    "builder from_header",
    "file_read_partitions",
    "entry from bytes",
    "entry to bytes",
    "lengths, is_used",
    "write_to_device",
    "write_zero_entries",
    "MBR from_bytes",
    "MBR from_disk",
    "MBR with_lb_size",
    "MBR record from bytes",
    "MBR partition",
    "MBR set_partition",
    "MBR overwrite_lba0",
    "MBR update_conservative",
    "read_bootcode",
    "write_bootcode",
    "read_disk_signature",
    "write_disk_signature",
    "check sum",
];

impl Call {
    /// The call's place in CALLS.
    pub fn kind(&self) -> usize {
        match self {
            Call::ReadPrimary { .. } => 0,
            Call::ReadBackup { .. } => 1,
            Call::FindBackup { .. } => 2,
            Call::ArraySum { .. } => 3,
            Call::WritePrimary { .. } => 4,
            Call::WriteBackup { .. } => 5,
            Call::Build(_) => 6,
            Call::BuildFrom { .. } => 7,
            Call::ReadArray { .. } => 8,
            Call::EntryFromBytes => 9,
            Call::EntryToBytes { .. } => 10,
            Call::Lengths { .. } => 11,
            Call::WriteEntry { .. } => 12,
            Call::WriteZero { .. } => 13,
            Call::MbrFromBytes { .. } => 14,
            Call::MbrFromImage { .. } => 15,
            Call::MbrNew { .. } => 16,
            Call::RecordFromBytes => 17,
            Call::RecordGet { .. } => 18,
            Call::RecordSet { .. } => 19,
            Call::Overwrite { .. } => 20,
            Call::Conservative { .. } => 21,
            Call::ReadBoot => 22,
            Call::WriteBoot { .. } => 23,
            Call::ReadSignature => 24,
            Call::WriteSignature { .. } => 25,
            Call::Sum => 26,
        }
    }
}

/// The slots that are asked for one by one: all of a small array; of a large one the ends, and some between; and both neighbours of the array.
pub fn probes(count: u32) -> Vec<u32> {
    let mut slots: Vec<u32> = if count <= 20 {
        (1..=count).collect()
    } else {
        (0..8).map(|i| 1 + (u64::from(count - 1) * i / 7) as u32).chain([2, 3, count - 1]).collect()
    };
    slots.extend([0, count.wrapping_add(1), u32::MAX]);
    slots
}

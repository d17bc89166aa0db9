//! The port's side of a case.

use crate::case::{probes, Answer, Build, Call, Case, Head};
use crate::port::*;

fn stored(w: Wide) -> Answer {
    Answer { number: w.number, values: w.value.to_le_bytes().to_vec() }
}

fn summed(n: Narrow) -> Answer {
    Answer { number: n.number, values: n.value.to_le_bytes().to_vec() }
}

fn header(r: HeaderRead) -> Answer {
    Answer { number: r.number, values: header_bytes(&r.header).to_vec() }
}

fn written(r: HeaderWritten) -> Answer {
    let mut values = r.bytes.to_le_bytes().to_vec();
    values.extend(header_bytes(&r.header));
    Answer { number: r.number, values }
}

/// 55 AA is no field of the answer: where the number is 0 it stands for them.
fn mbr_values(number: u32, m: &Mbr) -> Vec<u8> {
    let mut b = mbr_bytes(m).to_vec();
    if number != 0 {
        b[510..].fill(0);
    }
    b
}

fn mbr(r: MbrRead) -> Answer {
    Answer { number: r.number, values: mbr_values(r.number, &r.mbr) }
}

fn settings(s: &Build) -> Settings {
    let mut t = unsafe { gpt_settings_new(guid_of(&s.guid)) };
    t.primary = s.primary;
    if s.which & 1 != 0 {
        t.backup_lba = s.backup;
    }
    if s.which & 2 != 0 {
        t.first_usable = s.first;
    }
    if s.which & 4 != 0 {
        t.last_usable = s.last;
    }
    if s.which & 8 != 0 {
        t.num_parts = s.count;
    }
    if s.which & 16 != 0 {
        t.part_size = s.size;
    }
    t
}

/// Whether gpt_file_read_partitions gives these rows: into as many bytes, and into almost a row more. With a row less it must give 15, and every
/// byte that is no row of an accepted answer must stay.
fn gives_rows(img: &[u8], h: Header, b: u64, rows: &[u8]) -> bool {
    let read = |room: usize| {
        let mut out = vec![0x5A; room + 136];
        let r = unsafe { gpt_file_read_partitions(img.as_ptr(), img.len(), h, b, out.as_mut_ptr(), room) };
        (r.number, r.value as usize, out)
    };
    let whole = [rows.len(), rows.len() + 135].into_iter().all(|room| {
        let (number, count, out) = read(room);
        number == 0 && count * 136 == rows.len() && out.starts_with(rows) && out[rows.len()..].iter().all(|b| *b == 0x5A)
    });
    let short = |room: usize| {
        let (number, count, out) = read(room);
        number == 15 && count == 0 && out.iter().all(|b| *b == 0x5A)
    };
    whole && (rows.is_empty() || (short(rows.len() - 1) && short(rows.len() - 136)))
}

/// Whether gpt_file_read_partitions refuses by this number and stores nothing, with no room and with room for one row.
fn gives_none(img: &[u8], h: Header, b: u64, number: u32) -> bool {
    [0, 136].into_iter().all(|room| {
        let mut out = [0x5A; 136];
        let r = unsafe { gpt_file_read_partitions(img.as_ptr(), img.len(), h, b, out.as_mut_ptr(), room) };
        r.number == number && r.value == 0 && out == [0x5A; 136]
    })
}

/// The same values as the original's read_array gives, through the three calls by slot, and then through gpt_file_read_partitions. Where they
/// refuse, all four must refuse alike; an answer that they do not share is given as number 255.
fn read_array(img: &[u8], b: u64, head: &Head) -> Answer {
    let h = header_of(head);
    let (p, n) = (img.as_ptr(), img.len());
    let count = unsafe { gpt_count_partitions(p, n, h, b) };
    let mut values = count.value.to_le_bytes().to_vec();
    if count.number != 0 {
        let next = unsafe { gpt_next_partition(p, n, h, b, 0) };
        let one = unsafe { gpt_read_partition(p, n, h, b, 1) };
        values.extend(next.value.to_le_bytes());
        values.push(one.present as u8);
        values.extend(partition_bytes(&one.partition));
        let same = next.number == count.number && one.number == count.number && gives_none(img, h, b, count.number);
        return Answer { number: if same { count.number } else { 255 }, values };
    }
    let mut rows = Vec::new();
    let mut after = 0;
    loop {
        let next = unsafe { gpt_next_partition(p, n, h, b, after) };
        if next.number != 0 || (next.value != 0 && next.value <= after) {
            return Answer { number: 255, values };
        }
        if next.value == 0 {
            break;
        }
        after = next.value;
        let one = unsafe { gpt_read_partition(p, n, h, b, after) };
        if one.number != 0 || !one.present {
            return Answer { number: 255, values };
        }
        values.extend(after.to_le_bytes());
        values.extend(partition_bytes(&one.partition));
        rows.extend(u64::from(after).to_le_bytes());
        rows.extend(partition_bytes(&one.partition));
    }
    if !gives_rows(img, h, b, &rows) {
        return Answer { number: 255, values };
    }
    for slot in probes(h.num_parts) {
        let one = unsafe { gpt_read_partition(p, n, h, b, slot) };
        values.push(one.number as u8);
        values.push(one.present as u8);
        values.extend(partition_bytes(&one.partition));
    }
    Answer { number: 0, values }
}

fn lengths(b: u64, p: Partition) -> Answer {
    let three = unsafe { [gpt_sectors_len(p), gpt_bytes_len(p, b), gpt_bytes_start(p, b)] };
    let mut values = Vec::new();
    for w in three {
        values.push(w.number as u8);
        values.extend(w.value.to_le_bytes());
    }
    values.push(unsafe { gpt_is_used(p) } as u8);
    Answer { number: 0, values }
}

fn record(r: RecordRead) -> Answer {
    Answer { number: r.number, values: record_bytes(&r.record).to_vec() }
}

/// Runs the port. `img` holds the case's bytes and then what the port left.
pub fn run(case: &Case, img: &mut [u8]) -> Answer {
    let (p, m, n) = (img.as_ptr(), img.as_mut_ptr(), img.len());
    unsafe {
        match &case.call {
            Call::ReadPrimary { b } => header(gpt_read_primary_header(p, n, *b)),
            Call::ReadBackup { b } => header(gpt_read_backup_header(p, n, *b)),
            Call::FindBackup { len, b } => stored(gpt_find_backup_lba(*len as usize, *b)),
            Call::ArraySum { b, head } => summed(gpt_partentry_checksum(p, n, header_of(head), *b)),
            Call::WritePrimary { b, head } => written(gpt_write_primary(m, n, header_of(head), *b)),
            Call::WriteBackup { b, head } => written(gpt_write_backup(m, n, header_of(head), *b)),
            Call::Build(s) => header(gpt_build(settings(s), s.b)),
            Call::BuildFrom { b, head } => header(gpt_build_from_header(header_of(head), *b)),
            Call::ReadArray { b, head } => read_array(img, *b, head),
            Call::EntryFromBytes => {
                let r = gpt_entry_from_bytes(p, n);
                Answer { number: r.number, values: partition_bytes(&r.partition).to_vec() }
            }
            Call::EntryToBytes { n, entry } => {
                let mut out = vec![0x5A; n + 1];
                let number = gpt_entry_to_bytes(out.as_mut_ptr(), *n, partition_of(entry));
                let kept = out.pop() == Some(0x5A);
                Answer { number: if kept { number } else { 255 }, values: out }
            }
            Call::Lengths { b, entry } => lengths(*b, partition_of(entry)),
            Call::WriteEntry { index, start, b, size, entry } => {
                stored(gpt_write_entry(m, n, partition_of(entry), *index, *start, *b, *size))
            }
            Call::WriteZero { index, count, start, b, size } => stored(gpt_write_zero_entries(m, n, *index, *count, *start, *b, *size)),
            Call::MbrFromBytes { b } => mbr(gpt_mbr_from_bytes(p, n, *b)),
            Call::MbrFromImage { b } => mbr(gpt_mbr_from_image(p, n, *b)),
            Call::MbrNew { size } => {
                let mut values = mbr_bytes(&gpt_mbr_new(*size)).to_vec();
                values.extend(record_bytes(&gpt_mbr_protective_record(*size)));
                Answer { number: 0, values }
            }
            Call::RecordFromBytes => {
                let r = gpt_mbr_record_from_bytes(p, n);
                let mut a = record(r);
                a.values.extend(gpt_mbr_record_to_bytes(r.record).0);
                a
            }
            Call::RecordGet { mbr, place } => record(gpt_mbr_record(mbr_of(&mbr[..]), *place)),
            Call::RecordSet { mbr, place, record } => {
                let r = gpt_mbr_set_record(mbr_of(&mbr[..]), *place, record_of(record));
                let mut values = record_bytes(&r.old).to_vec();
                values.extend(mbr_values(r.number, &r.mbr));
                Answer { number: r.number, values }
            }
            Call::Overwrite { mbr } => stored(gpt_mbr_overwrite(m, n, mbr_of(&mbr[..]))),
            Call::Conservative { mbr } => stored(gpt_mbr_update_conservative(m, n, mbr_of(&mbr[..]))),
            Call::ReadBoot => {
                let r = gpt_mbr_read_bootcode(p, n);
                Answer { number: r.number, values: r.bytes.to_vec() }
            }
            Call::WriteBoot { boot } => stored(gpt_mbr_write_bootcode(m, n, Bytes(**boot))),
            Call::ReadSignature => {
                let r = gpt_mbr_read_disk_signature(p, n);
                Answer { number: r.number, values: r.bytes.to_vec() }
            }
            Call::WriteSignature { signature } => stored(gpt_mbr_write_disk_signature(m, n, Bytes(*signature))),
            Call::Sum => Answer { number: 0, values: gpt_crc32(p, n).to_le_bytes().to_vec() },
        }
    }
}

//! The harness tried on itself: single slips, each put into what the port answered. A slip is caught when the altered answer is an unlisted difference.

use crate::case::{probes, Answer, Build, Call, Case, Head};
use crate::compare::Ran;
use crate::gen::{set32, set64, ARRAY_SUM, BACKUP, COUNT, CURRENT, FIRST, LAST, SIZE, START};
use crate::listed::array;
use crate::port::{u16_at, u32_at, u64_at};

pub struct Slip {
    pub what: &'static str,
    /// Changes the port's answer where the slip would show.
    pub put: fn(&Case, &mut Ran),
}

fn good(b: u64) -> bool {
    b == 512 || b == 4096
}

fn refuse(ran: &mut Ran, case: &Case, number: u32) {
    ran.port = Answer { number, values: vec![0; ran.port.values.len()] };
    ran.port_img = case.img.clone();
}

/// The 92 bytes of the primary header, if they are inside.
fn primary(case: &Case) -> Option<(u64, &[u8])> {
    match case.call {
        Call::ReadPrimary { b } if good(b) => case.img.get(b as usize..b as usize + 92).map(|h| (b, h)),
        _ => None,
    }
}

fn sum_of(bytes: &[u8]) -> u32 {
    let mut b = bytes.to_vec();
    b[16..20].fill(0);
    crc32fast::hash(&b)
}

/// A header write with a good block size.
fn writing(case: &Case) -> Option<(u64, &Head, bool)> {
    match &case.call {
        Call::WritePrimary { b, head } if good(*b) => Some((*b, head, true)),
        Call::WriteBackup { b, head } if good(*b) => Some((*b, head, false)),
        _ => None,
    }
}

/// An accepted header write, and where its block is.
fn written<'a>(case: &'a Case, ran: &Ran) -> Option<(usize, &'a Head, usize)> {
    let (b, head, _) = writing(case)?;
    (ran.port.number == 0).then(|| ((u64_at(head, CURRENT) * b) as usize, head, b as usize))
}

/// An accepted build: what was asked for, for a new builder.
fn built<'a>(case: &'a Case, ran: &Ran) -> Option<&'a Build> {
    match &case.call {
        Call::Build(s) if ran.port.number == 0 => Some(s),
        _ => None,
    }
}

fn built_blocks(values: &[u8], b: u64) -> u64 {
    (u64::from(u32_at(values, COUNT)) * u64::from(u32_at(values, SIZE))).div_ceil(b)
}

fn copied<'a>(case: &'a Case, ran: &Ran) -> Option<(u64, &'a Head)> {
    match &case.call {
        Call::BuildFrom { b, head } if ran.port.number == 0 => Some((*b, head)),
        _ => None,
    }
}

/// An accepted device write: where it stored, and how many bytes.
fn stored(case: &Case, ran: &Ran) -> Option<(usize, usize)> {
    match &case.call {
        Call::WriteEntry { index, start, b, size, .. } if ran.port.number == 0 => {
            Some(((start * b + index * u64::from(*size)) as usize, *size as usize))
        }
        _ => None,
    }
}

/// Rewrites the answer of an accepted array reading: `entry` gives what becomes of an entry, from its raw bytes and its record; none is absent.
fn rewrite(case: &Case, ran: &mut Ran, entry: fn(&[u8], &[u8; 128]) -> Option<[u8; 128]>) {
    let Call::ReadArray { b, head } = &case.call else { return };
    if ran.port.number != 0 {
        return;
    }
    let (start, count) = (array(*b, head).map_or(0, |a| a.0) as usize, u32_at(&head[..], COUNT));
    let old = ran.port.values.clone();
    let many = u32_at(&old, 0) as usize;
    let mut rows = Vec::new();
    for row in old[4..4 + 132 * many].chunks(132) {
        let slot = u32_at(row, 0);
        let raw = &case.img[start + 128 * (slot as usize - 1)..][..128];
        if let Some(e) = entry(raw, row[4..].try_into().unwrap()) {
            rows.push((slot, e));
        }
    }
    let mut values = (rows.len() as u32).to_le_bytes().to_vec();
    for (slot, e) in &rows {
        values.extend(slot.to_le_bytes());
        values.extend(e);
    }
    for (slot, one) in probes(count).into_iter().zip(old[4 + 132 * many..].chunks(130)) {
        let row = rows.iter().find(|r| r.0 == slot);
        values.push(one[0]);
        values.push(row.is_some() as u8);
        values.extend(row.map_or([0; 128], |r| r.1));
    }
    ran.port.values = values;
}

/// Keeps the old bytes of a part of the image.
fn keep(case: &Case, ran: &mut Ran, from: usize, to: usize) {
    ran.port_img[from..to].copy_from_slice(&case.img[from..to]);
}

pub const SLIPS: &[Slip] = &[
    Slip {
        what: "header: the sum is tested before the signature (5 for 4)",
        put: |case, ran| {
            if let Some((_, h)) = primary(case) {
                if ran.port.number == 4 && sum_of(h) != u32_at(h, 16) {
                    ran.port.number = 5;
                }
            }
        },
    },
    Slip {
        what: "header: the sum covers the stated size and not 92 bytes",
        put: |case, ran| {
            if let Some((b, h)) = primary(case) {
                let all = case.img.get(b as usize..b as usize + u32_at(h, 12) as usize);
                if ran.port.number == 0 && all.is_none_or(|a| a.len() < 20 || sum_of(a) != u32_at(h, 16)) {
                    refuse(ran, case, 5);
                }
            }
        },
    },
    Slip {
        what: "header: an image of B + 91 bytes is read, the missing byte as 0",
        put: |case, ran| {
            if let Call::ReadPrimary { b } = case.call {
                if ran.port.number == 2 && case.img.len() as u64 == b + 91 {
                    ran.port.number = if case.img[b as usize..].starts_with(b"EFI PART") { 5 } else { 4 };
                }
            }
        },
    },
    Slip {
        what: "header: reading needs a whole block",
        put: |case, ran| {
            if let Call::ReadPrimary { b } = case.call {
                if good(b) && (case.img.len() as u64) < 2 * b {
                    refuse(ran, case, 2);
                }
            }
        },
    },
    Slip {
        what: "header: reserved is read as 0",
        put: |case, ran| {
            if primary(case).is_some() && ran.port.number == 0 {
                ran.port.values[12..16].fill(0);
            }
        },
    },
    Slip {
        what: "header: major and minor revision change places",
        put: |case, ran| {
            if primary(case).is_some() {
                ran.port.values[..4].rotate_left(2);
            }
        },
    },
    Slip {
        what: "header: the second and third field of the GUID change places",
        put: |case, ran| {
            if primary(case).is_some() {
                ran.port.values[52..56].rotate_left(2);
            }
        },
    },
    Slip {
        what: "header: a block size of 1,024 is taken",
        put: |case, ran| {
            if let Call::ReadPrimary { b: 1024 } = case.call {
                ran.port.number = 4;
            }
        },
    },
    Slip {
        what: "backup: its block is rounded up",
        put: |case, ran| {
            if let Call::FindBackup { len, b } = case.call {
                if ran.port.number == 0 && len % b != 0 {
                    ran.port.values = ((len - b).div_ceil(b)).to_le_bytes().to_vec();
                }
            }
        },
    },
    Slip {
        what: "backup: two blocks are enough",
        put: |case, ran| {
            if let Call::FindBackup { len, b } = case.call {
                if ran.port.number == 8 && len >= 2 * b {
                    ran.port = Answer::accepted(1u64.to_le_bytes());
                }
            }
        },
    },
    Slip {
        what: "backup: 8 comes after 4",
        put: |case, ran| {
            if let Call::ReadBackup { b } = case.call {
                let block = case.img.len() as u64 / b.max(1);
                if ran.port.number == 8 && block > 0 && !case.img[((block - 1) * b) as usize..].starts_with(b"EFI PART") {
                    ran.port.number = 4;
                }
            }
        },
    },
    Slip {
        what: "array sum: an end past 64 bits is 3 and not 2",
        put: |case, ran| {
            if let Call::ArraySum { b, head } = &case.call {
                if ran.port.number == 2 && array(*b, head).is_some_and(|(start, bytes)| start + bytes >= 1 << 64) {
                    ran.port.number = 3;
                }
            }
        },
    },
    Slip {
        what: "array sum: an empty array has to be inside",
        put: |case, ran| {
            if let Call::ArraySum { b, head } = &case.call {
                if ran.port.number == 0 && array(*b, head).is_some_and(|(start, _)| start > case.img.len() as u128) {
                    refuse(ran, case, 2);
                }
            }
        },
    },
    Slip {
        what: "array sum: it knows a 7 (size not 128)",
        put: |case, ran| {
            if let Call::ArraySum { head, .. } = &case.call {
                if ran.port.number == 0 && u32_at(&head[..], SIZE) != 128 {
                    refuse(ran, case, 7);
                }
            }
        },
    },
    Slip {
        what: "header write: 11 comes after 3 of the array",
        put: |case, ran| {
            if let Some((b, head, _)) = writing(case) {
                if ran.port.number == 11 && array(b, head).is_none() {
                    ran.port.number = 3;
                }
            }
        },
    },
    Slip {
        what: "header write: 3 of the own place comes before 2 of the array",
        put: |case, ran| {
            if let Some((b, head, _)) = writing(case) {
                if ran.port.number == 2 && u128::from(u64_at(head, CURRENT)) * u128::from(b) >= 1 << 64 {
                    ran.port.number = 3;
                }
            }
        },
    },
    Slip {
        what: "header write: 3 of the array comes after its 2",
        put: |case, ran| {
            if let Some((b, head, _)) = writing(case) {
                let bytes = u64::from(u32_at(head, COUNT)) * u64::from(u32_at(head, SIZE));
                if ran.port.number == 3 && array(b, head).is_none() && bytes > case.img.len() as u64 {
                    ran.port.number = 2;
                }
            }
        },
    },
    Slip {
        what: "header write: current = backup is not 11",
        put: |case, ran| {
            if let Some((_, head, _)) = writing(case) {
                if ran.port.number == 11 && head[CURRENT..BACKUP] == head[BACKUP..FIRST] {
                    ran.port.number = 2;
                }
            }
        },
    },
    Slip {
        what: "header write: reserved is stored as given",
        put: |case, ran| {
            if let Some((at, head, _)) = written(case, ran) {
                ran.port_img[at + 20..at + 24].copy_from_slice(&head[12..16]);
            }
        },
    },
    Slip {
        what: "header write: the returned header has reserved 0",
        put: |case, ran| {
            if written(case, ran).is_some() {
                ran.port.values[20..24].fill(0);
            }
        },
    },
    Slip {
        what: "header write: the rest of the block is kept",
        put: |case, ran| {
            if let Some((at, _, b)) = written(case, ran) {
                keep(case, ran, at + 92, at + b);
            }
        },
    },
    Slip {
        what: "header write: the block's last byte is not written",
        put: |case, ran| {
            if let Some((at, _, b)) = written(case, ran) {
                keep(case, ran, at + b - 1, at + b);
            }
        },
    },
    Slip {
        what: "header write: it says 92 bytes and not B",
        put: |case, ran| {
            if written(case, ran).is_some() {
                ran.port.values[..8].copy_from_slice(&92u64.to_le_bytes());
            }
        },
    },
    Slip {
        what: "header write: the array is summed after the header is stored",
        put: |case, ran| {
            if let Some((_, head, b)) = written(case, ran) {
                let (start, bytes) = array(b as u64, head).unwrap_or((0, 0));
                if bytes > 0 {
                    let sum = crc32fast::hash(&ran.port_img[start as usize..(start + bytes) as usize]);
                    set32(&mut ran.port.values[8..], ARRAY_SUM, sum);
                }
            }
        },
    },
    Slip {
        what: "header write: a refused write changes one byte",
        put: |case, ran| {
            if let Some((b, head, _)) = writing(case) {
                let at = u64_at(head, CURRENT).saturating_mul(b);
                if ran.port.number == 2 && at < case.img.len() as u64 {
                    ran.port_img[at as usize] ^= 1;
                }
            }
        },
    },
    Slip {
        what: "header write: a refusal gives the header with its new sums",
        put: |case, ran| {
            if let Some((_, head, _)) = writing(case) {
                if ran.port.number == 2 {
                    ran.port.values[8..].copy_from_slice(head);
                }
            }
        },
    },
    Slip {
        what: "builder: the lesser last usable",
        put: |case, ran| {
            if let Some(s) = built(case, ran) {
                let own = s.backup.wrapping_sub(built_blocks(&ran.port.values, s.b) + 1);
                set64(&mut ran.port.values, LAST, own.min(if s.which & 4 != 0 { s.last } else { own }));
            }
        },
    },
    Slip {
        what: "builder: first usable as set",
        put: |case, ran| {
            if let Some(s) = built(case, ran) {
                if s.which & 2 != 0 && s.first != 0 {
                    set64(&mut ran.port.values, FIRST, s.first);
                }
            }
        },
    },
    Slip {
        what: "builder: the array's blocks are rounded down",
        put: |case, ran| {
            if let Some(s) = built(case, ran) {
                let bytes = u64::from(u32_at(&ran.port.values, COUNT)) * u64::from(u32_at(&ran.port.values, SIZE));
                let first = u64_at(&ran.port.values, FIRST);
                if bytes % s.b != 0 && first == 2 + bytes.div_ceil(s.b) && first != s.first {
                    set64(&mut ran.port.values, FIRST, first - 1);
                }
            }
        },
    },
    Slip {
        what: "builder: the count setter does not lift to 128",
        put: |case, ran| {
            if let Some(s) = built(case, ran) {
                if s.which & 8 != 0 {
                    set32(&mut ran.port.values, COUNT, s.count);
                }
            }
        },
    },
    Slip {
        what: "builder: copying from a header lifts the count",
        put: |case, ran| {
            if copied(case, ran).is_some() {
                let count = u32_at(&ran.port.values, COUNT).max(128);
                set32(&mut ran.port.values, COUNT, count);
            }
        },
    },
    Slip {
        what: "builder: the backup's array at backup − P",
        put: |case, ran| {
            if let Some(s) = built(case, ran) {
                if !s.primary {
                    let start = s.backup.wrapping_sub(built_blocks(&ran.port.values, s.b));
                    set64(&mut ran.port.values, START, start);
                }
            }
        },
    },
    Slip {
        what: "builder: current = backup is taken for the primary",
        put: |case, ran| {
            if let Some((_, head)) = copied(case, ran) {
                let current = u64_at(head, CURRENT);
                if current == u64_at(head, BACKUP) {
                    set64(&mut ran.port.values, START, current.wrapping_add(1));
                }
            }
        },
    },
    Slip {
        what: "builder: 3 of the product comes before 9",
        put: |case, ran| {
            if let Call::Build(s) = &case.call {
                let count = if s.which & 8 != 0 { s.count.max(128) } else { 128 };
                if ran.port.number == 9 && s.which & 16 != 0 && u64::from(count) * u64::from(s.size) > u64::from(u32::MAX) {
                    ran.port.number = 3;
                }
            }
        },
    },
    Slip {
        what: "builder: a product past 32 bits wraps (accepted for 3)",
        put: |case, ran| {
            if let Call::Build(s) = &case.call {
                if ran.port.number == 3 && s.count.max(128).checked_mul(s.size).is_none() {
                    ran.port.number = 0;
                }
            }
        },
    },
    Slip { what: "array: presence by type", put: |case, ran| rewrite(case, ran, |raw, e| raw[..16].iter().any(|b| *b != 0).then_some(*e)) },
    Slip {
        what: "array: presence by the cleared record",
        put: |case, ran| rewrite(case, ran, |_, e| e.iter().any(|b| *b != 0).then_some(*e)),
    },
    Slip { what: "array: the name is not cleared after its first zero", put: |case, ran| rewrite(case, ran, |raw, _| raw.try_into().ok()) },
    Slip {
        what: "array: a lone surrogate becomes FFFD",
        put: |case, ran| {
            rewrite(case, ran, |_, e| {
                let mut e = *e;
                let name: Vec<u16> = (0..36).map(|i| u16_at(&e, 56 + 2 * i)).collect();
                for (i, u) in String::from_utf16_lossy(&name).encode_utf16().enumerate() {
                    e[56 + 2 * i..58 + 2 * i].copy_from_slice(&u.to_le_bytes());
                }
                Some(e)
            })
        },
    },
    Slip {
        what: "array: the count is off by one where an entry is absent",
        put: |case, ran| {
            if let Call::ReadArray { head, .. } = &case.call {
                let count = if ran.port.number == 0 { u32_at(&ran.port.values, 0) } else { 0 };
                if ran.port.number == 0 && count < u32_at(&head[..], COUNT) {
                    set32(&mut ran.port.values, 0, count + 1);
                }
            }
        },
    },
    Slip {
        what: "array: slot 0 is the first",
        put: |case, ran| {
            if let Call::ReadArray { .. } = &case.call {
                let n = ran.port.values.len();
                if ran.port.number == 0 {
                    ran.port.values[n - 3 * 130] = 0;
                }
            }
        },
    },
    Slip {
        what: "array: its sum is not tested",
        put: |case, ran| {
            if let (Call::ReadArray { .. }, 6) = (&case.call, ran.port.number) {
                ran.port.number = 0;
            }
        },
    },
    Slip {
        what: "array: 7 comes before 3",
        put: |case, ran| {
            if let Call::ReadArray { head, .. } = &case.call {
                if ran.port.number == 3 && u32_at(&head[..], SIZE) != 128 {
                    ran.port.number = 7;
                }
            }
        },
    },
    Slip {
        what: "array: 2 comes before 7",
        put: |case, ran| {
            if let Call::ReadArray { b, head } = &case.call {
                if ran.port.number == 7 && array(*b, head).is_some_and(|(s, n)| n > 0 && s + n > case.img.len() as u128) {
                    ran.port.number = 2;
                }
            }
        },
    },
    Slip {
        what: "array: an empty one is not held to its sum",
        put: |case, ran| {
            if let Call::ReadArray { head, .. } = &case.call {
                if ran.port.number == 6 && u32_at(&head[..], COUNT) == 0 {
                    ran.port.number = 0;
                }
            }
        },
    },
    Slip {
        what: "array: a size other than 128 is taken where the count is 0",
        put: |case, ran| {
            if let Call::ReadArray { head, .. } = &case.call {
                if ran.port.number == 7 && u32_at(&head[..], COUNT) == 0 {
                    ran.port.number = if u32_at(&head[..], ARRAY_SUM) == 0 { 0 } else { 6 };
                }
            }
        },
    },
    Slip {
        what: "device write: an end past 64 bits is 2 and not 3",
        put: |case, ran| {
            if let Call::WriteEntry { index, start, b, size, .. } = &case.call {
                let at = u128::from(*index) * u128::from(*size) + u128::from(*start) * u128::from(*b);
                if ran.port.number == 3 && at < 1 << 64 {
                    ran.port.number = 2;
                }
            }
        },
    },
    Slip {
        what: "device write: 3 comes before 7",
        put: |case, ran| {
            if let Call::WriteEntry { start, b, .. } = &case.call {
                if ran.port.number == 7 && start.checked_mul(*b).is_none() {
                    ran.port.number = 3;
                }
            }
        },
    },
    Slip {
        what: "device write: what stands after an inner zero of the name is cleared",
        put: |case, ran| {
            if let Some((at, size)) = stored(case, ran) {
                let zero = (at + 56..at + size.min(128)).step_by(2).find(|i| ran.port_img.get(*i..*i + 2) == Some(&[0, 0]));
                if let Some(zero) = zero {
                    ran.port_img[zero..at + size.min(128)].fill(0);
                }
            }
        },
    },
    Slip {
        what: "device write: the bytes after 128 are kept",
        put: |case, ran| {
            if let Some((at, size)) = stored(case, ran) {
                if size > 128 {
                    keep(case, ran, at + 128, at + size);
                }
            }
        },
    },
    Slip {
        what: "device write: type and partition GUID change places",
        put: |case, ran| {
            if let Some((at, size)) = stored(case, ran) {
                if size >= 32 {
                    ran.port_img[at..at + 32].rotate_left(16);
                }
            }
        },
    },
    Slip {
        what: "device write: a part is written before 2",
        put: |case, ran| {
            if let (Call::WriteEntry { .. }, 2) = (&case.call, ran.port.number) {
                ran.port_img = ran.original_img.clone();
            }
        },
    },
    Slip {
        what: "zeroing: no entries have to be inside",
        put: |case, ran| {
            if let Call::WriteZero { index, count: 0, start, b, size } = &case.call {
                if ran.port.number == 0 && start * b + index * u64::from(*size) > case.img.len() as u64 {
                    refuse(ran, case, 2);
                }
            }
        },
    },
    Slip {
        what: "zeroing: one entry too few",
        put: |case, ran| {
            if let Call::WriteZero { index, count, start, b, size } = &case.call {
                if ran.port.number == 0 && *count > 0 {
                    let at = (start * b + (index + count - 1) * u64::from(*size)) as usize;
                    keep(case, ran, at, at + *size as usize);
                }
            }
        },
    },
    Slip {
        what: "zeroing: 2^63 bytes and more are 3",
        put: |case, ran| {
            if let Call::WriteZero { count, size, .. } = &case.call {
                if ran.port.number == 2 && u128::from(*count) * u128::from(*size) >= 1 << 63 {
                    ran.port.number = 3;
                }
            }
        },
    },
    Slip {
        what: "lengths: last − first without the one",
        put: |case, ran| {
            if let (Call::Lengths { .. }, 0) = (&case.call, ran.port.values.first().map_or(1, |b| *b)) {
                let n = u64_at(&ran.port.values, 1).wrapping_sub(1);
                set64(&mut ran.port.values, 1, n);
            }
        },
    },
    Slip {
        what: "lengths: bytes_start tests last < first",
        put: |case, ran| {
            if let Call::Lengths { .. } = &case.call {
                if ran.port.values[0] == 20 && ran.port.values[18] == 0 {
                    ran.port.values[18] = 20;
                    ran.port.values[19..27].fill(0);
                }
            }
        },
    },
    Slip {
        what: "lengths: 20 comes before 1",
        put: |case, ran| {
            if let Call::Lengths { .. } = &case.call {
                if ran.port.values[0] == 20 && ran.port.values[9] == 1 {
                    ran.port.values[9] = 20;
                }
            }
        },
    },
    Slip {
        what: "is_used looks at the partition GUID",
        put: |case, ran| {
            if let Call::Lengths { entry, .. } = &case.call {
                ran.port.values[27] = entry[16..32].iter().any(|b| *b != 0) as u8;
            }
        },
    },
    Slip {
        what: "MBR: 13 comes before 12",
        put: |case, ran| {
            if let (Call::MbrFromBytes { .. }, 12) = (&case.call, ran.port.number) {
                if case.img.len() >= 512 && case.img[510..512] != [0x55, 0xAA] {
                    ran.port.number = 13;
                }
            }
        },
    },
    Slip {
        what: "MBR: 512 bytes are enough at B 4,096",
        put: |case, ran| {
            if let (Call::MbrFromImage { .. }, 2) = (&case.call, ran.port.number) {
                if case.img.len() >= 512 {
                    ran.port.number = if case.img[510..512] == [0x55, 0xAA] { 0 } else { 13 };
                }
            }
        },
    },
    Slip {
        what: "MBR: the full write leaves bytes 444 and 445",
        put: |case, ran| {
            if let (Call::Overwrite { .. }, 0) = (&case.call, ran.port.number) {
                keep(case, ran, 444, 446);
            }
        },
    },
    Slip {
        what: "MBR: the conservative write stores bytes 444 and 445",
        put: |case, ran| {
            if let (Call::Conservative { mbr }, 0) = (&case.call, ran.port.number) {
                ran.port_img[444..446].copy_from_slice(&mbr[444..446]);
            }
        },
    },
    Slip {
        what: "MBR: byte 511 is not written",
        put: |case, ran| {
            if let (Call::Overwrite { .. }, 0) = (&case.call, ran.port.number) {
                keep(case, ran, 511, 512);
            }
        },
    },
    Slip {
        what: "MBR: the full write zeroes the rest of block 0",
        put: |case, ran| {
            if let (Call::Overwrite { .. }, 0) = (&case.call, ran.port.number) {
                let end = ran.port_img.len().min(4096);
                ran.port_img[512..end].fill(0);
            }
        },
    },
    Slip {
        what: "MBR: the conservative write says 512 bytes",
        put: |case, ran| {
            if let (Call::Conservative { .. }, 0) = (&case.call, ran.port.number) {
                ran.port = Answer::accepted(512u64.to_le_bytes());
            }
        },
    },
    Slip {
        what: "MBR: setting a record returns the new one",
        put: |case, ran| {
            if let (Call::RecordSet { record, .. }, 0) = (&case.call, ran.port.number) {
                ran.port.values[..16].copy_from_slice(record);
            }
        },
    },
    Slip {
        what: "MBR: the records count from 1",
        put: |case, ran| {
            if let (Call::RecordGet { mbr, place: place @ 1..=4 }, n) = (&case.call, &mut ran.port.number) {
                *n = 0;
                ran.port.values = mbr[430 + 16 * place..446 + 16 * place].to_vec();
            }
        },
    },
    Slip {
        what: "MBR record: a longer buffer is taken",
        put: |case, ran| {
            if let (Call::RecordFromBytes, 14) = (&case.call, ran.port.number) {
                if case.img.len() > 16 {
                    ran.port.number = 0;
                }
            }
        },
    },
    Slip {
        what: "boot code: written with the signature behind it (444 bytes)",
        put: |case, ran| {
            if let (Call::WriteBoot { .. }, 0) = (&case.call, ran.port.number) {
                let end = ran.port_img.len().min(444);
                ran.port_img[440..end].fill(0);
            }
        },
    },
    Slip {
        what: "any call: a byte behind the lent ones changes",
        put: |case, ran| {
            if let Call::WriteSignature { .. } = &case.call {
                ran.around = case.img.len() != 444;
            }
        },
    },
];

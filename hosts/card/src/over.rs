//! What laying a card would write over: used slots, the partitions of an MBR, and file systems, which are known by marks that their own documents put at a place.
use crate::failure::{io_failure, Failure, Outcome};
use crate::medium::Medium;
use crate::opened::Opened;
use crate::system;
use crate::words::count;
use card::{ffi, BlockSize, Table};
use std::io;
use std::os::unix::fs::FileExt;

/// Bytes at a place from the beginning of the file or device on.
type Mark = (usize, &'static [u8]);

/// The mark that ends a boot sector.
const BOOT: Mark = (510, b"\x55\xaa");

/// What is known, each with the marks that all of its kind have. The comment says which document has them.
const KINDS: &[(&str, &[Mark])] = &[
    // Linux kernel documentation, "ext4 Data Structures and Algorithms", The Super Block: s_magic.
    ("an ext2, ext3 or ext4 file system", &[(1024 + 0x38, b"\x53\xef")]),
    // Microsoft, "FAT32 File System Specification" 1.03: BS_FilSysType of FAT12 and FAT16, and of FAT32, which every formatter writes.
    ("a FAT file system", &[(54, b"FAT"), BOOT]),
    ("a FAT file system", &[(82, b"FAT32"), BOOT]),
    // Microsoft, "exFAT file system specification", Main and Backup Boot Sector: FileSystemName.
    ("an exFAT file system", &[(3, b"EXFAT   "), BOOT]),
    // Linux kernel, fs/ntfs3/ntfs.h, struct NTFS_BOOT: system_id.
    ("an NTFS file system", &[(3, b"NTFS    "), BOOT]),
    // "XFS Algorithms & Data Structures" (kernel.org), Superblocks: sb_magicnum.
    ("an XFS file system", &[(0, b"XFSB")]),
    // btrfs documentation, "On-disk Format", Superblock: magic.
    ("a btrfs file system", &[(0x10000 + 0x40, b"_BHRfS_M")]),
    // ECMA-119, 8.1.2: Standard Identifier of the first volume descriptor, in sector 16.
    ("an ISO 9660 file system", &[(16 * 2048 + 1, b"CD001")]),
    // Linux kernel, fs/squashfs/squashfs_fs.h: SQUASHFS_MAGIC.
    ("a squashfs file system", &[(0, b"hsqs")]),
    // "LUKS1 On-Disk Format Specification" and "LUKS2 On-Disk Format Specification": magic.
    ("a LUKS volume", &[(0, b"LUKS\xba\xbe")]),
    // Linux kernel, include/linux/swap.h, union swap_header: magic, at the end of the first page, of 4, 16 or 64 KiB.
    ("a swap area", &[(4096 - 10, b"SWAPSPACE2")]),
    ("a swap area", &[(16384 - 10, b"SWAPSPACE2")]),
    ("a swap area", &[(65536 - 10, b"SWAPSPACE2")]),
];

/// Refuses to lay over what is there.
pub fn refused(opened: &Opened) -> Outcome {
    let failed = |failure: io::Error| io_failure(&opened.shown(), &failure);
    let medium = opened.card.get_ref();
    let what = match opened.shown_slots()? {
        Some(slots) => Some(format!("{slots}, and laying drops them")),
        None => not_shown(&medium.beginning().map_err(failed)?, medium).map_err(failed)?.map(|what| format!("has {what}")),
    };
    match what {
        None => Ok(()),
        Some(what) => Err(Failure::Refused(format!("{} {what}. Nothing was changed. To lay it anew: card lay --force {}", opened.shown(), opened.word()))),
    }
}

/// What stands there that the card's reader does not show. The front table comes first: where it can be read, a file system's mark is an older one's.
fn not_shown(front: &[u8], medium: &Medium) -> io::Result<Option<String>> {
    let drops = |what: String| Ok(Some(format!("{what}, and laying drops them")));
    let in_front = used_slots(front, Table::Front);
    if let Some(used @ 1..) = in_front {
        return drops(format!("another maker's table with {}", count(used, "used slot")));
    }
    if let Some(used @ 1..) = used_at_end(medium)? {
        return drops(format!("a table at its end with {}", count(used, "used slot")));
    }
    if let (None, Some(kind)) = (in_front, kind_of(front)) {
        return Ok(Some(format!("{kind}, and laying writes over it")));
    }
    match mbr_partitions(front) {
        0 => Ok(None),
        partitions => drops(format!("an MBR with {}", count(partitions, "partition"))),
    }
}

/// How many slots the second edition finds used in one table, at either block size; `None` where it reads none.
fn used_slots(image: &[u8], table: Table) -> Option<usize> {
    [BlockSize::B512, BlockSize::B4096].into_iter().filter_map(|b| card::uefi_list(image, b, table).ok()).map(|list| list.len()).max()
}

/// The same of the table at the end. The second edition reads whole images, and so it is given one of the same length with nothing but the end in it.
fn used_at_end(medium: &Medium) -> io::Result<Option<usize>> {
    let (length, (place, end)) = (medium.length_now()?, medium.end()?);
    let header_at = |b: usize| (length as usize / b * b).checked_sub(b).and_then(|header| header.checked_sub(place as usize)).and_then(|at| end.get(at..));
    if ![512, 4096].into_iter().filter_map(header_at).any(|header| header.starts_with(b"EFI PART")) {
        return Ok(None);
    }
    let image = system::file_in_memory()?;
    image.set_len(length)?;
    image.write_all_at(&end, place)?;
    Ok(used_slots(system::map(&image, length as usize)?, Table::Back))
}

/// The kind whose marks all stand at their places.
fn kind_of(front: &[u8]) -> Option<&'static str> {
    let stands = |(place, bytes): &Mark| front.get(*place..).is_some_and(|rest| rest.starts_with(bytes));
    KINDS.iter().find(|(_, marks)| marks.iter().all(stands)).map(|(kind, _)| *kind)
}

/// How many partitions an MBR has, by UEFI's "Legacy MBR Partition Record": a record with a type and blocks that does not protect a GPT.
fn mbr_partitions(front: &[u8]) -> usize {
    // SAFETY: the pointer and the length are those of one slice, which is only read.
    let read = unsafe { ffi::gpt_mbr_from_image(front.as_ptr(), front.len(), 512) };
    let used = |record: &&ffi::gpt_part_record| !matches!(record.os_type, 0 | 0xee) && record.lb_size > 0 && record.boot_indicator & 0x7f == 0;
    if read.number == 0 {
        read.mbr.partitions.iter().filter(used).count()
    } else {
        0
    }
}

#[cfg(test)]
mod tests {
    use super::*;

    /// Every mark is wanted, at its place, within what is read of the file.
    #[test]
    fn kinds() {
        for (kind, marks) in KINDS {
            let mut front = vec![0; 1 << 20];
            for (place, bytes) in *marks {
                assert_ne!(kind_of(&front), Some(*kind));
                front[*place..place + bytes.len()].copy_from_slice(bytes);
            }
            assert_eq!(kind_of(&front), Some(*kind));
            let (place, bytes) = marks[0];
            assert_eq!(kind_of(&front[..place + bytes.len() - 1]), None);
        }
        assert_eq!(kind_of(&[]), None);
    }
}

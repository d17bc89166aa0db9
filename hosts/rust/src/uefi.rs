//! The second reading edition: the tables of other makers, by UEFI. The card calls stay with the first edition.
use crate::calls::so_many_rows;
use crate::refusal::accepted;
use crate::{ffi, BlockSize, Listing, Refused, Table};

/// The header of one table, which may state any size from 92 bytes to the block size: its check sum covers that many bytes, the rest of its block is zero, and it stands in the block
/// that it names as its own.
///
/// # Errors
///
/// Refused by 2 of the front or 8 of the back, 4, 29, 5, 30, 31.
pub fn uefi_header(image: &[u8], block_size: BlockSize, table: Table) -> Result<ffi::gpt_header, Refused> {
    let call = match table {
        Table::Front => ffi::gpt_uefi_read_primary_header,
        Table::Back => ffi::gpt_uefi_read_backup_header,
    };
    // SAFETY: the pointer and the length are those of one slice, which is only read; a slice's pointer is not null, also where it is empty.
    let answer = unsafe { call(image.as_ptr(), image.len(), block_size.bytes()) };
    accepted(answer.number, 0, 0, 0)?;
    Ok(answer.header)
}

/// The two calls of a table: how many entries are used, and their rows.
type Count = unsafe extern "C" fn(*const u8, usize, u64) -> ffi::gpt_count;
type Fill = unsafe extern "C" fn(*const u8, usize, u64, *mut u8, usize) -> ffi::gpt_count;

/// The slots of one table whose type is not nil, ascending, each with its record. An entry may have 128 bytes times a power of two, up to 4,096; those after 128 are passed over.
///
/// # Errors
///
/// Refused as [`uefi_header`] is, then by 7, 3, 2, 6.
pub fn uefi_list(image: &[u8], block_size: BlockSize, table: Table) -> Result<Listing, Refused> {
    let (count, fill): (Count, Fill) = match table {
        Table::Front => (ffi::gpt_uefi_count_primary, ffi::gpt_uefi_list_primary),
        Table::Back => (ffi::gpt_uefi_count_backup, ffi::gpt_uefi_list_backup),
    };
    // SAFETY: the pointer and the length are those of one slice, which is only read; a slice's pointer is not null, also where it is empty.
    let room = unsafe { count(image.as_ptr(), image.len(), block_size.bytes()) };
    accepted(room.number, 0, 0, 0)?;
    so_many_rows(room.count, |out, out_len| {
        // SAFETY: each pointer and length are those of one slice; the rows are new, so `image` is not inside them, and their structs take every byte.
        let answer = unsafe { fill(image.as_ptr(), image.len(), block_size.bytes(), out, out_len) };
        accepted(answer.number, 0, 0, 0)?;
        Ok(answer.count)
    })
}

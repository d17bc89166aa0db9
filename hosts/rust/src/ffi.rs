//! The C interface of libcard, whole: every struct and every function of include/card.h, by their C names. That header says what each means and by which numbers it refuses.
//!
//! The safe part of this crate makes the card calls; here are also the ported calls on headers, entries and the MBR, and the calls on text. An answer has its number first, 0 for
//! accepted; beside a refusal its other fields are zero, but for the slot, the place or the byte that the number names.
//!
//! # Safety
//!
//! Every call takes every number and every content of the bytes. What it cannot see for itself its caller owes:
//! - a pointer and the length behind it are one slice: never null, also where the length is 0, and aligned for its numbers;
//! - a slice that a call writes, `*mut`, overlaps no other of that call, and no one else reads or writes it until the call returns; a slice that it only reads no one else writes;
//! - a yes/no, a `u8` here, is 0 or 1;
//! - there are 20,480 bytes of stack.
//!
//! ```
//! use card::ffi::*;
//!
//! let mut words = [0; 160];
//! // SAFETY: each pointer and length are those of one slice.
//! let (sum, said) = unsafe { (gpt_crc32(b"123456789".as_ptr(), 9), card_message(words.as_mut_ptr(), words.len(), 22, 0, 1)) };
//! assert_eq!(sum, 0xcbf4_3926);
//! assert_eq!(&words[..said.length], b"refused 22, Overlap: a block that another slot has (slot 1)");
//! ```
#![allow(missing_docs, non_camel_case_types)]
use core::mem::size_of;

/// The bytes of a value, or the first of them.
#[derive(Clone, Copy)]
#[repr(C)]
union Bytes<T: Copy, const N: usize> {
    value: T,
    bytes: [u8; N],
}

/// Bytes that hold each its own place, divided by a number.
// Compilers before 1.69 do not count a use in a nameless constant.
#[allow(dead_code)]
const fn counted<const N: usize>(by: usize) -> [u8; N] {
    let mut bytes = [0; N];
    let mut place = 0;
    while place < N {
        bytes[place] = (place / by) as u8;
        place += 1;
    }
    bytes
}

/// The place of a field in a struct, as the compiler has it: if every byte of the struct holds its own place, so does the field's first byte. The place's low and high byte are
/// read one after the other. (`offset_of` says the same, but Rust has it since 1.77 only.)
macro_rules! place_of {
    ($name:ty, $size:literal, $field:ident, $type:ty) => {{
        // SAFETY: structs and fields are of numbers alone, so that any bytes are one, and no field begins with a gap.
        let (low, high) = unsafe {
            let low = Bytes::<$name, $size> { bytes: counted(1) }.value.$field;
            let high = Bytes::<$name, $size> { bytes: counted(256) }.value.$field;
            (Bytes::<$type, 1> { value: low }.bytes[0], Bytes::<$type, 1> { value: high }.bytes[0])
        };
        low as usize + high as usize * 256
    }};
}

/// Declares structs of the header: each with its size, and each field behind its place. Both are asserted while compiling, and kept for the test below.
macro_rules! structs {
    ($($name:ident $size:literal { $($place:literal $field:ident: $type:ty),* })*) => {
        $(
            #[doc = concat!("`", stringify!($name), "` of include/card.h: ", stringify!($size), " bytes.")]
            #[repr(C)]
            #[derive(Clone, Copy, Debug, PartialEq, Eq)]
            pub struct $name { $(pub $field: $type),* }
            const _: () = assert!(size_of::<$name>() == $size);
            $(const _: () = assert!(place_of!($name, $size, $field, $type) == $place);)*
        )*

        /// Name and size of each struct; place, name and type of each of its fields.
        #[cfg(test)]
        const STRUCTS: &[(&str, usize, &[(usize, &str, &str)])] =
            &[$((stringify!($name), $size, &[$(($place, stringify!($field), stringify!($type))),*])),*];
    };
}

/// Declares functions of the header.
macro_rules! functions {
    ($(fn $name:ident($($parameter:ident: $type:ty),*) $(-> $answer:ty)?;)*) => {
        extern "C" {
            $(
                #[doc = concat!("`", stringify!($name), "` of include/card.h.")]
                pub fn $name($($parameter: $type),*) $(-> $answer)?;
            )*
        }

        /// Each function as it is declared, and where the library has it.
        #[cfg(test)]
        const FUNCTIONS: &[(&str, *const ())] = &[$((
            concat!(stringify!($name), "(" $(, stringify!($parameter), ": ", stringify!($type), ", ")*, ")" $(, " -> ", stringify!($answer))?),
            $name as *const (),
        )),*];
    };
}

// C's bool is a byte here, so that no value of it could be undefined: 0 or 1.
const _: () = assert!(size_of::<bool>() == size_of::<u8>());

structs! {
    gpt_guid 16 { 0 time_low: u32, 4 time_mid: u16, 6 time_high: u16, 8 tail: [u8; 8] }
    gpt_flags 16 { 0 reserved: u64, 8 owner: u16, 10 required: u8, 11 no_block_io: u8, 12 legacy_bootable: u8 }
    gpt_partition 136 {
        0 part_type_guid: gpt_guid, 16 part_guid: gpt_guid, 32 first_lba: u64, 40 last_lba: u64, 48 flags: gpt_flags, 64 name: [u16; 36]
    }
    gpt_entry 128 { 0 part_type_guid: gpt_guid, 16 part_guid: gpt_guid, 32 first_lba: u64, 40 last_lba: u64, 48 flags: u64, 56 name: [u16; 36] }
    gpt_revision 4 { 0 major: u16, 2 minor: u16 }
    gpt_header 88 {
        0 revision: gpt_revision, 4 header_size_le: u32, 8 crc32: u32, 12 reserved: u32, 16 current_lba: u64, 24 backup_lba: u64,
        32 first_usable: u64, 40 last_usable: u64, 48 disk_guid: gpt_guid, 64 part_start: u64, 72 num_parts: u32, 76 part_size: u32, 80 crc32_parts: u32
    }
    gpt_part_record 16 {
        0 boot_indicator: u8, 1 start_head: u8, 2 start_sector: u8, 3 start_track: u8, 4 os_type: u8, 5 end_head: u8, 6 end_sector: u8,
        7 end_track: u8, 8 lb_start: u32, 12 lb_size: u32
    }
    gpt_mbr 512 { 0 bootcode: [u8; 440], 440 disk_signature: [u8; 4], 444 unknown: u16, 448 partitions: [gpt_part_record; 4] }
    gpt_settings 56 {
        0 disk_guid: gpt_guid, 16 backup_lba: u64, 24 first_usable: u64, 32 last_usable: u64, 40 num_parts: u32, 44 part_size: u32, 48 primary: u8
    }
    card_answer 16 { 0 number: u32, 4 slot: u32, 8 place: u32, 12 differs: u32 }
    card_stored 24 { 0 number: u32, 4 place: u32, 8 differs: u32, 16 bytes: u64 }
    card_count 16 { 0 number: u32, 4 count: u32, 8 place: u32, 12 differs: u32 }
    card_next 16 { 0 number: u32, 4 slot: u32, 8 place: u32, 12 differs: u32 }
    card_slot_read 152 { 0 number: u32, 4 present: u8, 8 place: u32, 12 differs: u32, 16 partition: gpt_partition }
    card_used_read 160 { 0 number: u32, 4 found: u8, 8 slot: u32, 12 place: u32, 16 differs: u32, 24 partition: gpt_partition }
    gpt_stored 16 { 0 number: u32, 8 bytes: u64 }
    gpt_count 8 { 0 number: u32, 4 count: u32 }
    gpt_next 8 { 0 number: u32, 4 slot: u32 }
    gpt_slot_read 144 { 0 number: u32, 4 present: u8, 8 partition: gpt_partition }
    card_row 136 { 0 slot: u64, 8 entry: gpt_entry }
    card_slot_map 16 { 0 low: u64, 8 high: u64 }
    card_map_made 32 { 0 number: u32, 4 place: u32, 8 differs: u32, 16 map: card_slot_map }
    card_carried 32 { 0 answer: card_answer, 16 map: card_slot_map }
    card_label 8 { 0 year: u16, 2 month: u8, 3 day: u8, 4 style: u16, 6 sheet: u16 }
    card_label_read 20 { 0 number: u32, 4 place: u32, 8 differs: u32, 12 label: card_label }
    card_judged 24 { 0 number: u32, 4 slot: u32, 8 place: u32, 12 differs: u32, 16 year: u16, 18 month: u8, 19 day: u8, 20 style: u16 }
    card_copy 8 { 0 number: u32, 4 back: u8 }
    card_update 176 { 0 next: u32, 4 slot: u32, 8 b: u64, 16 len: usize, 24 entry: [u8; 128], 152 guid: gpt_guid, 168 parts: u32 }
    card_update_step 192 { 0 number: u32, 4 slot: u32, 8 place: u32, 12 differs: u32, 16 state: card_update }
    card_repair 48 { 0 next: u32, 4 back: u8, 8 b: u64, 16 len: usize, 24 guid: gpt_guid, 40 parts: u32 }
    card_repair_step 64 { 0 number: u32, 4 slot: u32, 8 place: u32, 12 differs: u32, 16 state: card_repair }
    card_spot 24 { 0 number: u32, 4 place: u32, 8 differs: u32, 16 at: u64 }
    gpt_header_read 96 { 0 number: u32, 8 header: gpt_header }
    gpt_block 16 { 0 number: u32, 8 lba: u64 }
    gpt_sum 8 { 0 number: u32, 4 sum: u32 }
    gpt_header_written 104 { 0 number: u32, 8 bytes: u64, 16 header: gpt_header }
    gpt_flag_bits 16 { 0 number: u32, 8 bits: u64 }
    gpt_entry_read 144 { 0 number: u32, 8 partition: gpt_partition }
    gpt_length 16 { 0 number: u32, 8 length: u64 }
    gpt_place 16 { 0 number: u32, 8 place: u64 }
    gpt_mbr_read 516 { 0 number: u32, 4 mbr: gpt_mbr }
    gpt_record_read 20 { 0 number: u32, 4 part_record: gpt_part_record }
    gpt_record_bytes 16 { 0 bytes: [u8; 16] }
    gpt_mbr_bytes 512 { 0 bytes: [u8; 512] }
    gpt_record_set 532 { 0 number: u32, 4 old: gpt_part_record, 20 mbr: gpt_mbr }
    gpt_bootcode_read 444 { 0 number: u32, 4 bootcode: [u8; 440] }
    gpt_bootcode 440 { 0 bytes: [u8; 440] }
    gpt_signature_read 8 { 0 number: u32, 4 disk_signature: [u8; 4] }
    gpt_signature 4 { 0 bytes: [u8; 4] }
    card_version_numbers 12 { 0 major: u32, 4 minor: u32, 8 patch: u32 }
    card_text 16 { 0 number: u32, 8 length: usize }
    gpt_guid_of_text 32 { 0 number: u32, 8 at: usize, 16 guid: gpt_guid }
    gpt_name_of_text 88 { 0 number: u32, 8 at: usize, 16 name: [u16; 36] }
}

functions! {
    fn card_lay(img: *mut u8, img_len: usize, b: u64, guid: gpt_guid) -> card_answer;
    fn card_check(img: *const u8, img_len: usize, b: u64) -> card_answer;
    fn card_put(img: *mut u8, img_len: usize, b: u64, slot: u32, partition: gpt_partition) -> card_answer;
    fn card_clear(img: *mut u8, img_len: usize, b: u64, slot: u32) -> card_answer;
    fn card_write_payload(img: *mut u8, img_len: usize, b: u64, slot: u32, place: usize, bytes: *const u8, bytes_len: usize) -> card_stored;
    fn card_count_used(img: *const u8, img_len: usize, b: u64) -> card_count;
    fn card_next_used(img: *const u8, img_len: usize, b: u64, after: u32) -> card_next;
    fn card_read_slot(img: *const u8, img_len: usize, b: u64, slot: u32) -> card_slot_read;
    fn card_nth_used(img: *const u8, img_len: usize, b: u64, k: u32) -> card_used_read;
    fn card_list(img: *const u8, img_len: usize, b: u64, out: *mut u8, out_len: usize) -> card_count;
    fn card_free_runs(img: *const u8, img_len: usize, b: u64, starts: *mut u64, starts_len: usize, lengths: *mut u64, lengths_len: usize) -> card_count;
    fn card_map_make(img: *const u8, img_len: usize, b: u64) -> card_map_made;
    fn card_map_put(img: *mut u8, img_len: usize, b: u64, slot: u32, partition: gpt_partition, map: card_slot_map) -> card_carried;
    fn card_map_clear(img: *mut u8, img_len: usize, b: u64, slot: u32, map: card_slot_map) -> card_carried;
    fn card_map_lowest_free(map: card_slot_map) -> gpt_next;
    fn card_map_used(map: card_slot_map) -> u32;
    fn card_read_label(img: *const u8, img_len: usize, b: u64, slot: u32) -> card_label_read;
    fn card_write_label(img: *mut u8, img_len: usize, b: u64, slot: u32, label: card_label) -> card_answer;
    fn card_judge(img: *const u8, img_len: usize, b: u64, slots: *const u32, slots_len: usize) -> card_judged;
    fn card_window_read_label(head: *const u8, head_len: usize, tail: *const u8, tail_len: usize, blocks: u64, b: u64, slot: u32, label: *const u8, label_len: usize) -> card_label_read;
    fn card_window_judge(head: *const u8, head_len: usize, tail: *const u8, tail_len: usize, blocks: u64, b: u64, slots: *const u32, slots_len: usize, labels: *const u8, labels_len: usize) -> card_judged;
    fn card_reader_copy(img: *const u8, img_len: usize, b: u64) -> card_copy;
    fn card_reader_count(img: *const u8, img_len: usize, b: u64) -> gpt_count;
    fn card_reader_next(img: *const u8, img_len: usize, b: u64, after: u32) -> gpt_next;
    fn card_reader_slot(img: *const u8, img_len: usize, b: u64, slot: u32) -> gpt_slot_read;
    fn card_reader_list(img: *const u8, img_len: usize, b: u64, out: *mut u8, out_len: usize) -> gpt_count;
    fn card_start_put(img: *mut u8, img_len: usize, b: u64, slot: u32, partition: gpt_partition) -> card_update_step;
    fn card_start_clear(img: *mut u8, img_len: usize, b: u64, slot: u32) -> card_update_step;
    fn card_next_stage(img: *mut u8, img_len: usize, b: u64, stage: u32, state: card_update) -> card_update_step;
    fn card_start_repair(img: *mut u8, img_len: usize, b: u64) -> card_repair_step;
    fn card_next_repair(img: *mut u8, img_len: usize, b: u64, stage: u32, state: card_repair) -> card_repair_step;
    fn card_window_lay(head: *mut u8, head_len: usize, tail: *mut u8, tail_len: usize, blocks: u64, b: u64, guid: gpt_guid) -> card_answer;
    fn card_window_check(head: *const u8, head_len: usize, tail: *const u8, tail_len: usize, blocks: u64, b: u64) -> card_answer;
    fn card_window_put(head: *mut u8, head_len: usize, tail: *mut u8, tail_len: usize, blocks: u64, b: u64, slot: u32, partition: gpt_partition) -> card_answer;
    fn card_window_clear(head: *mut u8, head_len: usize, tail: *mut u8, tail_len: usize, blocks: u64, b: u64, slot: u32) -> card_answer;
    fn card_window_count_used(head: *const u8, head_len: usize, tail: *const u8, tail_len: usize, blocks: u64, b: u64) -> card_count;
    fn card_window_next_used(head: *const u8, head_len: usize, tail: *const u8, tail_len: usize, blocks: u64, b: u64, after: u32) -> card_next;
    fn card_window_read_slot(head: *const u8, head_len: usize, tail: *const u8, tail_len: usize, blocks: u64, b: u64, slot: u32) -> card_slot_read;
    fn card_window_nth_used(head: *const u8, head_len: usize, tail: *const u8, tail_len: usize, blocks: u64, b: u64, k: u32) -> card_used_read;
    fn card_window_list(head: *const u8, head_len: usize, tail: *const u8, tail_len: usize, blocks: u64, b: u64, out: *mut u8, out_len: usize) -> card_count;
    fn card_window_free_runs(head: *const u8, head_len: usize, tail: *const u8, tail_len: usize, blocks: u64, b: u64, starts: *mut u64, starts_len: usize, lengths: *mut u64, lengths_len: usize) -> card_count;
    fn card_window_map_make(head: *const u8, head_len: usize, tail: *const u8, tail_len: usize, blocks: u64, b: u64) -> card_map_made;
    fn card_window_reader_copy(head: *const u8, head_len: usize, tail: *const u8, tail_len: usize, blocks: u64, b: u64) -> card_copy;
    fn card_window_reader_count(head: *const u8, head_len: usize, tail: *const u8, tail_len: usize, blocks: u64, b: u64) -> gpt_count;
    fn card_window_reader_next(head: *const u8, head_len: usize, tail: *const u8, tail_len: usize, blocks: u64, b: u64, after: u32) -> gpt_next;
    fn card_window_reader_slot(head: *const u8, head_len: usize, tail: *const u8, tail_len: usize, blocks: u64, b: u64, slot: u32) -> gpt_slot_read;
    fn card_window_reader_list(head: *const u8, head_len: usize, tail: *const u8, tail_len: usize, blocks: u64, b: u64, out: *mut u8, out_len: usize) -> gpt_count;
    fn card_window_start_put(head: *mut u8, head_len: usize, tail: *mut u8, tail_len: usize, blocks: u64, b: u64, slot: u32, partition: gpt_partition) -> card_update_step;
    fn card_window_start_clear(head: *mut u8, head_len: usize, tail: *mut u8, tail_len: usize, blocks: u64, b: u64, slot: u32) -> card_update_step;
    fn card_window_next_stage(head: *mut u8, head_len: usize, tail: *mut u8, tail_len: usize, blocks: u64, b: u64, stage: u32, state: card_update) -> card_update_step;
    fn card_window_start_repair(head: *mut u8, head_len: usize, tail: *mut u8, tail_len: usize, blocks: u64, b: u64) -> card_repair_step;
    fn card_window_next_repair(head: *mut u8, head_len: usize, tail: *mut u8, tail_len: usize, blocks: u64, b: u64, stage: u32, state: card_repair) -> card_repair_step;
    fn card_payload_place(img: *const u8, img_len: usize, b: u64, slot: u32, place: usize, n: usize) -> card_spot;
    fn card_window_payload_place(head: *const u8, head_len: usize, tail: *const u8, tail_len: usize, blocks: u64, b: u64, slot: u32, place: usize, n: usize) -> card_spot;
    fn card_read_payload(img: *const u8, img_len: usize, b: u64, slot: u32, place: usize, out: *mut u8, out_len: usize) -> card_stored;
    fn gpt_crc32(bytes: *const u8, bytes_len: usize) -> u32;
    fn gpt_crc32_next(running: u32, bytes: *const u8, bytes_len: usize) -> u32;
    fn gpt_read_primary_header(img: *const u8, img_len: usize, b: u64) -> gpt_header_read;
    fn gpt_read_backup_header(img: *const u8, img_len: usize, b: u64) -> gpt_header_read;
    fn gpt_find_backup_lba(len: usize, b: u64) -> gpt_block;
    fn gpt_partentry_checksum(img: *const u8, img_len: usize, header: gpt_header, b: u64) -> gpt_sum;
    fn gpt_slot_sum(sum: u32, was: *const u8, was_len: usize, is: *const u8, is_len: usize, after: usize) -> gpt_sum;
    fn gpt_write_primary(img: *mut u8, img_len: usize, header: gpt_header, b: u64) -> gpt_header_written;
    fn gpt_write_backup(img: *mut u8, img_len: usize, header: gpt_header, b: u64) -> gpt_header_written;
    fn gpt_settings_new(guid: gpt_guid) -> gpt_settings;
    fn gpt_build(settings: gpt_settings, b: u64) -> gpt_header_read;
    fn gpt_build_from_header(header: gpt_header, b: u64) -> gpt_header_read;
    fn gpt_flags_of(bits: u64) -> gpt_flags;
    fn gpt_flags_bits(flags: gpt_flags) -> gpt_flag_bits;
    fn gpt_entry_from_bytes(bytes: *const u8, bytes_len: usize) -> gpt_entry_read;
    fn gpt_entry_to_bytes(out: *mut u8, out_len: usize, partition: gpt_partition) -> u32;
    fn gpt_is_used(partition: gpt_partition) -> u8;
    fn gpt_sectors_len(partition: gpt_partition) -> gpt_length;
    fn gpt_bytes_len(partition: gpt_partition, b: u64) -> gpt_length;
    fn gpt_bytes_start(partition: gpt_partition, b: u64) -> gpt_place;
    fn gpt_write_entry(img: *mut u8, img_len: usize, partition: gpt_partition, index: u64, start_lba: u64, b: u64, entry_size: u32) -> gpt_stored;
    fn gpt_write_zero_entries(img: *mut u8, img_len: usize, index: u64, count: u64, start_lba: u64, b: u64, entry_size: u32) -> gpt_stored;
    fn gpt_read_partition(img: *const u8, img_len: usize, header: gpt_header, b: u64, slot: u32) -> gpt_slot_read;
    fn gpt_count_partitions(img: *const u8, img_len: usize, header: gpt_header, b: u64) -> gpt_count;
    fn gpt_next_partition(img: *const u8, img_len: usize, header: gpt_header, b: u64, after: u32) -> gpt_next;
    fn gpt_file_read_partitions(img: *const u8, img_len: usize, header: gpt_header, b: u64, out: *mut u8, out_len: usize) -> gpt_count;
    fn gpt_uefi_read_primary_header(img: *const u8, img_len: usize, b: u64) -> gpt_header_read;
    fn gpt_uefi_read_backup_header(img: *const u8, img_len: usize, b: u64) -> gpt_header_read;
    fn gpt_uefi_read_partition(img: *const u8, img_len: usize, header: gpt_header, b: u64, slot: u32) -> gpt_slot_read;
    fn gpt_uefi_count_partitions(img: *const u8, img_len: usize, header: gpt_header, b: u64) -> gpt_count;
    fn gpt_uefi_next_partition(img: *const u8, img_len: usize, header: gpt_header, b: u64, after: u32) -> gpt_next;
    fn gpt_uefi_file_read_partitions(img: *const u8, img_len: usize, header: gpt_header, b: u64, out: *mut u8, out_len: usize) -> gpt_count;
    fn gpt_uefi_count_primary(img: *const u8, img_len: usize, b: u64) -> gpt_count;
    fn gpt_uefi_count_backup(img: *const u8, img_len: usize, b: u64) -> gpt_count;
    fn gpt_uefi_list_primary(img: *const u8, img_len: usize, b: u64, out: *mut u8, out_len: usize) -> gpt_count;
    fn gpt_uefi_list_backup(img: *const u8, img_len: usize, b: u64, out: *mut u8, out_len: usize) -> gpt_count;
    fn gpt_mbr_new(lb_size: u32) -> gpt_mbr;
    fn gpt_mbr_protective_record(lb_size: u32) -> gpt_part_record;
    fn gpt_mbr_from_bytes(buf: *const u8, buf_len: usize, b: u64) -> gpt_mbr_read;
    fn gpt_mbr_from_image(img: *const u8, img_len: usize, b: u64) -> gpt_mbr_read;
    fn gpt_mbr_record_from_bytes(buf: *const u8, buf_len: usize) -> gpt_record_read;
    fn gpt_mbr_record_to_bytes(part_record: gpt_part_record) -> gpt_record_bytes;
    fn gpt_mbr_to_bytes(mbr: gpt_mbr) -> gpt_mbr_bytes;
    fn gpt_mbr_record(mbr: gpt_mbr, place: usize) -> gpt_record_read;
    fn gpt_mbr_set_record(mbr: gpt_mbr, place: usize, part_record: gpt_part_record) -> gpt_record_set;
    fn gpt_mbr_overwrite(img: *mut u8, img_len: usize, mbr: gpt_mbr) -> gpt_stored;
    fn gpt_mbr_update_conservative(img: *mut u8, img_len: usize, mbr: gpt_mbr) -> gpt_stored;
    fn gpt_mbr_read_bootcode(img: *const u8, img_len: usize) -> gpt_bootcode_read;
    fn gpt_mbr_write_bootcode(img: *mut u8, img_len: usize, bootcode: gpt_bootcode) -> gpt_stored;
    fn gpt_mbr_read_disk_signature(img: *const u8, img_len: usize) -> gpt_signature_read;
    fn gpt_mbr_write_disk_signature(img: *mut u8, img_len: usize, signature: gpt_signature) -> gpt_stored;
    fn card_version() -> card_version_numbers;
    fn card_message(out: *mut u8, out_len: usize, number: u32, place: u32, slot: u32) -> card_text;
    fn gpt_guid_to_text(out: *mut u8, out_len: usize, guid: gpt_guid) -> card_text;
    fn gpt_guid_from_text(text: *const u8, text_len: usize) -> gpt_guid_of_text;
    fn gpt_name_to_utf8(out: *mut u8, out_len: usize, name: *const u16, name_len: usize) -> card_text;
    fn gpt_name_from_utf8(text: *const u8, text_len: usize) -> gpt_name_of_text;
}

impl card_row {
    /// A row of zeros, to lend to `card_list`.
    pub const ZERO: card_row = {
        let nil = gpt_guid { time_low: 0, time_mid: 0, time_high: 0, tail: [0; 8] };
        card_row { slot: 0, entry: gpt_entry { part_type_guid: nil, part_guid: nil, first_lba: 0, last_lba: 0, flags: 0, name: [0; 36] } }
    };
}

#[cfg(test)]
mod tests {
    use super::*;

    /// What this module declares, as lines: a struct's size, a field's place and type, a function.
    fn declared() -> Vec<String> {
        let mut lines: Vec<String> = FUNCTIONS.iter().map(|(function, _)| function.to_string()).collect();
        for (name, size, fields) in STRUCTS {
            lines.push(format!("{name} has {size} bytes"));
            for (place, field, kind) in *fields {
                lines.push(format!("{name}.{field} is at {place}"));
                lines.push(format!("{name}.{field}: {kind}"));
            }
        }
        lines
    }

    /// A declaration of C, as `uint8_t tail[8]`, in Rust's words.
    fn in_rust(declaration: &str) -> String {
        let (kind, name) = declaration.split_at(declaration.rfind([' ', '*']).unwrap() + 1);
        let kind = match kind.trim_end() {
            "uint8_t" | "bool" => "u8",
            "uint16_t" => "u16",
            "uint32_t" => "u32",
            "uint64_t" => "u64",
            "size_t" => "usize",
            "uint8_t *" | "char *" => "*mut u8",
            "const uint8_t *" | "const char *" => "*const u8",
            "const uint16_t *" => "*const u16",
            "const uint32_t *" => "*const u32",
            "uint64_t *" => "*mut u64",
            of_the_header => of_the_header,
        };
        match name.split_once('[') {
            Some((name, count)) => format!("{name}: [{kind}; {count}"),
            None => format!("{name}: {kind}"),
        }
    }

    /// A function's line of C in Rust's words.
    fn function_in_rust(line: &str) -> String {
        let (answer, parameters) = line.strip_suffix(");").and_then(|line| line.split_once('(')).expect(line);
        let parameters: String = parameters.split(", ").filter(|&parameter| parameter != "void").map(|parameter| in_rust(parameter) + ", ").collect();
        match in_rust(answer).split_once(": ").unwrap() {
            (name, "void") => format!("{name}({parameters})"),
            (name, answer) => format!("{name}({parameters}) -> {answer}"),
        }
    }

    /// What the header declares and asserts, in the same form. Its declarations begin at a line's first letter, a struct's fields behind four spaces.
    fn stated(header: &str) -> Vec<String> {
        let mut lines = Vec::new();
        let mut of = "";
        for line in header.lines() {
            let inside = |from: &str, to: &str| line.strip_prefix(from).and_then(|rest| rest.strip_suffix(to));
            if let Some(name) = inside("typedef struct ", " {") {
                of = name;
            } else if line.starts_with('}') {
                of = "";
            } else if let Some(field) = line.strip_prefix("    ").filter(|_| !of.is_empty()) {
                lines.push(format!("{of}.{}", in_rust(field.split_once(';').unwrap().0)));
            } else if let Some(size) = inside("CARD_SIZE(", ");") {
                let (name, size) = size.split_once(", ").unwrap();
                lines.push(format!("{name} has {size} bytes"));
            } else if let Some(place) = inside("CARD_AT(", ");") {
                let (field, place) = place.rsplit_once(", ").unwrap();
                lines.push(format!("{} is at {place}", field.replace(", ", ".")));
            } else if line.starts_with(|c: char| c.is_ascii_alphabetic()) && !["enum ", "extern ", "static "].iter().any(|word| line.starts_with(word)) {
                lines.push(function_in_rust(line));
            }
        }
        lines
    }

    /// Neither this module nor the header has a struct, a field, a number, a type or a function that the other has not.
    #[test]
    fn declarations_are_those_of_the_header() {
        let header = match crate::repository::header() {
            Some(header) => header,
            None => return,
        };
        let (here, header) = (declared(), stated(&header));
        let only = |these: &[String], those: &[String]| these.iter().filter(|line| !those.contains(line)).cloned().collect::<Vec<_>>();
        assert_eq!((only(&here, &header), only(&header, &here)), (vec![], vec![]), "only here, and only in include/card.h");
        assert_eq!(here.len(), header.len());
    }

    /// The test's program links only if the library has each of them.
    #[test]
    fn functions_are_in_the_library() {
        assert!(FUNCTIONS.iter().all(|(_, place)| !place.is_null()));
    }
}

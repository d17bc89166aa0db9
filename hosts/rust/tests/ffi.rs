//! Calls of the C interface that the safe part of this crate does not make: structs of every kind cross both ways, in registers and in memory.
use card::ffi::*;
use card::{Guid, Name, Place, Refusal, Refused};

const GUID: gpt_guid = gpt_guid { time_low: 0x5a3f_1c20, time_mid: 0x11e7, time_high: 0x4b6d, tail: [0x9c, 4, 2, 0x42, 0xac, 0x11, 0, 0] };

#[test]
fn the_builder_gives_the_header_that_lay_writes() {
    let mut image = vec![0; 68 * 512];
    // SAFETY: each pointer and length are those of one slice.
    unsafe {
        let settings = gpt_settings { backup_lba: 67, ..gpt_settings_new(GUID) };
        let built = gpt_build(settings, 512);
        assert_eq!((settings.primary, settings.num_parts, built.number), (1, 128, 0));
        assert_eq!((built.header.first_usable, built.header.last_usable, built.header.disk_guid), (34, 34, GUID));
        assert_eq!(card_lay(image.as_mut_ptr(), image.len(), 512, GUID), card_answer { number: 0, slot: 0, place: 0, differs: 0 });
        let read = gpt_read_primary_header(image.as_ptr(), image.len(), 512);
        assert_eq!((read.number, read.header), (0, gpt_header { crc32: read.header.crc32, crc32_parts: 0xab54_d286, ..built.header }));
        let written = gpt_write_primary(image.as_mut_ptr(), image.len(), built.header, 512);
        assert_eq!((written.number, written.bytes, written.header), (0, 512, read.header));
        assert_eq!(gpt_build(gpt_settings { backup_lba: 66, ..settings }, 512).number, 10);
    }
}

#[test]
fn an_entry_goes_to_the_array_and_comes_back() {
    let mut image = vec![0; 68 * 512];
    let flags = gpt_flags { reserved: 0, owner: 0xc7c6, required: 1, no_block_io: 0, legacy_bootable: 1 };
    let partition = gpt_partition { part_type_guid: GUID, part_guid: GUID, first_lba: 34, last_lba: 34, flags, name: [0; 36] };
    let nil = gpt_partition { part_type_guid: card_row::ZERO.entry.part_type_guid, ..partition };
    // SAFETY: each pointer and length are those of one slice.
    unsafe {
        assert_eq!(card_put(image.as_mut_ptr(), image.len(), 512, 1, partition).number, 4);
        assert_eq!(gpt_write_entry(image.as_mut_ptr(), image.len(), partition, 1, 2, 512, 128), gpt_stored { number: 0, bytes: 128 });
        assert_eq!(gpt_entry_from_bytes(image[1152..].as_ptr(), 128), gpt_entry_read { number: 0, partition });
        assert_eq!(gpt_flags_of(0xc7c6_0000_0000_0005), flags);
        assert_eq!(gpt_flags_bits(flags), gpt_flag_bits { number: 0, bits: 0xc7c6_0000_0000_0005 });
        assert_eq!(&image[1200..1208], &0xc7c6_0000_0000_0005u64.to_le_bytes());
        let wide = gpt_partition { flags: gpt_flags { reserved: 1 << 45, ..flags }, ..partition };
        let mut bytes = [0x77; 128];
        assert_eq!(gpt_flags_bits(wide.flags), gpt_flag_bits { number: 28, bits: 0 });
        assert_eq!((gpt_entry_to_bytes(bytes.as_mut_ptr(), 128, wide), bytes), (28, [0x77; 128]));
        assert_eq!((gpt_entry_to_bytes(bytes.as_mut_ptr(), 128, partition), &bytes[..]), (0, &image[1152..1280]));
        assert_eq!((gpt_is_used(partition), gpt_is_used(nil)), (1, 0));
        assert_eq!(gpt_bytes_start(partition, 512), gpt_place { number: 0, place: 34 * 512 });
        assert_eq!(gpt_crc32(b"123456789".as_ptr(), 9), 0xcbf4_3926);
        assert_eq!(gpt_crc32_next(gpt_crc32(b"1234".as_ptr(), 4), b"56789".as_ptr(), 5), 0xcbf4_3926);
    }
}

#[test]
fn the_mbr_and_its_parts_cross() {
    let mut image = vec![0; 512];
    // SAFETY: each pointer and length are those of one slice.
    unsafe {
        let protective = gpt_mbr_protective_record(u32::MAX);
        assert_eq!(gpt_mbr_record_to_bytes(protective).bytes, [0, 0, 2, 0, 0xee, 0xff, 0xff, 0xff, 1, 0, 0, 0, 0xff, 0xff, 0xff, 0xff]);
        let set = gpt_mbr_set_record(gpt_mbr_new(67), 3, protective);
        assert_eq!((set.number, set.old.os_type, set.mbr.partitions[3]), (0, 0, protective));
        assert_eq!(gpt_mbr_overwrite(image.as_mut_ptr(), image.len(), set.mbr).bytes, 512);
        assert_eq!(gpt_mbr_write_disk_signature(image.as_mut_ptr(), image.len(), gpt_signature { bytes: *b"disk" }).bytes, 4);
        let read = gpt_mbr_from_image(image.as_ptr(), image.len(), 512);
        assert_eq!((read.number, read.mbr), (0, gpt_mbr { disk_signature: *b"disk", ..set.mbr }));
        assert_eq!(gpt_mbr_read_bootcode(image.as_ptr(), 439), gpt_bootcode_read { number: 2, bootcode: [0; 440] });
    }
}

/// What a call stores in 160 lent bytes.
fn told(call: impl Fn(*mut u8, usize) -> card_text) -> String {
    let mut bytes = [0x5a; 160];
    let text = call(bytes.as_mut_ptr(), bytes.len());
    assert_eq!((text.number, bytes[text.length]), (0, 0));
    assert!(bytes[text.length + 1..].iter().all(|byte| *byte == 0x5a));
    String::from_utf8(bytes[..text.length].to_vec()).unwrap()
}

/// The words of the library for a refusal.
fn words(number: u32, place: u32, slot: u32) -> String {
    // SAFETY: `told` lends the bytes and their length.
    told(|out, len| unsafe { card_message(out, len, number, place, slot) })
}

/// A refusal is said in the same words here and by the library, with every place and slot.
#[test]
fn the_words_of_a_refusal_are_the_librarys() {
    for number in 1..=38 {
        let slot = if number == 22 || number == 25 { 128 } else { 0 };
        let refusal = Refusal::from_number(number, slot).unwrap();
        assert_eq!(words(number, 0, slot), refusal.to_string());
        let places: &[(u32, u32, Place)] = match number {
            4 | 5 | 6 | 16 => &[(1, 0, Place::Front), (2, 0, Place::Back)],
            17 => &[(3, 0, Place::DiskGuid), (4, 77, Place::Slot(77))],
            _ => &[],
        };
        for (place, slot, at) in places {
            assert_eq!(words(number, *place, *slot), Refused { refusal, place: Some(*at) }.to_string());
        }
    }
    assert_eq!((words(0, 0, 0), words(41, 0, 0)), ("accepted".to_string(), "the library has no such number".to_string()));
}

#[test]
fn a_guid_is_told_and_read_as_the_library_does() {
    let texts = [
        "ebd0a0a2-b9e5-4433-87c0-68b6b72699c7",
        "EBD0A0A2-B9E5-4433-87C0-68B6B72699C7",
        "",
        "ebd0a0a2",
        "ebd0a0a2-b9e5-4433-87c0-68b6b72699c7 ",
        "{bd0a0a2-b9e5-4433-87c0-68b6b72699c}",
        "ebd0a0a2_b9e5-4433-87c0-68b6b72699c7",
    ];
    for text in texts {
        // SAFETY: the pointer and the length are those of one text.
        let read = unsafe { gpt_guid_from_text(text.as_ptr(), text.len()) };
        let (low, mid, high, tail) = (read.guid.time_low, read.guid.time_mid, read.guid.time_high, read.guid.tail);
        match text.parse::<Guid>() {
            Ok(guid) => {
                assert_eq!((read.number, read.at, Guid::from_fields(low, mid, high, tail)), (0, 0, guid));
                // SAFETY: `told` lends the bytes and their length.
                assert_eq!(told(|out, len| unsafe { gpt_guid_to_text(out, len, read.guid) }), guid.to_string());
            }
            Err(_) => assert_eq!((read.number, Guid::from_fields(low, mid, high, tail)), (39, Guid::NIL), "{text}"),
        }
    }
}

#[test]
fn a_name_is_told_and_read_as_the_library_does() {
    let long = "x".repeat(37);
    for text in ["", "map", "Nördlicher Grat \u{1f525}", "a\0b", &long, &long[1..], "\u{10ffff}\u{e000}\u{d7ff}"] {
        // SAFETY: the pointer and the length are those of one text.
        let read = unsafe { gpt_name_from_utf8(text.as_ptr(), text.len()) };
        match Name::new(text) {
            Ok(name) => assert_eq!((read.number, &read.name), (0, name.raw()), "{text}"),
            Err(error) => assert_eq!(read.number, if error == card::NameError::Zero { 39 } else { 40 }, "{text}"),
        }
    }
    let units = [0x41, 0xd83d, 0xdd25, 0xdc00, 0xd800, 0x42, 0];
    let mut raw = [0; 36];
    raw[..7].copy_from_slice(&units);
    // SAFETY: `told` lends the bytes and their length, and the units are one slice.
    assert_eq!(told(|out, len| unsafe { gpt_name_to_utf8(out, len, units.as_ptr(), units.len()) }), Name::from_raw(raw).to_string());
}

#[test]
fn the_version_is_the_librarys() {
    let (major, minor, patch) = card::library_version();
    assert_eq!(format!("{major}.{minor}.{patch}"), card::VERSION);
}

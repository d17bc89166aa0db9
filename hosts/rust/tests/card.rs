//! The card calls one by one: what they accept, each refusal that they can give, and that a refused call changes no byte.
use card::{
    check, crc32_next, free_runs, get, judge, list, read_label, uefi_header, uefi_list, BlockSize, Card, Dated, Entry, Flags, Guid, GuidError, Label, Name,
    NameError, Place, Record, Refusal, Refused, SetRefused, Table, FRESH, SLOTS,
};
use BlockSize::{B4096, B512};

mod repository;

const DISK: Guid = Guid::from_fields(0x5a3f1c20, 0x11e7, 0x4b6d, [0x9c, 4, 2, 0x42, 0xac, 0x11, 0, 0]);

/// The blocks of the smallest card, and its only usable block.
const SMALLEST: [(BlockSize, usize, u64); 2] = [(B512, 68, 34), (B4096, 12, 6)];

fn bytes_of(size: BlockSize) -> usize {
    size.bytes() as usize
}

/// A record with these blocks, and with a GUID by the first of them.
fn record(first: u64, last: u64, name: &str) -> Record {
    Record::new(Guid::BASIC_DATA, Guid::from_fields(first as u32, 1, 2, [3; 8]), first, last, name).unwrap()
}

fn laid(size: BlockSize, blocks: usize) -> Vec<u8> {
    let mut image = vec![0xa5; blocks * bytes_of(size)];
    Card::lay(&mut image, size, DISK).unwrap();
    image
}

/// Runs a call that must be refused so, and compares every byte of the image with what stood there.
fn refused<T: std::fmt::Debug>(image: &mut [u8], size: BlockSize, refusal: Refusal, call: impl FnOnce(&mut Card) -> Result<T, Refused>) {
    let before = image.to_vec();
    let mut card = Card::open(image, size).unwrap();
    assert_eq!(call(&mut card).unwrap_err(), Refused::from(refusal));
    assert!(image == before, "a byte changed although the call was refused by {}", refusal.number());
}

/// A refusal of the card check, with its place.
fn at(refusal: Refusal, place: Place) -> Refused {
    Refused { refusal, place: Some(place) }
}

/// An image that is no card: every call that reads it is refused so, and none changes it.
fn no_card(image: &mut [u8], size: BlockSize, refusal: impl Into<Refused>) {
    let (before, refusal) = (image.to_vec(), refusal.into());
    assert_eq!(check(image, size), Err(refusal));
    assert_eq!(get(image, size, 1), Err(refusal));
    assert_eq!(list(image, size).unwrap_err(), refusal);
    assert_eq!(free_runs(image, size), Err(refusal));
    assert_eq!(read_label(image, size, 1), Err(refusal));
    assert_eq!(judge(image, size, &[1]), Err(SetRefused { refused: refusal, slot: None }));
    assert_eq!(judge(image, size, &[]), Err(SetRefused { refused: Refusal::EmptyList.into(), slot: None }));
    assert_eq!(Card::open(image, size).unwrap_err(), refusal);
    assert!(image == before);
}

/// The check sum, bit by bit, to forge headers with.
fn crc32(bytes: &[u8]) -> u32 {
    !bytes.iter().fold(!0, |sum, byte| (0..8).fold(sum ^ u32::from(*byte), |s: u32, _| if s & 1 == 1 { s >> 1 ^ 0xedb8_8320 } else { s >> 1 }))
}

/// Sets both sums of the header at a block right again, for the array at another.
fn resum(image: &mut [u8], size: BlockSize, header: usize, array: usize) {
    let (at, start) = (header * bytes_of(size), array * bytes_of(size));
    let parts = crc32(&image[start..start + 16384]);
    image[at + 88..at + 92].copy_from_slice(&parts.to_le_bytes());
    image[at + 16..at + 20].fill(0);
    let own = crc32(&image[at..at + 92]);
    image[at + 16..at + 20].copy_from_slice(&own.to_le_bytes());
}

#[test]
fn free_ground_is_what_no_slot_has() {
    for (size, blocks, usable) in SMALLEST {
        let mut image = laid(size, blocks + 9);
        let mut card = Card::open(&mut image, size).unwrap();
        assert_eq!(card.free_runs(), Ok(vec![usable..=usable + 9]));
        card.put(7, &record(usable + 5, usable + 6, "b")).unwrap();
        card.put(9, &record(usable + 1, usable + 3, "a")).unwrap();
        assert_eq!(card.free_runs(), Ok(vec![usable..=usable, usable + 4..=usable + 4, usable + 7..=usable + 9]));
        card.put(1, &record(usable + 4, usable + 4, "between")).unwrap();
        card.put(2, &record(usable, usable, "first")).unwrap();
        card.put(3, &record(usable + 7, usable + 9, "last")).unwrap();
        assert_eq!(card.free_runs(), Ok(vec![]));
    }
}

/// 128 slots with a free block before, between and behind them: the most runs that there can be.
#[test]
fn free_ground_has_at_most_129_runs() {
    let mut image = laid(B512, 67 + 257);
    let mut card = Card::open(&mut image, B512).unwrap();
    for slot in 1..=SLOTS {
        let block = 33 + 2 * u64::from(slot);
        card.put(slot, &record(block, block, "map")).unwrap();
    }
    let runs: Vec<_> = (0..129).map(|k| 34 + 2 * k..=34 + 2 * k).collect();
    assert_eq!(card.free_runs(), Ok(runs));
}

/// After each call, refused or not, the map is the one that is made again, and asking it is asking the card.
#[test]
fn a_slot_map_is_kept_through_calls() {
    for (size, blocks, usable) in SMALLEST {
        let mut image = laid(size, blocks + 130);
        let mut card = Card::open(&mut image, size).unwrap();
        let mut map = card.slot_map().unwrap();
        assert_eq!((map.used(), map.lowest_free()), (0, Ok(1)));
        for slot in [65, 1, 128, 64] {
            card.put_mapped(slot, &record(usable + u64::from(slot), usable + u64::from(slot), "map"), &mut map).unwrap();
            assert_eq!(Ok(map), card.slot_map());
            assert!(map.has(slot) && !map.has(slot - 1) && !map.has(0) && !map.has(129));
        }
        let kept = map;
        let overlap = card.put_mapped(2, &record(usable + 65, usable + 66, "map"), &mut map);
        assert_eq!((overlap, map), (Err(Refusal::Overlap { slot: 65 }.into()), kept));
        assert_eq!((card.clear_mapped(129, &mut map), map), (Err(Refusal::BadSlot.into()), kept));
        card.clear_mapped(65, &mut map).unwrap();
        card.clear_mapped(65, &mut map).unwrap();
        assert_eq!((Ok(map), map.has(65), map.used()), (card.slot_map(), false, 3));
        for slot in (2..=SLOTS).filter(|slot| ![64, 128].contains(slot)) {
            assert_eq!(card.put_lowest(&record(usable + u64::from(slot), usable + u64::from(slot), "map"), &mut map), Ok(slot));
        }
        assert_eq!((Ok(map), map.used()), (card.slot_map(), 128));
        assert_eq!(card.put_lowest(&record(usable, usable, "map"), &mut map), Err(Refusal::TableFull.into()));
        assert_eq!(card.list().unwrap().len(), 128);
    }
}

#[test]
fn a_card_is_laid_filled_listed_and_cleared() {
    for (size, blocks, usable) in SMALLEST {
        let mut image = vec![0xa5; blocks * bytes_of(size)];
        let payload = usable as usize * bytes_of(size);
        let mut card = Card::lay(&mut image, size, DISK).unwrap();
        assert_eq!(card.list().unwrap().len(), 0);
        assert_eq!(card.get(1), Ok(None));
        let map = Record { flags: Flags { legacy_bootable: true, owner: 1 << 12, ..Flags::NONE }, ..record(usable, usable, "map") };
        card.put(128, &map).unwrap();
        assert_eq!(card.get(128), Ok(Some(map)));
        assert_eq!(card.list().unwrap().collect::<Vec<_>>(), [Entry { slot: 128, record: map }]);
        assert_eq!(card.write_payload(128, 3, b"north ridge"), Ok(11));
        assert_eq!(&card.bytes()[payload..payload + 16], b"\xa5\xa5\xa5north ridge\xa5\xa5");
        card.clear(128).unwrap();
        card.clear(128).unwrap();
        assert_eq!(card.list().unwrap().len(), 0);
        assert_eq!(&card.bytes()[payload + 3..payload + 14], b"north ridge");
        assert_eq!(card.check(), Ok(()));
        assert_eq!(card.block_size(), size);
    }
}

/// Numbers from UEFI's table of attributes, with their names written down by hand.
#[test]
fn flags_are_split_and_joined() {
    let none = Flags::NONE;
    let named = [
        (0, none),
        (1, Flags { required: true, ..none }),
        (2, Flags { no_block_io: true, ..none }),
        (4, Flags { legacy_bootable: true, ..none }),
        (8, Flags { reserved: 1, ..none }),
        (1 << 47, Flags { reserved: 1 << 44, ..none }),
        (1 << 48, Flags { owner: 1, ..none }),
        (1 << 63 | 1, Flags { required: true, owner: 0x8000, ..none }),
        (u64::MAX, Flags { required: true, no_block_io: true, legacy_bootable: true, reserved: (1 << 45) - 1, owner: 0xffff }),
    ];
    for (bits, flags) in named {
        assert_eq!((Flags::from_bits(bits), flags.bits()), (flags, Ok(bits)));
    }
    assert_eq!(Flags { reserved: 1 << 45, ..none }.bits(), Err(Refusal::ReservedFlag));
    assert_eq!(Refusal::ReservedFlag.to_string(), "refused 28, ReservedFlag: a flag that UEFI keeps reserved");
}

/// Another maker's entry with a reserved flag: it is read, another slot's put keeps it, and it is not put back before the flag is taken out.
#[test]
fn a_reserved_flag_is_read_and_not_put() {
    let mut image = laid(B512, 71);
    Card::open(&mut image, B512).unwrap().put(1, &record(34, 34, "map")).unwrap();
    for (header, array) in [(1, 2), (70, 38)] {
        image[array * 512 + 48] = 9;
        resum(&mut image, B512, header, array);
    }
    let mut card = Card::open(&mut image, B512).unwrap();
    card.put(2, &record(35, 35, "roads")).unwrap();
    let read = card.get(1).unwrap().unwrap();
    assert_eq!(read.flags, Flags { required: true, reserved: 1, ..Flags::NONE });
    assert_eq!(card.list().unwrap().next().unwrap().record, read);
    refused(&mut image, B512, Refusal::ReservedFlag, |card| card.put(1, &read));
    let wide = Flags { reserved: u64::MAX, ..Flags::NONE };
    refused(&mut image, B512, Refusal::ReservedFlag, |card| card.put(3, &Record { flags: wide, ..record(36, 36, "wide") }));
    refused(&mut image, B512, Refusal::Overlap { slot: 2 }, |card| card.put(3, &Record { flags: wide, ..record(35, 36, "wide") }));
    refused(&mut image, B512, Refusal::TwinGuid { slot: 2 }, |card| {
        card.put(3, &Record { flags: wide, guid: record(35, 35, "").guid, ..record(36, 36, "wide") })
    });
    let mut card = Card::open(&mut image, B512).unwrap();
    card.put(1, &Record { flags: Flags { reserved: 0, ..read.flags }, ..read }).unwrap();
    assert_eq!(card.get(1).unwrap().unwrap().flags, Flags { required: true, ..Flags::NONE });
}

#[test]
fn the_example_is_the_stored_card() {
    let mut image = vec![0; 68 * 512];
    let guid = |last| Guid::from_fields(0x5a3f1c20, 0x11e7, 0x4b6d, [0x9c, 4, 2, 0x42, 0xac, 0x11, 0, last]);
    let mut card = Card::lay(&mut image, B512, guid(0)).unwrap();
    card.put(1, &Record { guid: guid(1), ..record(34, 34, "map") }).unwrap();
    if let Some(stored) = repository::file("crates/lister/stdin") {
        assert!(image == stored);
    }
}

#[test]
fn a_put_replaces_and_may_overlap_itself() {
    let mut image = laid(B512, 100);
    let mut card = Card::open(&mut image, B512).unwrap();
    card.put(2, &record(34, 40, "old")).unwrap();
    card.put(2, &record(36, 50, "new")).unwrap();
    assert_eq!(card.list().unwrap().map(|entry| entry.record.name.to_string()).collect::<Vec<_>>(), ["new"]);
}

#[test]
fn the_listing_is_an_iterator_from_both_ends() {
    let mut image = laid(B512, 68 + 127);
    let mut card = Card::open(&mut image, B512).unwrap();
    for slot in (1..=SLOTS).rev() {
        card.put(slot, &record(33 + u64::from(slot), 33 + u64::from(slot), "one block")).unwrap();
    }
    let mut listing = card.list().unwrap();
    assert_eq!((listing.len(), listing.size_hint()), (128, (128, Some(128))));
    assert!(listing.clone().map(|entry| entry.slot).eq(1..=SLOTS));
    assert_eq!((listing.next().unwrap().slot, listing.next_back().unwrap().slot, listing.len()), (1, 128, 126));
}

#[test]
fn block_sizes_are_two() {
    assert_eq!([512, 4096].map(BlockSize::try_from), [Ok(B512), Ok(B4096)]);
    assert_eq!([0, 511, 1024, 1 << 32 | 512, u64::MAX].map(BlockSize::try_from), [Err(Refusal::BadBlockSize); 5]);
}

#[test]
fn an_image_that_is_too_small_is_refused() {
    for (size, blocks, _) in SMALLEST {
        let block = bytes_of(size);
        for (len, refusal) in [(0, 8), (3 * block - 1, 8), (3 * block, 10), (blocks * block - 1, 10)] {
            let mut image = vec![0x5a; len];
            let before = image.clone();
            assert_eq!(Card::lay(&mut image, size, DISK).unwrap_err().number(), refusal);
            no_card(&mut image, size, Refusal::from_number(refusal, 0).unwrap());
            assert!(image == before);
        }
    }
}

#[test]
fn a_broken_table_is_refused() {
    for (size, blocks, _) in SMALLEST {
        let whole = laid(size, blocks);
        let array = 16384 / bytes_of(size);
        for (header, start) in [(1, 2), (blocks - 1, blocks - 1 - array)] {
            let with = |place: usize, resummed: bool| {
                let mut image = whole.clone();
                image[place] ^= 1;
                if resummed {
                    resum(&mut image, size, header, start);
                }
                image
            };
            let (first, table) = (header * bytes_of(size), if header == 1 { Place::Front } else { Place::Back });
            no_card(&mut with(first, false), size, at(Refusal::InvalidGptSignature, table));
            no_card(&mut with(first + 91, false), size, at(Refusal::InvalidCRC32Checksum, table));
            no_card(&mut with(first + 48, true), size, at(Refusal::WrongLayout, table));
            no_card(&mut with(start * bytes_of(size) + 16383, false), size, at(Refusal::PartsCrc, table));
            no_card(&mut with(first + 56, true), size, at(Refusal::Disagree, Place::DiskGuid));
            no_card(&mut with(start * bytes_of(size) + 16383, true), size, at(Refusal::Disagree, Place::Slot(128)));
        }
        no_card(&mut [whole, vec![0; bytes_of(size)]].concat(), size, at(Refusal::WrongLayout, Place::Front));
    }
}

#[test]
fn entries_that_a_card_cannot_have_are_refused() {
    let mut image = laid(B512, 100);
    Card::open(&mut image, B512).unwrap().put(1, &record(34, 40, "map")).unwrap();
    let entry = image[1024..1024 + 128].to_vec();
    let forged = |slot: usize, entry: &[u8]| {
        let mut image = image.clone();
        for (header, array) in [(1, 2), (99, 67)] {
            let at = array * 512 + (slot - 1) * 128;
            image[at..at + 128].copy_from_slice(entry);
            resum(&mut image, B512, header, array);
        }
        image
    };
    assert_eq!(check(&forged(1, &entry), B512), Ok(()));
    no_card(&mut forged(2, &entry), B512, at(Refusal::WrongLayout, Place::Front));
    let beside = [&entry[..32], &41u64.to_le_bytes(), &41u64.to_le_bytes(), &entry[48..]].concat();
    no_card(&mut forged(2, &beside), B512, at(Refusal::WrongLayout, Place::Front));
    assert_eq!(check(&forged(2, &[&beside[..31], &[9], &beside[32..]].concat()), B512), Ok(()));
    no_card(&mut forged(1, &[&[0; 16], &entry[16..]].concat()), B512, at(Refusal::WrongLayout, Place::Front));
    no_card(&mut forged(1, &[&entry[..32], &33u64.to_le_bytes(), &entry[40..]].concat()), B512, at(Refusal::WrongLayout, Place::Front));
    no_card(&mut forged(1, &[&entry[..40], &67u64.to_le_bytes(), &entry[48..]].concat()), B512, at(Refusal::WrongLayout, Place::Front));
}

#[test]
fn slots_outside_1_to_128_are_refused() {
    for (size, blocks, usable) in SMALLEST {
        let mut image = laid(size, blocks);
        for slot in [0, 129, u32::MAX] {
            refused(&mut image, size, Refusal::BadSlot, |card| card.put(slot, &record(usable, usable, "map")));
            refused(&mut image, size, Refusal::BadSlot, |card| card.clear(slot));
            refused(&mut image, size, Refusal::BadSlot, |card| card.write_payload(slot, 0, b"x"));
            refused(&mut image, size, Refusal::BadSlot, |card| card.get(slot));
        }
    }
}

#[test]
fn records_that_a_slot_cannot_hold_are_refused() {
    for (size, blocks, usable) in SMALLEST {
        let mut image = laid(size, blocks);
        let mut put = |refusal, record: Record| refused(&mut image, size, refusal, |card| card.put(1, &record));
        put(Refusal::NilType, Record { type_guid: Guid::NIL, ..record(usable, usable, "map") });
        put(Refusal::BadRange, record(usable, usable - 1, "map"));
        put(Refusal::BadRange, record(u64::MAX, 0, "map"));
        put(Refusal::OutsideUsable, record(usable - 1, usable, "map"));
        put(Refusal::OutsideUsable, record(usable, usable + 1, "map"));
        put(Refusal::OutsideUsable, record(usable, u64::MAX, "map"));
        Card::open(&mut image, size).unwrap().put(3, &record(usable, usable, "map")).unwrap();
        refused(&mut image, size, Refusal::Overlap { slot: 3 }, |card| card.put(1, &record(usable, usable, "map")));
        refused(&mut image, size, Refusal::Overlap { slot: 3 }, |card| card.put(128, &record(usable, usable, "map")));
    }
}

#[test]
fn two_slots_with_one_guid_are_refused() {
    let mut image = laid(B512, 100);
    let bearing = |guid: u64, block: u64| Record { guid: record(guid, guid, "").guid, ..record(block, block, "map") };
    let mut card = Card::open(&mut image, B512).unwrap();
    card.put(2, &bearing(2, 34)).unwrap();
    card.put(5, &bearing(5, 35)).unwrap();
    refused(&mut image, B512, Refusal::TwinGuid { slot: 2 }, |card| card.put(7, &bearing(2, 36)));
    refused(&mut image, B512, Refusal::TwinGuid { slot: 5 }, |card| card.put(1, &bearing(5, 36)));
    refused(&mut image, B512, Refusal::TwinGuid { slot: 5 }, |card| card.put(2, &bearing(5, 34)));
    refused(&mut image, B512, Refusal::Overlap { slot: 5 }, |card| card.put(7, &bearing(2, 35)));
    let mut card = Card::open(&mut image, B512).unwrap();
    card.put(2, &bearing(2, 37)).unwrap();
    card.clear(2).unwrap();
    card.put(7, &bearing(2, 36)).unwrap();
    let nil = |block| Record { guid: Guid::NIL, ..record(block, block, "map") };
    card.put(8, &nil(38)).unwrap();
    refused(&mut image, B512, Refusal::TwinGuid { slot: 8 }, |card| card.put(9, &nil(39)));
}

#[test]
fn payload_stays_in_its_partition() {
    for (size, blocks, usable) in SMALLEST {
        let mut image = laid(size, blocks);
        let block = bytes_of(size);
        refused(&mut image, size, Refusal::EmptySlot, |card| card.write_payload(1, 0, b""));
        Card::open(&mut image, size).unwrap().put(1, &record(usable, usable, "map")).unwrap();
        refused(&mut image, size, Refusal::PastPartition, |card| card.write_payload(1, block, b"x"));
        refused(&mut image, size, Refusal::PastPartition, |card| card.write_payload(1, block + 1, b""));
        refused(&mut image, size, Refusal::PastPartition, |card| card.write_payload(1, 1, &vec![0; block]));
        refused(&mut image, size, Refusal::PastPartition, |card| card.write_payload(1, usize::MAX, b"x"));
        let mut card = Card::open(&mut image, size).unwrap();
        assert_eq!(card.write_payload(1, block, b""), Ok(0));
        assert_eq!(card.write_payload(1, 0, &vec![7; block]), Ok(block));
        assert_eq!(card.write_payload(1, block - 1, b"x"), Ok(1));
        assert_eq!(card.check(), Ok(()));
    }
}

/// A label goes to the first 13 bytes of its partition, reads back, and changes no other byte.
#[test]
fn a_label_is_written_and_read() {
    let label = Label { year: 0x07ea, month: 12, day: 31, style: 0x0102, sheet: 0x0304 };
    for (size, blocks, usable) in SMALLEST {
        let mut image = laid(size, blocks);
        Card::open(&mut image, size).unwrap().put(9, &record(usable, usable, "map")).unwrap();
        refused(&mut image, size, Refusal::BadSlot, |card| card.read_label(0));
        refused(&mut image, size, Refusal::EmptySlot, |card| card.read_label(1));
        refused(&mut image, size, Refusal::BadMark, |card| card.read_label(9));
        refused(&mut image, size, Refusal::BadSlot, |card| card.write_label(129, label));
        refused(&mut image, size, Refusal::EmptySlot, |card| card.write_label(1, Label { day: 0, ..label }));
        for (month, day) in [(0, 1), (13, 1), (1, 0), (1, 32)] {
            refused(&mut image, size, Refusal::BadDate, |card| card.write_label(9, Label { month, day, ..label }));
        }
        let mut want = image.clone();
        let at = usable as usize * bytes_of(size);
        want[at..at + 13].copy_from_slice(b"FBM\x01\x00\xea\x07\x0c\x1f\x02\x01\x04\x03");
        Card::open(&mut image, size).unwrap().write_label(9, label).unwrap();
        assert!(image == want);
        assert_eq!(read_label(&image, size, 9), Ok(label));
        image[at + 3] = 2;
        refused(&mut image, size, Refusal::UnknownVersion, |card| card.read_label(9));
    }
}

/// A set has one date and one style revision, in any order and with any slot named again; a refused one names the first slot that fails or differs from the first.
#[test]
fn a_set_has_one_date() {
    let label = Label { year: 2026, month: 7, day: 14, style: 3, sheet: 1 };
    let dated = Dated { year: 2026, month: 7, day: 14, style: 3 };
    for (size, blocks, usable) in SMALLEST {
        let mut image = laid(size, blocks + 3);
        let mut card = Card::open(&mut image, size).unwrap();
        let labels = [label, Label { sheet: 2, ..label }, Label { style: 4, ..label }];
        for ((slot, label), block) in (2..).zip(labels).zip(usable..) {
            card.put(slot, &record(block, block, "map")).unwrap();
            card.write_label(slot, label).unwrap();
        }
        card.put(5, &record(usable + 3, usable + 3, "no label")).unwrap();
        for slots in [&[2, 3][..], &[3, 2], &[3, 3, 2, 3], &[2]] {
            assert_eq!(card.judge(slots), Ok(dated));
        }
        let no = |slots: &[u32], refusal: Refusal, slot| {
            assert_eq!(card.judge(slots), Err(SetRefused { refused: refusal.into(), slot }));
        };
        no(&[], Refusal::EmptyList, None);
        no(&[2, 0, 1], Refusal::BadSlot, Some(0));
        no(&[1, 129], Refusal::EmptySlot, Some(1));
        no(&[3, 5, 0], Refusal::BadMark, Some(5));
        no(&[2, 3, 4, 5], Refusal::TwoDates, Some(4));
        no(&[4, 4, 2], Refusal::TwoDates, Some(2));
        assert_eq!(card.judge(&[2, 4]).unwrap_err().to_string(), "refused 37, TwoDates: the maps have two dates or two style revisions (slot 4)");
        card.write_label(4, Label { day: 15, ..label }).unwrap();
        assert_eq!(card.judge(&[2, 4]).unwrap_err().number(), 37);
    }
}

#[test]
fn names_have_at_most_36_units() {
    let longest = "é".repeat(36);
    assert_eq!(Name::new(&longest).unwrap().to_string(), longest);
    assert_eq!(Name::new(&"é".repeat(37)), Err(NameError::TooLong { units: 37 }));
    assert_eq!(Name::new(&"🔥".repeat(18)).unwrap().units().len(), 36);
    assert_eq!("🔥".repeat(19).parse::<Name>(), Err(NameError::TooLong { units: 38 }));
    assert_eq!(Name::new("a\0b"), Err(NameError::Zero));
    assert_eq!(NameError::TooLong { units: 38 }.to_string(), "a name has at most 36 UTF-16 units, not 38");
    assert!(Name::new("map").unwrap() == "map" && Name::new("map").unwrap() != "maps");
    assert_eq!(format!("[{:>5}] {:?}", Name::new("map").unwrap(), Name::EMPTY), "[  map] Name(\"\")");
}

#[test]
fn a_lone_surrogate_is_kept() {
    let mut units = [0; 36];
    units[..4].copy_from_slice(&[0x6d, 0xd83d, 0, 0x70]);
    let name = Name::from_raw(units);
    units[3] = 0;
    assert_eq!((name.raw(), name.units(), name.to_string().as_str()), (&units, &[0x6d, 0xd83d][..], "m\u{fffd}"));
    let mut image = laid(B512, 68);
    let mut card = Card::open(&mut image, B512).unwrap();
    card.put(1, &Record { name, ..record(34, 34, "") }).unwrap();
    assert_eq!(card.get(1).unwrap().unwrap().name.raw(), &units);
    assert_eq!(card.list().unwrap().next().unwrap().record.name.raw(), &units);
}

#[test]
fn a_sum_goes_on_from_piece_to_piece() {
    let image = laid(B512, 68);
    let array = &image[1024..1024 + 16384];
    let in_pieces = |length: usize| array.chunks(length).fold(FRESH, crc32_next);
    for length in [1, 127, 128, 512, 4096, 4097, 16384] {
        assert_eq!(in_pieces(length), crc32(array), "pieces of {length} bytes");
    }
    for cut in 0..=9 {
        let (front, rest) = b"123456789".split_at(cut);
        assert_eq!(crc32_next(crc32_next(FRESH, front), rest), 0xcbf4_3926, "cut at {cut}");
    }
    for running in [FRESH, 1, 0x89ab_cdef, u32::MAX] {
        assert_eq!(crc32_next(running, b""), running);
    }
    assert_eq!((crc32_next(1, b"123456789"), crc32_next(u32::MAX, b"123456789")), (0xdc8f_2d65, 0xd202_d277));
    // zlib's
}

/// A table of another maker: a header of 100 stated bytes in block 1, for four entries of 256 bytes in block 3, of which slot 4 is used and slot 2 has bytes of nil type.
fn other_maker() -> Vec<u8> {
    let mut image = vec![0; 8 * 512];
    image[3 * 512 + 256 + 16..3 * 512 + 512].fill(0xee);
    let at = 3 * 512 + 3 * 256;
    image[at..at + 16].copy_from_slice(&Guid::BASIC_DATA.to_bytes());
    image[at + 32..at + 40].copy_from_slice(&50u64.to_le_bytes());
    image[at + 40..at + 48].copy_from_slice(&51u64.to_le_bytes());
    image[at + 56] = b'n';
    let parts = crc32(&image[3 * 512..5 * 512]);
    for (own, other) in [(1u64, 7u64), (7, 1)] {
        let at = own as usize * 512;
        image[at..at + 8].copy_from_slice(b"EFI PART");
        for (place, number) in [(24, own), (32, other), (72, 3)] {
            image[at + place..at + place + 8].copy_from_slice(&number.to_le_bytes());
        }
        for (place, number) in [(8, 0x10000), (12, 100), (80, 4), (84, 256), (88, parts)] {
            image[at + place..at + place + 4].copy_from_slice(&number.to_le_bytes());
        }
        image[at + 92..at + 100].fill(7);
        let own_sum = crc32(&image[at..at + 100]);
        image[at + 16..at + 20].copy_from_slice(&own_sum.to_le_bytes());
    }
    image
}

#[test]
fn tables_of_other_makers_are_read_by_uefi() {
    let size = BlockSize::B512;
    let mut image = other_maker();
    for (table, block) in [(Table::Front, 1), (Table::Back, 7)] {
        let header = uefi_header(&image, size, table).unwrap();
        assert_eq!((header.header_size_le, header.current_lba, header.part_start, header.num_parts, header.part_size), (100, block, 3, 4, 256));
        let entries: Vec<Entry> = uefi_list(&image, size, table).unwrap().collect();
        assert_eq!(entries.len(), 1);
        assert_eq!((entries[0].slot, entries[0].record.first, entries[0].record.last, entries[0].record.name.to_string()), (4, 50, 51, "n".into()));
    }
    let refused = |image: &[u8], table| uefi_list(image, size, table).map(|_| ()).unwrap_err().refusal;
    assert_eq!((refused(&image[..1023], Table::Front), refused(&image[..1023], Table::Back)), (Refusal::Short, Refusal::ToSmallForBackup));
    assert_eq!(uefi_header(&image[512..], size, Table::Front).unwrap_err().refusal, Refusal::InvalidGptSignature);
    image[2 * 512 - 1] = 1;
    assert_eq!(refused(&image, Table::Front), Refusal::DirtyBlock);
    let front = image[7 * 512..].to_vec();
    image[512..1024].copy_from_slice(&front);
    assert_eq!(refused(&image, Table::Front), Refusal::WrongPlace);
    image[7 * 512 + 12] = 91;
    assert_eq!(refused(&image, Table::Back), Refusal::BadHeaderSize);
    let mut image = laid(size, 100);
    Card::open(&mut image, size).unwrap().put(7, &record(40, 41, "a")).unwrap();
    for table in [Table::Front, Table::Back] {
        assert!(uefi_list(&image, size, table).unwrap().eq(list(&image, size).unwrap()));
    }
}

#[test]
fn guids_read_and_print_in_the_usual_form() {
    let counted = Guid::from_bytes([0, 1, 2, 3, 4, 5, 6, 7, 8, 9, 10, 11, 12, 13, 14, 15]);
    assert_eq!(counted.to_fields(), (0x03020100, 0x0504, 0x0706, [8, 9, 10, 11, 12, 13, 14, 15]));
    assert_eq!(counted.to_string(), "03020100-0504-0706-0809-0a0b0c0d0e0f");
    assert_eq!("03020100-0504-0706-0809-0A0B0C0D0E0F".parse(), Ok(counted));
    assert_eq!(Guid::BASIC_DATA.to_string().parse(), Ok(Guid::BASIC_DATA));
    assert_eq!(Guid::from_bytes(counted.to_bytes()), counted);
    assert_eq!(format!("{:?}", Guid::NIL), "Guid(00000000-0000-0000-0000-000000000000)");
    let long = format!("{counted}0");
    for text in ["", "-", "03020100-0504-0706-0809-0a0b0c0d0e0", &long, "03020100x0504-0706-0809-0a0b0c0d0e0f", "0302010é-0504-0706-0809-0a0b0c0d0e0f"] {
        assert_eq!(text.parse::<Guid>(), Err(GuidError), "{text}");
    }
    assert_eq!("03020100-0504-0706-0809-0a0b0c0d0e-f".parse::<Guid>(), Err(GuidError));
    assert_eq!("030201000504-0706-0809-0a0b0c0d0e0f".parse::<Guid>(), Err(GuidError));
}

/// A card that is only read answers as the card that is lent to be changed.
#[test]
fn read_only_card() {
    use card::CardRef;
    let disk = "5a3f1c20-11e7-4b6d-9c04-0242ac110000".parse().unwrap();
    let mut image = vec![0; 80 * 512];
    let mut card = Card::lay(&mut image, BlockSize::B512, disk).unwrap();
    card.put(3, &Record::new(Guid::BASIC_DATA, disk, 40, 41, "map").unwrap()).unwrap();
    card.write_payload(3, 5, b"north").unwrap();
    let read = card.read_only();
    let (mut bytes, mut same) = ([0; 5], [0; 5]);
    assert_eq!((read.read_payload(3, 5, &mut bytes), card.read_payload(3, 5, &mut same)), (Ok(5), Ok(5)));
    assert_eq!((&bytes, bytes), (b"north", same));
    assert_eq!((read.get(3), read.get(4), read.get(129)), (card.get(3), card.get(4), card.get(129)));
    assert!(read.list().unwrap().eq(card.list().unwrap()) && read.list().unwrap().len() == 1);
    assert_eq!((read.free_ranges(), read.free_ranges().unwrap().len()), (card.free_runs(), 2));
    assert_eq!((read.disk_guid(), card.disk_guid()), (Ok(disk), Ok(disk)));
    assert_eq!((read.slot_map(), read.read_label(3), read.judge(&[3])), (card.slot_map(), card.read_label(3), card.judge(&[3])));
    assert_eq!((read.bytes().len(), read.block_size()), (80 * 512, BlockSize::B512));
    image[512] ^= 1;
    assert_eq!(CardRef::open(&image, BlockSize::B512).unwrap_err().number(), 4);
    assert_eq!(card::disk_guid(&image, BlockSize::B512).unwrap_err().number(), 4);
}

//! The calls on two lent windows, as C has them: the numbers that come first, 1, 3, 8, 10 and 32, those of a later stage, 1, 26 and 32, and that a refused call changes nothing.
use card::ffi::*;
use card::{BlockSize, Card, Guid, Record};

const GUID: gpt_guid = gpt_guid { time_low: 0x5a3f_1c20, time_mid: 0x11e7, time_high: 0x4b6d, tail: [0x9c, 4, 2, 0x42, 0xac, 0x11, 0, 0] };

/// The windows that a call is lent, and what they are said to be windows of.
struct Lent {
    head: Vec<u8>,
    tail: Vec<u8>,
    blocks: u64,
    b: u64,
}

fn partition(first: u64) -> gpt_partition {
    let flags = gpt_flags { reserved: 0, owner: 0, required: 0, no_block_io: 0, legacy_bootable: 0 };
    gpt_partition { part_type_guid: GUID, part_guid: GUID, first_lba: first, last_lba: first, flags, name: [0; 36] }
}

/// The windows of a card whose slot 1 has the first usable block, of 70 blocks of 512 bytes or 14 of 4,096.
fn lent(b: u64) -> Lent {
    let (blocks, usable) = if b == 512 { (70, 34) } else { (14, 6) };
    let mut image = vec![0xa5; (blocks * b) as usize];
    let map = Record::new(Guid::BASIC_DATA, Guid::NIL, usable, usable, "map").unwrap();
    Card::lay(&mut image, BlockSize::try_from(b).unwrap(), Guid::NIL).unwrap().put(1, &map).unwrap();
    let tail = image.split_off(((blocks - 1) * b) as usize - 16384);
    image.truncate(2 * b as usize + 16384);
    Lent { head: image, tail, blocks, b }
}

/// The number that a call on windows gives, which are lent by `as_ptr` or by `as_mut_ptr`.
macro_rules! number {
    ($lent:ident.$as:ident, $call:ident $(, $argument:expr)*) => {{
        let Lent { head, tail, blocks, b } = $lent;
        // SAFETY: each pointer and length are those of one slice, not null also where it is empty, and all are apart; a state's yes/no is 0 or 1.
        unsafe { $call(head.$as(), head.len(), tail.$as(), tail.len(), *blocks, *b $(, $argument)*) }.number
    }};
}

type Call = fn(&mut Lent) -> u32;

/// The calls that are no later stage. A refused listing changes no row.
const FIRST: [(&str, Call); 20] = [
    ("lay", |lent| number!(lent.as_mut_ptr, card_window_lay, GUID)),
    ("check", |lent| number!(lent.as_ptr, card_window_check)),
    ("put", |lent| number!(lent.as_mut_ptr, card_window_put, 1, partition(34))),
    ("clear", |lent| number!(lent.as_mut_ptr, card_window_clear, 1)),
    ("count_used", |lent| number!(lent.as_ptr, card_window_count_used)),
    ("next_used", |lent| number!(lent.as_ptr, card_window_next_used, 0)),
    ("read_slot", |lent| number!(lent.as_ptr, card_window_read_slot, 1)),
    ("nth_used", |lent| number!(lent.as_ptr, card_window_nth_used, 0)),
    ("list", |lent| listed(|rows, len| number!(lent.as_ptr, card_window_list, rows, len))),
    ("free_runs", |lent| {
        let (mut starts, mut lengths) = ([7; 129], [7; 129]);
        let number = number!(lent.as_ptr, card_window_free_runs, starts.as_mut_ptr(), 129, lengths.as_mut_ptr(), 129);
        assert!(number == 0 || (starts, lengths) == ([7; 129], [7; 129]));
        number
    }),
    ("map_make", |lent| number!(lent.as_ptr, card_window_map_make)),
    ("reader_copy", |lent| number!(lent.as_ptr, card_window_reader_copy)),
    ("reader_count", |lent| number!(lent.as_ptr, card_window_reader_count)),
    ("reader_next", |lent| number!(lent.as_ptr, card_window_reader_next, 0)),
    ("reader_slot", |lent| number!(lent.as_ptr, card_window_reader_slot, 1)),
    ("reader_list", |lent| listed(|rows, len| number!(lent.as_ptr, card_window_reader_list, rows, len))),
    ("start_put", |lent| number!(lent.as_mut_ptr, card_window_start_put, 1, partition(34))),
    ("start_clear", |lent| number!(lent.as_mut_ptr, card_window_start_clear, 1)),
    ("start_repair", |lent| number!(lent.as_mut_ptr, card_window_start_repair)),
    ("payload_place", |lent| number!(lent.as_ptr, card_window_payload_place, 1, 0, 1)),
];

fn listed(call: impl FnOnce(*mut u8, usize) -> u32) -> u32 {
    let mut rows = [0x77; 128 * 136];
    let number = call(rows.as_mut_ptr(), rows.len());
    assert!(number == 0 || rows == [0x77; 128 * 136]);
    number
}

/// Makes a call that is given this number, and compares both windows with what stood there if it was refused.
fn gives(name: &str, number: u32, call: impl FnOnce(&mut Lent) -> u32, mut lent: Lent) {
    let before = (lent.head.clone(), lent.tail.clone());
    assert_eq!(call(&mut lent), number, "{name}, {} blocks of {}, windows of {} and {}", lent.blocks, lent.b, lent.head.len(), lent.tail.len());
    assert!(number == 0 || before == (lent.head, lent.tail), "{name} was refused and changed a window");
}

#[test]
fn the_numbers_that_come_first() {
    for b in [512, 4096] {
        let (wrap, few) = (u64::MAX / b + 1, 2 * (16384 / b) + 3);
        for (name, call) in FIRST {
            let gives = |number, lent| gives(name, number, call, lent);
            gives(if b == 4096 && name.ends_with("put") { 21 } else { 0 }, lent(b));
            for wrong in [0, 1, 511, 513, 1024, 8192, u64::MAX] {
                gives(1, Lent { b: wrong, ..lent(b) });
                gives(1, Lent { b: wrong, blocks: u64::MAX, head: vec![], tail: vec![] });
            }
            for blocks in [wrap, u64::MAX] {
                gives(3, Lent { blocks, ..lent(b) });
                gives(3, Lent { blocks, head: vec![], ..lent(b) });
            }
            for blocks in [0, 1, 2] {
                gives(8, Lent { blocks, ..lent(b) });
                gives(8, Lent { blocks, tail: vec![], ..lent(b) });
            }
            for blocks in [3, few] {
                gives(10, Lent { blocks, ..lent(b) });
                gives(10, Lent { blocks, head: vec![], tail: vec![], b });
            }
            // A window that is a byte or a block short or long, and the two in each other's place; also of a card that is as large as can be.
            for blocks in [few + 1, lent(b).blocks, wrap - 1] {
                let Lent { head, tail, .. } = lent(b);
                for len in [0, head.len() - 1, head.len() + 1, head.len() - b as usize, head.len() + b as usize] {
                    gives(32, Lent { head: vec![0xa5; len], blocks, ..lent(b) });
                }
                for len in [0, tail.len() - 1, tail.len() + 1, tail.len() - b as usize, tail.len() + b as usize] {
                    gives(32, Lent { tail: vec![0xa5; len], blocks, ..lent(b) });
                }
                gives(32, Lent { head: tail, tail: head, blocks, b });
            }
        }
    }
}

/// The numbers of a later stage: 1, 26 by the whole number of bytes, 32.
#[test]
fn the_numbers_of_a_later_stage() {
    for b in [512, 4096] {
        let mut began = lent(b);
        let Lent { head, tail, blocks, .. } = &mut began;
        // SAFETY: each pointer and length are those of one slice, and the two are apart.
        let step = unsafe { card_window_start_clear(head.as_mut_ptr(), head.len(), tail.as_mut_ptr(), tail.len(), *blocks, b, 1) };
        assert_eq!((step.number, step.state.next, step.state.len as u64), (0, 2, *blocks * b));
        let state = step.state;
        let next = |stage: u32, state: card_update| move |lent: &mut Lent| number!(lent.as_mut_ptr, card_window_next_stage, stage, state);
        let same = || Lent { head: began.head.clone(), tail: began.tail.clone(), ..began };
        gives("next_stage", 1, next(3, state), Lent { b: 513, blocks: 0, head: vec![], ..same() });
        for (stage, blocks) in [(3, began.blocks), (2, began.blocks + 1), (2, 0), (2, 2), (2, u64::MAX), (2, began.blocks + u64::MAX / b + 1)] {
            gives("next_stage", 26, next(stage, state), Lent { blocks, ..same() });
            gives("next_stage", 26, next(stage, state), Lent { blocks, head: vec![], ..same() });
        }
        for state in
            [card_update { slot: 129, ..state }, card_update { b: 4608 - b, ..state }, card_update { len: 0, ..state }, card_update { next: 3, ..state }]
        {
            gives("next_stage", 26, next(2, state), same());
        }
        gives("next_stage", 32, next(2, state), Lent { head: vec![7; began.head.len() - 1], ..same() });
        gives("next_stage", 32, next(2, state), Lent { tail: vec![7; began.tail.len() + 1], ..same() });
        gives("next_stage", 0, next(2, state), same());

        let mut began = lent(b);
        began.head[b as usize] ^= 1;
        let Lent { head, tail, blocks, .. } = &mut began;
        // SAFETY: each pointer and length are those of one slice, and the two are apart.
        let step = unsafe { card_window_start_repair(head.as_mut_ptr(), head.len(), tail.as_mut_ptr(), tail.len(), *blocks, b) };
        assert_eq!((step.number, step.state.next, step.state.back), (0, 2, 1));
        let state = step.state;
        let next = |stage: u32, state: card_repair| move |lent: &mut Lent| number!(lent.as_mut_ptr, card_window_next_repair, stage, state);
        let same = || Lent { head: began.head.clone(), tail: began.tail.clone(), ..began };
        gives("next_repair", 1, next(3, state), Lent { b: 0, tail: vec![], ..same() });
        for (stage, blocks) in [(3, began.blocks), (2, began.blocks - 1), (2, began.blocks + u64::MAX / b + 1)] {
            gives("next_repair", 26, next(stage, state), Lent { blocks, tail: vec![], ..same() });
        }
        gives("next_repair", 32, next(2, state), Lent { tail: vec![], ..same() });
        gives("next_repair", 0, next(2, state), same());
    }
}

/// A state that began on the whole image goes on over windows of so many blocks, and the other way round.
#[test]
fn a_state_goes_from_the_image_to_the_windows() {
    let Lent { mut head, mut tail, blocks, b } = lent(512);
    let mut image = head.clone();
    image.resize(blocks as usize * 512 - tail.len(), 0x5a);
    image.extend(&tail);
    // SAFETY: each pointer and length are those of one slice, and all are apart.
    unsafe {
        let whole = card_start_clear(image.as_mut_ptr(), image.len(), b, 1);
        let window = card_window_start_clear(head.as_mut_ptr(), head.len(), tail.as_mut_ptr(), tail.len(), blocks, b, 1);
        assert_eq!((whole.number, window), (0, whole));
        let whole = card_next_stage(image.as_mut_ptr(), image.len(), b, 2, window.state);
        let window = card_window_next_stage(head.as_mut_ptr(), head.len(), tail.as_mut_ptr(), tail.len(), blocks, b, 2, whole.state);
        assert_eq!((whole.number, window.number), (0, 26), "the state is for stage three");
        let again = card_window_next_stage(head.as_mut_ptr(), head.len(), tail.as_mut_ptr(), tail.len(), blocks, b, 2, card_update { next: 2, ..whole.state });
        assert_eq!(again, whole);
        let window = card_window_next_stage(head.as_mut_ptr(), head.len(), tail.as_mut_ptr(), tail.len(), blocks, b, 3, whole.state);
        assert_eq!((window.number, window.state.next), (0, 4));
        assert_eq!(card_next_stage(image.as_mut_ptr(), image.len(), b, 3, whole.state), window);
    }
    assert!(image.starts_with(&head) && image.ends_with(&tail));
}

/// Payload's place and payload's bytes of an image.
#[test]
fn payload_of_an_image_is_found_and_read() {
    let mut image = vec![0xa5; 70 * 512];
    let map = Record::new(Guid::BASIC_DATA, Guid::NIL, 34, 35, "map").unwrap();
    let mut card = Card::lay(&mut image, BlockSize::B512, Guid::NIL).unwrap();
    card.put(7, &map).unwrap();
    card.write_payload(7, 510, b"north ridge").unwrap();
    let mut out = [0x77; 13];
    assert_eq!((card.read_payload(7, 509, &mut out), &out), (Ok(13), b"\xa5north ridge\xa5"));
    let place = |slot, place, count| card::payload_place(card.bytes(), BlockSize::B512, slot, place, count).map_err(|refused| refused.number());
    assert_eq!((place(7, 510, 11), place(7, 1024, 0), place(7, 0, 1024)), (Ok(34 * 512 + 510), Ok(36 * 512), Ok(34 * 512)));
    assert_eq!((place(0, 0, 0), place(129, 0, 0), place(1, 0, 0)), (Err(18), Err(18), Err(23)));
    assert_eq!((place(7, 1, 1024), place(7, 1025, 0), place(7, usize::MAX, 1), place(7, 1, usize::MAX)), (Err(24), Err(24), Err(24), Err(24)));
    let mut out = [0x77; 1025];
    for (slot, place, number) in [(7, 0, 24), (6, 0, 23), (129, 0, 18), (7, usize::MAX, 24)] {
        assert_eq!((card.read_payload(slot, place, &mut out).unwrap_err().number(), out), (number, [0x77; 1025]));
    }
    image[512] ^= 1;
    assert_eq!(card::read_payload(&image, BlockSize::B512, 7, 0, &mut out).unwrap_err().number(), 4);
}

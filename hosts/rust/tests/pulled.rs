//! Updates and repairs by stages, cut after each of them: what the reader shows, which block a stage changes, and what a device gets to store, in which order.
use card::{check, reader_copy, reader_get, reader_list, start_repair, tables_of, Card, Guid, Place, Record, Refusal, Refused, Staged, Store, Table};
use card::{BlockSize, BlockSize::*};
use std::{fs, io};

const DISK: Guid = Guid::from_fields(0x5a3f1c20, 0x11e7, 0x4b6d, [0x9c, 4, 2, 0x42, 0xac, 0x11, 0, 0]);

/// The blocks of a card with three usable blocks, and the first of these.
const CARDS: [(BlockSize, usize, u64); 2] = [(B512, 70, 34), (B4096, 14, 6)];

fn record(first: u64, last: u64, name: &str) -> Record {
    Record::new(Guid::BASIC_DATA, Guid::from_fields(first as u32, 1, 2, [3; 8]), first, last, name).unwrap()
}

/// A card whose slot 33 has the first usable block.
fn whole(size: BlockSize, blocks: usize, usable: u64) -> Vec<u8> {
    let mut image = vec![0xa5; blocks * size.bytes() as usize];
    Card::lay(&mut image, size, DISK).unwrap().put(33, &record(usable, usable, "map")).unwrap();
    image
}

/// The slots and names that the reader shows.
fn shown(image: &[u8], size: BlockSize) -> Vec<(u32, String)> {
    reader_list(image, size).unwrap().map(|entry| (entry.slot, entry.record.name.to_string())).collect()
}

/// A device that keeps each block, and fails after so many.
struct Device {
    image: Vec<u8>,
    stored: Vec<(u64, usize)>,
    fails_after: usize,
}

impl Device {
    fn new(image: &[u8], fails_after: usize) -> Device {
        Device { image: image.to_vec(), stored: vec![], fails_after }
    }
}

impl Store for Device {
    fn store(&mut self, place: u64, bytes: &[u8]) -> io::Result<()> {
        if self.stored.len() == self.fails_after {
            return Err(io::ErrorKind::BrokenPipe.into());
        }
        self.stored.push((place, bytes.len()));
        self.image[place as usize..place as usize + bytes.len()].copy_from_slice(bytes);
        Ok(())
    }
}

/// Makes each stage, and compares the image with a copy that was given the named block alone.
fn by_stages(mut staged: Staged<'_>, mut copy: Vec<u8>, mut seen: impl FnMut(u32, &[u8])) {
    let stages = staged.stages();
    for stage in 1..=stages {
        let at = staged.place() as usize;
        copy[at..at + staged.bytes().len()].copy_from_slice(staged.bytes());
        assert_eq!(staged.stage(), stage);
        seen(stage, &copy);
        match staged.next() {
            Some(next) => staged = next,
            None => return assert_eq!(stage, stages),
        }
    }
    panic!("no stage follows the last");
}

#[test]
fn an_update_shows_the_old_table_or_the_new_one() {
    for (size, blocks, usable) in CARDS {
        let old = whole(size, blocks, usable);
        let (other, more) = (record(usable, usable + 1, "other"), record(usable + 1, usable + 1, "more"));
        for (slot, record) in [(33, Some(other)), (128, Some(more)), (33, None)] {
            let (mut image, mut after) = (old.clone(), old.clone());
            let mut plain = Card::open(&mut after, size).unwrap();
            let mut card = Card::open(&mut image, size).unwrap();
            let staged = match &record {
                Some(record) => plain.put(slot, record).and_then(|()| card.start_put(slot, record)).unwrap(),
                None => plain.clear(slot).and_then(|()| card.start_clear(slot)).unwrap(),
            };
            by_stages(staged, old.clone(), |stage, cut| {
                assert_eq!(shown(cut, size), shown(if stage < 3 { &old } else { &after }, size), "stage {stage}");
                assert_eq!(reader_get(cut, size, slot), if stage < 3 { reader_get(&old, size, slot) } else { Ok(record) });
            });
            assert!(image == after);
        }
    }
}

#[test]
fn between_the_stages_the_plain_calls_answer_by_the_check() {
    let mut image = whole(B512, 70, 34);
    let at = |refusal, place| Err(Refused { refusal, place: Some(place) });
    let said = [at(Refusal::PartsCrc, Place::Back), at(Refusal::Disagree, Place::Slot(128)), at(Refusal::PartsCrc, Place::Front), Ok(())];
    let copy = image.clone();
    let mut card = Card::open(&mut image, B512).unwrap();
    by_stages(card.start_put(128, &record(35, 35, "more")).unwrap(), copy, |stage, cut| assert_eq!(check(cut, B512), said[stage as usize - 1]));
}

#[test]
fn a_repair_never_changes_what_the_reader_shows() {
    for (size, blocks, usable) in CARDS {
        let (good, b) = (whole(size, blocks, usable), size.bytes() as usize);
        let array = 16384 / b;
        for (table, header, first) in [(Table::Front, blocks - 1, blocks - 1 - array), (Table::Back, 1, 2)] {
            let mut image = good.clone();
            image[header * b..(header + 1) * b].fill(0x5a);
            image[first * b..first * b + 16384].fill(0x5a);
            assert_eq!((reader_copy(&image, size), check(&image, size).is_err()), (Ok(table), true));
            let copy = image.clone();
            let staged = start_repair(&mut image, size).unwrap();
            assert_eq!(staged.stages() as usize, array + 2);
            by_stages(staged, copy, |stage, cut| assert_eq!(shown(cut, size), [(33, "map".to_string())], "stage {stage}"));
            assert!(image == good);
        }
    }
}

#[test]
fn a_stage_that_is_refused_changes_nothing() {
    for (size, blocks, usable) in CARDS {
        let mut image = whole(size, blocks, usable);
        let before = image.clone();
        let mut card = Card::open(&mut image, size).unwrap();
        let said = |staged: Result<Staged<'_>, Refused>| staged.unwrap_err();
        assert_eq!(said(card.start_put(129, &record(usable, usable, ""))), Refusal::BadSlot.into());
        assert_eq!(said(card.start_put(1, &record(usable, usable, ""))), Refusal::Overlap { slot: 33 }.into());
        assert_eq!(said(card.start_clear(0)), Refusal::BadSlot.into());
        assert!(image == before);
        image[size.bytes() as usize] ^= 1;
        assert_eq!((reader_copy(&image, size), reader_get(&image, size, 129)), (Ok(Table::Back), Err(Refusal::BadSlot.into())));
        *image.last_mut().unwrap() ^= 1;
        image[(blocks - 1) * size.bytes() as usize] ^= 1;
        let before = image.clone();
        let none = Refused::from(Refusal::NoGoodCopy);
        assert_eq!((reader_copy(&image, size), reader_get(&image, size, 1), said(start_repair(&mut image, size))), (Err(none), Err(none), none));
        assert_eq!(none.to_string(), "refused 27, NoGoodCopy: neither table of the card can be read");
        assert!(image == before && reader_list(&image[..1024], size).unwrap_err().number() == 8);
    }
}

#[test]
fn a_device_stores_each_block_before_the_next_stage() {
    let old = whole(B512, 70, 34);
    for fails_after in 0..=4 {
        let mut device = Device::new(&old, fails_after);
        let mut image = old.clone();
        let done = Card::open(&mut image, B512).unwrap().start_put(128, &record(35, 35, "more")).unwrap().store_on(&mut device);
        assert_eq!(done.is_ok(), fails_after == 4);
        assert_eq!(device.stored, [(68 * 512, 512), (69 * 512, 512), (33 * 512, 512), (512, 512)][..fails_after]);
        assert_eq!(shown(&device.image, B512).len(), if fails_after < 3 { 1 } else { 2 });
        assert!(fails_after < 4 || device.image == image);
        let shows = shown(&device.image, B512);
        let mut image = device.image.clone();
        device.fails_after = usize::MAX;
        start_repair(&mut image, B512).unwrap().store_on(&mut device).unwrap();
        assert_eq!((check(&device.image, B512), shown(&device.image, B512)), (Ok(()), shows));
    }
}

/// A card of 1 MiB in a file, with bytes between its tables that no stage reads or writes.
#[test]
fn a_file_is_updated_and_repaired() -> io::Result<()> {
    let path = std::env::temp_dir().join(format!("card-pulled-{}", std::process::id()));
    for size in [B512, B4096] {
        let mut before = vec![0xa5; (1 << 20) + 100];
        Card::lay(&mut before, size, DISK).unwrap();
        fs::write(&path, &before)?;
        let mut file = fs::OpenOptions::new().read(true).write(true).open(&path)?;
        let mut image = tables_of(&file, size)?;
        assert_eq!((image.len(), image[1 << 19]), (before.len(), 0));
        Card::open(&mut image, size).unwrap().start_put(7, &record(100, 120, "map")).unwrap().store_on(&mut file)?;
        Card::open(&mut before, size).unwrap().put(7, &record(100, 120, "map")).unwrap();
        assert!(fs::read(&path)? == before);
        file.store(size.bytes(), b"torn")?;
        let mut image = tables_of(&file, size)?;
        assert_eq!((reader_copy(&image, size), shown(&image, size).len()), (Ok(Table::Back), 1));
        start_repair(&mut image, size).unwrap().store_on(&mut file)?;
        assert!(fs::read(&path)? == before);
    }
    for len in [0, 1, 513, 39 * 512] {
        fs::write(&path, vec![7; len])?;
        assert!(tables_of(&fs::File::open(&path)?, B512)? == vec![7; len]);
    }
    fs::remove_file(&path)
}

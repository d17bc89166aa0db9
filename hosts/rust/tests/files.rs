//! Cards in files of any size: beside the same calls on an image, by what is read and written of the file, and where reading and writing fail.
use card::{
    check, reader_list, start_repair, Card, Device, Entry, FileCard, FileError, FileStaged, Guid, Label, Place, Record, Refusal, Refused, Staged, SyncBy, Table,
};
use card::{BlockSize, BlockSize::*};
use std::io::{self, Cursor, ErrorKind, Read, Seek, SeekFrom, Write};
use std::{
    collections::BTreeMap,
    fs,
    fs::File,
    path::{Path, PathBuf},
    process::Command,
    time::Duration,
};

const DISK: Guid = Guid::from_fields(0x5a3f1c20, 0x11e7, 0x4b6d, [0x9c, 4, 2, 0x42, 0xac, 0x11, 0, 0]);

/// The blocks of the smallest card, and its only usable block.
const SMALLEST: [(BlockSize, u64, u64); 2] = [(B512, 68, 34), (B4096, 12, 6)];

fn record(first: u64, last: u64, name: &str) -> Record {
    Record::new(Guid::BASIC_DATA, Guid::from_fields(first as u32, 1, 2, [3; 8]), first, last, name).unwrap()
}

/// A file of this test's own, which is removed with the value.
struct Scratch(PathBuf);

impl Scratch {
    fn new(name: &str) -> Scratch {
        // In memory, where the machine has such a folder: a disk takes milliseconds for each stored block.
        let memory = Path::new("/dev/shm");
        let folder = if memory.is_dir() { memory.into() } else { std::env::temp_dir() };
        Scratch(folder.join(format!("card-files-{name}-{}", std::process::id())))
    }

    /// The file with these bytes, open to be read and written.
    fn with(&self, bytes: &[u8]) -> File {
        fs::write(&self.0, bytes).unwrap();
        self.opened()
    }

    fn opened(&self) -> File {
        File::options().read(true).write(true).open(&self.0).unwrap()
    }

    fn bytes(&self) -> Vec<u8> {
        fs::read(&self.0).unwrap()
    }
}

impl Drop for Scratch {
    fn drop(&mut self) {
        let _ = fs::remove_file(&self.0);
    }
}

/// What was done to a file.
#[derive(Clone, Copy, Debug, PartialEq)]
enum Done {
    Read(u64, usize),
    Wrote(u64, usize),
    Synced,
}
use Done::*;

/// A file that notes what is done to it. It can fail: at one of its reads, writes, seeks and syncs, by a signal before each of them, and by doing only a few bytes at a time.
struct Noting<F> {
    inner: F,
    at: u64,
    done: Vec<Done>,
    calls: usize,
    fails_at: usize,
    signals: bool,
    most: usize,
}

impl<F> Noting<F> {
    fn new(inner: F) -> Noting<F> {
        Noting { inner, at: 0, done: vec![], calls: 0, fails_at: usize::MAX, signals: false, most: usize::MAX }
    }

    /// Counts a call, and fails if it is its turn.
    fn turn(&mut self) -> io::Result<()> {
        self.calls += 1;
        if self.calls == self.fails_at {
            return Err(io::Error::new(ErrorKind::BrokenPipe, "pulled"));
        }
        if self.signals && self.calls % 2 == 1 {
            return Err(ErrorKind::Interrupted.into());
        }
        Ok(())
    }

    /// What was done since this was asked last.
    fn taken(&mut self) -> Vec<Done> {
        std::mem::take(&mut self.done)
    }
}

impl<F: Read> Read for Noting<F> {
    fn read(&mut self, out: &mut [u8]) -> io::Result<usize> {
        self.turn()?;
        let most = out.len().min(self.most);
        let count = self.inner.read(&mut out[..most])?;
        self.done.push(Read(self.at, count));
        self.at += count as u64;
        Ok(count)
    }
}

impl<F: Write> Write for Noting<F> {
    fn write(&mut self, bytes: &[u8]) -> io::Result<usize> {
        self.turn()?;
        let count = self.inner.write(&bytes[..bytes.len().min(self.most)])?;
        self.done.push(Wrote(self.at, count));
        self.at += count as u64;
        Ok(count)
    }

    fn flush(&mut self) -> io::Result<()> {
        self.inner.flush()
    }
}

impl<F: Seek> Seek for Noting<F> {
    fn seek(&mut self, to: SeekFrom) -> io::Result<u64> {
        self.turn()?;
        self.at = self.inner.seek(to)?;
        Ok(self.at)
    }
}

impl<F: Device> Device for Noting<F> {
    fn sync(&mut self) -> io::Result<()> {
        self.turn()?;
        self.inner.sync()?;
        self.done.push(Synced);
        Ok(())
    }
}

type Noted = Noting<Cursor<Vec<u8>>>;

fn noted(image: &[u8]) -> Noted {
    Noting::new(Cursor::new(image.to_vec()))
}

/// A card that is lent its file, so that the file can be looked at after each call.
fn on<F: Read + Seek>(file: &mut F, size: BlockSize) -> FileCard<&mut F> {
    FileCard::open(file, size).unwrap()
}

/// The refusal of a call that was not accepted, and that did not fail otherwise.
fn verdict<T>(done: Result<T, FileError>) -> Result<T, Refused> {
    done.map_err(|failure| failure.refused().unwrap_or_else(|| panic!("{failure}")))
}

/// What a call failed by that was neither accepted nor refused.
fn failure<T>(done: Result<T, FileError>) -> io::Error {
    match done {
        Err(FileError::Io(failure)) => failure,
        Err(other) => panic!("a failure of the file was told as a verdict: {other}"),
        Ok(_) => panic!("a failure of the file was passed over"),
    }
}

/// A card of so many usable blocks more than the smallest, with odd bytes behind it, as an image. Slot 33 has the first usable block.
fn whole(size: BlockSize, more: u64) -> Vec<u8> {
    let (_, blocks, usable) = SMALLEST[usize::from(size == B4096)];
    let mut image = vec![0xa5; ((blocks + more) * size.bytes()) as usize + 100];
    Card::lay(&mut image, size, DISK).unwrap().put(33, &record(usable, usable, "map")).unwrap();
    image
}

/// Labels and sets in a file are what they are on an image, and a refused write leaves the file as it was.
#[test]
fn labels_of_a_file_are_those_of_the_image() {
    for (size, blocks, usable) in SMALLEST {
        let mut image = vec![0xa5; ((blocks + 9) * size.bytes()) as usize];
        let mut file = FileCard::lay(Cursor::new(image.clone()), size, DISK).unwrap();
        let mut card = Card::lay(&mut image, size, DISK).unwrap();
        for (slot, block) in [(1, usable + 1), (2, usable + 2), (3, usable + 3), (128, usable)] {
            let map = Record { guid: Guid::from_fields(slot, 0, 0, [1; 8]), ..record(block, block, "map") };
            file.put(slot, &map).unwrap();
            card.put(slot, &map).unwrap();
        }
        let label = Label { year: 0xe7e6, month: 12, day: 31, style: 0xd7d6, sheet: 9 };
        for (slot, label) in [
            (1, label),
            (2, Label { sheet: 8, ..label }),
            (3, Label { style: 1, ..label }),
            (4, label),
            (0, label),
            (1, Label { month: 13, ..label }),
            (129, Label { day: 0, ..label }),
        ] {
            assert_eq!(verdict(file.write_label(slot, label)), card.write_label(slot, label), "{slot} {label:?}");
        }
        for slot in [0, 1, 2, 3, 4, 128, 129, u32::MAX] {
            assert_eq!(verdict(file.read_label(slot)), card.read_label(slot), "{slot}");
        }
        for slots in [&[][..], &[1], &[1, 2, 1], &[2, 1, 2], &[1, 2, 3], &[3, 1], &[1, 4], &[1, 0, 3], &[128], &[1, 128], &[1, 1, 3, 3]] {
            match (file.judge(slots), card.judge(slots)) {
                (Err(FileError::SetRefused(told)), Err(due)) => assert_eq!(told, due, "{slots:?}"),
                (told, due) => assert_eq!(told.unwrap(), due.unwrap(), "{slots:?}"),
            }
        }
        assert!(file.into_inner().into_inner() == image, "the file is not as the image");
    }
}

/// A generator of random numbers: SplitMix64.
struct Dice(u64);

impl Dice {
    fn below(&mut self, bound: u64) -> u64 {
        self.0 = self.0.wrapping_add(0x9e37_79b9_7f4a_7c15);
        let a = (self.0 ^ self.0 >> 30).wrapping_mul(0xbf58_476d_1ce4_e5b9);
        let b = (a ^ a >> 27).wrapping_mul(0x94d0_49bb_1331_11eb);
        (b ^ b >> 31) % bound
    }
}

/// Random calls on a real file and on an image of the same card: the same answers, and at last the same bytes.
#[test]
fn a_file_ends_as_the_image_does() {
    for (size, blocks, usable) in SMALLEST {
        let place = Scratch::new(&format!("beside-{}", size.bytes()));
        let mut image = vec![0xa5; ((blocks + 19) * size.bytes()) as usize + 100];
        let mut file = FileCard::lay(place.with(&image), size, DISK).unwrap();
        let mut image = Card::lay(&mut image, size, DISK).unwrap();
        let mut dice = Dice(size.bytes());
        for step in 0..400 {
            let slot = [0, 129, u32::MAX, 1, 2, 3, 4, 5, 6, 127, 128][dice.below(11) as usize];
            let first = usable - 1 + dice.below(22);
            let map = Record { guid: Guid::from_fields(dice.below(9) as u32, 0, 0, [1; 8]), ..record(first, first + dice.below(3), &format!("map {step}")) };
            let (at, count) = (dice.below(3 * size.bytes()), dice.below(2 * size.bytes()) as usize);
            match dice.below(8) {
                0 => assert_eq!(verdict(file.put(slot, &map)), image.put(slot, &map)),
                1 => assert_eq!(verdict(file.clear(slot)), image.clear(slot)),
                2 => match (verdict(file.start_put(slot, &map)), image.start_put(slot, &map)) {
                    (Ok(file), Ok(image)) => both(file, image),
                    (file, image) => assert_eq!(file.unwrap_err(), image.unwrap_err()),
                },
                3 => match (verdict(file.start_clear(slot)), image.start_clear(slot)) {
                    (Ok(file), Ok(image)) => both(file, image),
                    (file, image) => assert_eq!(file.unwrap_err(), image.unwrap_err()),
                },
                4 => {
                    let bytes = vec![step as u8; count];
                    assert_eq!(verdict(file.write_payload(slot, at, &bytes)), image.write_payload(slot, at as usize, &bytes));
                }
                5 => {
                    let (mut ours, mut theirs) = (vec![0x77; count], vec![0x77; count]);
                    assert_eq!(verdict(file.read_payload(slot, at, &mut ours)), image.read_payload(slot, at as usize, &mut theirs));
                    assert!(ours == theirs);
                    assert_eq!(verdict(file.payload_place(slot, at, count)), card::payload_place(image.bytes(), size, slot, at as usize, count));
                }
                6 => {
                    assert_eq!(verdict(file.get(slot)), image.get(slot));
                    assert_eq!(verdict(file.reader_get(slot)), card::reader_get(image.bytes(), size, slot));
                    assert_eq!((verdict(file.check()), verdict(file.disk_guid())), (Ok(()), Ok(DISK)));
                }
                _ => {
                    let listed: Vec<Entry> = image.list().unwrap().collect();
                    assert_eq!(file.list().unwrap().collect::<Vec<_>>(), listed);
                    assert_eq!(file.reader_list().unwrap().collect::<Vec<_>>(), listed);
                    assert_eq!((file.count().unwrap() as usize, verdict(file.free_runs())), (listed.len(), image.free_runs()));
                    let map = image.slot_map().unwrap();
                    assert_eq!((verdict(file.slot_map()), verdict(file.lowest_free())), (Ok(map), map.lowest_free()));
                }
            }
            if step % 20 == 0 {
                assert!(place.bytes() == image.bytes());
            }
        }
        assert!(place.bytes() == image.bytes());
        assert_eq!((file.blocks(), file.block_size()), (blocks + 19, size));
        assert_eq!(format!("{file:?}"), format!("FileCard {{ block_size: {size:?}, blocks: {}, .. }}", blocks + 19));
    }
}

/// The same stages on a file and on an image.
fn both(mut file: FileStaged<'_, File>, mut image: Staged<'_>) {
    loop {
        assert_eq!((file.stage(), file.stages(), file.place()), (image.stage(), image.stages(), image.place()));
        match (file.next().unwrap(), image.next()) {
            (Some(a), Some(b)) => (file, image) = (a, b),
            (a, b) => return assert!(a.is_none() && b.is_none()),
        }
    }
}

/// Every block that is read or written, in order.
#[test]
fn only_the_windows_and_the_payload_are_touched() {
    for (size, least, usable) in SMALLEST {
        let (b, array, blocks) = (size.bytes(), 16384 / size.bytes(), least + 2000);
        let (head, tail) = ((2 * b + 16384) as usize, (b + 16384) as usize);
        let mut file = noted(&vec![0xa5; (blocks * b) as usize + 100]);
        let windows = [Read(0, head), Read((blocks - array - 1) * b, tail)];
        let block = |block: u64| Wrote(block * b, b as usize);

        // Lay writes what it changes: here block 0 and both tables. Block 0 is first, so that a card that can be read has its MBR; then the back table, and headers come after their arrays.
        FileCard::lay(&mut file, size, DISK).unwrap();
        let laid = [0].into_iter().chain(blocks - array - 1..blocks).chain((1..array + 2).rev()).map(block);
        assert_eq!(file.taken(), windows.into_iter().chain(laid).chain([Synced]).collect::<Vec<_>>());
        // Where the arrays are zeros already, block 0 and the two headers.
        file.inner.get_mut()[b as usize] = 0;
        FileCard::lay(&mut file, size, DISK).unwrap();
        assert_eq!(file.taken(), [windows[0], windows[1], block(1), Synced]);

        let mut card = on(&mut file, size);
        card.put(33, &record(usable, usable + 9, "map")).unwrap();
        card.put(33, &record(usable, usable + 9, "map")).unwrap();
        assert_eq!(card.put(34, &record(usable, usable, "map")).unwrap_err().refused(), Some(Refusal::Overlap { slot: 33 }.into()));
        assert_eq!((card.count().unwrap(), card.list().unwrap().len(), card.free_runs().unwrap().len(), card.lowest_free().unwrap()), (1, 1, 1, 1));
        assert_eq!((card.reader_copy().unwrap(), card.reader_array().unwrap().len(), card.disk_guid().unwrap()), (Table::Front, 16384, DISK));
        assert_eq!((card.get(33).unwrap().is_some(), card.check().is_ok()), (true, true));
        let inside = 32 * 128 / b;
        let four = [block(blocks - array - 1 + inside), block(blocks - 1), block(2 + inside), block(1)];
        let put = [windows[0], windows[1], four[0], four[1], four[2], four[3], Synced, Synced];
        assert_eq!(file.taken(), put, "the second put changes no block");

        let mut card = on(&mut file, size);
        card.clear(33).unwrap();
        assert_eq!(file.taken()[2..], [four[0], four[1], four[2], four[3], Synced]);

        // A stage is one block and one sync, also where nothing changes.
        let mut card = on(&mut file, size);
        card.start_clear(33).unwrap().finish().unwrap();
        card.start_put(33, &record(usable, usable + 9, "map")).unwrap().finish().unwrap();
        let staged = four.iter().flat_map(|block| [*block, Synced]);
        assert_eq!(file.taken()[2..], staged.clone().chain(staged).collect::<Vec<_>>());
        let mut card = on(&mut file, size);
        card.start_repair().unwrap().finish().unwrap();
        let repaired = [blocks - 1].into_iter().chain(blocks - array - 1..blocks).flat_map(|number| [block(number), Synced]);
        assert_eq!(file.taken()[2..], repaired.collect::<Vec<_>>());

        let mut card = on(&mut file, size);
        assert_eq!(card.write_payload(33, 700, &[7; 1500]).unwrap(), 1500);
        assert_eq!(card.read_payload(33, 699, &mut [0; 3]).unwrap(), 3);
        assert_eq!(card.write_payload(33, 10 * b, &[]).unwrap(), 0);
        assert!(card.write_payload(33, 10 * b, &[7]).is_err());
        card.sync().unwrap();
        assert_eq!(file.taken()[2..], [Wrote(usable * b + 700, 1500), Read(usable * b + 699, 3), Synced]);
        assert!(on(&mut file, size).check().is_ok());
        assert!(file.inner.into_inner()[(usable * b) as usize + 2200..][..100] == [0xa5; 100]);
    }
}

/// Cuts updates and repairs after each stage: a new reader of the file sees the old table or the new one, and a repair makes it whole.
#[test]
fn a_pulled_file_shows_one_table_and_is_repaired() {
    for (size, _, usable) in SMALLEST {
        let old = whole(size, 2);
        let mut new = old.clone();
        Card::open(&mut new, size).unwrap().put(128, &record(usable + 1, usable + 1, "more")).unwrap();
        for cut in 1..=4 {
            let mut file = Cursor::new(old.clone());
            let mut card = on(&mut file, size);
            let mut staged = card.start_put(128, &record(usable + 1, usable + 1, "more")).unwrap();
            for _ in 1..cut {
                staged = staged.next().unwrap().unwrap();
            }
            assert_eq!((staged.stage(), staged.stages()), (cut, 4));
            drop(staged);
            // The card that was cut goes on answering by what the file has.
            assert_eq!(verdict(card.check()), check(card.get_ref().get_ref(), size));
            let shown: Vec<Entry> = reader_list(if cut < 3 { &old } else { &new }, size).unwrap().collect();
            let mut card = on(&mut file, size);
            assert_eq!(card.reader_list().unwrap().collect::<Vec<_>>(), shown);
            assert_eq!(card.reader_copy().unwrap(), if cut == 3 { Table::Back } else { Table::Front });
            if card.check().is_err() {
                let stages = card.start_repair().unwrap().stages();
                for cut in 1..=stages {
                    let mut staged = card.start_repair().unwrap();
                    for _ in 1..cut {
                        staged = staged.next().unwrap().unwrap();
                    }
                    drop(staged);
                    assert_eq!(card.reader_list().unwrap().collect::<Vec<_>>(), shown);
                }
            }
            card.check().unwrap();
            assert!(file.into_inner() == if cut < 3 { old.clone() } else { new.clone() });
        }
    }
}

/// A repair by windows stores the blocks that a repair of the image does.
#[test]
fn a_repair_is_that_of_the_image() {
    for (size, blocks, _) in SMALLEST {
        let good = whole(size, 2);
        for header in [1, blocks + 1] {
            let mut image = good.clone();
            image[(header * size.bytes()) as usize..][..92].fill(0x5a);
            let mut file = noted(&image);
            let mut card = on(&mut file, size);
            let mut staged = Some(card.start_repair().unwrap());
            let mut beside = Some(start_repair(&mut image, size).unwrap());
            while let (Some(ours), Some(theirs)) = (staged, beside) {
                assert_eq!((ours.stage(), ours.stages(), ours.place()), (theirs.stage(), theirs.stages(), theirs.place()));
                (staged, beside) = (ours.next().unwrap(), theirs.next());
            }
            assert!(file.inner.into_inner() == good && image == good);
        }
    }
}

/// Payload that is written and read in chunks of any size is that of one write.
#[test]
fn payload_goes_in_chunks_of_any_size() {
    for (size, _, usable) in SMALLEST {
        let map: Vec<u8> = (0..3 * size.bytes()).map(|k| (k % 251) as u8).collect();
        let mut want = whole(size, 5);
        let mut image = Card::open(&mut want, size).unwrap();
        image.put(1, &record(usable + 1, usable + 3, "map")).unwrap();
        image.write_payload(1, 0, &map).unwrap();
        for chunk in [1, 7, 512, 4095, 5000, map.len()] {
            let mut file = Cursor::new(whole(size, 5));
            let mut card = on(&mut file, size);
            card.put(1, &record(usable + 1, usable + 3, "map")).unwrap();
            for (k, bytes) in map.chunks(chunk).enumerate() {
                card.write_payload(1, (k * chunk) as u64, bytes).unwrap();
            }
            let mut back = vec![0; map.len()];
            for (k, bytes) in back.chunks_mut(chunk).enumerate() {
                card.read_payload(1, (k * chunk) as u64, bytes).unwrap();
            }
            let end = map.len() as u64;
            for (slot, at, refusal) in
                [(0, 0, Refusal::BadSlot), (2, 0, Refusal::EmptySlot), (1, end, Refusal::PastPartition), (1, u64::MAX, Refusal::PastPartition)]
            {
                let mut out = [0x77];
                assert_eq!(verdict(card.read_payload(slot, at, &mut out)), Err(refusal.into()));
                assert_eq!((verdict(card.write_payload(slot, at, &[1])), out), (Err(refusal.into()), [0x77]));
            }
            assert!(back == map && file.into_inner() == want);
        }
    }
}

/// What the library refuses is told in its words, with the place, and is no failure of the file.
#[test]
fn refusals_are_told_as_the_image_calls_tell_them() {
    let said = |image: &[u8], size| FileCard::open(Cursor::new(image), size).map(|_| ()).unwrap_err().to_string();
    for len in [0, 1, 3 * 512 - 1] {
        assert_eq!(said(&vec![0; len], B512), "refused 8, ToSmallForBackup: the image is shorter than three blocks");
    }
    assert_eq!(said(&vec![0; 68 * 512 - 1], B512), "refused 10, BackupLbaToEarly: there is no room between the two tables");
    assert_eq!(said(&vec![0; 12 * 4096 - 1], B4096), "refused 10, BackupLbaToEarly: there is no room between the two tables");
    for (size, blocks, _) in SMALLEST {
        let b = size.bytes() as usize;
        let last = (blocks + 1) as usize * b;
        for (at, refusal, place) in [
            (b, Refusal::InvalidGptSignature, Place::Front),
            (b + 56, Refusal::InvalidCRC32Checksum, Place::Front),
            (2 * b + 5, Refusal::PartsCrc, Place::Front),
            (last, Refusal::InvalidGptSignature, Place::Back),
            (last - 1, Refusal::PartsCrc, Place::Back),
        ] {
            let mut image = whole(size, 2);
            image[at] ^= 1;
            // Over something that is only read.
            let mut card = FileCard::open(Cursor::new(image.as_slice()), size).unwrap();
            let want = Err(Refused { refusal, place: Some(place) });
            assert_eq!(check(&image, size), want);
            assert_eq!(verdict(card.check()), want);
            assert_eq!(verdict(card.list().map(|_| ())), want);
            assert_eq!((verdict(card.count().map(|_| ())), verdict(card.free_runs().map(|_| ()))), (want, want));
            assert_eq!((verdict(card.get(1).map(|_| ())), verdict(card.lowest_free().map(|_| ()))), (want, want));
            assert_eq!((verdict(card.disk_guid().map(|_| ())), verdict(card.read_payload(33, 0, &mut [0]).map(|_| ()))), (want, want));
            assert_eq!((card.reader_copy().unwrap(), card.reader_list().unwrap().len()), (if place == Place::Front { Table::Back } else { Table::Front }, 1));
            assert!(card.reader_array().unwrap()[32 * 128..].starts_with(&Guid::BASIC_DATA.to_bytes()));
        }
        let mut image = whole(size, 2);
        image[b] ^= 1;
        image[last] ^= 1;
        let mut file = noted(&image);
        let mut card = on(&mut file, size);
        let none = Err(Refused::from(Refusal::NoGoodCopy));
        assert_eq!((verdict(card.reader_copy().map(|_| ())), verdict(card.reader_array().map(|_| ()))), (none, none));
        assert_eq!((verdict(card.reader_get(1).map(|_| ())), verdict(card.start_repair().map(|_| ()))), (none, none));
        let failure = card.reader_list().unwrap_err();
        assert_eq!(failure.to_string(), "refused 27, NoGoodCopy: neither table of the card can be read");
        assert_eq!(std::error::Error::source(&failure).unwrap().to_string(), failure.to_string());
        assert!(file.inner.into_inner() == image);
    }
}

/// Fails each read, write, seek and sync of some calls in turn. None is taken for a verdict, and none is passed over.
#[test]
fn a_failure_is_never_a_verdict() {
    let calls = |file: &mut Noted| -> Result<(), FileError> {
        let more = record(35, 35, "more");
        let mut card = FileCard::open(file, B512)?;
        card.put(128, &more)?;
        card.clear(128)?;
        card.start_put(128, &more)?.finish()?;
        card.write_payload(33, 5, b"north ridge")?;
        card.read_payload(33, 5, &mut [0; 11])?;
        card.sync()?;
        card.start_clear(33)?.finish()
    };
    let mut file = noted(&whole(B512, 2));
    calls(&mut file).unwrap();
    for fails_at in 1..=file.calls {
        let mut file = Noting { fails_at, ..noted(&whole(B512, 2)) };
        let said = failure(calls(&mut file));
        assert_eq!((said.kind(), said.to_string().as_str()), (ErrorKind::BrokenPipe, "pulled"));
        assert_eq!(file.calls, fails_at, "a call went on after the failure");
    }
}

/// After a failed write no call says anything about the card before the tables are read again.
#[test]
fn after_a_failed_write_the_tables_are_read_again() {
    // Opening takes five reads and seeks; a put looks for the file's end, seeks and writes four times, and syncs.
    for fails_at in 1..=10 {
        let mut file = Noting { fails_at: 5 + fails_at, ..noted(&whole(B512, 2)) };
        let mut card = on(&mut file, B512);
        assert_eq!(failure(card.put(128, &record(35, 35, "more"))).kind(), ErrorKind::BrokenPipe);
        let unknown = "the card's file: since something failed the tables were not read again";
        let read = card.read_payload(33, 0, &mut [0]).map(|_| ());
        for failed in [card.check(), card.count().map(|_| ()), card.list().map(|_| ()), card.reader_copy().map(|_| ()), card.clear(1), read] {
            assert_eq!(failed.unwrap_err().to_string(), unknown);
        }
        assert_eq!(failure(card.start_repair()).kind(), ErrorKind::Other);
        card.reload().unwrap();
        if fails_at == 10 {
            assert_eq!(card.count().unwrap(), 2);
        } else if card.check().is_err() {
            assert_eq!(card.reader_list().unwrap().len(), if fails_at > 7 { 2 } else { 1 });
            card.start_repair().unwrap().finish().unwrap();
        }
        card.put(128, &record(35, 35, "more")).unwrap();
        assert_eq!(card.count().unwrap(), 2);
    }
}

/// Signals, and reads and writes of a few bytes, change nothing.
#[test]
fn what_is_interrupted_goes_on() {
    for most in [1, 100, usize::MAX] {
        let want = {
            let mut image = whole(B512, 2);
            let mut card = Card::open(&mut image, B512).unwrap();
            card.put(128, &record(35, 35, "more")).unwrap();
            card.write_payload(128, 5, b"north ridge").unwrap();
            card.clear(33).unwrap();
            image
        };
        let mut file = Noting { signals: true, most, ..noted(&whole(B512, 2)) };
        let mut card = on(&mut file, B512);
        card.start_put(128, &record(35, 35, "more")).unwrap().finish().unwrap();
        card.write_payload(128, 5, b"north ridge").unwrap();
        let mut back = [0; 11];
        card.read_payload(128, 5, &mut back).unwrap();
        card.clear(33).unwrap();
        card.sync().unwrap();
        card.reload().unwrap();
        assert!(&back == b"north ridge" && file.inner.into_inner() == want);
    }
}

/// A file that is shorter or longer than it was.
#[test]
fn a_file_that_changed_its_length_is_a_failure() {
    let place = Scratch::new("length");
    let whole = whole(B512, 2);
    for len in [0, 34 * 512, whole.len() as u64 - 101, whole.len() as u64 + 512] {
        let mut card = FileCard::open(place.with(&whole), B512).unwrap();
        place.opened().set_len(len).unwrap();
        let read = card.read_payload(33, 500, &mut [0; 12]);
        if len <= 34 * 512 {
            let said = failure(read);
            assert_eq!((said.kind(), said.to_string()), (ErrorKind::UnexpectedEof, format!("the file ends before byte {}: it was longer", 35 * 512)));
        } else {
            read.unwrap();
        }
        let said = format!("the card's file: the file has {len} bytes, and had {} when its tables were read", whole.len());
        assert_eq!(card.clear(33).unwrap_err().to_string(), said);
        assert_eq!(failure(card.check()).kind(), ErrorKind::Other);
        let mut cut = whole.clone();
        cut.resize(len as usize, 0);
        assert!(place.bytes() == cut);
        // Read again it is judged by what it is now.
        let number = |done: Result<(), FileError>| verdict(done).unwrap_err().number();
        match len {
            0 => assert_eq!((number(card.reload()), failure(card.check()).kind()), (8, ErrorKind::Other)),
            len if len < 68 * 512 => assert_eq!((number(card.reload()), failure(card.check()).kind()), (10, ErrorKind::Other)),
            _ => assert_eq!((card.reload().is_ok(), number(card.check())), (true, 16)),
        }
        let mut card = FileCard::open(place.with(&whole), B512).unwrap();
        place.opened().set_len(len).unwrap();
        assert_eq!(card.write_payload(33, 0, b"north").unwrap_err().to_string(), said);
        assert!(place.bytes() == cut);
    }
    // A device that says that it is longer than what can be read of it.
    struct Boasts(Cursor<Vec<u8>>);
    impl Read for Boasts {
        fn read(&mut self, out: &mut [u8]) -> io::Result<usize> {
            self.0.read(out)
        }
    }
    impl Seek for Boasts {
        fn seek(&mut self, to: SeekFrom) -> io::Result<u64> {
            Ok(self.0.seek(to)? + if to == SeekFrom::End(0) { 512 } else { 0 })
        }
    }
    assert_eq!(failure(FileCard::open(Boasts(Cursor::new(whole)), B512)).kind(), ErrorKind::UnexpectedEof);
}

/// A file that was opened to be read alone is read; a write to it fails as the file does.
#[test]
fn a_file_that_is_only_read() {
    let place = Scratch::new("read");
    place.with(&whole(B512, 2));
    let mut card = FileCard::open(File::open(&place.0).unwrap(), B512).unwrap();
    let mut byte = [0];
    assert_eq!((card.count().unwrap(), card.read_payload(33, 0, &mut byte).unwrap(), byte), (1, 1, [0xa5]));
    failure(card.clear(33));
    assert!(place.bytes() == whole(B512, 2));
    let mut card = FileCard::open(io::BufReader::new(File::open(&place.0).unwrap()), B512).unwrap();
    assert_eq!((card.count().unwrap(), card.read_payload(33, 511, &mut byte).unwrap()), (1, 1));
}

/// The kinds of devices: a file that is lent, bytes in memory, a box, and a closure that syncs.
#[test]
fn devices_of_all_kinds() {
    let place = Scratch::new("kinds");
    let mut file = place.with(&vec![0; 68 * 512]);
    FileCard::lay(&file, B512, DISK).unwrap();
    FileCard::open(&mut file, B512).unwrap().put(1, &record(34, 34, "map")).unwrap();
    let boxed: Box<dyn Device> = Box::new(file);
    assert_eq!(FileCard::open(boxed, B512).unwrap().count().unwrap(), 1);
    let mut image = vec![0; 12 * 4096];
    FileCard::lay(Cursor::new(image.as_mut_slice()), B4096, DISK).unwrap().clear(128).unwrap();
    check(&image, B4096).unwrap();
    let mut syncs = 0;
    let mut card = FileCard::open(
        SyncBy::new(Cursor::new(image), |_| {
            syncs += 1;
            Ok(())
        }),
        B4096,
    )
    .unwrap();
    card.start_put(1, &record(6, 6, "map")).unwrap().finish().unwrap();
    let image = card.into_inner().into_inner().into_inner();
    assert_eq!((syncs, card::get(&image, B4096, 1).unwrap().unwrap().name.to_string().as_str()), (4, "map"));
}

/// What a call of this thread costs the processor; on a machine that does not say so, what the clock says.
fn own_time(began: std::time::Instant) -> Duration {
    let stat = fs::read_to_string("/proc/thread-self/schedstat").unwrap_or_default();
    stat.split(' ').next().and_then(|nanos| nanos.parse().ok()).map_or_else(|| began.elapsed(), Duration::from_nanos)
}

/// A card of 64 GiB in a file with holes, of which nothing but its tables and the payload is written.
#[test]
fn a_card_of_64_gib() {
    for size in [B512, B4096] {
        let place = Scratch::new(&format!("large-{}", size.bytes()));
        let file = place.with(&[]);
        if let Err(failure) = file.set_len(64 << 30) {
            return say(&format!("a card of 64 GiB was left out: there is no room for a file with holes: {failure}"));
        }
        let (blocks, began) = ((64u64 << 30) / size.bytes(), std::time::Instant::now());
        let before = own_time(began);
        let mut card = FileCard::lay(Noting::new(file), size, DISK).unwrap();
        let map = record(2048, blocks / 2 - 1, "map");
        card.start_put(1, &map).unwrap().finish().unwrap();
        let tiny = record(blocks - 16384 / size.bytes() - 2, blocks - 16384 / size.bytes() - 2, "tiny");
        card.put(card.lowest_free().unwrap(), &tiny).unwrap();
        let far = (blocks / 2 - 2048) * size.bytes() - 11;
        card.write_payload(1, far, b"north ridge").unwrap();
        card.write_payload(2, 0, &vec![7; size.bytes() as usize]).unwrap();
        card.sync().unwrap();
        let mut back = [0; 12];
        assert_eq!(verdict(card.read_payload(1, far, &mut back)), Err(Refusal::PastPartition.into()));
        card.read_payload(1, far - 1, &mut back).unwrap();
        assert_eq!(&back, b"\0north ridge");
        let listed = [Entry { slot: 1, record: map }, Entry { slot: 2, record: tiny }];
        assert_eq!(card.list().unwrap().collect::<Vec<_>>(), listed);
        let usable = 2 + 16384 / size.bytes();
        assert_eq!(card.free_runs().unwrap(), [usable..=2047, blocks / 2..=tiny.first - 1]);
        let took = own_time(began).saturating_sub(before);
        assert!(took < Duration::from_secs(1), "{took:?}");

        let done = card.into_inner().done;
        let count = |done: &[Done]| done.iter().map(|done| if let Read(_, count) | Wrote(_, count) = done { *count } else { 0 }).sum::<usize>();
        let (reads, writes): (Vec<Done>, Vec<Done>) = done.into_iter().filter(|done| *done != Synced).partition(|done| matches!(done, Read(..)));
        let b = size.bytes() as usize;
        assert_eq!(count(&reads), 3 * b + 2 * 16384 + 12);
        assert_eq!(count(&writes), (3 + 4 + 4) * b + 11 + b, "lay, a staged put, a put, and the payload: {writes:?}");
        assert_eq!(writes.len(), 13);
        // The file system has given room to these blocks alone; how large its own blocks are is its matter.
        let room = std::os::unix::fs::MetadataExt::blocks(&fs::metadata(&place.0).unwrap()) * 512;
        assert!(room <= 16 << 20, "{room}");
        if size == B512 {
            verified(&place);
        }
        let again = FileCard::open(File::open(&place.0).unwrap(), size).unwrap();
        assert_eq!((again.list().unwrap().collect::<Vec<_>>(), again.disk_guid().unwrap()), (listed.to_vec(), DISK));
    }
}

/// Says something in the test's log, whether output is captured or not.
fn say(line: &str) {
    io::stderr().write_all(format!("{line}\n").as_bytes()).unwrap();
}

/// What sgdisk finds in the file, where it is installed.
fn verified(place: &Scratch) {
    let found = ["sgdisk", "/usr/sbin/sgdisk", "/sbin/sgdisk"].iter().find_map(|name| Command::new(name).arg("-v").arg(&place.0).output().ok());
    match found {
        Some(done) => {
            let said = String::from_utf8_lossy(&done.stdout).into_owned() + &String::from_utf8_lossy(&done.stderr);
            assert!(done.status.success() && said.contains("No problems found"), "{said}");
        }
        None => say("sgdisk did not look at the card of 64 GiB: it is not installed"),
    }
}

/// A device of any length that keeps the blocks that were written.
struct Holes {
    length: u64,
    at: u64,
    kept: BTreeMap<u64, [u8; 512]>,
}

impl Read for Holes {
    fn read(&mut self, out: &mut [u8]) -> io::Result<usize> {
        let (block, inside) = (self.at / 512, (self.at % 512) as usize);
        let count = out.len().min(512 - inside).min((self.length - self.at.min(self.length)) as usize);
        out[..count].copy_from_slice(&self.kept.get(&block).unwrap_or(&[0; 512])[inside..inside + count]);
        self.at += count as u64;
        Ok(count)
    }
}

impl Write for Holes {
    fn write(&mut self, bytes: &[u8]) -> io::Result<usize> {
        let (block, inside) = (self.at / 512, (self.at % 512) as usize);
        let count = bytes.len().min(512 - inside);
        self.kept.entry(block).or_insert([0; 512])[inside..inside + count].copy_from_slice(&bytes[..count]);
        self.at += count as u64;
        Ok(count)
    }

    fn flush(&mut self) -> io::Result<()> {
        Ok(())
    }
}

impl Seek for Holes {
    fn seek(&mut self, to: SeekFrom) -> io::Result<u64> {
        self.at = match to {
            SeekFrom::Start(at) => at,
            SeekFrom::End(0) => self.length,
            _ => return Err(ErrorKind::InvalidInput.into()),
        };
        Ok(self.at)
    }
}

impl Device for Holes {
    fn sync(&mut self) -> io::Result<()> {
        Ok(())
    }
}

/// A card of 8 TiB has more blocks than 32 bits count, which the MBR says by FFFFFFFF.
#[test]
fn a_card_of_8_tib() {
    let length = 8u64 << 40;
    let mut card = FileCard::lay(Holes { length, at: 0, kept: BTreeMap::new() }, B512, DISK).unwrap();
    assert_eq!(card.blocks(), 1 << 34);
    let last = card.blocks() - 34;
    card.put(1, &record(1 << 33, last, "map")).unwrap();
    card.write_payload(1, (last - (1 << 33)) * 512 + 500, &[7; 12]).unwrap();
    assert_eq!(card.free_runs().unwrap(), [34..=(1 << 33) - 1]);
    let holes = card.into_inner();
    assert_eq!(holes.kept[&0][458..462], [0xff; 4]);
    assert_eq!((holes.kept.len(), holes.kept[&last][500..].to_vec()), (3 + 2 + 1, vec![7; 12]));
}

/// The usable blocks are those between the tables, and the windows' bytes are the file's.
#[test]
fn usable_blocks_and_windows() {
    for (block_size, blocks, only) in SMALLEST {
        for more in [0, 5] {
            let (b, array) = (block_size.bytes() as usize, 16384);
            let mut card = FileCard::lay(Cursor::new(vec![0; (blocks + more) as usize * b]), block_size, DISK).unwrap();
            assert_eq!(card.usable().unwrap(), only..=only + more);
            card.put(1, &record(only, only, "map")).unwrap();
            let (head, tail) = (card.head().to_vec(), card.tail().to_vec());
            let bytes = card.into_inner().into_inner();
            assert_eq!((head.len(), tail.len()), (2 * b + array, b + array));
            assert_eq!((&bytes[..head.len()], &bytes[bytes.len() - tail.len()..]), (&head[..], &tail[..]));
        }
    }
    let blank = FileCard::open(Cursor::new(vec![0; 68 * 512]), B512).unwrap();
    assert_eq!(blank.usable().unwrap_err().refused().unwrap().refusal, Refusal::InvalidGptSignature);
}

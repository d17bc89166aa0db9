//! Random sequences of calls beside a plain model: a map of slots and the payload's bytes. After each call the answer, the listing and every usable byte are
//! the model's. The sequences are drawn from fixed seeds, so that a failure comes again.
use card::{BlockSize, Card, Entry, Flags, Guid, Record, Refusal, Refused};
use std::collections::BTreeMap;

const STEPS: u32 = 3000;

/// A generator of random numbers: SplitMix64.
struct Dice(u64);

impl Dice {
    fn next(&mut self) -> u64 {
        self.0 = self.0.wrapping_add(0x9e37_79b9_7f4a_7c15);
        let a = (self.0 ^ self.0 >> 30).wrapping_mul(0xbf58_476d_1ce4_e5b9);
        let b = (a ^ a >> 27).wrapping_mul(0x94d0_49bb_1331_11eb);
        b ^ b >> 31
    }

    /// A number below a bound.
    fn below(&mut self, bound: u64) -> u64 {
        self.next() % bound
    }

    /// A number near the bounds of a range, and sometimes far outside.
    fn near(&mut self, low: u64, high: u64) -> u64 {
        match self.below(50) {
            0 => self.next(),
            1 => u64::MAX,
            2 => 0,
            _ => low - 2 + self.below(high - low + 5),
        }
    }

    fn slot(&mut self) -> u32 {
        match self.below(20) {
            0 => [0, 129, u32::MAX][self.below(3) as usize],
            1 => 128,
            _ => 1 + self.below(24) as u32,
        }
    }

    /// Mostly flags that put takes, else any bits, or a reserved part that no entry has room for.
    fn flags(&mut self) -> Flags {
        let flags = Flags::from_bits(self.next());
        match self.below(10) {
            0 => flags,
            1 => Flags { reserved: self.next(), ..flags },
            _ => Flags { reserved: 0, ..flags },
        }
    }

    fn record(&mut self, first_usable: u64, last_usable: u64) -> Record {
        let first = self.near(first_usable, last_usable);
        let last = if self.below(10) == 0 { self.near(first_usable, last_usable) } else { first.saturating_add(self.below(6)) };
        let type_guid = if self.below(20) == 0 { Guid::NIL } else { Guid::BASIC_DATA };
        let name = format!("é{:x}", self.next());
        let guid = Guid::from_fields(if self.below(4) == 0 { self.below(8) } else { self.next() } as u32, 1, 2, [3; 8]);
        Record { flags: self.flags(), ..Record::new(type_guid, guid, first, last, &name).unwrap() }
    }
}

/// What the card must be: its used slots, and all bytes of its usable blocks.
struct Model {
    block: u64,
    first: u64,
    last: u64,
    slots: BTreeMap<u32, Record>,
    payload: Vec<u8>,
}

impl Model {
    fn put(&mut self, slot: u32, record: &Record) -> Result<(), Refusal> {
        if !(1..=128).contains(&slot) {
            return Err(Refusal::BadSlot);
        }
        if record.type_guid == Guid::NIL {
            return Err(Refusal::NilType);
        }
        if record.last < record.first {
            return Err(Refusal::BadRange);
        }
        if record.first < self.first || record.last > self.last {
            return Err(Refusal::OutsideUsable);
        }
        let meets = |(other, held): &(&u32, &Record)| **other != slot && held.first <= record.last && record.first <= held.last;
        if let Some((other, _)) = self.slots.iter().find(meets) {
            return Err(Refusal::Overlap { slot: *other });
        }
        if let Some((other, _)) = self.slots.iter().find(|(other, held)| **other != slot && held.guid == record.guid) {
            return Err(Refusal::TwinGuid { slot: *other });
        }
        if record.flags.reserved != 0 {
            return Err(Refusal::ReservedFlag);
        }
        self.slots.insert(slot, *record);
        Ok(())
    }

    fn clear(&mut self, slot: u32) -> Result<(), Refusal> {
        if !(1..=128).contains(&slot) {
            return Err(Refusal::BadSlot);
        }
        self.slots.remove(&slot);
        Ok(())
    }

    fn write_payload(&mut self, slot: u32, place: usize, bytes: &[u8]) -> Result<usize, Refusal> {
        if !(1..=128).contains(&slot) {
            return Err(Refusal::BadSlot);
        }
        let record = self.slots.get(&slot).ok_or(Refusal::EmptySlot)?;
        let size = (record.last - record.first + 1) * self.block;
        if place as u128 + bytes.len() as u128 > u128::from(size) {
            return Err(Refusal::PastPartition);
        }
        let start = ((record.first - self.first) * self.block) as usize + place;
        self.payload[start..start + bytes.len()].copy_from_slice(bytes);
        Ok(bytes.len())
    }

    fn entries(&self) -> impl Iterator<Item = Entry> + '_ {
        self.slots.iter().map(|(slot, record)| Entry { slot: *slot, record: *record })
    }
}

/// Draws a call, runs it on both, and says by which number it came back.
fn step(dice: &mut Dice, card: &mut Card, model: &mut Model) -> u32 {
    let slot = dice.slot();
    let numbered = |refused: Refused| refused.number();
    match dice.below(8) {
        0..=3 => {
            let record = dice.record(model.first, model.last);
            let answer = card.put(slot, &record);
            assert_eq!(answer, model.put(slot, &record).map_err(Refused::from), "put {slot} {record:?}");
            answer.map_or_else(numbered, |_| 0)
        }
        4 => {
            let answer = card.clear(slot);
            assert_eq!(answer, model.clear(slot).map_err(Refused::from), "clear {slot}");
            answer.map_or_else(numbered, |_| 0)
        }
        _ => {
            let bytes: Vec<u8> = (0..dice.below(40)).map(|_| dice.next() as u8).collect();
            let place = if dice.below(30) == 0 { usize::MAX - 5 } else { dice.below(2 * model.block) as usize };
            let answer = card.write_payload(slot, place, &bytes);
            assert_eq!(answer, model.write_payload(slot, place, &bytes).map_err(Refused::from), "payload {slot} {place} {}", bytes.len());
            answer.map_or_else(numbered, |_| 0)
        }
    }
}

fn run(seed: u64, size: BlockSize, blocks: u64) {
    let (block, array) = (size.bytes(), 16384 / size.bytes());
    let (first, last) = (2 + array, blocks - 2 - array);
    let usable = (first * block) as usize..((last + 1) * block) as usize;
    let mut dice = Dice(seed);
    let mut image: Vec<u8> = (0..blocks * block).map(|_| dice.next() as u8).collect();
    let mut model = Model { block, first, last, slots: BTreeMap::new(), payload: image[usable.clone()].to_vec() };
    let mut card = Card::lay(&mut image, size, Guid::BASIC_DATA).unwrap();
    let mut seen = BTreeMap::new();
    for number in 0..STEPS {
        *seen.entry(step(&mut dice, &mut card, &mut model)).or_insert(0) += 1;
        assert!(card.list().unwrap().eq(model.entries()), "the listing after step {number} of seed {seed}");
        assert!(card.bytes()[usable.clone()] == model.payload, "the payload after step {number} of seed {seed}");
        let asked = 1 + dice.below(128) as u32;
        assert_eq!(card.get(asked), Ok(model.slots.get(&asked).copied()));
    }
    let numbers: Vec<u32> = seen.into_keys().collect();
    assert_eq!(numbers, [0, 18, 19, 20, 21, 22, 23, 24, 25, 28], "the sequence meets every way out");
}

#[test]
fn random_calls_at_512() {
    run(1, BlockSize::B512, 140);
    run(2, BlockSize::B512, 75);
}

#[test]
fn random_calls_at_4096() {
    run(3, BlockSize::B4096, 60);
    run(4, BlockSize::B4096, 20);
}

//! A card by its two windows in memory: each call of the library on them, once, and which bytes of a window are a block.
use crate::calls::{rows, runs};
use crate::pulled::{State, ARRAY};
use crate::refusal::accepted;
use crate::{ffi, labels, BlockSize, Dated, Guid, Label, Listing, Record, Refusal, Refused, SetRefused, SlotMap, Table};
use std::ops::{Range, RangeInclusive};

/// The head, which is blocks 0 to A + 1, and the tail, which is the last A + 1 blocks, of a card of so many blocks. A is the blocks of an array.
#[derive(Clone)]
pub(crate) struct Windows {
    pub head: Vec<u8>,
    pub tail: Vec<u8>,
    pub blocks: u64,
    pub block_size: BlockSize,
}

/// A call of the library that only reads the windows.
macro_rules! asked {
    ($windows:expr, $call:ident $(, $argument:expr)*) => {{
        let Windows { head, tail, blocks, block_size } = $windows;
        // SAFETY: each pointer and length are those of one slice, not null also where it is empty; the windows are only read, and rows that are lent to the call are new.
        unsafe { ffi::$call(head.as_ptr(), head.len(), tail.as_ptr(), tail.len(), *blocks, block_size.bytes() $(, $argument)*) }
    }};
}

/// A call that may change them.
macro_rules! told {
    ($windows:expr, $call:ident $(, $argument:expr)*) => {{
        let Windows { head, tail, blocks, block_size } = $windows;
        // SAFETY: each pointer and length are those of one slice that only this call has, and the two slices are apart; whatever else the call takes is a value.
        unsafe { ffi::$call(head.as_mut_ptr(), head.len(), tail.as_mut_ptr(), tail.len(), *blocks, block_size.bytes() $(, $argument)*) }
    }};
}

impl Windows {
    /// The windows of a card of so many blocks, with zeros in them. Refused by 8, 10: the library says so of windows without bytes, and 32 of those alone that should have some.
    pub fn new(blocks: u64, block_size: BlockSize) -> Result<Windows, Refused> {
        let none = Windows { head: vec![], tail: vec![], blocks, block_size };
        match none.check() {
            Err(Refused { refusal: Refusal::WindowLength, .. }) => {}
            Err(refused) => return Err(refused),
            Ok(()) => unreachable!("a card has a head"),
        }
        let table = (ARRAY + block_size.bytes()) as usize;
        Ok(Windows { head: vec![0; table + block_size.bytes() as usize], tail: vec![0; table], ..none })
    }

    /// Where the tail begins in the card.
    pub fn tail_place(&self) -> u64 {
        self.blocks * self.block_size.bytes() - self.tail.len() as u64
    }

    /// The block from a place in the card on, which is in one of the windows.
    pub fn block(&self, place: u64) -> &[u8] {
        let b = self.block_size.bytes() as usize;
        match place.checked_sub(self.tail_place()) {
            Some(inside) => &self.tail[inside as usize..][..b],
            None => &self.head[place as usize..][..b],
        }
    }

    /// The places of the blocks that other windows of the same card have otherwise: block 0, those of the tail ascending, then those of the front table descending. So of each table
    /// the array comes before its header, and the back table before the front one, as in the stages of an update; and a card that can be read has its MBR.
    pub fn changes_to(&self, other: &Windows) -> Vec<u64> {
        let b = self.block_size.bytes();
        let changed = |place: &u64| self.block(*place) != other.block(*place);
        let back = (0..self.tail.len() as u64 / b).map(|block| self.tail_place() + block * b);
        let front = (1..self.head.len() as u64 / b).rev().map(|block| block * b);
        std::iter::once(0).chain(back).chain(front).filter(changed).collect()
    }

    pub fn lay(&mut self, guid: Guid) -> Result<(), Refused> {
        let answer = told!(self, card_window_lay, guid.to_c());
        accepted(answer.number, answer.slot, answer.place, answer.differs)
    }

    pub fn check(&self) -> Result<(), Refused> {
        let answer = asked!(self, card_window_check);
        accepted(answer.number, answer.slot, answer.place, answer.differs)
    }

    pub fn put(&mut self, slot: u32, record: &Record) -> Result<(), Refused> {
        let answer = told!(self, card_window_put, slot, record.to_c());
        accepted(answer.number, answer.slot, answer.place, answer.differs)
    }

    pub fn clear(&mut self, slot: u32) -> Result<(), Refused> {
        let answer = told!(self, card_window_clear, slot);
        accepted(answer.number, answer.slot, answer.place, answer.differs)
    }

    pub fn count_used(&self) -> Result<u32, Refused> {
        let answer = asked!(self, card_window_count_used);
        accepted(answer.number, 0, answer.place, answer.differs)?;
        Ok(answer.count)
    }

    pub fn get(&self, slot: u32) -> Result<Option<Record>, Refused> {
        let answer = asked!(self, card_window_read_slot, slot);
        accepted(answer.number, 0, answer.place, answer.differs)?;
        Ok((answer.present != 0).then(|| Record::from_c(answer.partition)))
    }

    pub fn list(&self) -> Result<Listing, Refused> {
        rows(|out, out_len| {
            let answer = asked!(self, card_window_list, out, out_len);
            accepted(answer.number, 0, answer.place, answer.differs)?;
            Ok(answer.count)
        })
    }

    pub fn free_runs(&self) -> Result<Vec<RangeInclusive<u64>>, Refused> {
        runs(|starts, lengths, room| {
            let answer = asked!(self, card_window_free_runs, starts, room, lengths, room);
            accepted(answer.number, 0, answer.place, answer.differs)?;
            Ok(answer.count)
        })
    }

    pub fn slot_map(&self) -> Result<SlotMap, Refused> {
        let made = asked!(self, card_window_map_make);
        accepted(made.number, 0, made.place, made.differs)?;
        Ok(SlotMap(made.map))
    }

    /// The front header of a card that passes the check. The head is an image to the ported call, which reads the header in its block 1.
    fn header(&self) -> Result<ffi::gpt_header, Refused> {
        self.check()?;
        // SAFETY: the pointer and the length are those of one slice, which is only read; a slice's pointer is not null, also where it is empty.
        let read = unsafe { ffi::gpt_read_primary_header(self.head.as_ptr(), self.head.len(), self.block_size.bytes()) };
        accepted(read.number, 0, 0, 0)?;
        Ok(read.header)
    }

    pub fn disk_guid(&self) -> Result<Guid, Refused> {
        Ok(Guid::from_c(self.header()?.disk_guid))
    }

    pub fn usable(&self) -> Result<RangeInclusive<u64>, Refused> {
        let header = self.header()?;
        Ok(header.first_usable..=header.last_usable)
    }

    pub fn payload_place(&self, slot: u32, place: usize, count: usize) -> Result<u64, Refused> {
        let spot = asked!(self, card_window_payload_place, slot, place, count);
        accepted(spot.number, 0, spot.place, spot.differs)?;
        Ok(spot.at)
    }

    pub fn read_label(&self, slot: u32, bytes: &[u8]) -> Result<Label, Refused> {
        labels::label_read(asked!(self, card_window_read_label, slot, bytes.as_ptr(), bytes.len()))
    }

    pub fn judge(&self, slots: &[u32], bytes: &[u8]) -> Result<Dated, SetRefused> {
        labels::judged(asked!(self, card_window_judge, slots.as_ptr(), slots.len(), bytes.as_ptr(), bytes.len()))
    }

    pub fn reader_copy(&self) -> Result<Table, Refused> {
        let answer = asked!(self, card_window_reader_copy);
        accepted(answer.number, 0, 0, 0)?;
        Ok(if answer.back != 0 { Table::Back } else { Table::Front })
    }

    /// The array of the table that the reader takes, where it stands: in the head behind two blocks, or first in the tail.
    pub fn reader_array(&self) -> Result<&[u8], Refused> {
        let array = |from: usize| -> Range<usize> { from..from + ARRAY as usize };
        Ok(match self.reader_copy()? {
            Table::Front => &self.head[array(2 * self.block_size.bytes() as usize)],
            Table::Back => &self.tail[array(0)],
        })
    }

    pub fn reader_get(&self, slot: u32) -> Result<Option<Record>, Refused> {
        let answer = asked!(self, card_window_reader_slot, slot);
        accepted(answer.number, 0, 0, 0)?;
        Ok((answer.present != 0).then(|| Record::from_c(answer.partition)))
    }

    pub fn reader_list(&self) -> Result<Listing, Refused> {
        rows(|out, out_len| {
            let answer = asked!(self, card_window_reader_list, out, out_len);
            accepted(answer.number, 0, 0, 0)?;
            Ok(answer.count)
        })
    }

    pub fn start_put(&mut self, slot: u32, record: &Record) -> Result<State, Refused> {
        let step = told!(self, card_window_start_put, slot, record.to_c());
        accepted(step.number, step.slot, step.place, step.differs)?;
        Ok(State::Update(step.state))
    }

    pub fn start_clear(&mut self, slot: u32) -> Result<State, Refused> {
        let step = told!(self, card_window_start_clear, slot);
        accepted(step.number, step.slot, step.place, step.differs)?;
        Ok(State::Update(step.state))
    }

    pub fn start_repair(&mut self) -> Result<State, Refused> {
        let step = told!(self, card_window_start_repair);
        accepted(step.number, 0, 0, 0)?;
        Ok(State::Repair(step.state))
    }

    pub fn next(&mut self, state: State) -> Result<State, Refused> {
        let (number, state) = match state {
            State::Update(update) => {
                let step = told!(self, card_window_next_stage, update.next, update);
                (step.number, State::Update(step.state))
            }
            State::Repair(repair) => {
                let step = told!(self, card_window_next_repair, repair.next, repair);
                (step.number, State::Repair(step.state))
            }
        };
        accepted(number, 0, 0, 0)?;
        Ok(state)
    }
}

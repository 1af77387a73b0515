//! The table's layout: records of one kind byte and a body of fixed length.

use crate::clock::{self, Clock, Weeks};
use crate::query::{LlqNumber, Question, Sender};

/// A clock with a place of 4 bytes, for weeks of ten bits.
pub const CLOCK: u8 = 0x01;
/// A clock with a place of 8 bytes, for weeks of thirteen bits.
pub const WIDE_CLOCK: u8 = 0x09;
pub const UNUSED: u8 = 0x02;
pub const LISTED: u8 = 0x03;
pub const FREE: u8 = 0x04;
pub const PENDING: u8 = 0x05;
pub const ESTABLISHED: u8 = 0x06;

pub const LINE_RECORD: usize = 19;
pub const LINES: usize = 16;
pub const SLOT_RECORD: usize = 320;
pub const MOST_SLOTS: usize = 64;

/// Places of an entry's fields in its record.
pub mod field {
    pub const ADDRESS: usize = 1;
    pub const PORT: usize = 17;
    pub const NUMBER: usize = 19;
    pub const LEASE: usize = 27;
    pub const STAMP: usize = 31;
    pub const QTYPE: usize = 35;
    pub const QCLASS: usize = 37;
    pub const NAME_LENGTH: usize = 39;
    pub const NAME: usize = 40;
    pub const PADDING: usize = 295;
}

pub type LineRecord = [u8; LINE_RECORD];
pub type SlotRecord = [u8; SLOT_RECORD];

/// An unused roster line, all zero.
pub const UNUSED_LINE: LineRecord = {
    let mut line = [0; LINE_RECORD];
    line[0] = UNUSED;
    line
};

pub const fn clock_kind(weeks: Weeks) -> u8 {
    match weeks {
        Weeks::Ten => CLOCK,
        Weeks::Thirteen => WIDE_CLOCK,
    }
}

/// The clock record's length: kind, place and running count.
pub const fn clock_record(weeks: Weeks) -> usize {
    match weeks {
        Weeks::Ten => 1 + 4 + 4,
        Weeks::Thirteen => 1 + 8 + 4,
    }
}

/// The length of what comes before the slots: the clock and the roster.
pub const fn head(weeks: Weeks) -> usize {
    clock_record(weeks) + LINES * LINE_RECORD
}

/// The bits of the weeks and the number of slots of a table of this length, n from 1 to 64:
/// 313 + 320n bytes for weeks of ten bits, 317 + 320n for those of thirteen.
pub fn shape_of(length: usize) -> Option<(Weeks, usize)> {
    [Weeks::Ten, Weeks::Thirteen].into_iter().find_map(|weeks| {
        let body = length.checked_sub(head(weeks))?;
        let slots = body / SLOT_RECORD;
        let right = body % SLOT_RECORD == 0 && (1..=MOST_SLOTS).contains(&slots);
        right.then_some((weeks, slots))
    })
}

fn array<const N: usize>(bytes: &[u8], at: usize) -> [u8; N] {
    bytes[at..at + N].try_into().expect("a range of N bytes")
}

/// A roster line: listed address, share, limit.
#[derive(Clone, Copy)]
pub struct Line<'a>(pub &'a LineRecord);

impl Line<'_> {
    pub fn kind(self) -> u8 {
        self.0[0]
    }

    pub fn address(self) -> u128 {
        u128::from_be_bytes(array(self.0, 1))
    }

    pub fn share(self) -> u32 {
        self.0[17].into()
    }

    pub fn limit(self) -> u32 {
        self.0[18].into()
    }
}

/// A slot that holds a pending or an established entry.
#[derive(Clone, Copy)]
pub struct Entry<'a>(pub &'a SlotRecord);

impl<'a> Entry<'a> {
    pub fn is_established(self) -> bool {
        self.0[0] == ESTABLISHED
    }

    pub fn address(self) -> u128 {
        u128::from_be_bytes(array(self.0, field::ADDRESS))
    }

    pub fn port(self) -> u16 {
        u16::from_be_bytes(array(self.0, field::PORT))
    }

    pub fn number(self) -> LlqNumber {
        LlqNumber(u64::from_be_bytes(array(self.0, field::NUMBER)))
    }

    pub fn lease(self) -> u32 {
        u32::from_be_bytes(array(self.0, field::LEASE))
    }

    pub fn stamp(self) -> u32 {
        u32::from_be_bytes(array(self.0, field::STAMP))
    }

    pub fn age(self, count: u32) -> u32 {
        clock::age(count, self.stamp())
    }

    /// The life that remains: lease less age.
    pub fn left(self, count: u32) -> u32 {
        self.lease().saturating_sub(self.age(count))
    }

    pub fn qtype(self) -> u16 {
        u16::from_be_bytes(array(self.0, field::QTYPE))
    }

    pub fn qclass(self) -> u16 {
        u16::from_be_bytes(array(self.0, field::QCLASS))
    }

    pub fn name(self) -> &'a [u8] {
        let length = usize::from(self.0[field::NAME_LENGTH]);
        &self.0[field::NAME..field::NAME + length]
    }
}

/// A lent table of a right length, taken apart into its records.
pub struct Table<'a> {
    pub weeks: Weeks,
    pub clock: &'a mut [u8],
    pub roster: &'a mut [LineRecord],
    pub slots: &'a mut [SlotRecord],
}

impl<'a> Table<'a> {
    /// Nothing if the length is wrong.
    pub fn new(bytes: &'a mut [u8]) -> Option<Self> {
        let (weeks, _) = shape_of(bytes.len())?;
        let (clock, rest) = bytes.split_at_mut(clock_record(weeks));
        let (roster, slots) = rest.split_at_mut(LINES * LINE_RECORD);
        let (roster, slots) = (roster.as_chunks_mut().0, slots.as_chunks_mut().0);
        Some(Table { weeks, clock, roster, slots })
    }

    pub fn clock(&self) -> Clock {
        let weeks = self.weeks;
        let (place, count) = match weeks {
            Weeks::Ten => (u32::from_be_bytes(array(self.clock, 1)).into(), array(self.clock, 5)),
            Weeks::Thirteen => (u64::from_be_bytes(array(self.clock, 1)), array(self.clock, 9)),
        };
        Clock { weeks, place, count: u32::from_be_bytes(count) }
    }

    /// Place and running count; the kind stays.
    pub fn set_clock(&mut self, clock: Clock) {
        let count = self.clock.len() - 4;
        match self.weeks {
            Weeks::Ten => self.clock[1..count].copy_from_slice(&(clock.place as u32).to_be_bytes()),
            Weeks::Thirteen => self.clock[1..count].copy_from_slice(&clock.place.to_be_bytes()),
        }
        self.clock[count..].copy_from_slice(&clock.count.to_be_bytes());
    }

    /// The listed lines, which come first.
    pub fn listed(&self) -> impl Iterator<Item = Line<'_>> {
        self.roster.iter().map(Line).take_while(|line| line.kind() == LISTED)
    }

    pub fn is_free(&self, slot: usize) -> bool {
        self.slots[slot][0] == FREE
    }

    pub fn free(&self) -> usize {
        self.slots.iter().filter(|slot| slot[0] == FREE).count()
    }

    pub fn lowest_free(&self) -> Option<usize> {
        self.slots.iter().position(|slot| slot[0] == FREE)
    }

    /// The entries, pending or established.
    pub fn entries(&self) -> impl Iterator<Item = Entry<'_>> {
        self.slots.iter().filter(|slot| slot[0] != FREE).map(Entry)
    }

    /// The lowest slot whose entry is wanted.
    pub fn find(&self, wanted: impl Fn(Entry) -> bool) -> Option<usize> {
        self.slots.iter().position(|slot| slot[0] != FREE && wanted(Entry(slot)))
    }

    pub fn entry(&self, slot: usize) -> Entry<'_> {
        Entry(&self.slots[slot])
    }

    pub fn establish(&mut self, slot: usize) {
        self.slots[slot][0] = ESTABLISHED;
    }

    /// A new granted lease and stamp.
    pub fn renew(&mut self, slot: usize, lease: u32, stamp: u32) {
        let record = &mut self.slots[slot];
        record[field::LEASE..][..4].copy_from_slice(&lease.to_be_bytes());
        record[field::STAMP..][..4].copy_from_slice(&stamp.to_be_bytes());
    }

    pub fn release(&mut self, slot: usize) {
        clear(&mut self.slots[slot]);
    }

    /// A free slot becomes a pending entry; its name is stored folded.
    #[allow(clippy::too_many_arguments)]
    pub fn fill(
        &mut self,
        slot: usize,
        sender: Sender,
        question: &Question,
        fold: impl Fn(u8) -> u8,
        number: LlqNumber,
        lease: u32,
        stamp: u32,
    ) {
        let record = &mut self.slots[slot];
        record[0] = PENDING;
        record[field::ADDRESS..][..16].copy_from_slice(&sender.address.to_be_bytes());
        record[field::PORT..][..2].copy_from_slice(&sender.port.to_be_bytes());
        record[field::NUMBER..][..8].copy_from_slice(&number.0.to_be_bytes());
        record[field::LEASE..][..4].copy_from_slice(&lease.to_be_bytes());
        record[field::STAMP..][..4].copy_from_slice(&stamp.to_be_bytes());
        record[field::QTYPE..][..2].copy_from_slice(&question.qtype.to_be_bytes());
        record[field::QCLASS..][..2].copy_from_slice(&question.qclass.to_be_bytes());
        record[field::NAME_LENGTH] = question.name.len() as u8;
        for (stored, &byte) in record[field::NAME..field::PADDING].iter_mut().zip(question.name) {
            *stored = fold(byte);
        }
    }
}

/// A free slot: its kind, and zeros.
pub fn clear(record: &mut SlotRecord) {
    record.fill(0);
    record[0] = FREE;
}

#[cfg(test)]
mod tests {
    use super::*;

    #[test]
    fn lengths() {
        assert_eq!([Weeks::Ten, Weeks::Thirteen].map(head), [313, 317]);
        for slots in 1..=64 {
            assert_eq!(shape_of(313 + 320 * slots), Some((Weeks::Ten, slots)));
            assert_eq!(shape_of(317 + 320 * slots), Some((Weeks::Thirteen, slots)));
        }
        // All others are no tables, those of no slots and of 65 among them.
        let tables = (0..25_000).filter(|&length| shape_of(length).is_some());
        assert_eq!(tables.count(), 2 * 64);
        for length in [0, 313, 317, 313 + 320 * 65, 317 + 320 * 65, usize::MAX] {
            assert_eq!(shape_of(length), None);
        }
    }

    #[test]
    fn clocks_are_written_and_read() {
        let mut bytes = [0xEE; 313 + 320];
        let mut table = Table::new(&mut bytes).unwrap();
        let clock = Clock { weeks: Weeks::Ten, place: 619_315_199, count: 0x0102_0304 };
        table.set_clock(clock);
        assert_eq!(table.clock(), clock);
        assert_eq!(bytes[..10], [0xEE, 0x24, 0xE9, 0xFF, 0xFF, 1, 2, 3, 4, 0xEE]);

        let mut bytes = [0xEE; 317 + 320];
        let mut table = Table::new(&mut bytes).unwrap();
        let clock = Clock { weeks: Weeks::Thirteen, place: 4_954_521_599, count: 0x0102_0304 };
        table.set_clock(clock);
        assert_eq!(table.clock(), clock);
        assert_eq!(bytes[..14], [0xEE, 0, 0, 0, 1, 0x27, 0x4F, 0xFF, 0xFF, 1, 2, 3, 4, 0xEE]);
    }

    #[test]
    fn entries_are_written_and_read() {
        let mut bytes = [0; 313 + 2 * 320];
        let mut table = Table::new(&mut bytes).unwrap();
        table.slots.iter_mut().for_each(clear);
        let sender = Sender { address: 7 << 64 | 9, port: 5_352 };
        let question = Question { name: b"\x02Ab\x00", qtype: 12, qclass: 1 };
        table.fill(1, sender, &question, |byte| byte.to_ascii_lowercase(), LlqNumber(77), 60, 5);
        assert_eq!(table.free(), 1);
        assert_eq!(table.lowest_free(), Some(0));
        assert_eq!(table.find(|entry| entry.number() == LlqNumber(77)), Some(1));
        let entry = table.entry(1);
        assert_eq!((entry.address(), entry.port()), (7 << 64 | 9, 5_352));
        assert_eq!((entry.lease(), entry.stamp(), entry.age(7)), (60, 5, 2));
        assert_eq!((entry.qtype(), entry.qclass(), entry.name()), (12, 1, &b"\x02ab\x00"[..]));
        assert!(!entry.is_established());
        table.establish(1);
        assert!(table.entry(1).is_established());
        table.release(1);
        assert_eq!(table.free(), 2);
        assert_eq!(bytes[313 + 320], FREE);
        assert!(bytes[313 + 321..].iter().all(|&byte| byte == 0));
    }
}

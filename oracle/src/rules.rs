//! The rules of document 01 that a call is worked out by, one function each.
//! `Law` is these rules. They are a trait so that a variant can put one wrong
//! rule in place of a right one; the calls themselves are compiled for `Law`.

use crate::clock::{Clock, Weeks};
use crate::fault::Fault;
use crate::name::{self, Compared};
use crate::query::{LlqNumber, LlqOption, Question, Sender};
use crate::table::{self, Entry, Table};

pub const SHORTEST_LEASE: u32 = 60;
pub const LONGEST_LEASE: u32 = 7_200;
/// The lease of a reply that says full: retry after.
pub const RETRY: u32 = 60;
/// An unlisted address has share 0 and limit 4.
pub const UNLISTED: Allowance = Allowance { share: 0, limit: 4 };

pub mod opcode {
    pub const SETUP: u16 = 1;
    pub const REFRESH: u16 = 2;
}

pub mod error {
    pub const NONE: u16 = 0;
    pub const SERV_FULL: u16 = 1;
    pub const FORMAT_ERR: u16 = 3;
    pub const NO_SUCH_LLQ: u16 = 4;
    pub const BAD_VERS: u16 = 5;
}

/// What an address may hold.
#[derive(Clone, Copy, PartialEq, Eq, Debug)]
pub struct Allowance {
    pub share: u32,
    pub limit: u32,
}

pub trait Rules {
    /// Whether a fault, if found, refuses the call.
    fn faulty(_fault: Fault, found: bool) -> bool {
        found
    }

    /// The kind of the clock record that a making writes.
    fn clock_kind(weeks: Weeks) -> u8 {
        table::clock_kind(weeks)
    }

    /// The place of a reading, or nothing if its week or second is too large.
    fn place(weeks: Weeks, week: u32, second: u32) -> Option<u64> {
        weeks.place(week, second)
    }

    /// The clock moved on by an accepted reading's place.
    fn moved(clock: Clock, place: u64) -> Clock {
        clock.moved(place)
    }

    /// An entry has run out when its age is at least its lease.
    fn run_out(entry: Entry, count: u32) -> bool {
        entry.age(count) >= entry.lease()
    }

    fn fold(byte: u8) -> u8 {
        name::fold(byte)
    }

    /// A stored name and one as received: compared folded.
    fn same_name(stored: &[u8], received: &[u8]) -> Compared {
        name::compare(stored, received, Self::fold)
    }

    /// The entry is of this address, port and question.
    fn same_holding(entry: Entry, sender: Sender, question: &Question) -> bool {
        entry.address() == sender.address
            && entry.port() == sender.port
            && entry.qtype() == question.qtype
            && entry.qclass() == question.qclass
            && Self::same_name(entry.name(), question.name).same
    }

    /// The entry that a setup finds, pending or not.
    fn setup_finds(entry: Entry, sender: Sender, question: &Question) -> bool {
        Self::same_holding(entry, sender, question)
    }

    /// The entry that a response repeats, but for the lease.
    fn response_finds(
        entry: Entry,
        sender: Sender,
        question: &Question,
        number: LlqNumber,
    ) -> bool {
        entry.number() == number && Self::same_holding(entry, sender, question)
    }

    /// A response sends a lease from the life that remains to the granted one, both ends included.
    fn response_lease(entry: Entry, count: u32, sent: u32) -> bool {
        (entry.left(count)..=entry.lease()).contains(&sent)
    }

    /// The lease that a setup is told of the entry it finds: the life that remains.
    fn setup_tells(entry: Entry, count: u32) -> u32 {
        entry.left(count)
    }

    /// The lease that a right response is told: the life that remains, whichever lease was sent.
    fn response_tells(entry: Entry, count: u32, _sent: u32) -> u32 {
        entry.left(count)
    }

    /// The entry that a refresh is for: an established one.
    fn refresh_finds(entry: Entry, sender: Sender, question: &Question, number: LlqNumber) -> bool {
        entry.is_established()
            && entry.number() == number
            && Self::same_holding(entry, sender, question)
    }

    /// Holdings count by address, over all ports, pending entries included.
    fn holds(entry: Entry, sender: Sender) -> bool {
        entry.address() == sender.address
    }

    /// Share and limit of an address.
    fn allowance(table: &Table, address: u128) -> Allowance {
        table
            .listed()
            .find(|line| line.address() == address)
            .map_or(UNLISTED, |line| Allowance { share: line.share(), limit: line.limit() })
    }

    /// What one roster line adds to the reserve: share less held where that is positive.
    fn owed(share: u32, held: u32) -> i32 {
        share.saturating_sub(held) as i32
    }

    /// SERV-FULL exactly if the address is at its limit, or has reached its share
    /// and the free slots are no more than the reserve.
    fn full(held: u32, allowed: Allowance, free: i32, reserve: i32) -> bool {
        held >= allowed.limit || held >= allowed.share && free <= reserve
    }

    /// The slot that a granted setup takes: the lowest free one.
    fn slot(table: &Table) -> Option<usize> {
        table.lowest_free()
    }

    /// The asked lease, raised to 60 or lowered to 7,200.
    fn granted(asked: u32) -> u32 {
        asked.clamp(SHORTEST_LEASE, LONGEST_LEASE)
    }

    /// The first of r, r+1, r+2 and so on, modulo 2^64, that is neither 0 nor in use.
    fn number(r: u64, in_use: impl Fn(LlqNumber) -> bool) -> LlqNumber {
        let mut number = LlqNumber(r);
        while number == LlqNumber::NONE || in_use(number) {
            number = LlqNumber(number.0.wrapping_add(1));
        }
        number
    }

    /// The error of an option that is not well-formed.
    fn malformed(option: &LlqOption) -> Option<u16> {
        if option.version != 1 {
            Some(error::BAD_VERS)
        } else if !matches!(option.opcode, opcode::SETUP | opcode::REFRESH) || option.error != 0 {
            Some(error::FORMAT_ERR)
        } else {
            None
        }
    }
}

pub struct Law;

impl Rules for Law {}

/// Slots the address holds entries in.
pub fn held<R: Rules>(table: &Table, sender: Sender) -> u32 {
    table.entries().filter(|&entry| R::holds(entry, sender)).count() as u32
}

/// The sum, over roster lines, of share less held where that is positive.
pub fn reserve<R: Rules>(table: &Table) -> i32 {
    let held = |address| table.entries().filter(|entry| entry.address() == address).count() as u32;
    table
        .listed()
        .filter(|line| line.share() > 0)
        .map(|line| R::owed(line.share(), held(line.address())))
        .sum()
}

#[cfg(test)]
mod tests {
    use super::*;
    use crate::spans::SPANS;
    use crate::table::{field, SlotRecord};

    #[test]
    fn leases() {
        for (asked, granted) in [
            (0, 60),
            (59, 60),
            (60, 60),
            (61, 61),
            (7_200, 7_200),
            (7_201, 7_200),
            (u32::MAX, 7_200),
        ] {
            assert_eq!(Law::granted(asked), granted);
        }
    }

    /// At a count that has wrapped.
    #[test]
    fn spans() {
        for (granted, age, sent, right) in SPANS {
            let mut record: SlotRecord = [0; 320];
            let count = 5u32;
            record[field::LEASE..][..4].copy_from_slice(&u32::to_be_bytes(granted));
            record[field::STAMP..][..4].copy_from_slice(&count.wrapping_sub(age).to_be_bytes());
            let entry = Entry(&record);
            assert_eq!(Law::response_lease(entry, count, sent), right, "{granted} {age} {sent}");
            assert_eq!(Law::setup_tells(entry, count), granted - age);
            assert_eq!(Law::response_tells(entry, count, sent), granted - age);
        }
    }

    #[test]
    fn numbers() {
        let used = |numbers: &'static [u64]| move |number: LlqNumber| numbers.contains(&number.0);
        assert_eq!(Law::number(7, used(&[])), LlqNumber(7));
        assert_eq!(Law::number(0, used(&[])), LlqNumber(1));
        assert_eq!(Law::number(7, used(&[7, 8, 10])), LlqNumber(9));
        assert_eq!(Law::number(u64::MAX, used(&[u64::MAX, 1, 2])), LlqNumber(3));
    }

    #[test]
    fn full_at_the_limit_or_at_the_share_without_spare_slots() {
        let allowed = Allowance { share: 2, limit: 4 };
        assert!(Law::full(4, allowed, 64, 0));
        assert!(!Law::full(3, allowed, 1, 0));
        assert!(Law::full(3, allowed, 1, 1));
        assert!(Law::full(2, allowed, 3, 3));
        assert!(!Law::full(2, allowed, 4, 3));
        assert!(!Law::full(1, allowed, 1, 1));
        assert!(Law::full(0, UNLISTED, 3, 3));
        assert!(!Law::full(0, UNLISTED, 4, 3));
        assert!(Law::full(0, UNLISTED, 0, 0));
    }

    #[test]
    fn owed_is_never_negative() {
        assert_eq!(Law::owed(3, 1), 2);
        assert_eq!(Law::owed(3, 3), 0);
        assert_eq!(Law::owed(3, 9), 0);
    }

    #[test]
    fn malformed_options() {
        let option =
            LlqOption { version: 1, opcode: 1, error: 0, number: LlqNumber::NONE, lease: 0 };
        assert_eq!(Law::malformed(&option), None);
        assert_eq!(Law::malformed(&LlqOption { opcode: 2, ..option }), None);
        for opcode in [0, 3, 0x0101, 0xFFFF] {
            assert_eq!(Law::malformed(&LlqOption { opcode, ..option }), Some(3));
        }
        assert_eq!(Law::malformed(&LlqOption { error: 1, ..option }), Some(3));
        for version in [0, 2, 0x0101] {
            assert_eq!(Law::malformed(&LlqOption { version, error: 1, ..option }), Some(5));
        }
    }
}

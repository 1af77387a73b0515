//! When a table is sound.

use crate::clock::{Clock, Weeks};
use crate::fault::Fault;
use crate::name;
use crate::rules::{Rules, LONGEST_LEASE, SHORTEST_LEASE};
use crate::table::*;

static ZEROS: SlotRecord = [0; SLOT_RECORD];

fn all_zero(bytes: &[u8]) -> bool {
    bytes == &ZEROS[..bytes.len()]
}

/// The whole of it: kinds, order, zeros and every rule between the records.
/// The length has been judged already.
pub fn is_sound<R: Rules>(table: &Table) -> bool {
    let clock = table.clock();
    clock_is_sound::<R>(table.clock[0], clock)
        && roster_is_sound::<R>(table.roster, table.slots.len())
        && slots_are_sound::<R>(table, clock.count)
}

/// The kind that goes with the length, and a place under the cycle: if it has eight bytes, the three
/// highest are 0 and the five others are under it.
fn clock_is_sound<R: Rules>(kind: u8, clock: Clock) -> bool {
    let (right, other) = match clock.weeks {
        Weeks::Ten => (CLOCK, WIDE_CLOCK),
        Weeks::Thirteen => (WIDE_CLOCK, CLOCK),
    };
    !(R::faulty(Fault::ClockKind, kind != right && kind != other)
        || R::faulty(Fault::ClockKindOfOther, kind == other)
        || R::faulty(Fault::Place, clock.place % (1 << 40) >= clock.weeks.cycle())
        || R::faulty(Fault::PlaceHighBytes, clock.place >> 40 != 0))
}

/// Sixteen lines, listed ones first, unused ones all zero.
fn roster_is_sound<R: Rules>(roster: &[LineRecord], slots: usize) -> bool {
    let listed = roster.iter().take_while(|line| line[0] == LISTED).count();
    let (listed, unused) = roster.split_at(listed);
    for line in unused {
        let fault = match line[0] {
            UNUSED => Fault::UnusedLine,
            LISTED => Fault::LineOrder,
            _ => Fault::LineKind,
        };
        if R::faulty(fault, *line != UNUSED_LINE) {
            return false;
        }
    }
    keeps_roster_rules::<R>(listed, slots)
}

/// Listed addresses differ, 0 <= share <= limit, limit is 1 to 64,
/// shares sum to at most the number of slots.
pub fn keeps_roster_rules<R: Rules>(lines: &[LineRecord], slots: usize) -> bool {
    let mut shares = 0;
    for (at, line) in lines.iter().map(Line).enumerate() {
        let (address, share, limit) = (line.address(), line.share(), line.limit());
        let listed_before = lines[..at].iter().any(|other| Line(other).address() == address);
        if R::faulty(Fault::SameListed, listed_before)
            || R::faulty(Fault::ShareOverLimit, share > limit)
            || R::faulty(Fault::LimitZero, limit == 0)
            || R::faulty(Fault::LimitOver64, limit > 64)
        {
            return false;
        }
        shares += share;
    }
    !R::faulty(Fault::ShareSum, shares as usize > slots)
}

/// An entry with what it is first compared by.
#[derive(Clone, Copy)]
struct Seen<'a> {
    number: u64,
    address: u128,
    entry: Entry<'a>,
}

fn slots_are_sound<R: Rules>(table: &Table, count: u32) -> bool {
    let mut seen = [Seen { number: 0, address: 0, entry: Entry(&ZEROS) }; MOST_SLOTS];
    let mut live = 0;
    for slot in &*table.slots {
        match slot[0] {
            FREE => {
                if R::faulty(Fault::FreeSlot, !all_zero(&slot[1..])) {
                    return false;
                }
            }
            PENDING | ESTABLISHED => {
                let entry = Entry(slot);
                if !entry_is_sound::<R>(entry, count) {
                    return false;
                }
                seen[live] = Seen { number: entry.number().0, address: entry.address(), entry };
                live += 1;
            }
            _ => {
                if R::faulty(Fault::SlotKind, true) {
                    return false;
                }
            }
        }
    }
    let seen = &seen[..live];
    entries_agree::<R>(table, seen)
        && !R::faulty(Fault::Reserve, table.slots.len() - live < reserve(table, seen))
}

fn entry_is_sound<R: Rules>(entry: Entry, count: u32) -> bool {
    let name = entry.name();
    let (padding, zeros) = entry.0[field::NAME + name.len()..].split_at(255 - name.len());
    !(R::faulty(Fault::NumberZero, entry.number().0 == 0)
        || R::faulty(Fault::LeaseShort, entry.lease() < SHORTEST_LEASE)
        || R::faulty(Fault::LeaseLong, entry.lease() > LONGEST_LEASE)
        || R::faulty(Fault::Age, entry.age(count) >= entry.lease())
        || R::faulty(Fault::Name, !name::is_stored(name))
        || R::faulty(Fault::NamePadding, !all_zero(padding))
        || R::faulty(Fault::EntryPadding, !all_zero(zeros)))
}

/// No two entries have the same number, nor the same address, port, name, type
/// and class; no address holds more entries than its limit.
fn entries_agree<R: Rules>(table: &Table, seen: &[Seen]) -> bool {
    for (at, one) in seen.iter().enumerate() {
        let mut held = 1;
        for other in &seen[..at] {
            if R::faulty(Fault::SameNumber, one.number == other.number) {
                return false;
            }
            if one.address == other.address {
                held += 1;
                if R::faulty(Fault::SameHolding, same_port_and_question(one.entry, other.entry)) {
                    return false;
                }
            }
        }
        // The last entry of an address has counted them all.
        if R::faulty(Fault::OverLimit, held > R::allowance(table, one.address).limit) {
            return false;
        }
    }
    true
}

fn same_port_and_question(one: Entry, other: Entry) -> bool {
    one.port() == other.port()
        && one.qtype() == other.qtype()
        && one.qclass() == other.qclass()
        && name::compare_stored(one.name(), other.name()).same
}

/// The sum, over roster lines, of share less held where that is positive.
fn reserve(table: &Table, seen: &[Seen]) -> usize {
    let held = |address| seen.iter().filter(|entry| entry.address == address).count();
    table
        .listed()
        .filter(|line| line.share() > 0)
        .map(|line| (line.share() as usize).saturating_sub(held(line.address())))
        .sum()
}

#[cfg(test)]
mod tests {
    use super::*;
    use crate::calls::make;
    use crate::rules::Law;

    fn listed(address: u8, share: u8, limit: u8) -> Vec<u8> {
        let mut line = vec![0; LINE_RECORD];
        line[0] = LISTED;
        line[16] = address;
        line[17] = share;
        line[18] = limit;
        line
    }

    const HEAD: usize = head(Weeks::Ten);
    const CLOCK_RECORD: usize = clock_record(Weeks::Ten);

    /// n = 4, address 1 with share 2 and limit 3, address 2 with share 1 and limit 1.
    fn made_for(weeks: Weeks) -> Vec<u8> {
        let mut bytes = vec![0; head(weeks) + 4 * SLOT_RECORD];
        let roster = [listed(1, 2, 3), listed(2, 1, 1)].concat();
        assert_eq!(make(0, 0, &mut bytes, &roster), 0);
        bytes
    }

    fn made() -> Vec<u8> {
        made_for(Weeks::Ten)
    }

    fn put(bytes: &mut [u8], slot: usize, address: u8, port: u8, number: u8, name: &[u8]) {
        let record = &mut bytes[HEAD + slot * SLOT_RECORD..][..SLOT_RECORD];
        record[0] = PENDING;
        record[field::ADDRESS + 15] = address;
        record[field::PORT + 1] = port;
        record[field::NUMBER + 7] = number;
        record[field::LEASE + 3] = 60;
        record[field::NAME_LENGTH] = name.len() as u8;
        record[field::NAME..][..name.len()].copy_from_slice(name);
    }

    fn sound(bytes: &[u8]) -> bool {
        let mut bytes = bytes.to_vec();
        is_sound::<Law>(&Table::new(&mut bytes).unwrap())
    }

    fn unsound_with(bytes: &[u8], at: usize, value: u8) -> bool {
        let mut bytes = bytes.to_vec();
        assert_ne!(bytes[at], value);
        bytes[at] = value;
        !sound(&bytes)
    }

    #[test]
    fn records() {
        let mut bytes = made();
        put(&mut bytes, 1, 1, 9, 7, b"\x01a\x00");
        assert!(sound(&bytes));
        let (line, slot) = (CLOCK_RECORD + LINE_RECORD, HEAD + SLOT_RECORD);
        for (at, value) in [
            (0, 2),
            (0, 9),
            (1, 0x25),
            (line, 2),
            (line, 4),
            (line + 17, 2),
            (line + 18, 0),
            (line + 18, 65),
            (line + 16, 1),
            (line + LINE_RECORD, 3),
            (line + LINE_RECORD, 1),
            (line + LINE_RECORD + 1, 1),
            (HEAD - 1, 1),
            (HEAD, 0),
            (HEAD, 3),
            (HEAD, 7),
            (HEAD + 1, 1),
            (HEAD + 319, 1),
            (slot + field::NUMBER + 7, 0),
            (slot + field::LEASE + 3, 59),
            (slot + field::LEASE, 1),
            (slot + field::STAMP, 0xFF),
            (slot + field::NAME_LENGTH, 0),
            (slot + field::NAME_LENGTH, 2),
            (slot + field::NAME_LENGTH, 4),
            (slot + field::NAME, 2),
            (slot + field::NAME, 64),
            (slot + field::NAME + 1, b'A'),
            (slot + field::NAME + 3, 1),
            (slot + field::NAME + 254, 1),
            (slot + field::PADDING, 1),
            (slot + 319, 1),
        ] {
            assert!(unsound_with(&bytes, at, value), "byte {at} as {value}");
        }
        for (at, value) in
            [(0, 1), (4, 9), (slot, 6), (slot + field::QTYPE, 9), (slot + field::PORT, 9)]
        {
            bytes[at] = value;
            assert!(sound(&bytes), "byte {at} as {value}");
        }
    }

    #[test]
    fn last_place_is_under_the_cycle() {
        let mut bytes = made();
        for (place, is_sound) in
            [(0u32, true), (619_315_199, true), (619_315_200, false), (u32::MAX, false)]
        {
            bytes[1..5].copy_from_slice(&place.to_be_bytes());
            assert_eq!(sound(&bytes), is_sound, "{place}");
        }
        let mut bytes = made_for(Weeks::Thirteen);
        for (place, is_sound) in [
            (0u64, true),
            (619_315_199, true),
            (619_315_200, true),
            (4_294_967_295, true),
            (4_294_967_296, true),
            (4_954_521_599, true),
            (4_954_521_600, false),
            (4_954_521_601, false),
            (0xFF_FFFF_FFFF, false),
            // Any bit of the three highest bytes.
            (1 << 40, false),
            (1 << 47, false),
            (1 << 48, false),
            (1 << 56, false),
            (1 << 63, false),
            (1 << 63 | 4_954_521_599, false),
            (u64::MAX, false),
        ] {
            bytes[1..9].copy_from_slice(&place.to_be_bytes());
            assert_eq!(sound(&bytes), is_sound, "{place}");
        }
    }

    /// The running count is free, the kind is that of the length.
    #[test]
    fn kinds_of_clocks() {
        for (weeks, right, count) in [(Weeks::Ten, 0x01, 5), (Weeks::Thirteen, 0x09, 9)] {
            let mut bytes = made_for(weeks);
            assert_eq!(bytes[0], right);
            for now in [1u32, 1 << 31, u32::MAX] {
                bytes[count..count + 4].copy_from_slice(&now.to_be_bytes());
                assert!(sound(&bytes), "{weeks:?} {now}");
            }
            for kind in (0..=255).filter(|&kind| kind != right) {
                assert!(unsound_with(&bytes, 0, kind), "{weeks:?} {kind}");
            }
        }
    }

    /// All else is as in the other table, four bytes further on.
    #[test]
    fn a_wider_clock_moves_the_rest() {
        let (narrow, wide) = (made(), made_for(Weeks::Thirteen));
        assert_eq!(narrow[..9], [1, 0, 0, 0, 0, 0, 0, 0, 0]);
        assert_eq!(wide[..13], [9, 0, 0, 0, 0, 0, 0, 0, 0, 0, 0, 0, 0]);
        assert_eq!(narrow[9..], wide[13..]);
        let mut bytes = wide.clone();
        bytes[317] = 7;
        assert!(!sound(&bytes));
        // Wherever a bit is turned, both are sound then or neither.
        for at in 13..wide.len() {
            let [one, other] = [(at - 4, &narrow), (at, &wide)].map(|(at, table)| {
                let mut bytes = table.clone();
                bytes[at] ^= 1;
                sound(&bytes)
            });
            assert_eq!(one, other, "byte {at}");
        }
    }

    #[test]
    fn entries_differ_in_number_and_holding() {
        let mut bytes = made();
        put(&mut bytes, 0, 1, 9, 7, b"\x01a\x00");
        put(&mut bytes, 1, 1, 9, 8, b"\x01b\x00");
        assert!(sound(&bytes));
        put(&mut bytes, 1, 1, 9, 7, b"\x01b\x00");
        assert!(!sound(&bytes));
        put(&mut bytes, 1, 1, 9, 8, b"\x01a\x00");
        assert!(!sound(&bytes));
        put(&mut bytes, 1, 1, 10, 8, b"\x01a\x00");
        assert!(sound(&bytes));
    }

    #[test]
    fn limits_and_reserve() {
        let mut bytes = made();
        // Free 3, reserve 3.
        put(&mut bytes, 0, 9, 0, 1, b"\x00");
        assert!(sound(&bytes));
        // Free 2, reserve 3.
        put(&mut bytes, 1, 9, 1, 2, b"\x00");
        assert!(!sound(&bytes));
        // Address 1 at its limit of 3, one slot left for address 2.
        let mut bytes = made();
        for slot in 0..3 {
            put(&mut bytes, slot, 1, slot as u8, 1 + slot as u8, b"\x00");
        }
        assert!(sound(&bytes));
        put(&mut bytes, 3, 2, 0, 9, b"\x00");
        assert!(sound(&bytes));
        bytes[CLOCK_RECORD + 18] = 2;
        assert!(!sound(&bytes));
    }

    #[test]
    fn unlisted_addresses_hold_at_most_four() {
        let mut bytes = vec![0; HEAD + 5 * SLOT_RECORD];
        assert_eq!(make(0, 0, &mut bytes, &[]), 0);
        for slot in 0..4 {
            put(&mut bytes, slot, 9, slot as u8, 1 + slot as u8, b"\x00");
        }
        assert!(sound(&bytes));
        put(&mut bytes, 4, 9, 4, 9, b"\x00");
        assert!(!sound(&bytes));
    }
}

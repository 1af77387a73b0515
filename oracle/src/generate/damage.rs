//! Table bytes edited: kept sound, or damaged field by field.

use super::world::{name, name_of, World};
use super::Widths;
use crate::clock::Weeks;
use crate::random::Random;
use crate::script::Step;
use crate::table::{clock_record, field, head, shape_of, LINES, LINE_RECORD, SLOT_RECORD};

fn number(bytes: &[u8]) -> u64 {
    bytes.iter().fold(0, |number, &byte| number << 8 | u64::from(byte))
}

fn weeks(table: &[u8]) -> Weeks {
    shape_of(table.len()).expect("the length of a table").0
}

/// Where the running count is.
fn count_at(table: &[u8]) -> usize {
    lines_at(table) - 4
}

fn count(table: &[u8]) -> u32 {
    number(&table[count_at(table)..][..4]) as u32
}

/// Where the roster is.
fn lines_at(table: &[u8]) -> usize {
    clock_record(weeks(table))
}

fn edit(at: usize, bytes: &[u8]) -> Step {
    Step::Edit { at, bytes: bytes.to_vec() }
}

/// Another last place.
fn place_edit(table: &[u8], place: u64) -> Step {
    match weeks(table) {
        Weeks::Ten => edit(1, &(place as u32).to_be_bytes()),
        Weeks::Thirteen => edit(1, &place.to_be_bytes()),
    }
}

/// Where the slots are.
fn slots(table: &[u8]) -> Vec<usize> {
    (head(weeks(table))..table.len()).step_by(SLOT_RECORD).collect()
}

/// Where the slots are that hold entries.
fn entries(table: &[u8]) -> Vec<usize> {
    slots(table).into_iter().filter(|&at| table[at] == 5 || table[at] == 6).collect()
}

/// Edits that leave a sound table sound, or nearly always do.
pub fn sound_edits(random: &mut Random, world: &World, table: &[u8]) -> Vec<Step> {
    let entries = entries(table);
    let now = count(table);
    let entry = if entries.is_empty() { None } else { Some(*random.pick(&entries)) };
    let mut steps = Vec::new();
    match (random.below(12), entry) {
        (0..4, _) => {
            // The running count near its wrap, every age kept.
            let then = match random.below(4) {
                0 => 0u32.wrapping_sub(1 + random.below(100) as u32),
                1 => u32::MAX,
                2 => random.below(100) as u32,
                _ => 0u32.wrapping_sub(random.below(7_300) as u32),
            };
            steps.push(edit(count_at(table), &then.to_be_bytes()));
            for at in entries {
                let stamp = number(&table[at + field::STAMP..][..4]) as u32;
                let moved = stamp.wrapping_add(then.wrapping_sub(now));
                steps.push(edit(at + field::STAMP, &moved.to_be_bytes()));
            }
        }
        (4, _) => {
            let narrow = [0, 619_315_199, 309_657_599, 309_657_600, 604_799];
            let wide = [0, 4_954_521_599, 2_477_260_799, 2_477_260_800, 619_315_199, 1 << 32];
            let place = match weeks(table) {
                Weeks::Ten => random.pick(&narrow),
                Weeks::Thirteen => random.pick(&wide),
            };
            steps.push(place_edit(table, *place));
        }
        (5, Some(at)) => {
            // One second left.
            let lease = number(&table[at + field::LEASE..][..4]) as u32;
            let stamp = now.wrapping_sub(lease - 1);
            steps.push(edit(at + field::STAMP, &stamp.to_be_bytes()));
        }
        (6, Some(at)) => steps.push(edit(at, &[table[at] ^ 3])),
        (7, Some(at)) => {
            let numbers = [u64::MAX, u64::MAX - 1, 1, 2, 3, 1 << 63];
            steps.push(edit(at + field::NUMBER, &random.pick(&numbers).to_be_bytes()));
        }
        (8, Some(at)) => {
            // Two slots trade places.
            let other = *random.pick(&slots(table));
            steps.push(edit(at, &table[other..other + SLOT_RECORD]));
            steps.push(edit(other, &table[at..at + SLOT_RECORD]));
        }
        (9, Some(at)) => {
            let (port, address) = (random.pick(&world.ports), random.pick(&world.addresses));
            steps.push(edit(at + field::PORT, &port.to_be_bytes()));
            steps.push(edit(at + field::ADDRESS, address));
        }
        (10, Some(at)) => {
            let name = random
                .pick(&[name_of(255, b'k'), name_of(64, b'k'), name(&[]), name(&[b"\xC1\xFF"])])
                .clone();
            let mut stored = name.clone();
            stored.resize(255, 0);
            steps.push(edit(at + field::NAME_LENGTH, &[name.len() as u8]));
            steps.push(edit(at + field::NAME, &stored));
        }
        (_, Some(at)) => {
            let lease = random.pick(&[60u32, 7_200]);
            steps.push(edit(at + field::LEASE, &lease.to_be_bytes()));
            steps.push(edit(at + field::STAMP, &now.to_be_bytes()));
        }
        (_, None) => {
            let then = random.number() as u32;
            steps.push(edit(count_at(table), &then.to_be_bytes()));
        }
    }
    steps
}

/// One edit in one field, or the table at another length; now and then it is still sound.
pub fn damage(random: &mut Random, world: &World, table: &[u8]) -> Step {
    let entries = entries(table);
    let free: Vec<usize> = slots(table).into_iter().filter(|&at| table[at] == 4).collect();
    match random.below(20) {
        // Of both kinds of clock one is wrong.
        0 => edit(0, &[*random.pick(&[0x01, 0x01, 0x09, 0x09, 0, 2, 8, 0x0A, 0x81, 0x89])]),
        1 => place_damage(random, table),
        2 if random.percent(30) => other_length(random, world, table),
        2 => edit(count_at(table), &(random.number() as u32).to_be_bytes()),
        3..7 => line_damage(random, table),
        7 if !free.is_empty() => {
            edit(*random.pick(&free), &[*random.pick(&[0, 1, 2, 3, 5, 6, 7, 0xFF])])
        }
        8 if !free.is_empty() => {
            let anywhere = 1 + random.below(SLOT_RECORD - 1);
            let offset = *random.pick(&[1, 2, 17, 160, 318, 319, anywhere, anywhere]);
            edit(random.pick(&free) + offset, &[1 << random.below(8)])
        }
        9 if !free.is_empty() && !entries.is_empty() => {
            // An entry that is there twice, or differs from another in its number alone.
            let from = *random.pick(&entries);
            let mut record = table[from..from + SLOT_RECORD].to_vec();
            if random.percent(60) {
                record[field::NUMBER] ^= 1;
            }
            if random.percent(50) {
                record[field::PORT] ^= 1;
            }
            edit(*random.pick(&free), &record)
        }
        _ if !entries.is_empty() => entry_damage(random, world, table, &entries),
        _ => {
            let at = random.below(table.len());
            edit(at, &[table[at] ^ 1 << random.below(8)])
        }
    }
}

/// Places around the end of the cycle; of eight bytes also others that are too high, and those that
/// fewer bytes do not hold.
fn place_damage(random: &mut Random, table: &[u8]) -> Step {
    const NARROW: [u64; 5] = [619_315_199, 619_315_200, 619_315_201, 0xFFFF_FFFF, 0x8000_0000];
    const WIDE: [u64; 8] = [
        4_954_521_599,
        4_954_521_600,
        4_954_521_601,
        619_315_200,
        0xFFFF_FFFF,
        0x1_0000_0000,
        0xFF_FFFF_FFFF,
        u64::MAX,
    ];
    match weeks(table) {
        Weeks::Ten => place_edit(table, *random.pick(&NARROW)),
        Weeks::Thirteen if random.percent(50) => place_edit(table, *random.pick(&WIDE)),
        // A bit of the four highest bytes, of which three are 0 in every place.
        Weeks::Thirteen => {
            let at = 1 + random.below(4);
            edit(at, &[table[at] ^ 1 << random.below(8)])
        }
    }
}

/// The table's bytes at a length near its own: with a place of the other width under its own kind, or
/// with four bytes more or less at the end, or with one.
fn other_length(random: &mut Random, world: &World, table: &[u8]) -> Step {
    let (clock, rest) = table.split_at(lines_at(table));
    let mut bytes = match (random.below(4), weeks(table)) {
        (0, Weeks::Ten) => [&[clock[0], 0, 0, 0, 0], &clock[1..], rest].concat(),
        (0, Weeks::Thirteen) => [&clock[..1], &clock[5..], rest].concat(),
        (1, Weeks::Ten) => [table, &[0; 4]].concat(),
        (1, Weeks::Thirteen) => table[..table.len() - 4].to_vec(),
        (2, _) => table[..table.len() - 1].to_vec(),
        _ => [table, &[0]].concat(),
    };
    if world.widths == Widths::TenBits && super::is_wide(bytes.len()) {
        bytes.pop();
    }
    Step::Table { bytes }
}

fn line_damage(random: &mut Random, table: &[u8]) -> Step {
    let line_at = |line| lines_at(table) + line * LINE_RECORD;
    let listed = (0..LINES).take_while(|&line| table[line_at(line)] == 3).count();
    let any = random.below(LINES);
    let line = if listed > 0 && random.percent(70) { random.below(listed) } else { any };
    let at = line_at(line);
    let (share, limit) = (table[at + 17], table[at + 18]);
    let other = line_at(random.below(listed.max(1)));
    match random.below(10) {
        0 => edit(at, &[*random.pick(&[0, 1, 2, 3, 4, 0x83])]),
        1 => edit(at, &[if table[at] == 2 { 3 } else { 2 }]),
        2 => edit(at + 1, &table[other + 1..other + 17]),
        3 => edit(at + 17, &[share.wrapping_add(1)]),
        4 => edit(at + 17, &[*random.pick(&[0, 1, 4, 64, 255])]),
        5 => edit(at + 18, &[*random.pick(&[0, 1, 64, 65, 255])]),
        6 => edit(at + 18, &[limit.wrapping_sub(1)]),
        7 => edit(at + 18, &[share.wrapping_sub(1)]),
        8 => {
            // A whole listed line put in, with unused ones before it or not.
            let mut record = [0x55; LINE_RECORD];
            record[0] = 3;
            [record[17], record[18]] =
                *random.pick(&[[0, 1], [0, 64], [1, 1], [1, 65], [2, 1], [0, 0]]);
            let to = if random.percent(60) { listed.min(LINES - 1) } else { any };
            edit(line_at(to), &record)
        }
        _ => edit(at + 1 + random.below(18), &[1 << random.below(8)]),
    }
}

fn entry_damage(random: &mut Random, world: &World, table: &[u8], entries: &[usize]) -> Step {
    let at = *random.pick(entries);
    let other = *random.pick(entries);
    let lease = number(&table[at + field::LEASE..][..4]) as u32;
    let now = count(table);
    let age = now.wrapping_sub(number(&table[at + field::STAMP..][..4]) as u32);
    let length = table[at + field::NAME_LENGTH];
    let name_end = field::NAME + usize::from(length);
    match random.below(24) {
        0 => edit(at, &[*random.pick(&[0, 1, 2, 3, 4, 7, 0x85])]),
        1 => edit(at + field::NUMBER, &[0; 8]),
        2 => edit(at + field::NUMBER, &table[other + field::NUMBER..][..8]),
        3..6 => {
            let leases = [0, 59, 60, 7_200, 7_201, age, age.wrapping_add(1), u32::MAX];
            edit(at + field::LEASE, &random.pick(&leases).to_be_bytes())
        }
        6..8 => {
            let ages = [lease, lease.wrapping_sub(1), lease.wrapping_add(1), u32::MAX, 1 << 31];
            edit(at + field::STAMP, &now.wrapping_sub(*random.pick(&ages)).to_be_bytes())
        }
        8 => edit(at + field::ADDRESS, &table[other + field::ADDRESS..][..18]),
        9..11 => edit(at + field::ADDRESS, &random.pick(&world.addresses)[..]),
        11 => edit(at + field::QTYPE, &table[other + field::QTYPE..][..2]),
        12 => {
            // The other's question, from its type on.
            edit(at + field::QTYPE, &table[other + field::QTYPE..][..4 + 1 + 255])
        }
        13 => edit(
            at + field::NAME_LENGTH,
            &[*random.pick(&[0, 1, 255, length.wrapping_add(1), length - 1])],
        ),
        14 => edit(at + field::NAME, &[*random.pick(&[0, 1, 2, 3, 63, 64, 65, 0xC0])]),
        15..17 => {
            let place = at + field::NAME + random.below(usize::from(length));
            edit(place, &[*random.pick(b"@AZ[az\x00\x40\x80\xC1\xFF")])
        }
        17..19 if name_end < field::PADDING => {
            let last = field::PADDING - 1;
            let place = *random.pick(&[name_end, last, name_end + (last - name_end) / 2]);
            edit(at + place, &[1 << random.below(8)])
        }
        19..21 => {
            let place = *random.pick(&[field::PADDING, field::PADDING + 12, SLOT_RECORD - 1]);
            edit(at + place, &[1 << random.below(8)])
        }
        21 => edit(at + field::PORT, &random.pick(&world.ports).to_be_bytes()),
        22 => edit(at, &[table[at] ^ 3]),
        _ => {
            let place = at + random.below(SLOT_RECORD);
            edit(place, &[table[place] ^ 1 << random.below(8)])
        }
    }
}

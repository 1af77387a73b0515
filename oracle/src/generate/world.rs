//! The few addresses, ports, questions and numbers that a list draws from, so
//! that its calls meet each other.

use super::Widths;
use crate::clock::Weeks;
use crate::random::Random;
use crate::table;
use crate::tally::{From, Line, Tally};

pub const LEASES: [u32; 14] =
    [0, 1, 59, 60, 61, 90, 100, 3_600, 7_199, 7_200, 7_201, 65_536 + 60, 0x8000_0000, u32::MAX];

pub struct World {
    pub widths: Widths,
    pub weeks: Weeks,
    pub addresses: Vec<[u8; 16]>,
    pub ports: Vec<u16>,
    pub names: Vec<Vec<u8>>,
    pub types: Vec<u16>,
    pub classes: Vec<u16>,
    pub slots: usize,
    /// Mostly new questions with long leases, so that a large table fills.
    pub filling: bool,
}

/// Labels of these contents, then the zero byte.
pub fn name(labels: &[&[u8]]) -> Vec<u8> {
    let mut name = Vec::new();
    for label in labels {
        name.push(label.len() as u8);
        name.extend(*label);
    }
    name.push(0);
    name
}

/// A name of just this many bytes, at most 320.
pub fn name_of(length: usize, byte: u8) -> Vec<u8> {
    let mut labels: Vec<usize> = Vec::new();
    let mut left = length - 1;
    while left > 0 {
        // No label is left with less than a length byte and one byte.
        let whole = if left == 65 { 63 } else { left.min(64) };
        labels.push(whole - 1);
        left -= whole;
    }
    let labels: Vec<Vec<u8>> = labels.into_iter().map(|length| vec![byte; length]).collect();
    name(&labels.iter().map(Vec::as_slice).collect::<Vec<_>>())
}

fn all_names(random: &mut Random) -> Vec<Vec<u8>> {
    let mut longest = name_of(255, b'y');
    longest[253] = b'z';
    let noise = [random.bytes(1), random.bytes_below(20)].concat();
    vec![
        name(&[]),
        name(&[b"a"]),
        name(&[b"b"]),
        name(&[b"ab"]),
        name(&[b"a", b"b"]),
        name(&[b"a\x01b"]),
        name(&[b"a\x00"]),
        name(&[b"a\x00\x00b"]),
        name(&[b"@az[`{"]),
        name(&[b"`az{@["]),
        name(&[b"\xC1\xDA\xD7"]),
        name(&[b"\xE1\xFA\xF7"]),
        name(&[b"\x41\xC1", b"\x7F\x80\xFF"]),
        name(&[b"_ftp", b"_tcp", b"example", b"com"]),
        name(&[b"_ftp", b"_tcp", b"example", b"net"]),
        name(&[&noise]),
        name_of(65, b'q'),
        name_of(254, b'y'),
        name_of(255, b'y'),
        longest,
    ]
}

/// Two names of one length that hold every byte value between them, in any order. At each place they
/// differ in bit 0x20 alone, by which letters differ in case and other bytes do not fold.
fn names_of_every_value(random: &mut Random) -> [Vec<u8>; 2] {
    let halves: Vec<u8> = (0..=255).filter(|byte| byte & 0x20 == 0).collect();
    let one: Vec<u8> = some(random, &halves, halves.len())
        .into_iter()
        .map(|byte| if random.percent(50) { byte } else { byte ^ 0x20 })
        .collect();
    let other = one.iter().map(|byte| byte ^ 0x20).collect();
    [one, other].map(|values: Vec<u8>| name(&values.chunks(63).collect::<Vec<_>>()))
}

fn all_addresses() -> Vec<[u8; 16]> {
    let mut mapped = [0; 16];
    mapped[10..].copy_from_slice(&[0xFF, 0xFF, 192, 0, 2, 1]);
    let with = |at: usize, value: u8| {
        let mut address = mapped;
        address[at] = value;
        address
    };
    // Some differ in one byte of one half only.
    vec![
        mapped,
        with(15, 2),
        with(0, 0x20),
        with(7, 1),
        with(8, 0x80),
        [0; 16],
        [0xFF; 16],
        with(12, 10),
    ]
}

fn some<T: Clone>(random: &mut Random, from: &[T], count: usize) -> Vec<T> {
    let mut from = from.to_vec();
    let mut taken = Vec::new();
    while taken.len() < count && !from.is_empty() {
        taken.push(from.swap_remove(random.below(from.len())));
    }
    taken
}

impl World {
    pub fn new(random: &mut Random, widths: Widths) -> World {
        let wide = widths == Widths::Both && random.percent(45);
        let slots = match random.below(20) {
            0..3 => 1,
            3..14 => 2 + random.below(7),
            14..17 => 9 + random.below(20),
            17 => 63,
            18 => 64,
            _ => 1 + random.below(64),
        };
        let mut addresses = all_addresses();
        if slots > 8 {
            addresses.extend((0..20u8).map(|last| {
                let mut address = [0x20; 16];
                address[15] = last;
                address
            }));
        }
        let filling = slots > 8 && random.percent(60);
        let addresses_taken = match slots {
            0..9 => 1 + random.below(5),
            _ if filling => 20,
            _ => 1 + random.below(20),
        };
        let all_names = all_names(random);
        let names_taken = 2 + random.below(7) + slots / 8;
        let mut names = some(random, &all_names, names_taken);
        names.extend(names_of_every_value(random));
        World {
            widths,
            weeks: if wide { Weeks::Thirteen } else { Weeks::Ten },
            addresses: some(random, &addresses, addresses_taken),
            ports: some(random, &[5_353, 5_354, 0, 0xFFFF, 0xE914], 3),
            names,
            types: some(random, &[12, 1, 255, 0x0C00], 2),
            classes: some(random, &[1, 255, 0x8001], 2),
            slots,
            filling,
        }
    }

    /// The table's length.
    pub fn length(&self) -> usize {
        table::head(self.weeks) + self.slots * table::SLOT_RECORD
    }

    pub fn cycle(&self) -> i64 {
        self.weeks.cycle() as i64
    }

    pub fn sender(&self, random: &mut Random) -> From {
        (*random.pick(&self.addresses), *random.pick(&self.ports))
    }

    /// One of the names, its letters in any case.
    pub fn name(&self, random: &mut Random) -> Vec<u8> {
        let name = random.pick(&self.names).clone();
        if random.percent(50) {
            other_case(random, &name)
        } else {
            name
        }
    }

    pub fn lease(&self, random: &mut Random) -> u32 {
        match random.below(4) {
            _ if self.filling && random.percent(80) => 7_200,
            0 => 60 + random.below(60) as u32,
            1 => 60 + random.below(7_141) as u32,
            2 => *random.pick(&[60, 7_200]),
            _ => *random.pick(&LEASES),
        }
    }

    /// The host's number.
    pub fn host_number(&self, random: &mut Random, tally: Option<&Tally>, from: From) -> u64 {
        let holdings = tally.map_or(&[][..], |tally| &tally.holdings);
        let in_use: Vec<u64> = holdings.iter().map(|h| h.number).collect();
        let own: Vec<u64> =
            holdings.iter().filter(|h| (h.address, h.port) == from).map(|h| h.number).collect();
        match random.below(20) {
            0..2 => 0,
            2..4 => u64::MAX,
            4 => u64::MAX - 1,
            5..8 => 1 + random.below(4) as u64,
            8 => 1 << 63,
            9..11 if !own.is_empty() => *random.pick(&own),
            11..14 if !in_use.is_empty() => *random.pick(&in_use),
            14 if !in_use.is_empty() => random.pick(&in_use).wrapping_sub(1),
            _ => random.number(),
        }
    }

    /// A roster that keeps the rules, on the edge of them more often than not.
    fn right_roster(&self, random: &mut Random) -> Vec<Line> {
        let count = match random.below(10) {
            // Nothing reserved, so that all slots can be taken.
            _ if self.filling && random.percent(40) => 0,
            0..2 => 0,
            2 => 16,
            _ => random.below(self.addresses.len().min(16) + 1),
        };
        let mut lines = Vec::new();
        let mut left = self.slots;
        for at in 0..count {
            let address = self.addresses.get(at).copied().unwrap_or_else(|| {
                let mut address = [0x77; 16];
                address[15] = at as u8;
                address
            });
            let limit = match random.below(8) {
                0 => 64,
                1 => 1,
                2 => 1 + random.below(64),
                _ => 1 + random.below(self.slots.min(8)),
            };
            let most = limit.min(left);
            let share = match random.below(4) {
                0 => 0,
                1 => most,
                _ => random.below(most.min(4) + 1),
            };
            left -= share;
            lines.push(Line { address, share, limit });
        }
        some(random, &lines, count)
    }

    pub fn roster(&self, random: &mut Random) -> Vec<u8> {
        let mut bytes: Vec<u8> = Vec::new();
        for line in self.right_roster(random) {
            bytes.push(3);
            bytes.extend(line.address);
            bytes.extend([line.share as u8, line.limit as u8]);
        }
        bytes
    }

    /// A roster with one thing changed, mostly against the rules.
    pub fn wrong_roster(&self, random: &mut Random) -> Vec<u8> {
        let mut bytes = self.roster(random);
        if bytes.is_empty() {
            bytes.push(3);
            bytes.extend(self.addresses[0]);
            bytes.extend([0, 1]);
        }
        let lines = bytes.len() / 19;
        let line = 19 * random.below(lines);
        let limit = bytes[line + 18];
        match random.below(12) {
            0 => bytes[line] = *random.pick(&[0, 1, 2, 4, 5, 0x83]),
            1 => bytes[line + 17] = limit.wrapping_add(1),
            2 => bytes[line + 17] = *random.pick(&[65, 128, 255]),
            3 => bytes[line + 17..line + 19].fill(0),
            4 => bytes[line + 18] = *random.pick(&[0, 65, 128, 255]),
            5 => {
                let again = bytes[line..line + 19].to_vec();
                bytes.extend(again);
            }
            6 => {
                // One slot more than there are.
                bytes[line + 18] = 64;
                let others: usize = bytes.chunks(19).map(|l| l[17] as usize).sum::<usize>()
                    - bytes[line + 17] as usize;
                bytes[line + 17] = (self.slots + 1).saturating_sub(others).min(255) as u8;
            }
            7 => {
                bytes.pop();
            }
            8 => bytes.push(3),
            9 => bytes.truncate(1 + random.below(18)),
            10 => {
                bytes.truncate(16 * 19);
                while bytes.len() < 17 * 19 {
                    let at = bytes.len() as u8;
                    bytes.push(3);
                    bytes.extend([at; 16]);
                    bytes.extend([0, 1]);
                }
            }
            _ => {
                let at = random.below(bytes.len());
                bytes[at] ^= 1 << random.below(8);
            }
        }
        bytes
    }
}

/// The name with the case of its letters changed here and there.
pub fn other_case(random: &mut Random, name: &[u8]) -> Vec<u8> {
    name.iter()
        .map(
            |&byte| {
                if byte.is_ascii_alphabetic() && random.percent(50) {
                    byte ^ 0x20
                } else {
                    byte
                }
            },
        )
        .collect()
}

#[cfg(test)]
mod tests {
    use super::*;
    use crate::values::Values;

    #[test]
    fn two_names_hold_every_value() {
        let mut random = Random::new(1);
        for _ in 0..100 {
            let names = names_of_every_value(&mut random);
            assert_eq!(names.each_ref().map(Vec::len), [132, 132]);
            let mut values = Values::default();
            names.iter().for_each(|name| values.add(name, name.len()));
            assert!(values.are_all());
        }
    }

    #[test]
    fn names_have_their_lengths() {
        for length in [1, 3, 4, 64, 65, 66, 67, 129, 130, 131, 254, 255, 256, 257] {
            let name = name_of(length, b'x');
            assert_eq!(name.len(), length);
            assert!(length > 255 || crate::name::is_stored(&name), "{length}");
        }
    }
}

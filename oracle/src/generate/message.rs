//! Datagrams: drafted part by part, then spoilt in one place now and then.

use super::world::{name_of, other_case, World, LEASES};
use crate::random::Random;
use crate::tally::{From, Holding, Tally};
use crate::told::{OfEntry, ToldLeases};

/// A message before it is written out.
#[derive(Clone)]
pub struct Draft {
    message: u16,
    flags: [u8; 2],
    counts: [u16; 4],
    /// Name, type, class of each question.
    questions: Vec<Vec<u8>>,
    /// The OPT record's eleven bytes but for the length of its data.
    opt: [u8; 9],
    /// Code, stated length and data of each option.
    options: Vec<(u16, u16, Vec<u8>)>,
    /// Added to the stated length of the OPT record's data.
    more: i32,
    tail: Vec<u8>,
}

impl Draft {
    fn bytes(&self) -> Vec<u8> {
        let mut bytes = self.message.to_be_bytes().to_vec();
        bytes.extend(self.flags);
        for count in self.counts {
            bytes.extend(count.to_be_bytes());
        }
        bytes.extend(self.questions.concat());
        let mut data = Vec::new();
        for (code, length, option) in &self.options {
            data.extend(code.to_be_bytes());
            data.extend(length.to_be_bytes());
            data.extend(option);
        }
        bytes.extend(self.opt);
        bytes.extend((data.len() as i32 + self.more).to_be_bytes()[2..].iter());
        bytes.extend(data);
        bytes.extend(&self.tail);
        bytes
    }

    fn add(&mut self, code: u16, data: Vec<u8>) {
        self.options.push((code, data.len() as u16, data));
    }

    /// An option of another code so that the whole has this length, if it is not longer already.
    fn pad_to(&mut self, length: usize) {
        let now = self.bytes().len();
        if now + 4 <= length {
            self.add(0xFDE9, vec![0xEE; length - now - 4]);
        }
    }

    /// The length of the reply, if the message is answered.
    fn reply_length(&self) -> usize {
        let llq = self.options.iter().filter(|(code, _, _)| *code == 1);
        let matched =
            llq.clone().count() == self.questions.len() && llq.clone().all(|o| o.2.len() == 18);
        let options = if matched { self.questions.len() } else { 1 };
        12 + self.questions.concat().len() + 11 + 22 * options
    }
}

fn option(version: u16, opcode: u16, error: u16, number: u64, lease: u32) -> Vec<u8> {
    let mut data = Vec::new();
    for field in [version, opcode, error] {
        data.extend(field.to_be_bytes());
    }
    data.extend(number.to_be_bytes());
    data.extend(lease.to_be_bytes());
    data
}

fn question(name: &[u8], qtype: u16, qclass: u16) -> Vec<u8> {
    [name, &qtype.to_be_bytes(), &qclass.to_be_bytes()].concat()
}

pub struct Message {
    pub from: From,
    pub random: u64,
    pub reply_length: usize,
    pub bytes: Vec<u8>,
}

/// A datagram on a tally with the ages that it will find.
pub fn message(
    random: &mut Random,
    world: &World,
    tally: Option<&Tally>,
    told: &ToldLeases,
) -> Message {
    let holdings = tally.map_or(&[][..], |tally| &tally.holdings);
    let from = if !holdings.is_empty() && random.percent(if world.filling { 20 } else { 50 }) {
        let holding = random.pick(holdings);
        (holding.address, holding.port)
    } else {
        world.sender(random)
    };
    let host_number = world.host_number(random, tally, from);
    let mut draft = draft(random, world, holdings, told, from, host_number);
    if random.percent(3) {
        draft = around_1472(random);
    }
    let need = draft.reply_length();
    let mut bytes = draft.bytes();
    if random.percent(25) {
        bytes = spoilt(random, draft);
    }
    let reply_length = match random.below(40) {
        0..8 => need,
        8 => need - 1,
        9 => need + 1,
        10 => 0,
        11 => random.below(need),
        12..24 => 1_472,
        24..38 => 1_500,
        38 => 70_000,
        _ => random.below(1_600),
    };
    Message { from, random: host_number, reply_length, bytes }
}

/// One to eight questions beside their options.
fn draft(
    random: &mut Random,
    world: &World,
    holdings: &[Holding],
    told: &ToldLeases,
    from: From,
    host_number: u64,
) -> Draft {
    let count = match random.below(10) {
        _ if world.filling && random.percent(80) => 1 + random.below(8),
        0..5 => 1,
        5..7 => 2,
        7..9 => 1 + random.below(8),
        _ => 8,
    };
    let mut draft = Draft {
        message: random.number() as u16,
        flags: [random.byte() & 0x05, if random.percent(20) { random.byte() } else { 0 }],
        counts: [count as u16, 0, 0, 1],
        questions: Vec::new(),
        opt: [0, 0, 41, 0x05, 0xC0, 0, 0, 0, 0],
        options: Vec::new(),
        more: 0,
        tail: Vec::new(),
    };
    if random.percent(20) {
        // Class, extended rcode and flags of the OPT record are not looked at.
        for at in [3, 4, 5, 7, 8] {
            draft.opt[at] = random.byte();
        }
    }
    let own: Vec<Holding> =
        holdings.iter().filter(|h| (h.address, h.port) == from).cloned().collect();
    let mut last: Option<(Vec<u8>, u32)> = None;
    let mut ended = false;
    for _ in 0..count {
        if random.percent(10) {
            let code = *random.pick(&[0, 2, 3, 8, 0x0100, 0x0101, 0xFFFF]);
            let data = random.bytes_below(24);
            draft.add(code, data);
        }
        let (question, sent) = match last.take() {
            // The question just set up, answered in the same message by the number it may get.
            Some((question, asked)) if random.percent(25) => {
                (question, option(1, 1, 0, host_number, asked.clamp(60, 7_200)))
            }
            // The slot and number of an ended question, asked for in the same message.
            _ if ended => (new_question(random, world), option(1, 1, 0, 0, 100)),
            _ => asked(random, world, holdings, told, &own, host_number),
        };
        ended = sent[..6] == [0, 1, 0, 2, 0, 0] && sent[14..] == [0; 4];
        if sent[..14] == [0, 1, 0, 1, 0, 0, 0, 0, 0, 0, 0, 0, 0, 0] {
            let lease = u32::from_be_bytes([sent[14], sent[15], sent[16], sent[17]]);
            last = Some((question.clone(), lease));
        }
        draft.questions.push(question);
        draft.add(1, sent);
    }
    draft
}

fn new_question(random: &mut Random, world: &World) -> Vec<u8> {
    let name = world.name(random);
    question(&name, *random.pick(&world.types), *random.pick(&world.classes))
}

/// A question and the option that belongs to it.
fn asked(
    random: &mut Random,
    world: &World,
    holdings: &[Holding],
    told: &ToldLeases,
    own: &[Holding],
    host_number: u64,
) -> (Vec<u8>, Vec<u8>) {
    let lease = world.lease(random);
    let held = if !own.is_empty() && random.percent(85) { own } else { holdings };
    let choice = random.below(100);
    if held.is_empty() || choice < 45 || world.filling && random.percent(60) {
        let number = if random.percent(5) { host_number } else { 0 };
        let opcode = if random.percent(5) { 2 } else { 1 };
        return (new_question(random, world), option(1, opcode, 0, number, lease));
    }
    // Mostly a pending one to respond to, an established one to refresh.
    let fit: Vec<&Holding> = held.iter().filter(|h| h.established == (choice >= 70)).collect();
    let holding =
        if !fit.is_empty() && random.percent(70) { *random.pick(&fit) } else { random.pick(held) };
    let name = other_case(random, &holding.question.name);
    let same = question(&name, holding.question.qtype, holding.question.qclass);
    let granted = holding.lease as u32;
    match choice {
        45..50 => (same, option(1, 1, 0, 0, lease)),
        50..70 => {
            let lease = response_lease(random, holding, told.of(holding.number));
            match random.below(16) {
                0 => {
                    let number =
                        holding.number.wrapping_add(*random.pick(&[1, 1 << 16, 1 << 32, 1 << 63]));
                    (same, option(1, 1, 0, number, granted))
                }
                1 => (same, option(1, 1, 0, random.pick(holdings).number, granted)),
                2 => (new_question(random, world), option(1, 1, 0, holding.number, granted)),
                _ => (same, option(1, 1, 0, holding.number, lease)),
            }
        }
        70..90 => {
            let lease = if random.percent(25) { 0 } else { lease };
            match random.below(16) {
                0 => {
                    let number =
                        holding.number.wrapping_sub(*random.pick(&[1, 1 << 16, 1 << 32, 1 << 63]));
                    (same, option(1, 2, 0, number, lease))
                }
                1 => (same, option(1, 2, 0, random.pick(holdings).number, lease)),
                2 => (new_question(random, world), option(1, 2, 0, holding.number, lease)),
                3 => (same, option(1, 2, 0, 0, lease)),
                4 => (same, option(1, 2, 0, holding.number, granted)),
                _ => (same, option(1, 2, 0, holding.number, lease)),
            }
        }
        _ => {
            let mut fields = [1, 1 + random.below(2) as u16, 0];
            let at = random.below(3);
            fields[at] = *random.pick(&[0, 1, 2, 3, 4, 5, 0x0100, 0x0101, 0x0102, 0xFFFF]);
            if random.percent(30) {
                fields[0] = *random.pick(&[0, 1, 2, 0x0101]);
            }
            let number = *random.pick(&[0, holding.number]);
            (same, option(fields[0], fields[1], fields[2], number, granted))
        }
    }
}

/// The lease of a response: at the ends of the span or beside them, inside it, or one told before.
fn response_lease(random: &mut Random, holding: &Holding, told: &OfEntry) -> u32 {
    let upper = holding.lease as u32;
    let lower = holding.lease.saturating_sub(holding.age) as u32;
    let mut since = told.since.clone();
    if since.iter().any(|&lease| lower < lease && lease < upper) {
        since.retain(|&lease| lower < lease && lease < upper);
    }
    match random.below(16) {
        0 => lower.saturating_sub(1),
        1..3 => lower,
        3..5 => random.between(lower.into(), upper.into()) as u32,
        5..9 if !since.is_empty() => *random.pick(&since),
        9..11 if !told.before.is_empty() => *random.pick(&told.before),
        11 => upper + 1,
        12 => upper + *random.pick(&[256, 65_536, 1 << 31]),
        13 => *random.pick(&LEASES),
        _ => upper,
    }
}

/// One option shorter than the reply's, questions that bring the reply to 1,472 bytes or near it.
fn around_1472(random: &mut Random) -> Draft {
    let total = *random.pick(&[1_426, 1_427, 1_428, 1_429, 1_440, 1_445]);
    let count = 6 + random.below(3);
    let mut questions = Vec::new();
    let mut left = total;
    for more in (0..count).rev() {
        // What is left for the others is at least 5 and at most 259 each.
        let most = (left - 5 * more).min(259);
        let least = left.saturating_sub(259 * more).max(5);
        let mut length = random.between(least as i64, most as i64) as usize;
        // No name has two bytes.
        if length == 6 {
            length = if least < 6 { 5 } else { 7 };
        }
        if more == 1 && left - length == 6 {
            length = if length > least { length - 1 } else { length + 1 };
        }
        questions.push(question(&name_of(length - 4, b'n'), 12, 1));
        left -= length;
    }
    let mut draft = Draft {
        message: random.number() as u16,
        flags: [0, 0],
        counts: [count as u16, 0, 0, 1],
        questions,
        opt: [0, 0, 41, 0x05, 0xC0, 0, 0, 0, 0],
        options: Vec::new(),
        more: 0,
        tail: Vec::new(),
    };
    draft.add(1, Vec::new());
    draft
}

/// The message with one thing changed.
fn spoilt(random: &mut Random, mut draft: Draft) -> Vec<u8> {
    let count = draft.questions.len();
    let at = random.below(count);
    let option = random.below(draft.options.len());
    match random.below(40) {
        0 => draft.flags[0] |= 0x80,
        1 => draft.flags[0] |= 0x08 << random.below(4),
        2 => draft.flags[0] |= 0x02,
        3 => draft.counts[0] = *random.pick(&[0, 9, 256, 256 + count as u16, 0xFFFF]),
        4 => draft.counts[0] = count as u16 + 1,
        5 => draft.counts[0] = count as u16 - 1,
        6 => draft.counts[1] = *random.pick(&[1, 0x0100]),
        7 => draft.counts[2] = *random.pick(&[1, 0x0100]),
        8 => draft.counts[3] = *random.pick(&[0, 2, 0x0100, 0x0101]),
        9 => draft.questions[at][0] = *random.pick(&[0x40, 0x41, 0x80, 0xC0, 0xFF]),
        10 => draft.questions[at] = question(&name_of(256, b'w'), 12, 1),
        11 => draft.questions[at] = question(&name_of(257 + random.below(60), b'w'), 12, 1),
        12 => {
            // A label of 64 bytes or more that is all there.
            let label = *random.pick(&[64u8, 65, 128, 192, 200]);
            let mut name = vec![label];
            name.extend(vec![b'l'; label as usize]);
            name.push(0);
            draft.questions[at] = question(&name, 12, 1);
        }
        13 => draft.opt[0] = *random.pick(&[1, 0x80, 0xC0]),
        14 => [draft.opt[1], draft.opt[2]] = *random.pick(&[[0, 40], [1, 41], [41, 0], [0, 42]]),
        15 => draft.opt[6] = *random.pick(&[1, 0x80, 0xFF]),
        16 => draft.more = *random.pick(&[-1, 1, -22, 256]),
        17 => draft.tail = [random.bytes(1), random.bytes_below(24)].concat(),
        18 => draft.options[option].1 ^= *random.pick(&[1, 2, 4, 16, 0x0100]),
        19 => {
            draft.more = 1 + random.below(3) as i32;
            draft.tail = vec![0; draft.more as usize];
        }
        20 => draft
            .options
            .iter_mut()
            .for_each(|(code, _, _)| *code = *random.pick(&[0, 2, 0x0100, 0x0101])),
        21 => draft.options.clear(),
        22 => draft.options[option].0 = *random.pick(&[0, 1, 2, 0x0100, 0x0101]),
        23 => {
            draft.options.remove(option);
        }
        24 => {
            let again = draft.options[option].clone();
            for _ in 0..*random.pick(&[1, 1, 2, 8, 50]) {
                draft.options.push(again.clone());
            }
        }
        25 => {
            let length = *random.pick(&[0, 1, 17, 19, 36]);
            let (_, stated, data) = &mut draft.options[option];
            data.resize(length, 0);
            *stated = length as u16;
        }
        26 => {
            for _ in 0..256 {
                draft.add(1, Vec::new());
            }
        }
        27..30 => draft.pad_to(*random.pick(&[1_471, 1_472, 1_473, 1_474, 2_000])),
        30 => draft.tail = vec![0; 1_500],
        31 => {
            let last = draft.questions[count - 1].clone();
            draft.questions.push(last);
        }
        _ => return damaged(random, draft.bytes()),
    }
    draft.bytes()
}

/// Bytes cut, flipped, put in or left out.
fn damaged(random: &mut Random, mut bytes: Vec<u8>) -> Vec<u8> {
    let at = random.below(bytes.len());
    match random.below(8) {
        0..2 => bytes.truncate(at),
        2 => bytes.truncate(*random.pick(&[0, 1, 11, 12, 13])),
        3 => bytes.insert(at, random.byte()),
        4 => {
            bytes.remove(at);
        }
        5 => bytes = random.bytes_below(100),
        _ => {
            for _ in 0..1 + random.below(3) {
                let at = random.below(bytes.len());
                bytes[at] ^= 1 << random.below(8);
            }
        }
    }
    bytes
}

#[cfg(test)]
mod tests {
    use super::*;

    #[test]
    fn replies_come_near_1472_bytes() {
        let mut random = Random::new(1);
        for _ in 0..1_000 {
            let draft = around_1472(&mut random);
            let length: usize = draft.questions.concat().len();
            assert!([1_426, 1_427, 1_428, 1_429, 1_440, 1_445].contains(&length), "{length}");
            assert_eq!(draft.reply_length(), 12 + length + 11 + 22);
        }
    }
}

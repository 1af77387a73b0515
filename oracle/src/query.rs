//! Reading a query, strictly left to right; what refuses it; its questions and options.

use crate::cursor::Cursor;
use crate::fault::{self, Fault};
use crate::name::{LABEL_END, LONGEST};
use crate::rules::Rules;

pub const LONGEST_DATAGRAM: usize = 1_472;
pub const MOST_QUESTIONS: usize = 8;
pub const HEADER_LENGTH: usize = 12;
pub const OPT_LENGTH: usize = 11;
/// The option's code and length, and its 18 bytes.
pub const OPTION_LENGTH: usize = 22;
pub const OPT_TYPE: u16 = 41;
pub const LLQ_CODE: u16 = 1;
pub const LLQ_LENGTH: u16 = 18;

/// Bits of the header's third byte.
pub mod flag {
    pub const QR: u8 = 0x80;
    pub const OPCODE: u8 = 0x78;
    pub const TC: u8 = 0x02;
    pub const RD: u8 = 0x01;
}

#[derive(Clone, Copy, PartialEq, Eq, Debug)]
pub struct MessageNumber(pub u16);

#[derive(Clone, Copy, PartialEq, Eq, Debug)]
pub struct LlqNumber(pub u64);

impl LlqNumber {
    pub const NONE: LlqNumber = LlqNumber(0);
}

#[derive(Clone, Copy, PartialEq, Eq, Debug)]
pub struct Sender {
    pub address: u128,
    pub port: u16,
}

#[derive(Clone, Copy, PartialEq, Eq, Debug)]
pub struct Question<'a> {
    /// The name as received, its final zero included.
    pub name: &'a [u8],
    pub qtype: u16,
    pub qclass: u16,
}

#[derive(Clone, Copy, PartialEq, Eq, Debug)]
pub struct LlqOption {
    pub version: u16,
    pub opcode: u16,
    pub error: u16,
    pub number: LlqNumber,
    pub lease: u32,
}

/// Up to eight questions beside their options.
#[derive(Clone, Copy, Debug)]
pub struct Query<'a> {
    pub message: MessageNumber,
    pub recursion_desired: u8,
    /// The questions as received.
    pub question_bytes: &'a [u8],
    /// As many options of code 1 as questions, each of length 18.
    pub matched: bool,
    count: usize,
    questions: [Question<'a>; MOST_QUESTIONS],
    options: [LlqOption; MOST_QUESTIONS],
}

impl<'a> Query<'a> {
    /// The query, or the number 3 to 7 that refuses it.
    pub fn read<R: Rules>(datagram: &'a [u8]) -> Result<Self, u32> {
        if R::faulty(Fault::Long, datagram.len() > LONGEST_DATAGRAM) {
            return Err(fault::DATAGRAM);
        }
        let (header, rest) =
            datagram.split_first_chunk::<HEADER_LENGTH>().ok_or(fault::DATAGRAM)?;
        let count = question_count::<R>(header).ok_or(fault::HEADER)?;

        let mut cursor = Cursor::new(rest);
        let mut questions = [Question { name: &[], qtype: 0, qclass: 0 }; MOST_QUESTIONS];
        for place in &mut questions[..count] {
            *place = question::<R>(&mut cursor).ok_or(fault::QUESTION)?;
        }
        let question_bytes = &rest[..rest.len() - cursor.left()];

        let data = opt::<R>(&mut cursor).ok_or(fault::OPT)?;
        let found = Options::read(data).ok_or(fault::OPT)?;
        if R::faulty(Fault::NoOption, found.count == 0) {
            return Err(fault::NO_LLQ);
        }
        Ok(Query {
            message: MessageNumber(u16::from_be_bytes([header[0], header[1]])),
            recursion_desired: header[2] & flag::RD,
            question_bytes,
            matched: found.count == count && found.all_18,
            count,
            questions,
            options: found.options,
        })
    }

    pub fn count(&self) -> usize {
        self.count
    }

    /// Option i belongs to question i.
    pub fn asked(&self) -> impl Iterator<Item = (&Question<'a>, &LlqOption)> {
        self.questions[..self.count].iter().zip(&self.options)
    }

    /// One option for each question; one in all if the count and length test fails.
    pub fn reply_options(&self) -> usize {
        if self.matched {
            self.count
        } else {
            1
        }
    }

    pub fn reply_length(&self) -> usize {
        let options = OPTION_LENGTH * self.reply_options();
        HEADER_LENGTH + self.question_bytes.len() + OPT_LENGTH + options
    }
}

/// QDCOUNT, or nothing for a header of refusal 4.
fn question_count<R: Rules>(header: &[u8; HEADER_LENGTH]) -> Option<usize> {
    let bits = header[2];
    let number = |at: usize| u16::from_be_bytes([header[at], header[at + 1]]);
    let count = usize::from(number(4));
    let faulty = R::faulty(Fault::Qr, bits & flag::QR != 0)
        || R::faulty(Fault::Opcode, bits & flag::OPCODE != 0)
        || R::faulty(Fault::Truncated, bits & flag::TC != 0)
        || R::faulty(Fault::NoQuestion, count == 0)
        || count > MOST_QUESTIONS
        || R::faulty(Fault::Answers, number(6) != 0)
        || R::faulty(Fault::Authorities, number(8) != 0)
        || R::faulty(Fault::Additionals, number(10) != 1);
    (!faulty).then_some(count)
}

/// Name, type, class; or nothing for refusal 5.
fn question<'a, R: Rules>(cursor: &mut Cursor<'a>) -> Option<Question<'a>> {
    let name = name::<R>(cursor)?;
    let qtype = cursor.u16()?;
    let qclass = cursor.u16()?;
    Some(Question { name, qtype, qclass })
}

fn name<'a, R: Rules>(cursor: &mut Cursor<'a>) -> Option<&'a [u8]> {
    let mut whole = *cursor;
    let mut length = 0;
    loop {
        let label = cursor.u8()?;
        if R::faulty(Fault::Label, label >= LABEL_END) {
            return None;
        }
        cursor.bytes(label.into())?;
        length += 1 + usize::from(label);
        if R::faulty(Fault::LongName, length > LONGEST) {
            return None;
        }
        if label == 0 {
            return whole.bytes(length);
        }
    }
}

/// The OPT record's data, or nothing for refusal 6.
fn opt<'a, R: Rules>(cursor: &mut Cursor<'a>) -> Option<Cursor<'a>> {
    let name = cursor.u8()?;
    let rtype = cursor.u16()?;
    let _class = cursor.u16()?;
    let _extended_rcode = cursor.u8()?;
    let version = cursor.u8()?;
    let _flags = cursor.u16()?;
    let length = cursor.u16()?;
    let data = cursor.bytes(length.into())?;
    let faulty = R::faulty(Fault::OptName, name != 0)
        || R::faulty(Fault::OptType, rtype != OPT_TYPE)
        || R::faulty(Fault::OptVersion, version != 0)
        || R::faulty(Fault::OptTrailing, !cursor.is_empty());
    (!faulty).then(|| Cursor::new(data))
}

/// The options of code 1: how many, whether each has length 18, the first eight of those.
struct Options {
    count: usize,
    all_18: bool,
    options: [LlqOption; MOST_QUESTIONS],
}

impl Options {
    /// Nothing if the options do not fill the data.
    fn read(mut data: Cursor) -> Option<Options> {
        let none = LlqOption { version: 0, opcode: 0, error: 0, number: LlqNumber::NONE, lease: 0 };
        let mut found = Options { count: 0, all_18: true, options: [none; MOST_QUESTIONS] };
        while !data.is_empty() {
            let code = data.u16()?;
            let length = data.u16()?;
            let body = data.bytes(length.into())?;
            if code != LLQ_CODE {
                continue;
            }
            match option(body) {
                None => found.all_18 = false,
                Some(option) if found.count < MOST_QUESTIONS => found.options[found.count] = option,
                Some(_) => {}
            }
            found.count += 1;
        }
        Some(found)
    }
}

/// An option's 18 bytes: version, opcode, error, number, lease.
fn option(body: &[u8]) -> Option<LlqOption> {
    if body.len() != usize::from(LLQ_LENGTH) {
        return None;
    }
    let mut cursor = Cursor::new(body);
    Some(LlqOption {
        version: cursor.u16()?,
        opcode: cursor.u16()?,
        error: cursor.u16()?,
        number: LlqNumber(cursor.u64()?),
        lease: cursor.u32()?,
    })
}

#[cfg(test)]
mod tests {
    use super::*;
    use crate::rules::Law;

    /// W11's query.
    fn query() -> Vec<u8> {
        let mut bytes = b"\x12\x34\x01\x00\x00\x01\x00\x00\x00\x00\x00\x01".to_vec();
        bytes.extend(b"\x01a\x00\x00\x0C\x00\x01");
        bytes.extend(b"\x00\x00\x29\x05\xC0\x00\x00\x00\x00\x00\x16");
        bytes.extend(b"\x00\x01\x00\x12\x00\x01\x00\x01\x00\x00");
        bytes.extend(b"\x00\x00\x00\x00\x00\x00\x00\x00\x00\x00\x0E\x10");
        bytes
    }

    fn refused(bytes: &[u8]) -> u32 {
        Query::read::<Law>(bytes).map_or_else(|number| number, |_| fault::DONE)
    }

    #[test]
    fn reads_the_sample() {
        let bytes = query();
        let query = Query::read::<Law>(&bytes).unwrap();
        assert_eq!(query.message, MessageNumber(0x1234));
        assert_eq!(query.recursion_desired, 1);
        assert_eq!(query.reply_length(), 52);
        assert!(query.matched);
        let asked: Vec<_> = query.asked().collect();
        let question = Question { name: b"\x01a\x00", qtype: 12, qclass: 1 };
        let option =
            LlqOption { version: 1, opcode: 1, error: 0, number: LlqNumber::NONE, lease: 3_600 };
        assert_eq!(asked, [(&question, &option)]);
    }

    #[test]
    fn every_shorter_datagram_is_refused() {
        let bytes = query();
        for length in 0..bytes.len() {
            let number = match length {
                0..12 => fault::DATAGRAM,
                12..19 => fault::QUESTION,
                _ => fault::OPT,
            };
            assert_eq!(refused(&bytes[..length]), number, "{length} bytes");
        }
    }

    #[test]
    fn header_bits() {
        for bit in 0..8 {
            let mut bytes = query();
            bytes[2] ^= 1 << bit;
            // AA and RD are not looked at.
            let number = if bit == 0 || bit == 2 { fault::DONE } else { fault::HEADER };
            assert_eq!(refused(&bytes), number, "bit {bit}");
        }
        let mut bytes = query();
        bytes[3] = 0xFF;
        assert_eq!(refused(&bytes), fault::DONE);
    }

    #[test]
    fn header_counts() {
        for (at, value) in
            [(4, 1), (5, 0), (5, 9), (6, 1), (7, 1), (8, 1), (9, 1), (10, 1), (11, 0), (11, 2)]
        {
            let mut bytes = query();
            bytes[at] = value;
            assert_eq!(refused(&bytes), fault::HEADER, "byte {at}");
        }
    }

    #[test]
    fn opt_record() {
        for (at, value) in [
            (19, 1),
            (20, 1),
            (21, 40),
            (25, 1),
            (28, 1),
            (29, 0x15),
            (29, 0x17),
            (33, 0x11),
            (33, 0x13),
        ] {
            let mut bytes = query();
            bytes[at] = value;
            assert_eq!(refused(&bytes), fault::OPT, "byte {at}");
        }
        for at in [22, 23, 24, 26, 27] {
            let mut bytes = query();
            bytes[at] ^= 0xFF;
            assert_eq!(refused(&bytes), fault::DONE, "byte {at}");
        }
        let mut bytes = query();
        bytes.push(0);
        assert_eq!(refused(&bytes), fault::OPT);
    }

    #[test]
    fn options_of_other_codes() {
        let mut bytes = query();
        bytes[31] = 3;
        assert_eq!(refused(&bytes), fault::NO_LLQ);
        let mut bytes = query();
        bytes.extend([0, 3, 0, 1, 9]);
        bytes[29] += 5;
        assert!(Query::read::<Law>(&bytes).unwrap().matched);
        let mut bytes = query();
        bytes.extend([0, 1, 0, 0]);
        bytes[29] += 4;
        let query = Query::read::<Law>(&bytes).unwrap();
        assert!(!query.matched);
        assert_eq!(query.reply_length(), 52);
    }

    #[test]
    fn names_of_255_and_256_bytes() {
        for (last, number) in [(61, fault::DONE), (62, fault::QUESTION)] {
            let mut name = Vec::new();
            for length in [63, 63, 63, last] {
                name.push(length);
                name.resize(name.len() + usize::from(length), b'x');
            }
            name.push(0);
            let mut bytes = query();
            bytes.splice(12..15, name);
            assert_eq!(refused(&bytes), number);
        }
    }

    #[test]
    fn labels_of_64_and_more() {
        for label in [64, 0x80, 0xC0] {
            let mut bytes = query();
            bytes.splice(12..15, [&[label][..], &[b'x'; 255], &[0]].concat());
            assert_eq!(refused(&bytes), fault::QUESTION);
        }
    }

    #[test]
    fn datagrams_of_1472_and_1473_bytes() {
        for (length, number) in [(1_472, fault::DONE), (1_473, fault::DATAGRAM)] {
            let mut bytes = query();
            let filler = (length - bytes.len() - 4) as u16;
            bytes.extend([0, 9]);
            bytes.extend(filler.to_be_bytes());
            bytes.resize(length, 0xEE);
            bytes[28..30].copy_from_slice(&(22 + 4 + filler).to_be_bytes());
            assert_eq!(refused(&bytes), number);
        }
    }
}

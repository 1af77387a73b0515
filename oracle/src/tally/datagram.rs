//! What the tally needs of a datagram: the numbers 3 to 7 that refuse it, its
//! questions and its options of code 1.

use super::Question;

#[derive(Debug)]
pub struct Datagram {
    pub message: [u8; 2],
    pub recursion_desired: bool,
    pub questions: Vec<Question>,
    pub question_bytes: Vec<u8>,
    /// The data of each option of code 1, of whatever length.
    options: Vec<Vec<u8>>,
}

#[derive(Debug)]
pub struct Sent {
    pub version: u16,
    pub opcode: u16,
    pub error: u16,
    pub number: u64,
    pub lease: u32,
}

fn number(bytes: &[u8]) -> u64 {
    bytes.iter().fold(0, |number, &byte| number * 256 + u64::from(byte))
}

/// A to Z folded to a to z, other bytes as they are.
fn folded(bytes: &[u8]) -> Vec<u8> {
    bytes.iter().map(|&byte| if matches!(byte, 0x41..=0x5A) { byte + 0x20 } else { byte }).collect()
}

pub fn read(bytes: &[u8]) -> Result<Datagram, u32> {
    if bytes.len() < 12 || bytes.len() > 1_472 {
        return Err(3);
    }
    let flags = number(&bytes[2..4]);
    let questions = number(&bytes[4..6]);
    let response = flags & 0b1000_0000_0000_0000 != 0;
    let opcode = flags >> 11 & 0b1111;
    let truncated = flags & 0b0000_0010_0000_0000 != 0;
    if response || opcode != 0 || truncated {
        return Err(4);
    }
    if !(1..=8).contains(&questions) || number(&bytes[6..12]) != 1 {
        return Err(4);
    }
    let mut at = 12;
    let mut asked = Vec::new();
    for _ in 0..questions {
        let end = name_end(bytes, at).ok_or(5u32)?;
        let fixed = bytes.get(end..end + 4).ok_or(5u32)?;
        asked.push(Question {
            name: folded(&bytes[at..end]),
            qtype: number(&fixed[..2]) as u16,
            qclass: number(&fixed[2..]) as u16,
        });
        at = end + 4;
    }
    Ok(Datagram {
        message: [bytes[0], bytes[1]],
        recursion_desired: flags & 0b0000_0001_0000_0000 != 0,
        questions: asked,
        question_bytes: bytes[12..at].to_vec(),
        options: options_of_code_1(&bytes[at..])?,
    })
}

/// Where the name that starts here ends, if it does, within 255 bytes.
fn name_end(bytes: &[u8], start: usize) -> Option<usize> {
    let mut at = start;
    loop {
        let label = *bytes.get(at)?;
        if label > 63 {
            return None;
        }
        at += 1 + label as usize;
        if at - start > 255 {
            return None;
        }
        if label == 0 {
            return Some(at);
        }
    }
}

/// The OPT record, which is all that is left.
fn options_of_code_1(record: &[u8]) -> Result<Vec<Vec<u8>>, u32> {
    if record.len() < 11 || record[0..3] != [0, 0, 41] || record[6] != 0 {
        return Err(6);
    }
    let data = &record[11..];
    if number(&record[9..11]) != data.len() as u64 {
        return Err(6);
    }
    let mut options = Vec::new();
    let mut at = 0;
    while at < data.len() {
        if at + 4 > data.len() {
            return Err(6);
        }
        let code = number(&data[at..at + 2]);
        let length = number(&data[at + 2..at + 4]) as usize;
        at += 4;
        if at + length > data.len() {
            return Err(6);
        }
        if code == 1 {
            options.push(data[at..at + length].to_vec());
        }
        at += length;
    }
    if options.is_empty() {
        return Err(7);
    }
    Ok(options)
}

impl Datagram {
    /// The questions' names as they were sent, in any case.
    pub fn names_sent(&self) -> Vec<&[u8]> {
        let mut left = &self.question_bytes[..];
        let name = |question: &Question| {
            let (name, fixed) = left.split_at(question.name.len());
            left = &fixed[4..];
            name
        };
        self.questions.iter().map(name).collect()
    }

    /// How many options of code 1 there are.
    pub fn option_count(&self) -> usize {
        self.options.len()
    }

    /// How many of them have length 18.
    pub fn options_of_18(&self) -> usize {
        self.options.iter().filter(|data| data.len() == 18).count()
    }

    /// The options in the order of the questions, or nothing if the count and length test fails.
    pub fn options_by_question(&self) -> Option<Vec<Sent>> {
        if self.options.len() != self.questions.len() || self.options.iter().any(|o| o.len() != 18)
        {
            return None;
        }
        let sent = |data: &Vec<u8>| Sent {
            version: number(&data[0..2]) as u16,
            opcode: number(&data[2..4]) as u16,
            error: number(&data[4..6]) as u16,
            number: number(&data[6..14]),
            lease: number(&data[14..18]) as u32,
        };
        Some(self.options.iter().map(sent).collect())
    }
}

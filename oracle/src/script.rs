//! Lists of calls as text, so that a list that failed can be run again.
//!
//! One step a line, its fields parted by single spaces, all of them
//! hexadecimal; `-` is no bytes at all; lines that are empty or start with
//! `#` say nothing.
//!
//! ```text
//! buffer LENGTH SEED        a table buffer of this length, its bytes random by the seed
//! table BYTES               a table buffer of these bytes
//! edit AT BYTES             these bytes put into the table buffer from this place on
//! make WEEK SECOND ROSTER
//! tick WEEK SECOND
//! serve WEEK SECOND HIGH LOW PORT RANDOM FILL LENGTH DATAGRAM
//! ```
//!
//! A `serve` lends a reply buffer of LENGTH bytes, each of them FILL. The tally
//! is read anew from the table after `buffer`, `table` and `edit`; otherwise
//! it goes by the calls alone.

use crate::random::Random;
use std::fmt::{self, Write};

#[derive(Clone, PartialEq, Eq, Debug)]
pub struct Datagram {
    pub week: u32,
    pub second: u32,
    pub address_high: u64,
    pub address_low: u64,
    pub port: u16,
    pub random: u64,
    pub fill: u8,
    pub reply_length: usize,
    pub bytes: Vec<u8>,
}

#[derive(Clone, PartialEq, Eq, Debug)]
pub enum Step {
    Buffer { length: usize, seed: u64 },
    Table { bytes: Vec<u8> },
    Edit { at: usize, bytes: Vec<u8> },
    Make { week: u32, second: u32, roster: Vec<u8> },
    Tick { week: u32, second: u32 },
    Serve(Datagram),
}

impl Step {
    pub fn is_call(&self) -> bool {
        matches!(self, Step::Make { .. } | Step::Tick { .. } | Step::Serve(_))
    }
}

/// The bytes of a `buffer` line.
pub fn buffer(length: usize, seed: u64) -> Vec<u8> {
    Random::new(seed).bytes(length)
}

fn hex(bytes: &[u8]) -> String {
    if bytes.is_empty() {
        return "-".into();
    }
    let mut text = String::with_capacity(2 * bytes.len());
    for byte in bytes {
        write!(text, "{byte:02x}").expect("a string takes all");
    }
    text
}

impl fmt::Display for Step {
    fn fmt(&self, to: &mut fmt::Formatter) -> fmt::Result {
        match self {
            Step::Buffer { length, seed } => write!(to, "buffer {length:x} {seed:x}"),
            Step::Table { bytes } => write!(to, "table {}", hex(bytes)),
            Step::Edit { at, bytes } => write!(to, "edit {at:x} {}", hex(bytes)),
            Step::Make { week, second, roster } => {
                write!(to, "make {week:x} {second:x} {}", hex(roster))
            }
            Step::Tick { week, second } => write!(to, "tick {week:x} {second:x}"),
            Step::Serve(sent) => write!(
                to,
                "serve {:x} {:x} {:x} {:x} {:x} {:x} {:x} {:x} {}",
                sent.week,
                sent.second,
                sent.address_high,
                sent.address_low,
                sent.port,
                sent.random,
                sent.fill,
                sent.reply_length,
                hex(&sent.bytes)
            ),
        }
    }
}

/// The fields of one line, taken in order.
struct Fields<'a>(std::str::Split<'a, char>);

impl Fields<'_> {
    fn text(&mut self) -> Result<&str, String> {
        self.0.next().ok_or_else(|| "a field is missing".into())
    }

    fn number<T: TryFrom<u64>>(&mut self) -> Result<T, String> {
        let text = self.text()?;
        let number = u64::from_str_radix(text, 16).map_err(|_| format!("no number: {text}"))?;
        T::try_from(number).map_err(|_| format!("too large: {text}"))
    }

    fn bytes(&mut self) -> Result<Vec<u8>, String> {
        let text = self.text()?;
        if text == "-" {
            return Ok(Vec::new());
        }
        if !text.is_ascii() || text.len() % 2 != 0 {
            return Err(format!("no bytes: {text}"));
        }
        (0..text.len() / 2)
            .map(|at| u8::from_str_radix(&text[2 * at..2 * at + 2], 16))
            .collect::<Result<_, _>>()
            .map_err(|_| format!("no bytes: {text}"))
    }
}

fn line(text: &str) -> Result<Step, String> {
    let mut fields = Fields(text.split(' '));
    let step = match fields.text()? {
        "buffer" => Step::Buffer { length: fields.number()?, seed: fields.number()? },
        "table" => Step::Table { bytes: fields.bytes()? },
        "edit" => Step::Edit { at: fields.number()?, bytes: fields.bytes()? },
        "make" => {
            Step::Make { week: fields.number()?, second: fields.number()?, roster: fields.bytes()? }
        }
        "tick" => Step::Tick { week: fields.number()?, second: fields.number()? },
        "serve" => Step::Serve(Datagram {
            week: fields.number()?,
            second: fields.number()?,
            address_high: fields.number()?,
            address_low: fields.number()?,
            port: fields.number()?,
            random: fields.number()?,
            fill: fields.number()?,
            reply_length: fields.number()?,
            bytes: fields.bytes()?,
        }),
        other => return Err(format!("no such step: {other}")),
    };
    match fields.0.next() {
        Some(more) => Err(format!("one field too many: {more}")),
        None => Ok(step),
    }
}

/// The steps of a script, or what is wrong with it and in which line.
pub fn read(text: &str) -> Result<Vec<Step>, String> {
    text.lines()
        .enumerate()
        .filter(|(_, text)| !text.trim().is_empty() && !text.starts_with('#'))
        .map(|(at, text)| line(text.trim()).map_err(|wrong| format!("line {}: {wrong}", at + 1)))
        .collect()
}

#[cfg(test)]
mod tests {
    use super::*;

    #[test]
    fn steps_are_written_and_read() {
        let steps = [
            Step::Buffer { length: 633, seed: u64::MAX },
            Step::Table { bytes: vec![0, 0xAB] },
            Step::Edit { at: 18, bytes: vec![1] },
            Step::Make { week: 1_023, second: 604_799, roster: vec![] },
            Step::Tick { week: u32::MAX, second: 0 },
            Step::Serve(Datagram {
                week: 1,
                second: 2,
                address_high: 3,
                address_low: 4,
                port: 0xFFFF,
                random: 5,
                fill: 0xEE,
                reply_length: 1_472,
                bytes: vec![0x12, 0x34],
            }),
        ];
        let text: String = steps.iter().map(|step| format!("{step}\n")).collect();
        assert!(text.contains("serve 1 2 3 4 ffff 5 ee 5c0 1234\n"));
        assert_eq!(read(&format!("# a list\n\n{text}")), Ok(steps.to_vec()));
    }

    #[test]
    fn wrong_lines_are_named() {
        for wrong in ["stop", "tick 1", "tick 1 2 3", "tick 1 100000000", "table 123", "table zz"] {
            assert!(read(&format!("tick 1 2\n{wrong}")).unwrap_err().starts_with("line 2: "));
        }
    }
}

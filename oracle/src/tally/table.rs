//! A table's bytes read as a tally: its clock, roster and entries, ages
//! included and slot places aside; nothing if the table is unsound.

use super::{by_length, roster_is_right, Holding, Line, Question, Tally};

fn number(bytes: &[u8]) -> u64 {
    bytes.iter().fold(0, |number, &byte| number << 8 | u64::from(byte))
}

fn zero(bytes: &[u8]) -> bool {
    bytes.iter().max().is_none_or(|&most| most == 0)
}

fn address(bytes: &[u8]) -> [u8; 16] {
    let mut address = [0; 16];
    address.copy_from_slice(bytes);
    address
}

pub fn read(bytes: &[u8]) -> Option<Tally> {
    let (weeks, slots) = by_length(bytes.len())?;
    // The clock's kind, and the bytes of its place; 4 of the count follow.
    let (kind, place_bytes) = if weeks == 1_024 { (1, 4) } else { (9, 8) };
    let (clock, rest) = bytes.split_at(1 + place_bytes + 4);
    let (lines, entries) = rest.split_at(16 * 19);
    let (place, count) = clock[1..].split_at(place_bytes);
    let (place, count) = (number(place), number(count));
    if clock[0] != kind || place > weeks as u64 * 604_800 - 1 {
        return None;
    }
    let (place, roster, holdings) = (place as i64, roster(lines)?, Vec::new());
    let mut tally = Tally { weeks, place, count, slots, roster, holdings };
    if !roster_is_right(&tally.roster, slots) {
        return None;
    }
    for record in entries.chunks(320) {
        match record[0] {
            4 if zero(&record[1..]) => {}
            5 | 6 => tally.holdings.push(holding(record, count)?),
            _ => return None,
        }
    }
    together_sound(&tally).then_some(tally)
}

/// Listed lines, then unused ones, which are all zero.
fn roster(lines: &[u8]) -> Option<Vec<Line>> {
    let mut roster = Vec::new();
    let mut unused_seen = false;
    for line in lines.chunks(19) {
        match line[0] {
            2 if zero(&line[1..]) => unused_seen = true,
            3 if !unused_seen => roster.push(Line {
                address: address(&line[1..17]),
                share: line[17] as usize,
                limit: line[18] as usize,
            }),
            _ => return None,
        }
    }
    Some(roster)
}

fn holding(record: &[u8], count: u64) -> Option<Holding> {
    let length = record[39] as usize;
    let name = record[40..295].get(..length)?.to_vec();
    let stamp = number(&record[31..35]);
    let holding = Holding {
        address: address(&record[1..17]),
        port: number(&record[17..19]) as u16,
        question: Question {
            qtype: number(&record[35..37]) as u16,
            qclass: number(&record[37..39]) as u16,
            name,
        },
        number: number(&record[19..27]),
        lease: number(&record[27..31]),
        age: (count + 4_294_967_296 - stamp) % 4_294_967_296,
        established: record[0] == 6,
    };
    let right = zero(&record[40 + length..320])
        && holding.number != 0
        && (60..=7_200).contains(&holding.lease)
        && holding.age < holding.lease
        && lower_case_name(&holding.question.name);
    right.then_some(holding)
}

/// Labels up to a zero byte, which is the last; A to Z in none of them.
fn lower_case_name(name: &[u8]) -> bool {
    let mut at = 0;
    while at < name.len() && name[at] != 0 {
        let end = at + 1 + name[at] as usize;
        if name[at] > 63 || end > name.len() {
            return false;
        }
        if name[at + 1..end].iter().any(|byte| (0x41..=0x5A).contains(byte)) {
            return false;
        }
        at = end;
    }
    at + 1 == name.len()
}

/// The rules between entries, and between entries and the roster.
fn together_sound(tally: &Tally) -> bool {
    let mut numbers: Vec<_> = tally.holdings.iter().map(|h| h.number).collect();
    numbers.sort();
    numbers.dedup();
    let mut questions: Vec<_> =
        tally.holdings.iter().map(|h| (h.address, h.port, &h.question)).collect();
    questions.sort();
    questions.dedup();
    let all = tally.holdings.len();
    let held = |address| tally.holdings.iter().filter(|h| h.address == address).count();
    let limits_kept =
        tally.holdings.iter().all(|h| held(h.address) <= tally.share_and_limit(h.address).1);
    let reserve: usize = tally
        .roster
        .iter()
        .map(|line| line.share.max(held(line.address)) - held(line.address))
        .sum();
    numbers.len() == all && questions.len() == all && limits_kept && tally.slots - all >= reserve
}

//! Variants that do something around the oracle's calls.

use super::Named;
use crate::calls::{self, Served, Ticked};
use crate::clock::Weeks;
use crate::generate::Widths;
use crate::rules::{Law, Rules};
use crate::server::{Oracle, Server};
use crate::table::{self, head, shape_of};

/// A datagram with all that is lent with it.
struct Call<'a> {
    week: u32,
    second: u32,
    high: u64,
    low: u64,
    port: u16,
    random: u64,
    datagram: &'a [u8],
}

impl Call<'_> {
    fn serve(&self, table: &mut [u8], reply: &mut [u8]) -> Served {
        self.serve_datagram(self.datagram, table, reply)
    }

    fn serve_datagram(&self, datagram: &[u8], table: &mut [u8], reply: &mut [u8]) -> Served {
        Oracle.serve(
            self.week,
            self.second,
            self.high,
            self.low,
            self.port,
            self.random,
            datagram,
            table,
            reply,
        )
    }
}

/// The oracle with something done around its calls.
#[derive(Clone, Copy)]
struct Around {
    make: fn(u32, u32, &mut [u8], &[u8]) -> u32,
    tick: fn(u32, u32, &mut [u8]) -> Ticked,
    serve: fn(&Call, &mut [u8], &mut [u8]) -> Served,
}

const UNCHANGED: Around = Around {
    make: calls::make,
    tick: calls::tick,
    serve: |call, table, reply| call.serve(table, reply),
};

impl Server for Around {
    fn make(&self, week: u32, second: u32, table: &mut [u8], roster: &[u8]) -> u32 {
        (self.make)(week, second, table, roster)
    }

    fn tick(&self, week: u32, second: u32, table: &mut [u8]) -> Ticked {
        (self.tick)(week, second, table)
    }

    fn serve(
        &self,
        week: u32,
        second: u32,
        high: u64,
        low: u64,
        port: u16,
        random: u64,
        datagram: &[u8],
        table: &mut [u8],
        reply: &mut [u8],
    ) -> Served {
        (self.serve)(&Call { week, second, high, low, port, random, datagram }, table, reply)
    }
}

/// The options of an answered reply.
fn options(served: Served, reply: &mut [u8]) -> impl Iterator<Item = &mut [u8]> {
    let end = served.length as usize;
    let mut start = end;
    if served.number == 0 {
        let mut opt = 12;
        for _ in 0..reply[5] {
            opt = question_end(reply, opt);
        }
        start = opt + 11;
    }
    reply[start..end].chunks_mut(22)
}

fn question_end(bytes: &[u8], mut at: usize) -> usize {
    while bytes[at] != 0 {
        at += 1 + usize::from(bytes[at]);
    }
    at + 5
}

/// Served as it should be, then each option of the reply changed if it has this error.
fn with_options(
    call: &Call,
    table: &mut [u8],
    reply: &mut [u8],
    error: u8,
    change: impl Fn(&mut [u8]),
) -> Served {
    let served = call.serve(table, reply);
    options(served, reply).filter(|option| option[9] == error).for_each(change);
    served
}

/// Where the slots of a table are; none if its length is wrong.
fn slots(table: &[u8]) -> impl Iterator<Item = usize> {
    let start = shape_of(table.len()).map_or(table.len(), |(weeks, _)| head(weeks));
    (start..table.len()).step_by(320)
}

/// Free slots, pending and established entries by slot: the kinds of a table's slots.
fn kinds(table: &[u8]) -> Vec<u8> {
    slots(table).map(|at| table[at]).collect()
}

fn number(bytes: &[u8]) -> u32 {
    bytes.iter().fold(0, |number, &byte| number << 8 | u32::from(byte))
}

/// Where the running count ends and the roster starts.
fn clock_end(table: &[u8]) -> usize {
    shape_of(table.len()).map_or(9, |(weeks, _)| table::clock_record(weeks))
}

/// The running count.
fn count(table: &[u8]) -> u32 {
    let end = clock_end(table);
    table.get(end - 4..end).map_or(0, number)
}

/// A reading that a table of this length does not take.
fn is_wrong(week: u32, second: u32, table: &[u8]) -> bool {
    let weeks = shape_of(table.len()).map_or(Weeks::Ten, |(weeks, _)| weeks);
    weeks.place(week, second).is_none()
}

/// The setups that found or made an entry: the lease each asked, and its option of the reply.
fn setups<'a>(
    call: &Call,
    served: Served,
    reply: &'a mut [u8],
) -> impl Iterator<Item = (u32, &'a mut [u8])> {
    let mut sent = Vec::new();
    if served.number == 0 {
        let opt = (0..call.datagram[5]).fold(12, |at, _| question_end(call.datagram, at));
        let mut left = &call.datagram[opt + 11..];
        while !left.is_empty() {
            let (head, rest) = left.split_at(4);
            let (body, rest) = rest.split_at(number(&head[2..]) as usize);
            if head == [0, 1, 0, 18] {
                sent.push((body[6..14] == [0; 8], number(&body[14..])));
            }
            left = rest;
        }
    }
    options(served, reply)
        .zip(sent)
        .filter(|(told, (setup, _))| *setup && told[6..10] == [0, 1, 0, 0])
        .map(|(told, (_, asked))| (asked, told))
}

/// The entry with the number that an option of the reply tells.
fn entry_told<'a>(table: &'a mut [u8], told: &[u8]) -> Option<&'a mut [u8]> {
    let is_told = |&at: &usize| table[at] != 4 && table[at + 19..at + 27] == told[10..18];
    let at = slots(table).find(is_told)?;
    Some(&mut table[at..at + 320])
}

/// Serves question one and copies its option for the rest.
fn copies_the_first(call: &Call, table: &mut [u8], reply: &mut [u8]) -> Served {
    let mut tried = table.to_vec();
    let served = call.serve(&mut tried, reply);
    let count = options(served, reply).count();
    if count < 2 {
        table.copy_from_slice(&tried);
        return served;
    }
    // The first question with the first option of code 1.
    let datagram = call.datagram;
    let mut end = 12;
    for _ in 0..count {
        end = question_end(datagram, end);
    }
    let mut option = end + 11;
    while datagram[option..option + 2] != [0, 1] {
        option += 4 + usize::from(u16::from_be_bytes([datagram[option + 2], datagram[option + 3]]));
    }
    let mut first = datagram[..question_end(datagram, 12)].to_vec();
    first[5] = 1;
    first.extend(&datagram[end..end + 9]);
    first.extend([0, 22]);
    first.extend(&datagram[option..option + 22]);
    let mut small = [0; 1_472];
    let length = call.serve_datagram(&first, table, &mut small).length as usize;
    let said = small[length - 22..length].to_vec();
    options(served, reply).for_each(|option| option.copy_from_slice(&said));
    served
}

/// Those that lists on such tables can tell apart.
pub fn all(widths: Widths) -> Vec<Named> {
    type Serve = fn(&Call, &mut [u8], &mut [u8]) -> Served;
    type Tick = fn(u32, u32, &mut [u8]) -> Ticked;
    type Make = fn(u32, u32, &mut [u8], &[u8]) -> u32;
    let serves: Vec<(&str, Serve)> = vec![
        // Document 01's impostors.
        ("ServeTableUntouched", |call, table, reply| call.serve(&mut table.to_vec(), reply)),
        ("ServeGrantsWithoutStoring", |call, table, reply| {
            let before = kinds(table);
            let served = call.serve(table, reply);
            for (at, kind) in slots(table).zip(before) {
                let record = &mut table[at..at + 320];
                if kind == 4 && record[0] == 5 {
                    record.fill(0);
                    record[0] = 4;
                }
            }
            served
        }),
        ("ServeOneConstantReply", |call, table, reply| {
            const SAMPLE: &[u8; 52] = b"\x12\x34\x85\x00\x00\x01\x00\x00\x00\x00\x00\x01\x01a\x00\
                \x00\x0C\x00\x01\x00\x00\x29\x05\xC0\x00\x00\x00\x00\x00\x16\x00\x01\x00\x12\x00\x01\
                \x00\x01\x00\x00\x00\x00\x00\x00\x00\x00\x00\x07\x00\x00\x0E\x10";
            let served = call.serve(table, reply);
            if served.number != 0 || reply.len() < SAMPLE.len() {
                return served;
            }
            reply[..52].copy_from_slice(SAMPLE);
            Served { number: 0, length: 52 }
        }),
        ("ServeCopiesTheFirstOption", copies_the_first),
        // Answers.
        ("ServeFullLeaseZero", |call, table, reply| {
            with_options(call, table, reply, 1, |option| option[18..].fill(0))
        }),
        ("ServeResponseRepeatsNumberOnError", |call, table, reply| {
            let served = call.serve(table, reply);
            let sent = call.datagram[call.datagram.len().saturating_sub(12)..].to_vec();
            options(served, reply).last().into_iter().for_each(|option| {
                if option[7] == 1 && option[9] == 4 {
                    option[10..18].copy_from_slice(&sent[..8]);
                }
            });
            served
        }),
        ("ServeRefreshForgetsNumberOnError", |call, table, reply| {
            with_options(call, table, reply, 4, |option| option[10..18].fill(0))
        }),
        ("ServeBadVersionForgetsNumber", |call, table, reply| {
            with_options(call, table, reply, 5, |option| option[10..18].fill(0))
        }),
        ("ServeFormatErrorForgetsNumber", |call, table, reply| {
            with_options(call, table, reply, 3, |option| option[10..18].fill(0))
        }),
        ("ServeOpcodeAlwaysSetup", |call, table, reply| {
            let served = call.serve(table, reply);
            options(served, reply).for_each(|option| option[6..8].copy_from_slice(&[0, 1]));
            served
        }),
        ("ServeNoRecursionBit", |call, table, reply| {
            let served = call.serve(table, reply);
            if served.number == 0 {
                reply[2] = 0x84;
            }
            served
        }),
        ("ServeFlagsRepeated", |call, table, reply| {
            let served = call.serve(table, reply);
            if served.number == 0 {
                reply[3] = call.datagram[3];
            }
            served
        }),
        ("ServeOptTtlRepeated", |call, table, reply| {
            let served = call.serve(table, reply);
            if served.number == 0 {
                let opt = (0..reply[5]).fold(12, |at, _| question_end(reply, at));
                reply[opt + 5..opt + 9].copy_from_slice(&call.datagram[opt + 5..opt + 9]);
            }
            served
        }),
        ("ServeOptClassRepeated", |call, table, reply| {
            let served = call.serve(table, reply);
            if served.number == 0 {
                let opt = (0..reply[5]).fold(12, |at, _| question_end(reply, at));
                reply[opt + 3..opt + 5].copy_from_slice(&call.datagram[opt + 3..opt + 5]);
            }
            served
        }),
        ("ServeQuestionsFolded", |call, table, reply| {
            let served = call.serve(table, reply);
            if served.number == 0 {
                let opt = (0..reply[5]).fold(12, |at, _| question_end(reply, at));
                reply[12..opt].make_ascii_lowercase();
            }
            served
        }),
        ("ServeZeroesTheRest", |call, table, reply| {
            let served = call.serve(table, reply);
            if served.number == 0 {
                reply[served.length as usize..].fill(0);
            }
            served
        }),
        ("ServeLengthOnRefusal", |call, table, reply| {
            let served = call.serve(table, reply);
            let length = if served.number == 8 { reply.len() as u32 + 1 } else { served.length };
            Served { length, ..served }
        }),
        ("ServeRefusalClearsReply", |call, table, reply| {
            let served = call.serve(table, reply);
            if served.number >= 5 {
                reply.iter_mut().take(12).for_each(|byte| *byte = 0);
            }
            served
        }),
        ("ServeRefusalMovesClock", |call, table, reply| {
            let served = call.serve(table, reply);
            if served.number > 2 {
                calls::tick(call.week, call.second, table);
            }
            served
        }),
        ("ServeMismatchMovesNoClock", |call, table, reply| {
            let before = table.to_vec();
            let served = call.serve(table, reply);
            let questions = if served.number == 0 { usize::from(reply[5]) } else { 0 };
            if questions > 1 && options(served, reply).count() == 1 {
                table.copy_from_slice(&before);
            }
            served
        }),
        ("ServeMismatchFreesNothing", |call, table, reply| {
            let before = table.to_vec();
            let served = call.serve(table, reply);
            let questions = if served.number == 0 { usize::from(reply[5]) } else { 0 };
            if questions > 1 && options(served, reply).count() == 1 {
                let end = clock_end(table);
                table[end..].copy_from_slice(&before[end..]);
            }
            served
        }),
        ("ServeMismatchServesTheFirst", |call, table, reply| {
            // One option too few: the first question is served all the same.
            let served = call.serve(table, reply);
            let mut fewer = call.datagram.to_vec();
            let questions = if served.number == 0 { usize::from(reply[5]) } else { 0 };
            if questions == 2 && options(served, reply).count() == 1 {
                let first = question_end(&fewer, 12);
                let second = question_end(&fewer, first);
                fewer.drain(first..second);
                fewer[5] = 1;
                call.serve_datagram(&fewer, table, &mut [0; 1_472]);
            }
            served
        }),
        ("ServeIgnoresOptionRemainder", |call, table, reply| {
            let served = call.serve(table, reply);
            for less in 1..4.min(call.datagram.len().saturating_sub(12)) {
                if served.number != 6 {
                    break;
                }
                let mut shorter = call.datagram[..call.datagram.len() - less].to_vec();
                let opt = (0..shorter[5]).fold(12, |at, _| question_end(&shorter, at));
                if let Some([high, low]) = shorter.get_mut(opt + 9..opt + 11) {
                    let length = u16::from_be_bytes([*high, *low]).wrapping_sub(less as u16);
                    [*high, *low] = length.to_be_bytes();
                }
                let again = call.serve_datagram(&shorter, table, reply);
                if again.number != 6 {
                    return again;
                }
            }
            served
        }),
        ("ServeNineQuestionsIsQuestionFault", |call, table, reply| {
            let served = call.serve(table, reply);
            let nine = served.number == 4 && call.datagram[4..6] == [0, 9];
            Served { number: if nine { 5 } else { served.number }, ..served }
        }),
        ("ServeMismatchOptionForEach", |call, table, reply| {
            let served = call.serve(table, reply);
            let questions = if served.number == 0 { usize::from(reply[5]) } else { 0 };
            if questions < 2 || options(served, reply).count() != 1 {
                return served;
            }
            let end = served.length as usize;
            let whole = end + 22 * (questions - 1);
            if whole > reply.len() {
                return Served { number: 8, length: 0 };
            }
            for at in 1..questions {
                reply.copy_within(end - 22..end, end + 22 * (at - 1));
            }
            Served { number: 0, length: whole as u32 }
        }),
        ("ServeSetupAgainRestamps", |call, table, reply| {
            let served = call.serve(table, reply);
            for (_, told) in setups(call, served, reply) {
                let now = count(table).to_be_bytes();
                if let Some(entry) = entry_told(table, told) {
                    entry[31..35].copy_from_slice(&now);
                }
            }
            served
        }),
        ("ServeSetupAgainGrantsAnew", |call, table, reply| {
            // The entry found has the asked lease from now on, as by a refresh.
            let served = call.serve(table, reply);
            for (asked, told) in setups(call, served, reply) {
                let now = count(table).to_be_bytes();
                let lease = Law::granted(asked).to_be_bytes();
                if let Some(entry) = entry_told(table, told) {
                    entry[27..31].copy_from_slice(&lease);
                    entry[31..35].copy_from_slice(&now);
                    told[18..].copy_from_slice(&lease);
                }
            }
            served
        }),
        ("ServeSetupAgainTellsBeforeTheClock", |call, table, reply| {
            // The life that remained at the last call.
            let then = count(table);
            let served = call.serve(table, reply);
            for (_, told) in setups(call, served, reply) {
                if let Some(entry) = entry_told(table, told) {
                    let (lease, stamp) = (number(&entry[27..31]), number(&entry[31..35]));
                    // Granted or refreshed by this call, it has no such life.
                    let left = lease.saturating_sub(then.wrapping_sub(stamp));
                    let left = left.max(number(&told[18..]));
                    told[18..].copy_from_slice(&left.to_be_bytes());
                }
            }
            served
        }),
        ("ServeRefreshKeepsStamp", |call, table, reply| {
            let before = table.to_vec();
            let served = call.serve(table, reply);
            if served.number == 0 {
                for at in slots(table) {
                    let renewed = table[at] == 6
                        && before[at] == 6
                        && table[at + 19..at + 27] == before[at + 19..at + 27];
                    if renewed {
                        table[at + 31..at + 35].copy_from_slice(&before[at + 31..at + 35]);
                    }
                }
            }
            served
        }),
        ("ServeNumberByQuestion", |call, table, reply| {
            // Each question's search starts one number further on than the last one's.
            let mut tried = table.to_vec();
            let served = call.serve(&mut tried, reply);
            let many = options(served, reply).count() > 1;
            let setup_last =
                options(served, reply).last().is_some_and(|option| option[6..10] == [0, 1, 0, 0]);
            let further = Call { random: call.random.wrapping_add(1), ..*call };
            if many && setup_last {
                further.serve(table, reply)
            } else {
                table.copy_from_slice(&tried);
                served
            }
        }),
        ("ServeCountsOptionsInOneByte", |call, table, reply| {
            // 256 more options of code 1 go unseen.
            let mut shorter = call.datagram.to_vec();
            if shorter.len() > 1_047 && shorter.ends_with(&[0, 1, 0, 0].repeat(256)) {
                shorter.truncate(shorter.len() - 1_024);
                let opt = (0..shorter[5]).fold(12, |at, _| question_end(&shorter, at));
                let length =
                    u16::from_be_bytes([shorter[opt + 9], shorter[opt + 10]]).wrapping_sub(1_024);
                shorter[opt + 9..opt + 11].copy_from_slice(&length.to_be_bytes());
            }
            call.serve_datagram(&shorter, table, reply)
        }),
        ("ServeShortDatagramIsHeaderFault", |call, table, reply| {
            let served = call.serve(table, reply);
            let number =
                if served.number == 3 && call.datagram.len() < 12 { 4 } else { served.number };
            Served { number, ..served }
        }),
        ("ServeLongestDatagramRefused", |call, table, reply| {
            if call.datagram.len() == 1_472
                && calls::tick(call.week, call.second, &mut table.to_vec()).number == 0
            {
                return Served { number: 3, length: 0 };
            }
            call.serve(table, reply)
        }),
        ("ServeReplyOf1472Refused", |call, table, reply| {
            let before = table.to_vec();
            let kept = reply.to_vec();
            let served = call.serve(table, reply);
            if served.length == 1_472 {
                table.copy_from_slice(&before);
                reply.copy_from_slice(&kept);
                return Served { number: 8, length: 0 };
            }
            served
        }),
        ("ServeBufferBeforeReading", |call, table, reply| {
            // Judges the buffer first: 8 before all but 1.
            let served = call.serve(table, reply);
            let number = if served.number > 1 && reply.len() < 45 { 8 } else { served.number };
            Served { number, ..served }
        }),
        ("ServeReadingBeforeTable", |call, table, reply| {
            let served = call.serve(table, reply);
            let wrong = is_wrong(call.week, call.second, table);
            Served { number: if wrong { 2 } else { served.number }, ..served }
        }),
        ("ServeWritesPastTheReply", |call, table, reply| {
            let served = call.serve(table, reply);
            if let Some(byte) = reply.get_mut(served.length as usize).filter(|_| served.number == 0)
            {
                *byte ^= 1;
            }
            served
        }),
        ("ServeFreesNothing", |call, table, reply| {
            // Run-out entries stay until a tick.
            let before = table.to_vec();
            let served = call.serve(table, reply);
            if served.number == 0 {
                for at in slots(table) {
                    if table[at] == 4 && before[at] == 5 {
                        table[at..at + 320].copy_from_slice(&before[at..at + 320]);
                    }
                }
            }
            served
        }),
        ("ServeEndedSlotKeepsBytes", |call, table, reply| {
            let before = table.to_vec();
            let served = call.serve(table, reply);
            for at in slots(table) {
                if table[at] == 4 && before[at] == 6 {
                    table[at + 1..at + 320].copy_from_slice(&before[at + 1..at + 320]);
                }
            }
            served
        }),
    ];
    let ticks: Vec<(&str, Tick)> = vec![
        ("TickInventsFreed", |week, second, table| {
            let ticked = calls::tick(week, second, table);
            Ticked { freed: ticked.freed.max(1), ..ticked }
        }),
        ("TickFreedOnRefusal", |week, second, table| {
            let ticked = calls::tick(week, second, table);
            Ticked { freed: ticked.freed + u32::from(ticked.number == 2), ..ticked }
        }),
        ("TickCountsEstablishedOnly", |week, second, table| {
            let established =
                |table: &[u8]| kinds(table).iter().filter(|&&kind| kind == 6).count() as u32;
            let before = established(table);
            let ticked = calls::tick(week, second, table);
            Ticked {
                freed: if ticked.number == 0 { before - established(table) } else { 0 },
                ..ticked
            }
        }),
        ("TickOneEntryAtATime", |week, second, table| {
            let before = table.to_vec();
            let ticked = calls::tick(week, second, table);
            if ticked.freed > 1 {
                let freed: Vec<usize> =
                    slots(table).filter(|&at| table[at] != before[at]).collect();
                for &at in &freed[1..] {
                    table[at..at + 320].copy_from_slice(&before[at..at + 320]);
                }
                return Ticked { freed: 1, ..ticked };
            }
            ticked
        }),
        ("TickMovesNoClock", |week, second, table| {
            let before = table.to_vec();
            let ticked = calls::tick(week, second, table);
            if ticked.number == 0 {
                let end = clock_end(table);
                table[..end].copy_from_slice(&before[..end]);
            }
            ticked
        }),
        ("TickUnsoundIsReading", |week, second, table| {
            let ticked = calls::tick(week, second, table);
            let wrong = is_wrong(week, second, table);
            Ticked { number: if wrong { 2 } else { ticked.number }, ..ticked }
        }),
    ];
    let makes: Vec<(&str, Make)> = vec![
        ("MakeKeepsEntries", |week, second, table, roster| {
            let before = table.to_vec();
            let sound = calls::tick(0, 0, &mut before.clone()).number == 0;
            let number = calls::make(week, second, table, roster);
            if number == 0 && sound {
                let slots = slots(table).next().expect("a table has a slot");
                table[slots..].copy_from_slice(&before[slots..]);
            }
            number
        }),
        ("MakeKeepsCount", |week, second, table, roster| {
            let count = count(table);
            let number = calls::make(week, second, table, roster);
            if number == 0 {
                let end = clock_end(table);
                table[end - 4..end].copy_from_slice(&count.to_be_bytes());
            }
            number
        }),
        ("MakeSortsTheRoster", |week, second, table, roster| {
            let mut lines: Vec<&[u8]> = roster.chunks(19).collect();
            lines.sort();
            calls::make(week, second, table, &lines.concat())
        }),
        ("MakeRosterBeforeReading", |week, second, table, roster| {
            let number = calls::make(week, second, table, roster);
            let in_time = calls::make(0, 0, &mut table.to_vec(), roster);
            if number == 2 && in_time == 9 {
                9
            } else {
                number
            }
        }),
        ("MakeReadingBeforeLength", |week, second, table, roster| {
            let number = calls::make(week, second, table, roster);
            let wrong = is_wrong(week, second, table);
            if number == 1 && wrong {
                2
            } else {
                number
            }
        }),
        ("MakeRefusalClearsTable", |week, second, table, roster| {
            let number = calls::make(week, second, table, roster);
            if number == 9 {
                slots(table).for_each(|at| table[at..at + 320].fill(0));
            }
            number
        }),
        ("MakeAllowsNoSlots", |week, second, table, roster| {
            if table.len() == 313 {
                0
            } else {
                calls::make(week, second, table, roster)
            }
        }),
        ("MakeAllowsNoSlotsForThirteenBits", |week, second, table, roster| {
            if table.len() == 317 {
                0
            } else {
                calls::make(week, second, table, roster)
            }
        }),
    ];
    let thirteen_bits: Vec<(&str, Make)> =
        vec![("MakeTenBitsAtThirteenBitLength", |week, second, table, roster| {
            // The last four bytes are left over.
            let length = match shape_of(table.len()) {
                Some((Weeks::Thirteen, _)) => table.len() - 4,
                _ => table.len(),
            };
            calls::make(week, second, &mut table[..length], roster)
        })];
    let mut all: Vec<Named> = vec![(
        "RefuseAll".into(),
        Box::new(Around {
            make: |_, _, _, _| 1,
            tick: |_, _, _| Ticked { number: 1, freed: 0 },
            serve: |_, _, _| Served { number: 1, length: 0 },
        }),
    )];
    for (name, serve) in serves {
        all.push((name.into(), Box::new(Around { serve, ..UNCHANGED })));
    }
    for (name, tick) in ticks {
        all.push((name.into(), Box::new(Around { tick, ..UNCHANGED })));
    }
    for (name, make) in makes {
        all.push((name.into(), Box::new(Around { make, ..UNCHANGED })));
    }
    if widths == Widths::Both {
        for (name, make) in thirteen_bits {
            all.push((name.into(), Box::new(Around { make, ..UNCHANGED })));
        }
    }
    all
}

//! Document 01's sample W11 and scripted lists of calls, for the program in
//! `crates/samples`: what it reads, and what it must print by the oracle.
//!
//! ```text
//! samples FOLDER            writes FOLDER/stdin and FOLDER/stdout
//! samples --check FOLDER    exits with 1 if they are not what it would write
//! ```
//!
//! `stdin` is a list of records: a head of 39 bytes, big endian, and a body.
//!
//! ```text
//! kind 1, week 4, second 4, address 16, port 2, host's number 8, room 2, size of the body 2
//! M  make; room is the table's length, the body the roster
//! T  tick
//! S  serve; room is the reply buffer's length, the body the datagram
//! D  print the table
//! C  compare two names; room is the stored one's length, the body its bytes and the sent one's
//! ```
//!
//! All calls are on one buffer, at first filled with 0xEE, of which the last
//! making said how much is lent. Each reply buffer is filled with 0xAA first.
//! `stdout` has a line for each record, but two for each C, and none for a C
//! whose room is more than its body. A call's line ends in a sum of the table's
//! bytes, so that a changed byte shows:
//!
//! ```text
//! make NUMBER SUM
//! tick NUMBER FREED SUM
//! serve NUMBER LENGTH REPLY-BUFFER SUM
//! table BYTES
//! compare SAME PAIRS    the stored bytes with the sent ones folded
//! stored SAME PAIRS     the stored bytes with the sent ones as they are
//! ```
//!
//! SAME is 1 or 0, PAIRS how many byte pairs were looked at.

use oracle::name::{compare_stored, Compared};
use oracle::pairs;
use oracle::rules::{Law, Rules};
use std::fs;
use std::path::Path;
use std::process::ExitCode;

/// The whole table buffer: 64 slots, and weeks of thirteen bits.
const BUFFER: usize = 20_797;
/// The most of a reply buffer that the program lends.
const ROOM: usize = 1_600;

/// Week and second.
type Reading = (u32, u32);

/// The reading of a place.
fn reading(place: u64) -> Reading {
    ((place / 604_800) as u32, (place % 604_800) as u32)
}

#[derive(Clone, Copy)]
struct Sender {
    high: u64,
    low: u64,
    port: u16,
}

/// 192.0.2.5, as a mapped address.
const PANEL: Sender = Sender { high: 0, low: 0xFFFF_C000_0205, port: 5_353 };
/// The same address at another port.
const PANEL_2: Sender = Sender { port: 5_354, ..PANEL };
/// 2001:db8::7.
const DESK: Sender = Sender { high: 0x2001_0DB8 << 32, low: 7, port: 5_353 };
/// An address that differs from DESK's in its upper half only.
const DESK_2: Sender = Sender { high: 0x2001_0DB9 << 32, ..DESK };

/// What an option of a reply says besides its version and opcode.
#[derive(PartialEq, Eq, Debug)]
struct Told {
    error: u16,
    number: u64,
    lease: u32,
}

fn granted(number: u64, lease: u32) -> Told {
    Told { error: 0, number, lease }
}

const FULL: Told = Told { error: 1, number: 0, lease: 60 };

fn format_error(number: u64) -> Told {
    Told { error: 3, number, lease: 0 }
}

fn no_such(number: u64) -> Told {
    Told { error: 4, number, lease: 0 }
}

fn bad_version(number: u64) -> Told {
    Told { error: 5, number, lease: 0 }
}

/// A question beside its option's 18 bytes.
struct Asked {
    question: Vec<u8>,
    option: Vec<u8>,
}

/// A question for PTR records in class IN, by its name's bytes.
fn question(name: &[u8]) -> Vec<u8> {
    [name, &[0, 12, 0, 1]].concat()
}

/// Labels of these contents, then the zero byte.
fn name(labels: &[&[u8]]) -> Vec<u8> {
    let mut name = Vec::new();
    for label in labels {
        name.push(label.len() as u8);
        name.extend(*label);
    }
    name.push(0);
    name
}

/// The wire name of a text, its labels parted by dots.
fn wire(text: &str) -> Vec<u8> {
    name(&text.split('.').map(str::as_bytes).collect::<Vec<_>>())
}

/// A name of just this many bytes, its labels 63 long but for the last two.
fn long_name(length: usize, byte: u8) -> Vec<u8> {
    let label = [byte; 63];
    let mut labels = Vec::new();
    let mut left = length - 1;
    while left > 65 {
        labels.push(&label[..]);
        left -= 64;
    }
    // Of what is left a label takes half, with its length byte.
    labels.push(&label[..left / 2 - 1]);
    labels.push(&label[..left - left / 2 - 1]);
    name(&labels)
}

fn option(version: u16, opcode: u16, error: u16, number: u64, lease: u32) -> Vec<u8> {
    let mut bytes = Vec::new();
    for field in [version, opcode, error] {
        bytes.extend(field.to_be_bytes());
    }
    bytes.extend(number.to_be_bytes());
    bytes.extend(lease.to_be_bytes());
    bytes
}

fn asked(name: &[u8], option: Vec<u8>) -> Asked {
    Asked { question: question(name), option }
}

fn setup(text: &str, lease: u32) -> Asked {
    asked(&wire(text), option(1, 1, 0, 0, lease))
}

fn response(text: &str, number: u64, lease: u32) -> Asked {
    asked(&wire(text), option(1, 1, 0, number, lease))
}

fn refresh(text: &str, number: u64, lease: u32) -> Asked {
    asked(&wire(text), option(1, 2, 0, number, lease))
}

/// A refresh with lease 0.
fn end(text: &str, number: u64) -> Asked {
    refresh(text, number, 0)
}

/// A message of these questions, and these options by code and data.
fn message(questions: &[Vec<u8>], options: &[(u16, Vec<u8>)]) -> Vec<u8> {
    let mut data = Vec::new();
    for (code, bytes) in options {
        data.extend(code.to_be_bytes());
        data.extend((bytes.len() as u16).to_be_bytes());
        data.extend(bytes);
    }
    let mut bytes = vec![0x12, 0x34, 1, 0, 0, questions.len() as u8, 0, 0, 0, 0, 0, 1];
    bytes.extend(questions.concat());
    bytes.extend([0, 0, 41, 0x05, 0xC0, 0, 0, 0, 0]);
    bytes.extend((data.len() as u16).to_be_bytes());
    bytes.extend(data);
    bytes
}

fn datagram(asked: &[Asked]) -> Vec<u8> {
    let questions: Vec<_> = asked.iter().map(|one| one.question.clone()).collect();
    let options: Vec<_> = asked.iter().map(|one| (1, one.option.clone())).collect();
    message(&questions, &options)
}

/// A roster line for the sender's address.
fn listed(sender: Sender, share: u8, limit: u8) -> Vec<u8> {
    let mut line = vec![3];
    line.extend(sender.high.to_be_bytes());
    line.extend(sender.low.to_be_bytes());
    line.extend([share, limit]);
    line
}

/// The bytes with some of them replaced.
fn with<const N: usize>(bytes: &[u8], at: usize, new: [u8; N]) -> Vec<u8> {
    let mut bytes = bytes.to_vec();
    bytes[at..at + N].copy_from_slice(&new);
    bytes
}

/// The bytes with a bit turned at each of these places: not the one that folding turns.
fn differing_at(bytes: &[u8], places: &[usize]) -> Vec<u8> {
    let mut bytes = bytes.to_vec();
    for &at in places {
        bytes[at] ^= [1, 2, 4, 8, 16, 64, 128][at % 7];
    }
    bytes
}

/// The records so far, and what they print.
struct Script {
    buffer: Vec<u8>,
    /// How much of the buffer is lent.
    length: usize,
    stdin: Vec<u8>,
    stdout: String,
}

impl Script {
    fn new() -> Script {
        Script { buffer: vec![0xEE; BUFFER], length: 0, stdin: Vec::new(), stdout: String::new() }
    }

    fn table(&mut self) -> &mut [u8] {
        &mut self.buffer[..self.length]
    }

    /// The reading of the table's last place, and its running count.
    fn clock(&self) -> (Reading, u32) {
        // The place has 4 bytes in a table of 313 + 320n, 8 in one of 317 + 320n.
        let end = if self.length % 320 == 317 { 9 } else { 5 };
        let number = |bytes: &[u8]| bytes.iter().fold(0, |n, &byte| n << 8 | u64::from(byte));
        let (place, count) = (number(&self.buffer[1..end]), number(&self.buffer[end..end + 4]));
        (reading(place), count as u32)
    }

    fn record(
        &mut self,
        kind: u8,
        reading: Reading,
        sender: Sender,
        random: u64,
        room: usize,
        body: &[u8],
    ) {
        self.stdin.push(kind);
        self.stdin.extend(reading.0.to_be_bytes());
        self.stdin.extend(reading.1.to_be_bytes());
        self.stdin.extend(sender.high.to_be_bytes());
        self.stdin.extend(sender.low.to_be_bytes());
        self.stdin.extend(sender.port.to_be_bytes());
        self.stdin.extend(random.to_be_bytes());
        self.stdin.extend((room as u16).to_be_bytes());
        self.stdin.extend((body.len() as u16).to_be_bytes());
        self.stdin.extend(body);
    }

    fn plain_record(&mut self, kind: u8, reading: Reading, room: usize, body: &[u8]) {
        self.record(kind, reading, Sender { high: 0, low: 0, port: 0 }, 0, room, body);
    }

    fn print(&mut self, line: &str) {
        self.stdout += line;
        self.stdout += "\n";
    }

    /// A call's line, and the sum of the table's bytes.
    fn line(&mut self, text: String) {
        let sum =
            self.table().iter().fold(0, |sum, &byte| (sum * 257 + u64::from(byte)) % 4_294_967_291);
        self.print(&format!("{text} {sum}"));
    }

    /// Makes a table in a buffer of this length.
    fn make_in(&mut self, reading: Reading, length: usize, roster: &[u8]) -> u32 {
        assert!(length <= BUFFER);
        self.plain_record(b'M', reading, length, roster);
        self.length = length;
        let number = oracle::make(reading.0, reading.1, self.table(), roster);
        self.line(format!("make {number}"));
        number
    }

    /// Makes a table of n slots.
    fn make(&mut self, reading: Reading, n: usize, roster: &[Vec<u8>]) -> u32 {
        self.make_in(reading, 313 + 320 * n, &roster.concat())
    }

    /// The same for weeks of thirteen bits.
    fn make_wide(&mut self, reading: Reading, n: usize, roster: &[Vec<u8>]) -> u32 {
        self.make_in(reading, 317 + 320 * n, &roster.concat())
    }

    /// The call's number and how many it freed.
    fn tick(&mut self, reading: Reading) -> (u32, u32) {
        self.plain_record(b'T', reading, 0, &[]);
        let ticked = oracle::tick(reading.0, reading.1, self.table());
        self.line(format!("tick {} {}", ticked.number, ticked.freed));
        (ticked.number, ticked.freed)
    }

    /// Serves these bytes with room for a reply; the call's number and the reply.
    fn send(
        &mut self,
        reading: Reading,
        sender: Sender,
        random: u64,
        room: usize,
        datagram: &[u8],
    ) -> (u32, Vec<u8>) {
        assert!(room <= ROOM);
        self.record(b'S', reading, sender, random, room, datagram);
        let mut reply = vec![0xAA; room];
        let (week, second) = reading;
        let Sender { high, low, port } = sender;
        let served = oracle::serve(
            week,
            second,
            high,
            low,
            port,
            random,
            datagram,
            self.table(),
            &mut reply,
        );
        self.line(format!("serve {} {} {}", served.number, served.length, hex(&reply)));
        reply.truncate(served.length as usize);
        (served.number, reply)
    }

    /// Asks by one datagram, with four bytes of room to spare; what each option is told.
    fn ask(&mut self, reading: Reading, sender: Sender, random: u64, asked: &[Asked]) -> Vec<Told> {
        let sent = datagram(asked);
        let (number, reply) = self.send(reading, sender, random, sent.len() + 4, &sent);
        assert_eq!((number, reply.len()), (0, sent.len()));
        told(&reply, asked.len())
    }

    /// Sends these bytes to be refused.
    fn refused(&mut self, reading: Reading, datagram: &[u8]) -> u32 {
        self.send(reading, PANEL, 9, 60, datagram).0
    }

    fn dump(&mut self) {
        self.plain_record(b'D', (0, 0), 0, &[]);
        let bytes = hex(self.table());
        self.print(&format!("table {bytes}"));
    }

    /// Compares a stored name with one as sent: folded, and as it is.
    fn compare(&mut self, stored: &[u8], sent: &[u8]) -> [Compared; 2] {
        self.plain_record(b'C', (0, 0), stored.len(), &[stored, sent].concat());
        let compared = [Law::same_name(stored, sent), compare_stored(stored, sent)];
        for (word, Compared { same, pairs }) in ["compare", "stored"].into_iter().zip(compared) {
            self.print(&format!("{word} {} {pairs}", u8::from(same)));
        }
        compared
    }

    /// Compares a name without capitals with itself.
    fn compare_equal(&mut self, name: &[u8]) {
        assert_eq!(self.compare(name, name), [Compared::same(name.len()); 2]);
    }

    /// Compares a name with one that differs from it at these places, the first of them first.
    fn compare_differing(&mut self, name: &[u8], places: &[usize]) {
        let differing = [Compared::differ(places[0] + 1); 2];
        assert_eq!(self.compare(name, &differing_at(name, places)), differing);
    }
}

/// What the last options of a reply say, as many as these.
fn told(reply: &[u8], options: usize) -> Vec<Told> {
    let field = |bytes: &[u8]| bytes.iter().fold(0, |number, &byte| number << 8 | u64::from(byte));
    reply[reply.len() - 22 * options..]
        .chunks(22)
        .map(|option| Told {
            error: field(&option[8..10]) as u16,
            number: field(&option[10..18]),
            lease: field(&option[18..22]) as u32,
        })
        .collect()
}

fn hex(bytes: &[u8]) -> String {
    bytes.iter().map(|byte| format!("{byte:02x}")).collect()
}

/// W11's query.
const W11: [u8; 52] = [
    0x12, 0x34, 0x01, 0x00, 0x00, 0x01, 0x00, 0x00, 0x00, 0x00, 0x00, 0x01, // header
    0x01, 0x61, 0x00, 0x00, 0x0C, 0x00, 0x01, // question
    0x00, 0x00, 0x29, 0x05, 0xC0, 0x00, 0x00, 0x00, 0x00, 0x00, 0x16, // OPT
    0x00, 0x01, 0x00, 0x12, 0x00, 0x01, 0x00, 0x01, 0x00, 0x00, // option
    0x00, 0x00, 0x00, 0x00, 0x00, 0x00, 0x00, 0x00, 0x00, 0x00, 0x0E, 0x10,
];
/// Where W11's parts start.
const NAME: usize = 12;
const OPT: usize = 19;
const OPTION: usize = 30;

/// Before a making the table is no table: refusal 1.
fn nothing_made(s: &mut Script) {
    assert_eq!(s.tick((0, 0)), (1, 0));
    assert_eq!(s.refused((0, 0), &W11), 1);
    // A refused making leaves the buffer's bytes.
    assert_eq!(s.make((1_024, 0), 1, &[]), 2);
    assert_eq!(s.tick((0, 0)), (1, 0));
    s.dump();
}

/// W11: the query and the reply that document 01 writes out.
fn w11(s: &mut Script) {
    assert_eq!(s.make((0, 0), 4, &[]), 0);
    let (number, reply) = s.send((0, 0), PANEL, 7, 52, &W11);
    assert_eq!((number, reply), (0, with(&with(&W11, 2, [0x85]), 40, 7u64.to_be_bytes())));
    s.dump();
}

/// Setup and response; the table before and after, and responses that are not right.
fn handshake(s: &mut Script) {
    s.make((7, 100), 4, &[]);
    assert_eq!(s.ask((7, 105), PANEL, 77, &[setup("a.example", 3_600)]), [granted(77, 3_600)]);
    s.dump();
    // A lease under what remains or over the granted one; another number or name.
    for wrong in [
        response("a.example", 77, 3_594),
        response("a.example", 77, 3_601),
        response("a.example", 77, 0),
        response("a.example", 78, 3_600),
        response("b.example", 77, 3_600),
    ] {
        assert_eq!(s.ask((7, 110), PANEL, 1, &[wrong]), [no_such(0)]);
    }
    // Another type, another class.
    for at in [24, 26] {
        let sent = with(&datagram(&[response("a.example", 77, 3_600)]), at, [9]);
        let (_, reply) = s.send((7, 110), PANEL, 1, sent.len(), &sent);
        assert_eq!(told(&reply, 1), [no_such(0)]);
    }
    let right = [response("a.example", 77, 3_600)];
    assert_eq!(s.ask((7, 115), PANEL, 1, &right), [granted(77, 3_590)]);
    s.dump();
    // Sent again: it stays established, and the lease left goes on falling.
    assert_eq!(s.ask((7, 125), PANEL, 1, &right), [granted(77, 3_580)]);
    // Any lease from what remains to the granted one; what is told is counted from the granted one.
    for (sent, told) in [
        (3_579, no_such(0)),
        (3_580, granted(77, 3_580)),
        (3_585, granted(77, 3_580)),
        (3_590, granted(77, 3_580)),
        (3_601, no_such(0)),
    ] {
        assert_eq!(s.ask((7, 125), PANEL, 1, &[response("a.example", 77, sent)]), [told]);
    }
}

/// Eight questions in one datagram, each option on the table that those before it left.
fn eight_questions(s: &mut Script) {
    let names = ["a", "b", "c", "d", "e", "f", "g", "h"];
    s.make((9, 0), 9, &[listed(PANEL, 0, 64)]);
    // Leases around both bounds; one host's number for all.
    let leases = [0, 59, 60, 61, 7_199, 7_200, 7_201, u32::MAX];
    let grants = [60, 60, 60, 61, 7_199, 7_200, 7_200, 7_200];
    let setups: Vec<_> = names.iter().zip(leases).map(|(name, lease)| setup(name, lease)).collect();
    let told = s.ask((9, 10), PANEL, 100, &setups);
    assert!(told.iter().zip(100..).zip(grants).all(|((told, n), l)| *told == granted(n, l)));
    // All established at once, five seconds later.
    let numbered = names.iter().zip(100..).zip(grants);
    let responses: Vec<_> = numbered.map(|((name, n), l)| response(name, n, l)).collect();
    let told = s.ask((9, 15), PANEL, 1, &responses);
    assert!(told.iter().zip(100..).zip(grants).all(|((told, n), l)| *told == granted(n, l - 5)));
    // An end, a setup in the slot and with the number that it left, and so on to the end of that.
    let told = s.ask(
        (9, 16),
        PANEL,
        101,
        &[
            end("b", 101),
            setup("i", 300),
            refresh("i", 101, 400),
            response("i", 101, 300),
            refresh("i", 101, 400),
            response("i", 101, 300),
            end("i", 101),
            refresh("i", 101, 400),
        ],
    );
    let expected = [
        granted(101, 0),
        granted(101, 300),
        no_such(101),
        granted(101, 300),
        granted(101, 400),
        no_such(0),
        granted(101, 0),
        no_such(101),
    ];
    assert_eq!(told, expected);
    // One name asked twice has one entry.
    let told = s.ask((9, 17), PANEL, 5, &[setup("j", 90), setup("J", 91), setup("k", 92)]);
    assert_eq!(told, [granted(5, 90), granted(5, 90), granted(6, 92)]);
}

/// Full by the limit: 4 for an unlisted address, over all its ports; its own for a listed one.
fn full_by_limit(s: &mut Script) {
    s.make((20, 0), 12, &[listed(DESK, 0, 2), listed(DESK_2, 1, 1)]);
    let told = s.ask((20, 1), PANEL, 1, &["a", "b", "c"].map(|name| setup(name, 100)));
    assert_eq!(told, [granted(1, 100), granted(2, 100), granted(3, 100)]);
    // The same question from another port is another entry, and counts.
    assert_eq!(s.ask((20, 2), PANEL_2, 1, &[setup("a", 100)]), [granted(4, 100)]);
    assert_eq!(s.ask((20, 3), PANEL_2, 1, &[setup("d", 100)]), [FULL]);
    assert_eq!(s.ask((20, 3), PANEL, 1, &[setup("d", 100)]), [FULL]);
    let told = s.ask((20, 4), DESK, 1, &["a", "b", "c"].map(|name| setup(name, 100)));
    assert_eq!(told, [granted(5, 100), granted(6, 100), FULL]);
    // Addresses that differ in their upper halves only are two.
    let told = s.ask((20, 5), DESK_2, 1, &["a", "b"].map(|name| setup(name, 100)));
    assert_eq!(told, [granted(7, 100), FULL]);
    // One that ends makes room for one.
    let told = s.ask((20, 6), PANEL, 1, &[response("b", 2, 100), end("b", 2), setup("d", 100)]);
    assert_eq!(told, [granted(2, 95), granted(2, 0), granted(2, 100)]);
}

/// Full by the reserve: W10, and slots that two shares keep free.
fn full_by_reserve(s: &mut Script) {
    s.make((30, 0), 4, &[listed(DESK, 3, 3)]);
    assert_eq!(s.ask((30, 0), PANEL, 1, &[setup("a", 0)]), [granted(1, 60)]);
    assert_eq!(s.ask((30, 0), PANEL, 1, &[setup("b", 0)]), [FULL]);
    let told = s.ask((30, 0), DESK, 1, &["a", "b", "c", "d"].map(|name| setup(name, 600)));
    assert_eq!(told, [granted(2, 600), granted(3, 600), granted(4, 600), FULL]);
    // What the listed one ends stays kept for it.
    let told = s.ask((30, 1), DESK, 1, &[response("b", 3, 600), end("b", 3)]);
    assert_eq!(told, [granted(3, 599), granted(3, 0)]);
    assert_eq!(s.ask((30, 1), PANEL, 1, &[setup("b", 0)]), [FULL]);
    assert_eq!(s.ask((30, 1), DESK, 1, &[setup("b", 600)]), [granted(3, 600)]);
    // Beyond its share a listed address too is held to the other's reserve.
    s.make((30, 0), 5, &[listed(DESK, 1, 5), listed(PANEL, 2, 2)]);
    let told = s.ask((30, 0), DESK, 1, &["a", "b", "c", "d"].map(|name| setup(name, 600)));
    assert_eq!(told, [granted(1, 600), granted(2, 600), granted(3, 600), FULL]);
    assert_eq!(s.ask((30, 0), DESK_2, 1, &[setup("a", 600)]), [FULL]);
    let told = s.ask((30, 0), PANEL, 1, &["a", "b", "c"].map(|name| setup(name, 600)));
    assert_eq!(told, [granted(4, 600), granted(5, 600), FULL]);
    s.dump();
}

/// Leases over the roll-over of the ten-bit week.
fn week_roll_over(s: &mut Script) {
    s.make((1_023, 604_790), 4, &[]);
    assert_eq!(s.ask((1_023, 604_795), PANEL, 1, &[setup("a", 60)]), [granted(1, 60)]);
    assert_eq!(s.ask((1_023, 604_799), PANEL, 2, &[setup("b", 60)]), [granted(2, 60)]);
    assert_eq!(s.tick((0, 0)), (0, 0));
    assert_eq!(s.ask((0, 5), PANEL, 1, &[response("b", 2, 60)]), [granted(2, 54)]);
    assert_eq!(s.tick((0, 54)), (0, 0));
    assert_eq!(s.tick((0, 55)), (0, 1));
    assert_eq!(s.tick((0, 59)), (0, 1));
    s.dump();
}

/// Steps back: of 60 seconds or less nothing changes, of more the count stays and the new place is kept.
fn step_back(s: &mut Script) {
    s.make((40, 100), 4, &[]);
    assert_eq!(s.ask((40, 110), PANEL, 1, &[setup("a", 200)]), [granted(1, 200)]);
    for second in [109, 51, 50] {
        assert_eq!(s.tick((40, second)), (0, 0));
        assert_eq!(s.clock(), ((40, 110), 10));
    }
    // Served at an older reading: the stamp is the count that stood.
    assert_eq!(s.ask((40, 50), PANEL, 2, &[setup("b", 60)]), [granted(2, 60)]);
    // Back by 60 and forward by 60 ages nothing.
    assert_eq!(s.ask((40, 110), PANEL, 1, &[setup("a", 200)]), [granted(1, 200)]);
    assert_eq!(s.clock(), ((40, 110), 10));
    s.dump();
    // Back by 61: the place alone is new; what is left stays, and the stamp is that count again.
    let told = s.ask((40, 49), PANEL, 3, &[setup("a", 200), setup("c", 200)]);
    assert_eq!(told, [granted(1, 200), granted(3, 200)]);
    assert_eq!(s.clock(), ((40, 49), 10));
    s.dump();
    // Forward by 61 from there every age is 61 more, each time.
    assert_eq!(s.tick((40, 108)), (0, 0));
    assert_eq!(s.tick((40, 109)), (0, 1));
    assert_eq!(s.ask((40, 110), PANEL, 1, &[setup("a", 200)]), [granted(1, 139)]);
    assert_eq!(s.tick((40, 49)), (0, 0));
    assert_eq!(s.ask((40, 110), PANEL, 1, &[setup("a", 200)]), [granted(1, 78)]);
    assert_eq!(s.clock(), ((40, 110), 132));
    // Creeping back: the step is from the last place that was kept, not from the last reading.
    for second in [100, 90, 80, 70, 60, 50] {
        assert_eq!(s.tick((40, second)), (0, 0));
        assert_eq!(s.clock(), ((40, 110), 132));
    }
    assert_eq!(s.tick((40, 40)), (0, 0));
    assert_eq!(s.clock(), ((40, 40), 132));
    assert_eq!(s.tick((40, 117)), (0, 0));
    assert_eq!(s.tick((40, 118)), (0, 2));

    // Back over the end of the cycle, by 60 and by 61.
    s.make((0, 30), 1, &[]);
    assert_eq!(s.ask((0, 30), PANEL, 1, &[setup("a", 60)]), [granted(1, 60)]);
    assert_eq!(s.tick((1_023, 604_770)), (0, 0));
    assert_eq!(s.clock(), ((0, 30), 0));
    assert_eq!(s.tick((1_023, 604_769)), (0, 0));
    assert_eq!(s.clock(), ((1_023, 604_769), 0));
    // Half a cycle is a step back, and the lease runs on from there.
    assert_eq!(s.tick((511, 604_769)), (0, 0));
    assert_eq!(s.clock(), ((511, 604_769), 0));
    assert_eq!(s.tick((512, 28)), (0, 0));
    assert_eq!(s.tick((512, 29)), (0, 1));
    // One second less is the longest step forward.
    assert_eq!(s.ask((512, 29), PANEL, 1, &[setup("a", 7_200)]), [granted(1, 7_200)]);
    assert_eq!(s.tick((0, 28)), (0, 1));
    assert_eq!(s.clock(), ((0, 28), 60 + 309_657_599));
    s.dump();
}

/// A clock set back by a year: leases run on from there and end, and what is told stays right.
fn set_back_a_year(s: &mut Script) {
    s.make((500, 1_000), 4, &[]);
    assert_eq!(s.ask((500, 1_000), PANEL, 7, &[setup("a", 3_600)]), [granted(7, 3_600)]);
    assert_eq!(s.ask((500, 1_040), PANEL, 7, &[setup("b", 60)]), [granted(8, 60)]);
    assert_eq!(s.tick((500, 1_050)), (0, 0));
    // 31,536,000 seconds back.
    assert_eq!(s.tick((447, 519_450)), (0, 0));
    assert_eq!(s.clock(), ((447, 519_450), 50));
    s.dump();
    // A setup repeated is told what was left, and less as time goes on.
    assert_eq!(s.ask((447, 519_450), PANEL, 1, &[setup("a", 3_600)]), [granted(7, 3_550)]);
    assert_eq!(s.ask((447, 519_460), PANEL, 1, &[setup("a", 3_600)]), [granted(7, 3_540)]);
    // A response with what it was told is right, less than what remains is not.
    assert_eq!(s.ask((447, 519_470), PANEL, 1, &[response("a", 7, 3_529)]), [no_such(0)]);
    assert_eq!(s.ask((447, 519_470), PANEL, 1, &[response("a", 7, 3_540)]), [granted(7, 3_530)]);
    // A new question has its own stamp; each ends by its lease.
    assert_eq!(s.ask((447, 519_480), PANEL, 9, &[setup("c", 60)]), [granted(9, 60)]);
    for (second, freed) in
        [(519_499, 0), (519_500, 1), (519_539, 0), (519_540, 1), (522_999, 0), (523_000, 1)]
    {
        assert_eq!(s.tick((447, second)), (0, freed));
    }
    s.dump();
    // The right reading again is a year forward: it ends what is held.
    assert_eq!(s.ask((447, 523_000), PANEL, 7, &[setup("a", 7_200)]), [granted(7, 7_200)]);
    assert_eq!(s.tick((500, 4_600)), (0, 1));
    // Had it been the wrong one: leases run on by the true readings after it.
    assert_eq!(s.ask((447, 523_010), PANEL, 7, &[setup("a", 60)]), [granted(7, 60)]);
    assert_eq!(s.tick((447, 523_069)), (0, 0));
    assert_eq!(s.tick((447, 523_070)), (0, 1));
    s.dump();
}

/// The running count over its end at 2^32: ages go on, no live entry is lost.
fn count_wraps(s: &mut Script) {
    const CYCLE: u64 = 619_315_200;
    let reading = |count: u64| reading(count % CYCLE);
    s.make((0, 0), 2, &[]);
    // Ticks by almost the longest step, from place 0, so that place and count go together.
    for count in (0..1u64 << 32).step_by(300_000_000).skip(1) {
        assert_eq!(s.tick(reading(count)), (0, 0));
    }
    let start = (1 << 32) - 20;
    assert_eq!(s.ask(reading(start), PANEL, 1, &[setup("a", 100)]), [granted(1, 100)]);
    s.dump();
    let told = s.ask(reading(start + 30), PANEL, 2, &[response("a", 1, 100), setup("b", 60)]);
    assert_eq!(told, [granted(1, 70), granted(2, 60)]);
    s.dump();
    assert_eq!(s.tick(reading(start + 89)), (0, 0));
    assert_eq!(s.tick(reading(start + 90)), (0, 1));
    assert_eq!(s.tick(reading(start + 99)), (0, 0));
    assert_eq!(s.tick(reading(start + 100)), (0, 1));
}

/// Leases running out by ticks and by datagrams, pending ones after their full lease too.
fn running_out(s: &mut Script) {
    s.make((50, 0), 5, &[listed(PANEL, 0, 5)]);
    let asked =
        [setup("a", 60), setup("b", 61), setup("c", 61), setup("d", 200), setup("e", 7_200)];
    assert!(s.ask((50, 0), PANEL, 1, &asked).iter().all(|told| told.error == 0));
    assert_eq!(s.ask((50, 30), PANEL, 1, &[response("b", 2, 61)]), [granted(2, 31)]);
    assert_eq!(s.tick((50, 59)), (0, 0));
    assert_eq!(s.tick((50, 60)), (0, 1));
    assert_eq!(s.tick((50, 60)), (0, 0));
    assert_eq!(s.tick((50, 61)), (0, 2));
    // A run-out entry is freed before the datagram is served.
    assert_eq!(s.ask((50, 200), PANEL, 4, &[response("d", 4, 200)]), [no_such(0)]);
    assert_eq!(s.ask((50, 201), PANEL, 4, &[setup("d", 200)]), [granted(4, 200)]);
    s.dump();
    assert_eq!(s.tick((50, 604_799)), (0, 2));
}

/// Makings refused with 1, 2 and 9, the lowest first.
fn refused_makings(s: &mut Script) {
    let line = |at: u64, share, limit| listed(Sender { low: at, ..DESK }, share, limit);
    assert_eq!(s.make((3, 3), 2, &[listed(PANEL, 1, 4)]), 0);
    for length in [0, 1, 312, 313, 632, 634, 20_792] {
        assert_eq!(s.make_in((0, 0), length, &[]), 1);
    }
    // The buffer still holds that table.
    assert_eq!(s.make((1_024, 0), 2, &[]), 2);
    assert_eq!(s.make((u32::MAX, 0), 2, &[]), 2);
    assert_eq!(s.make((0, 604_800), 2, &[]), 2);
    assert_eq!(s.tick((3, 4)), (0, 0));
    for wrong in [
        with(&line(1, 0, 1), 0, [2]),
        line(1, 0, 1)[..18].to_vec(),
        [line(1, 0, 1), vec![3]].concat(),
        [line(1, 0, 1), line(2, 0, 1), line(1, 1, 2)].concat(),
        line(1, 2, 1),
        line(1, 0, 0),
        line(1, 0, 65),
        line(1, 3, 3),
        [line(1, 1, 1), line(2, 2, 2)].concat(),
        (0..17).flat_map(|at| line(at, 0, 1)).collect(),
    ] {
        assert_eq!(s.make_in((0, 0), 313 + 640, &wrong), 9);
    }
    assert_eq!(s.make_in((1_024, 0), 313 + 639, &line(1, 0, 0)), 1);
    assert_eq!(s.make((1_024, 0), 2, &[line(1, 0, 0)]), 2);
    // Sixteen lines, and shares that take every slot, are right.
    assert_eq!(s.make((0, 0), 16, &(0..16).map(|at| line(at, 1, 64)).collect::<Vec<_>>()), 0);
    // By a refused making a smaller part is lent: shares over its slots make it unsound.
    assert_eq!(s.make((1_024, 0), 15, &[]), 2);
    assert_eq!(s.tick((0, 0)), (1, 0));
}

/// Calls refused with 1 and 2; nothing changes, the lowest number is given.
fn refused_tables_and_readings(s: &mut Script) {
    s.make((3, 3), 1, &[]);
    assert_eq!(s.ask((3, 3), PANEL, 5, &[setup("a", 300)]), [granted(5, 300)]);
    for reading in [(1_024, 0), (0, 604_800), (u32::MAX, u32::MAX)] {
        assert_eq!(s.tick(reading), (2, 0));
        assert_eq!(s.refused(reading, &W11), 2);
        assert_eq!(s.refused(reading, &[]), 2);
    }
    // A byte short of the table.
    assert_eq!(s.make_in((0, 0), 632, &[]), 1);
    assert_eq!(s.tick((3, 4)), (1, 0));
    assert_eq!(s.tick((1_024, 0)), (1, 0));
    assert_eq!(s.refused((3, 4), &W11), 1);
    assert_eq!(s.refused((1_024, 0), &[]), 1);
    // The whole again, as it was.
    assert_eq!(s.make((1_024, 0), 1, &[]), 2);
    assert_eq!(s.ask((3, 4), PANEL, 5, &[response("a", 5, 300)]), [granted(5, 299)]);
}

/// Datagrams refused with 3 to 7: no byte of table, clock or reply buffer changes.
fn refused_datagrams(s: &mut Script) {
    let now = (61, 1);
    s.make((60, 0), 2, &[]);
    assert_eq!(s.ask((61, 0), PANEL, 5, &[setup("a", 60)]), [granted(5, 60)]);

    // 3: length.
    for sent in [&W11[..0], &W11[..11]] {
        assert_eq!(s.refused(now, sent), 3);
    }
    let filled = |length: usize| {
        message(&[question(&wire("a"))], &[(1, W11[34..].to_vec()), (9, vec![0; length - 56])])
    };
    assert_eq!(s.refused(now, &filled(1_473)), 3);
    assert_eq!(s.refused(now, &filled(1_472)), 0);

    // 4: QR, each bit of OPCODE, TC; the counts.
    for bits in [0x80, 0x40, 0x20, 0x10, 0x08, 0x02] {
        assert_eq!(s.refused(now, &with(&W11, 2, [bits])), 4);
    }
    for (at, count) in [(4, 0), (4, 9), (4, 0x0101), (6, 1), (8, 0x0100), (10, 0), (10, 2)] {
        assert_eq!(s.refused(now, &with(&W11, at, u16::to_be_bytes(count))), 4);
    }
    assert_eq!(s.refused(now, &with(&W11, 2, [0x80])[..12]), 4);

    // 5: past the end in a label, before the name's end, in type or class; label bytes; 256 bytes.
    for end in [12, 13, 14, 15, 18] {
        assert_eq!(s.refused(now, &W11[..end]), 5);
    }
    for byte in [0x40, 0x80, 0xC0, 0xFF] {
        assert_eq!(s.refused(now, &with(&W11, NAME, [byte])), 5);
    }
    let one = |name: &[u8]| datagram(&[asked(name, W11[34..].to_vec())]);
    assert_eq!(s.refused(now, &one(&long_name(256, b'x'))), 5);
    assert_eq!(s.refused(now, &one(&[&[64][..], &[b'x'; 64], &[0]].concat())), 5);

    // 6: too few bytes, root name, type, EDNS version, length of the data, options that do not fill it.
    assert_eq!(s.refused(now, &W11[..OPT]), 6);
    assert_eq!(s.refused(now, &W11[..OPT + 10]), 6);
    for (at, byte) in [(OPT, 1), (OPT + 1, 1), (OPT + 2, 40), (OPT + 6, 1)] {
        assert_eq!(s.refused(now, &with(&W11, at, [byte])), 6);
    }
    for length in [0, 21, 23, 0x0116] {
        assert_eq!(s.refused(now, &with(&W11, OPT + 9, u16::to_be_bytes(length))), 6);
    }
    for length in [15, 17, 19, 0x0112] {
        assert_eq!(s.refused(now, &with(&W11, OPTION + 2, u16::to_be_bytes(length))), 6);
    }

    // 7: no option at all, options of other codes only.
    let q = [question(&wire("a"))];
    let data = W11[34..].to_vec();
    for options in [vec![], vec![(0, vec![]), (2, data.clone())], vec![(0x0100, data)]] {
        assert_eq!(s.refused(now, &message(&q, &options)), 7);
    }

    // The entry has lived through all of them.
    assert_eq!(s.tick((61, 59)), (0, 0));
    assert_eq!(s.tick((61, 60)), (0, 1));
}

/// Reply buffers too short, and a reply over 1,472 bytes: refusal 8.
fn short_reply_buffers(s: &mut Script) {
    s.make((70, 0), 2, &[]);
    for room in [0, 1, 51] {
        assert_eq!(s.send((70, 1), PANEL, 7, room, &W11), (8, vec![]));
    }
    assert_eq!(s.send((70, 1), PANEL, 7, 52, &W11).0, 0);
    let two = datagram(&[setup("a", 0), setup("b", 0)]);
    assert_eq!(s.send((70, 1), PANEL, 7, two.len() - 1, &two).0, 8);
    assert_eq!(s.send((70, 1), PANEL, 7, two.len(), &two).0, 0);
    // A count mismatch is answered by one option; an empty option makes the reply the longer one.
    for (more, number, length) in [(0, 0, 1_472), (1, 8, 0)] {
        let names = [255, 255, 255, 255, 255, 128 + more].map(|length| long_name(length, b'x'));
        let sent = message(&names.map(|name| question(&name)), &[(1, vec![])]);
        assert_eq!(sent.len(), 1_454 + more);
        let (given, reply) = s.send((70, 1), PANEL, 7, 1_500, &sent);
        assert_eq!((given, reply.len()), (number, length));
    }
}

/// Setups sent again: the entry's number and the life that remains, whatever is asked now.
fn repeated_setup(s: &mut Script) {
    s.make((80, 0), 4, &[]);
    assert_eq!(s.ask((80, 0), PANEL, 7, &[setup("a", 600)]), [granted(7, 600)]);
    assert_eq!(s.ask((80, 9), PANEL, 8, &[setup("a", 600)]), [granted(7, 591)]);
    assert_eq!(s.ask((80, 9), PANEL, 8, &[setup("a", 0)]), [granted(7, 591)]);
    // A clock that goes back gives no time back.
    assert_eq!(s.ask((80, 5), PANEL, 8, &[setup("a", 600)]), [granted(7, 591)]);
    assert_eq!(s.ask((80, 10), PANEL, 1, &[response("a", 7, 600)]), [granted(7, 590)]);
    assert_eq!(s.ask((80, 11), PANEL, 8, &[setup("a", 90)]), [granted(7, 589)]);
    s.dump();
    // Also at the limit.
    let told = s.ask((80, 12), PANEL, 8, &["b", "c", "d", "e", "a"].map(|name| setup(name, 90)));
    assert_eq!(told, [granted(8, 90), granted(9, 90), granted(10, 90), FULL, granted(7, 588)]);
    assert_eq!(s.ask((80, 599), PANEL, 8, &[setup("a", 90)]), [granted(7, 1)]);
    // Run out, it is a new question.
    assert_eq!(s.ask((80, 600), PANEL, 8, &[setup("a", 90)]), [granted(8, 90)]);
}

/// A challenge that was lost: the second one tells what remains, and either lease may be sent back.
fn lost_challenge(s: &mut Script) {
    s.make((85, 0), 4, &[]);
    for (second, text, number, sent) in [(0, "a", 7, 3_560), (100, "b", 8, 3_600)] {
        let asked = [setup(text, 3_600)];
        assert_eq!(s.ask((85, second), PANEL, 7, &asked), [granted(number, 3_600)]);
        assert_eq!(s.ask((85, second + 40), PANEL, 9, &asked), [granted(number, 3_560)]);
        s.dump();
        let told = s.ask((85, second + 45), PANEL, 1, &[response(text, number, sent)]);
        assert_eq!(told, [granted(number, 3_555)]);
        s.dump();
    }
    // Whichever was sent, each runs out by its granted lease.
    assert_eq!(s.tick((85, 3_599)), (0, 0));
    assert_eq!(s.tick((85, 3_600)), (0, 1));
    assert_eq!(s.tick((85, 3_700)), (0, 1));
}

/// Refreshes, ends, and refreshes of what is pending, ended or never was.
fn refresh_and_end(s: &mut Script) {
    s.make((90, 0), 4, &[]);
    assert_eq!(s.ask((90, 0), PANEL, 7, &[setup("a", 100)]), [granted(7, 100)]);
    assert_eq!(s.ask((90, 1), PANEL, 1, &[refresh("a", 7, 100)]), [no_such(7)]);
    assert_eq!(s.ask((90, 1), PANEL, 1, &[end("a", 7)]), [no_such(7)]);
    assert_eq!(s.ask((90, 1), PANEL, 1, &[response("a", 7, 100)]), [granted(7, 99)]);
    assert_eq!(s.ask((90, 50), PANEL, 1, &[refresh("a", 7, 1)]), [granted(7, 60)]);
    assert_eq!(s.ask((90, 51), PANEL, 1, &[refresh("a", 7, u32::MAX)]), [granted(7, 7_200)]);
    s.dump();
    // A late response is judged by the refreshed lease, and a setup is told what remains of it.
    for told_before in [100, 99, 60] {
        assert_eq!(s.ask((90, 51), PANEL, 1, &[response("a", 7, told_before)]), [no_such(0)]);
    }
    let told = s.ask((90, 52), PANEL, 1, &[setup("a", 100), response("a", 7, 7_200)]);
    assert_eq!(told, [granted(7, 7_199), granted(7, 7_199)]);
    let again = [setup("a", 100), refresh("a", 7, 7_200), setup("a", 100)];
    let told = s.ask((90, 53), PANEL, 1, &again);
    assert_eq!(told, [granted(7, 7_198), granted(7, 7_200), granted(7, 7_200)]);
    for wrong in [refresh("a", 8, 100), refresh("a", 0, 100), refresh("b", 7, 100)] {
        assert_eq!(s.ask((90, 54), PANEL, 1, &[wrong]).pop().map(|told| told.error), Some(4));
    }
    assert_eq!(s.tick((90, 110)), (0, 0));
    assert_eq!(s.ask((90, 120), PANEL, 9, &[setup("b", 100)]), [granted(9, 100)]);
    assert_eq!(s.ask((90, 120), PANEL, 1, &[end("a", 7)]), [granted(7, 0)]);
    s.dump();
    for late in [end("a", 7), refresh("a", 7, 100)] {
        assert_eq!(s.ask((90, 121), PANEL, 1, &[late]), [no_such(7)]);
    }
    assert_eq!(s.ask((90, 121), PANEL, 1, &[response("a", 7, 7_200)]), [no_such(0)]);
    // The lowest free slot is the one that was left.
    assert_eq!(s.ask((90, 122), PANEL, 7, &[setup("c", 100)]), [granted(7, 100)]);
    s.dump();
}

/// Another address, half address or port that quotes a number: its owner's entry stays.
fn another_sender(s: &mut Script) {
    s.make((100, 0), 4, &[]);
    assert_eq!(s.ask((100, 0), DESK, 7, &[setup("a", 100)]), [granted(7, 100)]);
    let others = [DESK_2, PANEL, Sender { port: 5_354, ..DESK }, Sender { low: 8, ..DESK }];
    for other in others {
        assert_eq!(s.ask((100, 1), other, 1, &[response("a", 7, 100)]), [no_such(0)]);
    }
    assert_eq!(s.ask((100, 2), DESK, 1, &[response("a", 7, 100)]), [granted(7, 98)]);
    for other in others {
        let told = s.ask((100, 3), other, 1, &[refresh("a", 7, 100), end("a", 7)]);
        assert_eq!(told, [no_such(7), no_such(7)]);
    }
    assert_eq!(s.ask((100, 4), DESK, 1, &[end("a", 7)]), [granted(7, 0)]);
}

/// Host's numbers 2^64 - 1, 0 and in use.
fn numbers(s: &mut Script) {
    s.make((110, 0), 8, &[listed(PANEL, 0, 8)]);
    let last = u64::MAX;
    assert_eq!(s.ask((110, 0), PANEL, last, &[setup("a", 60)]), [granted(last, 60)]);
    assert_eq!(s.ask((110, 0), PANEL, last, &[setup("b", 90)]), [granted(1, 90)]);
    assert_eq!(s.ask((110, 0), PANEL, 0, &[setup("c", 90)]), [granted(2, 90)]);
    let told = s.ask((110, 0), PANEL, last - 1, &["d", "e", "f"].map(|name| setup(name, 90)));
    assert_eq!(told, [granted(last - 1, 90), granted(3, 90), granted(4, 90)]);
    // The first runs out, and its number is there again.
    assert_eq!(s.ask((110, 60), PANEL, last - 1, &[setup("g", 90)]), [granted(last, 90)]);
    assert_eq!(s.ask((110, 60), PANEL, 1 << 63, &[setup("h", 90)]), [granted(1 << 63, 90)]);
    assert_eq!(s.ask((110, 61), PANEL, 1, &[response("g", last, 90)]), [granted(last, 89)]);
    assert_eq!(s.ask((110, 61), PANEL, 1, &[response("h", 1 << 63, 90)]), [granted(1 << 63, 89)]);
    s.dump();
}

/// Options not as many as questions, or not of 18 bytes: one option, error 3; run-out entries go.
fn count_mismatch(s: &mut Script) {
    s.make((120, 0), 4, &[]);
    assert_eq!(s.ask((120, 0), PANEL, 7, &[setup("a", 60)]), [granted(7, 60)]);
    let [a, b] = ["a", "b"].map(|text| question(&wire(text)));
    let right = option(1, 1, 0, 0, 100);
    let long = [&right[..], &[0]].concat();
    let of = |options: &[&[u8]]| -> Vec<(u16, Vec<u8>)> {
        options.iter().map(|option| (1, option.to_vec())).collect()
    };
    for (questions, options) in [
        (vec![a.clone(), b.clone()], of(&[&right])),
        (vec![b.clone()], of(&[&right, &right])),
        (vec![b.clone()], of(&[&right[..17]])),
        (vec![b.clone()], of(&[&long])),
        (vec![b.clone()], of(&[&[]])),
        (vec![a.clone(), b.clone()], of(&[&right, &right[..17]])),
        (vec![a.clone(), b.clone()], vec![(1, right.clone()), (2, right.clone())]),
    ] {
        let sent = message(&questions, &options);
        let length = 12 + questions.concat().len() + 11 + 22;
        let (number, reply) = s.send((120, 30), PANEL, 9, length + 4, &sent);
        assert_eq!((number, reply.len()), (0, length));
        assert_eq!(told(&reply, 1), [format_error(0)]);
        // It takes no more room than that option.
        assert_eq!(s.send((120, 30), PANEL, 9, length, &sent).0, 0);
    }
    let sent = message(&[a, b], &of(&[&right]));
    assert_eq!(s.send((120, 60), PANEL, 9, 100, &sent).0, 0);
    s.dump();
}

/// Names by any case, stored folded; other bytes as they are; the root and the longest name; every
/// byte value.
fn names(s: &mut Script) {
    s.make((130, 0), 8, &[listed(PANEL, 0, 8)]);
    let told = s.ask((130, 0), PANEL, 7, &[setup("MiXed.EXAMPLE", 100)]);
    assert_eq!(told, [granted(7, 100)]);
    s.dump();
    assert_eq!(s.ask((130, 1), PANEL, 8, &[setup("mixed.example", 90)]), [granted(7, 99)]);
    assert_eq!(s.ask((130, 2), PANEL, 1, &[response("mIXED.eXample", 7, 100)]), [granted(7, 98)]);
    assert_eq!(s.ask((130, 3), PANEL, 1, &[refresh("MIXED.EXAMPLE", 7, 100)]), [granted(7, 100)]);
    let told = s.ask((130, 4), PANEL, 14, &[setup("AZ", 90), setup("az", 90)]);
    assert_eq!(told, [granted(14, 90), granted(14, 90)]);
    // Neighbours of A, Z, a and z, and bytes over 127, do not fold; labels part names.
    let of = |name: &[u8]| asked(name, option(1, 1, 0, 0, 100));
    let told = s.ask((130, 4), PANEL, 8, &[of(b"\x04@[\xC1\xDA\x00"), of(b"\x04`{\xE1\xFA\x00")]);
    assert_eq!(told, [granted(8, 100), granted(9, 100)]);
    let told = s.ask((130, 5), PANEL, 10, &[of(b"\x03a\x01b\x00"), of(b"\x01a\x01b\x00")]);
    assert_eq!(told, [granted(10, 100), granted(11, 100)]);
    // The root, and a name of 255 bytes in both cases.
    let (root, longest) = (name(&[]), long_name(255, b'X'));
    let told = s.ask((130, 6), PANEL, 12, &[of(&root), of(&longest), of(&long_name(255, b'x'))]);
    assert_eq!(told, [granted(12, 100), granted(13, 100), granted(13, 100)]);
    s.dump();
    // Every byte value: those without bit 0x20 in one name, A to Z among them, and at the same places
    // of another those with it, a to z among them. Asked again, their letters are in the other case.
    s.make((130, 10), 2, &[]);
    let wire = |values: &[u8]| name(&values.chunks(63).collect::<Vec<_>>());
    let one: Vec<u8> = (0..=255).filter(|byte| byte & 0x20 == 0).collect();
    let other: Vec<u8> = one.iter().map(|byte| byte | 0x20).collect();
    let (small, capitals) = (one.to_ascii_lowercase(), other.to_ascii_uppercase());
    for sent in [[&one, &other], [&small, &capitals]] {
        let told = s.ask((130, 10), PANEL, 7, &sent.map(|values| of(&wire(values))));
        assert_eq!(told, [granted(7, 100), granted(8, 100)]);
    }
    for (slot, stored) in [&small, &other].into_iter().enumerate() {
        assert_eq!(s.table()[313 + 320 * slot + 40..][..132], wire(stored));
    }
    s.dump();
}

/// Names compared: the lengths first, then byte pairs, which are counted up to the first that differs.
fn comparisons(s: &mut Script) {
    // Short names, the root, the longest, a letter in its two cases.
    for (stored, sent, compared) in pairs::rows() {
        assert_eq!(s.compare(&stored, &sent), compared);
    }

    // Short of a word of eight bytes, whole words and some over: equal, and a difference at every place.
    for length in (0..=10).chain(15..=17).chain([24, 40]) {
        let name = pairs::bytes(length);
        s.compare_equal(&name);
        for at in 0..length {
            s.compare_differing(&name, &[at]);
        }
    }

    // The longest name: equal, and a difference at its ends, around the ends of words and in the middle of one.
    let longest = pairs::longest();
    s.compare_equal(&longest);
    for at in [0, 7, 8, 9, 40, 63, 64, 100, 127, 128, 191, 192, 247, 248, 253, 254] {
        s.compare_differing(&longest, &[at]);
    }

    // Lengths that differ by one or by a word, one name the start of the other: no pair is looked at.
    let by_one = [0, 1, 2, 3, 6, 7, 8, 9, 14, 15, 16, 17, 253, 254].map(|length| (length, 1));
    let by_a_word = [0, 3, 8, 16, 247].map(|length| (length, 8));
    for (length, more) in by_one.into_iter().chain(by_a_word) {
        let (long, short) = (&longest[..length + more], &longest[..length]);
        for (stored, sent) in [(short, long), (long, short)] {
            assert_eq!(s.compare(stored, sent), [Compared::differ(0); 2]);
        }
    }

    // Capitals sent: a difference that folding undoes.
    let name = pairs::bytes(20);
    let (same, differ) = (Compared::same(20), Compared::differ);
    for (at, letter) in [0, 7, 8, 9, 15, 16, 19].into_iter().zip(*b"azmbynk") {
        let capital = letter.to_ascii_uppercase();
        let [stored, sent] = [letter, capital].map(|byte| with(&name, at, [byte]));
        assert_eq!(s.compare(&stored, &sent), [same, differ(at + 1)]);
    }
    // Capitals stored: no sent byte is one, folded.
    assert_eq!(s.compare(b"A", b"A"), [differ(1), Compared::same(1)]);
    let stored = with(&name, 9, [b'Z']);
    assert_eq!(s.compare(&stored, &stored), [differ(10), same]);
    assert_eq!(s.compare(&stored, &with(&name, 9, [b'z'])), [differ(10); 2]);
    // Neighbours of the letters, and letters past 127: as far apart as a letter's cases, but not folded.
    for (one, other) in [(b'@', b'`'), (b'[', b'{'), (0xC1, 0xE1)] {
        let [one, other] = [one, other].map(|byte| with(&name, 12, [byte]));
        for (stored, sent) in [(&one, &other), (&other, &one)] {
            assert_eq!(s.compare(stored, sent), [differ(13); 2]);
            s.compare_equal(stored);
        }
    }
    // Several differences, in one word and in two: the first one counts.
    for places in [&[2, 5][..], &[8, 15], &[6, 7], &[7, 8], &[3, 11, 19], &[16, 17, 18, 19]] {
        s.compare_differing(&name, places);
    }
    // A capital before a difference, and behind it.
    for (capital, other) in [(2, 5), (13, 10), (7, 8)] {
        let stored = with(&name, capital, [b'e']);
        let sent = with(&differing_at(&stored, &[other]), capital, [b'E']);
        let compared = [differ(other + 1), differ(other.min(capital) + 1)];
        assert_eq!(s.compare(&stored, &sent), compared);
    }

    // A stored name longer than the body: nothing is compared.
    s.plain_record(b'C', (0, 0), 4, b"\x01a\x00");
}

/// Versions, opcodes and errors that are not a server's to answer: errors 5 and 3.
fn malformed_options(s: &mut Script) {
    s.make((140, 0), 4, &[]);
    assert_eq!(s.ask((140, 0), PANEL, 7, &[setup("a", 100)]), [granted(7, 100)]);
    assert_eq!(s.ask((140, 1), PANEL, 7, &[response("a", 7, 100)]), [granted(7, 99)]);
    let a = wire("a");
    for version in [0, 2, 0x0101, 0xFFFF] {
        let told = s.ask(
            (140, 2),
            PANEL,
            9,
            &[
                asked(&a, option(version, 1, 0, 7, 100)),
                asked(&a, option(version, 2, 0, 7, 0)),
                asked(&a, option(version, 3, 9, 7, 0)),
            ],
        );
        assert_eq!(told, [bad_version(0), bad_version(7), bad_version(0)]);
    }
    for opcode in [0, 3, 0x0101, 0x0201] {
        assert_eq!(
            s.ask((140, 3), PANEL, 9, &[asked(&a, option(1, opcode, 0, 7, 0))]),
            [format_error(0)]
        );
    }
    for error in [1, 4, 0x0100] {
        let told = s.ask(
            (140, 4),
            PANEL,
            9,
            &[asked(&a, option(1, 1, error, 7, 100)), asked(&a, option(1, 2, error, 7, 0))],
        );
        assert_eq!(told, [format_error(0), format_error(7)]);
    }
    // A malformed one between others changes nothing for them.
    let told = s.ask(
        (140, 5),
        PANEL,
        9,
        &[setup("b", 60), asked(&a, option(0, 2, 0, 7, 0)), refresh("a", 7, 60)],
    );
    assert_eq!(told, [granted(9, 60), bad_version(7), granted(7, 60)]);
}

/// What is not looked at: other header bits, OPT class and flags, options of other codes.
fn ignored(s: &mut Script) {
    s.make((150, 0), 4, &[]);
    // No RD bit; all others that may be set.
    for (flags, third) in [([0, 0], 0x84), ([4, 0xFF], 0x84), ([5, 0xFF], 0x85)] {
        let (number, reply) = s.send((150, 1), PANEL, 7, 52, &with(&W11, 2, flags));
        assert_eq!((number, &reply[2..4]), (0, &[third, 0][..]));
    }
    let opt = with(&with(&W11, OPT + 3, [0xFF, 0xFF, 0xFF]), OPT + 7, [0xFF, 0xFF]);
    let (number, reply) = s.send((150, 1), PANEL, 7, 52, &opt);
    assert_eq!((number, &reply[OPT..OPTION]), (0, &W11[OPT..OPTION]));
    // Options of other codes before, between and after; the reply has none of them.
    let sent = message(
        &["b", "c"].map(|text| question(&wire(text))),
        &[
            (3, b"nsid".to_vec()),
            (1, option(1, 1, 0, 0, 100)),
            (0x0101, vec![]),
            (0, vec![0; 18]),
            (1, option(1, 1, 0, 0, 200)),
            (2, vec![0; 12]),
        ],
    );
    let (_, reply) = s.send((150, 2), PANEL, 20, 90, &sent);
    assert_eq!(reply.len(), 12 + 14 + 11 + 44);
    assert_eq!(told(&reply, 2), [granted(20, 100), granted(21, 200)]);
}

/// A table made again, in place: nothing is left of the old one.
fn made_again(s: &mut Script) {
    s.make((160, 0), 3, &[listed(PANEL, 1, 2), listed(DESK, 1, 1)]);
    assert_eq!(s.ask((160, 9), PANEL, 7, &[setup("a", 100)]), [granted(7, 100)]);
    s.dump();
    assert_eq!(s.make((5, 5), 3, &[listed(DESK, 2, 3)]), 0);
    s.dump();
    assert_eq!(s.ask((5, 5), PANEL, 1, &[response("a", 7, 100)]), [no_such(0)]);
    // Fewer slots in the same buffer.
    assert_eq!(s.make((5, 5), 1, &[]), 0);
    assert_eq!(s.ask((5, 6), PANEL, 7, &[setup("a", 100)]), [granted(7, 100)]);
    s.dump();
}

/// A table of 64 slots, filled by eight datagrams of eight questions.
fn sixty_four_slots(s: &mut Script) {
    s.make((170, 0), 64, &[listed(PANEL, 0, 64)]);
    for round in 0..8 {
        let asked: Vec<_> = (0..8).map(|at| setup(&format!("{round}.{at}"), 3_600)).collect();
        let told = s.ask((170, round), PANEL, 1_000, &asked);
        assert_eq!(told[7], granted(1_007 + 8 * u64::from(round), 3_600));
    }
    assert_eq!(s.ask((170, 8), DESK, 1, &[setup("a", 60)]), [FULL]);
    assert_eq!(s.ask((170, 8), PANEL, 1, &[setup("a", 60)]), [FULL]);
    let told = s.ask((170, 9), PANEL, 1_000, &[response("3.3", 1_027, 3_600), end("3.3", 1_027)]);
    assert_eq!(told, [granted(1_027, 3_594), granted(1_027, 0)]);
    assert_eq!(s.ask((170, 10), DESK, 1_000, &[setup("a", 60)]), [granted(1_027, 60)]);
    assert_eq!(s.tick((170, 3_600)), (0, 9));
    assert_eq!(s.tick((170, 3_607)), (0, 55));
}

/// Tables for weeks of thirteen bits: 317 + 320n bytes.
fn thirteen_bit_weeks(s: &mut Script) {
    // Week 8,191 to week 0, leases over it; the whole table before it and after.
    assert_eq!(s.make_wide((8_191, 604_799), 1, &[]), 0);
    assert_eq!(s.table()[..13], [9, 0, 0, 0, 1, 0x27, 0x4F, 0xFF, 0xFF, 0, 0, 0, 0]);
    s.dump();
    assert_eq!(s.tick((0, 0)), (0, 0));
    assert_eq!(s.table()[..13], [9, 0, 0, 0, 0, 0, 0, 0, 0, 0, 0, 0, 1]);
    s.make_wide((8_191, 604_790), 4, &[]);
    assert_eq!(s.ask((8_191, 604_795), PANEL, 1, &[setup("a", 60)]), [granted(1, 60)]);
    assert_eq!(s.ask((8_191, 604_799), PANEL, 2, &[setup("b", 60)]), [granted(2, 60)]);
    assert_eq!(s.tick((0, 0)), (0, 0));
    assert_eq!(s.ask((0, 5), PANEL, 1, &[response("b", 2, 60)]), [granted(2, 54)]);
    s.dump();
    assert_eq!(s.tick((0, 54)), (0, 0));
    assert_eq!(s.tick((0, 55)), (0, 1));
    assert_eq!(s.tick((0, 59)), (0, 1));

    // Week 1,023 to week 1,024 is a second; week 0 after week 1,023 is that week, far back.
    s.make_wide((1_023, 604_790), 2, &[]);
    assert_eq!(s.ask((1_023, 604_799), PANEL, 1, &[setup("a", 60)]), [granted(1, 60)]);
    assert_eq!(s.tick((1_024, 0)), (0, 0));
    assert_eq!(s.clock(), ((1_024, 0), 10));
    assert_eq!(s.ask((1_024, 58), PANEL, 1, &[response("a", 1, 60)]), [granted(1, 1)]);
    assert_eq!(s.tick((0, 59)), (0, 0));
    assert_eq!(s.clock(), ((0, 59), 68));
    assert_eq!(s.tick((0, 60)), (0, 1));

    steps_over_the_wide_cycle(s);
    wide_steps_back(s);
    weeks_by_length(s);
    kinds_by_length(s);

    // The largest table, every slot taken; its place goes over 2^32.
    let roster: Vec<_> = (0..16).map(|at| listed(Sender { low: at, ..DESK }, 4, 4)).collect();
    assert_eq!(s.make_wide((7_101, 282_490), 64, &roster), 0);
    for at in 0..16 {
        let from = Sender { low: at, ..DESK };
        let told = s.ask((7_101, 282_495), from, 1, &["a", "b", "c", "d"].map(|n| setup(n, 60)));
        assert_eq!(told[3], granted(4 * at + 4, 60));
    }
    assert_eq!(s.ask((7_101, 282_496), PANEL, 1, &[setup("a", 60)]), [FULL]);
    assert_eq!(s.table()[..13], [9, 0, 0, 0, 1, 0, 0, 0, 0, 0, 0, 0, 6]);
    assert_eq!(s.tick((7_101, 282_555)), (0, 64));
}

/// Both ends of the step of thirteen bits, steps that 31 bits do not hold, and the count's wrap by them.
fn steps_over_the_wide_cycle(s: &mut Script) {
    s.make_wide((0, 0), 2, &[]);
    assert_eq!(s.ask((0, 0), PANEL, 1, &[setup("a", 60)]), [granted(1, 60)]);
    // Half a cycle is a step back: the place alone is new, and the lease runs on from there.
    assert_eq!(s.tick((4_096, 0)), (0, 0));
    assert_eq!(s.clock(), ((4_096, 0), 0));
    assert_eq!(s.ask((4_096, 1), PANEL, 1, &[setup("a", 60)]), [granted(1, 59)]);
    // Back by 2^31 + 1 it is the same.
    assert_eq!(s.tick(reading(2_477_260_801 - 2_147_483_649)), (0, 0));
    assert_eq!(s.clock(), (reading(329_777_152), 1));
    // On by 2^31, and by a second less than half a cycle: each ends the entry that is held.
    assert_eq!(s.tick(reading(329_777_152 + 2_147_483_648)), (0, 1));
    assert_eq!(s.clock(), ((4_096, 0), 2_147_483_649));
    assert_eq!(s.ask((4_096, 0), PANEL, 1, &[setup("a", 7_200)]), [granted(1, 7_200)]);
    assert_eq!(s.tick((8_191, 604_799)), (0, 1));
    s.dump();
    // The count over its end: an entry lives on, and ends at its lease.
    s.make_wide((0, 0), 2, &[]);
    assert_eq!(s.tick((4_095, 604_799)), (0, 0));
    assert_eq!(s.tick(reading(4_294_967_295)), (0, 0));
    assert_eq!(s.clock(), (reading(4_294_967_295), u32::MAX));
    assert_eq!(s.ask(reading(4_294_967_295), PANEL, 1, &[setup("a", 60)]), [granted(1, 60)]);
    assert_eq!(s.ask(reading(4_294_967_354), PANEL, 1, &[response("a", 1, 60)]), [granted(1, 1)]);
    assert_eq!(s.clock(), (reading(4_294_967_354), 58));
    assert_eq!(s.tick(reading(4_294_967_355)), (0, 1));
    // By the longest step from its last number.
    s.make_wide((0, 0), 1, &[]);
    assert_eq!(s.tick((4_095, 604_799)), (0, 0));
    assert_eq!(s.tick(reading(4_294_967_295)), (0, 0));
    assert_eq!(s.tick(reading(4_294_967_295 + 2_477_260_799 - 4_954_521_600)), (0, 0));
    assert_eq!(s.clock(), (reading(1_817_706_494), 2_477_260_798));
}

/// Back by 60 seconds nothing changes, by 61 the new place is kept, also over the cycle's end.
fn wide_steps_back(s: &mut Script) {
    s.make_wide((5_000, 100), 2, &[]);
    assert_eq!(s.ask((5_000, 110), PANEL, 1, &[setup("a", 200)]), [granted(1, 200)]);
    assert_eq!(s.tick((5_000, 50)), (0, 0));
    assert_eq!(s.clock(), ((5_000, 110), 10));
    assert_eq!(s.ask((5_000, 49), PANEL, 1, &[setup("a", 200)]), [granted(1, 200)]);
    assert_eq!(s.clock(), ((5_000, 49), 10));
    s.dump();
    assert_eq!(s.ask((5_000, 110), PANEL, 1, &[setup("a", 200)]), [granted(1, 139)]);
    // Over the start of week 1,024, and over the cycle's end.
    for (week, before) in [(1_024, 1_023), (0, 8_191)] {
        s.make_wide((week, 30), 1, &[]);
        assert_eq!(s.ask((week, 30), PANEL, 1, &[setup("a", 60)]), [granted(1, 60)]);
        assert_eq!(s.tick((before, 604_770)), (0, 0));
        assert_eq!(s.clock(), ((week, 30), 0));
        assert_eq!(s.tick((before, 604_769)), (0, 0));
        assert_eq!(s.clock(), ((before, 604_769), 0));
        assert_eq!(s.tick((week, 28)), (0, 0));
        assert_eq!(s.tick((week, 29)), (0, 1));
    }
}

/// The length alone says which weeks are taken, and a week is never another one modulo 1,024.
fn weeks_by_length(s: &mut Script) {
    // Lengths beside those of a table of one slot, and none for slots.
    for length in [314, 315, 316, 317, 634, 635, 636, 638] {
        assert_eq!(s.make_in((0, 0), length, &[]), 1);
    }
    assert_eq!(s.make_wide((8_192, 0), 1, &[vec![3]]), 2);
    assert_eq!(s.make_wide((8_191, 604_800), 1, &[]), 2);
    assert_eq!(s.make_wide((8_191, 604_799), 1, &[vec![3]]), 9);
    assert_eq!(s.make_wide((8_191, 604_799), 1, &[]), 0);
    for reading in [(8_192, 0), (8_193, 0), (u32::MAX, 0), (0, 604_800)] {
        assert_eq!(s.tick(reading), (2, 0));
        assert_eq!(s.refused(reading, &W11), 2);
    }
    assert_eq!(s.clock(), ((8_191, 604_799), 0));
    // Made again in the same buffer: week 1,024.
    assert_eq!(s.make_wide((1_024, 7), 1, &[]), 0);
    assert_eq!(s.clock(), ((1_024, 7), 0));
    // Four bytes fewer: a table for weeks of ten bits.
    assert_eq!(s.make((1_024, 7), 1, &[]), 2);
    assert_eq!(s.make((1_023, 7), 1, &[]), 0);
    for reading in [(1_024, 0), (1_025, 0), (2_048, 0), (8_191, 604_799), (8_192, 0)] {
        assert_eq!(s.make(reading, 1, &[]), 2);
        assert_eq!(s.tick(reading), (2, 0));
        assert_eq!(s.refused(reading, &W11), 2);
    }
    assert_eq!(s.clock(), ((1_023, 7), 0));
}

/// A clock of kind 0x01 at a length of 317 + 320n, and one of kind 0x09 at 313 + 320n. No call writes
/// such a table, but the bytes that calls have written may be lent at the other length. Lines and slots
/// are then read from four bytes further on, or before, and these bytes are sound there too, but for
/// the kind.
fn kinds_by_length(s: &mut Script) {
    let sound_but_for_kind = |s: &Script, length: usize, right: u8| {
        let mut table = s.buffer[..length].to_vec();
        assert_eq!(oracle::tick(0, 0, &mut table).number, 1);
        table[0] = right;
        assert_eq!(oracle::tick(0, 0, &mut table).number, 0);
    };
    let line = |address: [u8; 16]| [&[3][..], &address, &[0, 1]].concat();
    let ask = |s: &mut Script, now: Reading, from: Sender, number, question: &[u8]| {
        let sent = message(&[question.to_vec()], &[(1, option(1, 1, 0, 0, 3_600))]);
        let (_, reply) = s.send(now, from, number, sent.len(), &sent);
        assert_eq!(told(&reply, 1), [granted(number, 3_600)]);
    };

    // Kind 0x01. The four bytes behind the shorter table are zeros that a longer one has left.
    assert_eq!(s.make_wide((0, 0), 1, &[]), 0);
    // In each address share 0 and limit 1 for the line before, and a line's kind.
    let lines = (0..16).map(|at| line([at, 0, 1, 3, 0, 0, 0, 0, 0, 0, 0, 0, 0, 0, 0, 0]));
    assert_eq!(s.make((1_023, 604_700), 1, &lines.collect::<Vec<_>>()), 0);
    // The sender's address does so for the last line and has the entry's kind, the stamp is a lease, type
    // and class are a stamp, and in the name there is one more, its length before it.
    let from = Sender { high: 0x7700_0105 << 32, low: 0, port: 5_353 };
    ask(s, (0, 0), from, 7, b"\x05xx\x03\x01a\x00\x03\x00\x00\x01");
    assert_eq!(s.clock(), ((0, 0), 100));
    sound_but_for_kind(s, 637, 9);
    assert_eq!(s.make_wide((8_192, 0), 1, &[]), 2);
    s.dump();
    assert_eq!(s.tick((0, 0)), (1, 0));
    assert_eq!(s.refused((0, 0), &W11), 1);
    assert_eq!(s.refused((8_192, 0), &[]), 1);
    // At its own length it is as it was.
    assert_eq!(s.make((1_024, 0), 1, &[]), 2);
    assert_eq!(s.tick((0, 1)), (0, 0));
    assert_eq!(s.clock(), ((0, 1), 101));

    // Kind 0x09. In each address share 0, limit 1 and the next line's kind, or the entry's; the count
    // starts with the first line's.
    let kind = |at| if at < 15 { 3 } else { 5 };
    let lines = (0..16).map(|at| line([at, 0, 0, 0, 0, 0, 0, 0, 0, 0, 0, 0, 0, 1, kind(at), 0]));
    let count = 0x0300_0000;
    let made = reading(4_954_521_600 + 3_600 - u64::from(count));
    assert_eq!(s.make_wide(made, 1, &lines.collect::<Vec<_>>()), 0);
    // The place is a count, the lease a stamp and the number a lease; the type is the length of a name
    // and of its first label.
    ask(s, (0, 3_600), PANEL, 100, b"\x01a\x00\x07\x05xx");
    assert_eq!(s.clock(), ((0, 3_600), count));
    sound_but_for_kind(s, 633, 1);
    assert_eq!(s.make((1_024, 0), 1, &[]), 2);
    s.dump();
    assert_eq!(s.tick((0, 3_600)), (1, 0));
    assert_eq!(s.refused((0, 3_600), &W11), 1);
    assert_eq!(s.refused((1_024, 0), &[]), 1);
    assert_eq!(s.make_wide((8_192, 0), 1, &[]), 2);
    assert_eq!(s.tick((0, 3_601)), (0, 0));
    assert_eq!(s.clock(), ((0, 3_601), count + 1));
}

type List = (&'static str, fn(&mut Script));

/// The lists in their order.
const LISTS: [List; 28] = [
    ("nothing made", nothing_made),
    ("W11", w11),
    ("handshake", handshake),
    ("eight questions", eight_questions),
    ("full by limit", full_by_limit),
    ("full by reserve", full_by_reserve),
    ("week roll-over", week_roll_over),
    ("step back", step_back),
    ("set back a year", set_back_a_year),
    ("count wraps", count_wraps),
    ("running out", running_out),
    ("refused makings", refused_makings),
    ("refused tables and readings", refused_tables_and_readings),
    ("refused datagrams", refused_datagrams),
    ("short reply buffers", short_reply_buffers),
    ("repeated setup", repeated_setup),
    ("lost challenge", lost_challenge),
    ("refresh and end", refresh_and_end),
    ("another sender", another_sender),
    ("numbers", numbers),
    ("count mismatch", count_mismatch),
    ("names", names),
    ("comparisons", comparisons),
    ("malformed options", malformed_options),
    ("ignored", ignored),
    ("made again", made_again),
    ("sixty-four slots", sixty_four_slots),
    ("thirteen-bit weeks", thirteen_bit_weeks),
];

/// Runs every list, one after the other on one buffer, and says which lines are whose.
fn all(says: bool) -> Script {
    let mut script = Script::new();
    let mut lines = 0;
    for (name, list) in LISTS {
        list(&mut script);
        let first = lines + 1;
        lines = script.stdout.lines().count();
        if says {
            println!("{first:4} to {lines:4}  {name}");
        }
    }
    script
}

fn done() -> Result<bool, String> {
    let words: Vec<String> = std::env::args().skip(1).collect();
    let (check, folder) = match &words[..] {
        [folder] => (false, folder),
        [word, folder] if word == "--check" => (true, folder),
        _ => return Err("samples [--check] FOLDER".into()),
    };
    let script = all(!check);
    // The program reads no more than this.
    assert!(script.stdin.len() <= 131_072);
    let mut current = true;
    for (name, bytes) in [("stdin", &script.stdin[..]), ("stdout", script.stdout.as_bytes())] {
        let file = Path::new(folder).join(name);
        let failed = |error| format!("{}: {error}", file.display());
        if !check {
            fs::write(&file, bytes).map_err(failed)?;
        } else if fs::read(&file).map_err(failed)? != bytes {
            println!("{} is not current", file.display());
            current = false;
        }
    }
    Ok(current)
}

fn main() -> ExitCode {
    match done() {
        Ok(true) => ExitCode::SUCCESS,
        Ok(false) => ExitCode::FAILURE,
        Err(wrong) => {
            eprintln!("{wrong}");
            ExitCode::from(2)
        }
    }
}

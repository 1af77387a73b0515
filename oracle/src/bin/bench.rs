//! Times the same calls on all sides in one run: the library, the oracle, plain C and, with the feature
//! `before`, an earlier archive of the library.
//!
//! ```text
//! bench            1000 batches of about 100 us a side and workload
//! bench --quick    20 batches of about 100 us
//! ```
//!
//! Exits with 1 if the sides do not agree, before anything is timed or after.

use oracle::clock::Weeks;
#[cfg(feature = "before")]
use oracle::server::Before;
use oracle::server::{Linked, Oracle, Plain, Server};
use oracle::table;
use std::hint::black_box;
use std::ops::Range;
use std::process::ExitCode;
use std::time::{Duration, Instant};

struct Side {
    name: &'static str,
    server: &'static dyn Server,
    /// Tables for weeks of thirteen bits are known to it.
    wide: bool,
}

/// The library first: the others are what it is compared with.
const SIDES: &[Side] = &[
    Side { name: "library", server: &Linked, wide: true },
    Side { name: "oracle", server: &Oracle, wide: true },
    Side { name: "plain C", server: &Plain, wide: true },
    // It refuses the lengths of those tables with 1: there is no time of it in their rows.
    #[cfg(feature = "before")]
    Side { name: "before", server: &Before, wide: false },
];

impl Side {
    fn knows(&self, weeks: Weeks) -> bool {
        self.wide || weeks == Weeks::Ten
    }
}

const SLOTS: [usize; 3] = [4, 16, 64];

// ---- the calls

/// The week of every call. Of thirteen bits one whose places 32 bits do not hold.
const fn week(weeks: Weeks) -> u32 {
    match weeks {
        Weeks::Ten => 300,
        Weeks::Thirteen => 8_000,
    }
}

/// When the table is made, and when the timed calls are.
const MADE: u32 = 200_000;
const NOW: u32 = 200_600;

const SETUP: u16 = 1;
const REFRESH: u16 = 2;
const LEASE: u32 = 7_200;

/// The option's length in the reply and in the queries, and where its fields are.
const OPTION: usize = 22;
const OPTION_LENGTH: usize = 3;
const OPTION_ERROR: usize = 8;
const OPTION_NUMBER: usize = 10;

#[derive(Clone, Copy)]
enum Call {
    Tick,
    Refresh(usize),
    Setup,
    Response,
    DamagedDatagram,
    DamagedTable,
    /// A repeated setup of 4 questions with the longest names.
    LongSetup,
    /// A new question set up, answered and ended.
    Handshake,
    /// A repeated setup of the question in the last slot, where one client holds every slot by names of
    /// the longest kind that are the same but for their last letter.
    SetupAlike,
    /// A tick of such a table.
    TickAlike,
    /// That setup where they are the same but for their first letter.
    SetupUnlike,
}

use Call::*;

const CALLS: [Call; 12] = [
    Tick,
    Refresh(1),
    Refresh(4),
    Setup,
    Response,
    DamagedDatagram,
    DamagedTable,
    LongSetup,
    Handshake,
    SetupAlike,
    TickAlike,
    SetupUnlike,
];

/// Each call with the weeks that its table is for; those of both one after the other.
fn rows() -> impl Iterator<Item = (Call, Weeks)> {
    CALLS.into_iter().flat_map(|call| {
        let wide = call.is_wide_too().then_some((call, Weeks::Thirteen));
        [(call, Weeks::Ten)].into_iter().chain(wide)
    })
}

/// What a row is called.
fn row_name(call: Call, weeks: Weeks) -> String {
    match (call, weeks) {
        (_, Weeks::Ten) => call.name(),
        (Tick, _) => "tick, 13-bit weeks".into(),
        (Refresh(questions), _) => format!("refresh of {questions}, 13-bit weeks"),
        _ => format!("{}, 13-bit weeks", call.name()),
    }
}

impl Call {
    fn name(self) -> String {
        match self {
            Tick => "tick, a step of 0 s".into(),
            Refresh(1) => "refresh of 1 question".into(),
            Refresh(questions) => format!("refresh of {questions} questions"),
            Setup => "repeated setup of 1".into(),
            Response => "response of 1 question".into(),
            DamagedDatagram => "damaged datagram (6)".into(),
            DamagedTable => "damaged table (1)".into(),
            LongSetup => "repeated setup of 4, 255 B".into(),
            Handshake => "setup, response, end".into(),
            SetupAlike => "repeated setup, all alike".into(),
            TickAlike => "tick, all alike".into(),
            SetupUnlike => "repeated setup, all unlike".into(),
        }
    }

    /// How many questions a datagram has.
    fn questions(self) -> usize {
        match self {
            Refresh(questions) => questions,
            LongSetup => 4,
            _ => 1,
        }
    }

    /// Timed on tables for weeks of thirteen bits too.
    fn is_wide_too(self) -> bool {
        matches!(self, Tick | Refresh(1))
    }

    fn is_tick(self) -> bool {
        matches!(self, Tick | TickAlike)
    }

    fn is_repeated_setup(self) -> bool {
        matches!(self, Setup | LongSetup | SetupAlike | SetupUnlike)
    }

    /// Where one client holds every slot: the byte in which its names differ.
    fn differ_at(self) -> Option<usize> {
        match self {
            SetupAlike | TickAlike => Some(253),
            SetupUnlike => Some(1),
            _ => None,
        }
    }

    /// How many entries the caller holds.
    fn held(self, slots: usize) -> usize {
        match (self, self.differ_at()) {
            (_, Some(_)) => slots,
            (Handshake, _) => 3,
            _ => self.questions().max(2),
        }
    }

    /// Which of its questions the caller asks: the first ones, or where it holds every slot the last.
    fn asked(self, held: usize) -> Range<usize> {
        match self.differ_at() {
            Some(_) => held - 1..held,
            None => 0..self.questions(),
        }
    }

    /// How many slots are free for it.
    fn free(self) -> usize {
        match self {
            Handshake => 1,
            _ => 0,
        }
    }

    /// The wire names of a client's first questions.
    fn names(self, client: Client, questions: usize) -> Vec<Vec<u8>> {
        let name = |question| match (self, self.differ_at()) {
            (_, Some(at)) => client.long_name_by(at, question),
            (LongSetup, _) => client.long_name(question),
            _ => client.name(question),
        };
        (0..questions).map(name).collect()
    }

    /// The number of the answer.
    fn number(self) -> u32 {
        match self {
            DamagedDatagram => 6,
            DamagedTable => 1,
            _ => 0,
        }
    }
}

/// A client: an IPv4-mapped address and a port.
#[derive(Clone, Copy)]
struct Client(u8);

impl Client {
    const HIGH: u64 = 0;

    fn low(self) -> u64 {
        0xFFFF_C000_0200 | u64::from(self.0)
    }

    fn port(self) -> u16 {
        49_152 + 7 * u16::from(self.0)
    }

    fn address(self) -> [u8; 16] {
        (u128::from(Self::HIGH) << 64 | u128::from(self.low())).to_be_bytes()
    }

    /// The wire name of one of its questions, with capitals as clients may send them.
    fn name(self, question: usize) -> Vec<u8> {
        self.wire_name(question, &["_udp", "Museum", "example"])
    }

    /// The same with labels in mixed case that bring it to 255 bytes.
    fn long_name(self, question: usize) -> Vec<u8> {
        let label = "MuSeUm".repeat(11);
        self.wire_name(question, &[&label[..63], &label[..63], &label[..63], &label[..51]])
    }

    /// The long name of its first question with another byte in one place, from a on for 64 questions:
    /// no capitals.
    fn long_name_by(self, at: usize, question: usize) -> Vec<u8> {
        let mut name = self.long_name(0);
        name[at] = b'a' + question as u8;
        name
    }

    fn wire_name(self, question: usize, labels: &[&str]) -> Vec<u8> {
        let first = format!("_gate{question}-{:02}", self.0);
        let mut name = Vec::new();
        for label in [&[&first[..]], labels].concat() {
            name.push(label.len() as u8);
            name.extend(label.as_bytes());
        }
        name.push(0);
        name
    }

    /// A query with one option for each of these names, their numbers given.
    fn query(self, opcode: u16, names: &[Vec<u8>], numbers: &[u64], lease: u32) -> Vec<u8> {
        let count = numbers.len() as u8;
        let mut bytes = vec![0x5A, self.0, 1, 0, 0, count, 0, 0, 0, 0, 0, 1];
        for name in &names[..numbers.len()] {
            bytes.extend(name);
            bytes.extend([0, 12, 0, 1]);
        }
        bytes.extend([0, 0, 41, 5, 0xC0, 0, 0, 0, 0, 0, OPTION as u8 * count]);
        for number in numbers {
            bytes.extend([0, 1, 0, 18, 0, 1]);
            bytes.extend(opcode.to_be_bytes());
            bytes.extend([0, 0]);
            bytes.extend(number.to_be_bytes());
            bytes.extend(lease.to_be_bytes());
        }
        bytes
    }
}

/// A datagram and the buffer for its reply, both lent to a call.
#[derive(Clone, PartialEq)]
struct Exchange {
    datagram: Vec<u8>,
    reply: Vec<u8>,
}

impl Exchange {
    fn new(datagram: Vec<u8>) -> Exchange {
        Exchange { datagram, reply: vec![0xEE; 1_472] }
    }

    fn serve(
        &mut self,
        side: &dyn Server,
        from: Client,
        (week, second): (u32, u32),
        table: &mut [u8],
    ) -> (u32, u32) {
        let served = side.serve(
            week,
            second,
            Client::HIGH,
            from.low(),
            from.port(),
            0x9E37_79B9_7F4A_7C15u64.wrapping_mul(second.into()),
            &self.datagram,
            table,
            &mut self.reply,
        );
        (served.number, served.length)
    }

    /// The numbers in the reply's options, all of error 0. It is as long as its query.
    fn granted(&self) -> Vec<u64> {
        let number = |option: &[u8]| {
            assert_eq!(option[OPTION_ERROR..OPTION_NUMBER], [0, 0], "an option has error 0");
            u64::from_be_bytes(option[OPTION_NUMBER..][..8].try_into().expect("8 bytes"))
        };
        let (length, questions) = (self.datagram.len(), usize::from(self.datagram[5]));
        self.reply[length - OPTION * questions..length].chunks(OPTION).map(number).collect()
    }
}

/// What is timed as one call, with the bytes lent to it: a tick of the table, or datagrams one after
/// another.
#[derive(Clone)]
struct Work {
    call: Call,
    weeks: Weeks,
    from: Client,
    table: Vec<u8>,
    exchanges: Vec<Exchange>,
}

impl Work {
    /// The answer's number, and the length of its reply or how many entries it freed; of several
    /// answers the greatest number and the lengths together.
    fn run(&mut self, side: &dyn Server) -> (u32, u32) {
        let now = (week(self.weeks), NOW);
        if self.call.is_tick() {
            let ticked = side.tick(now.0, now.1, &mut self.table);
            return (ticked.number, ticked.freed);
        }
        let (from, table) = (self.from, &mut self.table);
        match &mut self.exchanges[..] {
            // Not by the loop below, which would be timed with it.
            [only] => only.serve(side, from, now, table),
            several => several.iter_mut().fold((0, 0), |so_far, exchange| {
                let (number, length) = exchange.serve(side, from, now, table);
                (number.max(so_far.0), length + so_far.1)
            }),
        }
    }

    /// Serves a query by the oracle; the numbers that the reply gives.
    fn served(&mut self, query: Vec<u8>, second: u32) -> Vec<u64> {
        let mut exchange = Exchange::new(query);
        let reading = (week(self.weeks), second);
        let answer = exchange.serve(&Oracle, self.from, reading, &mut self.table);
        assert_eq!(answer, (0, exchange.datagram.len() as u32), "a reply is as long as its query");
        exchange.granted()
    }

    /// The same for any number of questions, in datagrams of up to four.
    fn all_served(
        &mut self,
        opcode: u16,
        names: &[Vec<u8>],
        numbers: &[u64],
        second: u32,
    ) -> Vec<u64> {
        let datagrams = names.chunks(4).zip(numbers.chunks(4));
        datagrams
            .flat_map(|(names, numbers)| {
                self.served(self.from.query(opcode, names, numbers, LEASE), second)
            })
            .collect()
    }

    /// A question of the caller's set up, answered by the number that it is given, and ended.
    fn handshake(&self, question: usize) -> Vec<Vec<u8>> {
        let name = [self.from.name(question)];
        let query = |opcode, number, lease| self.from.query(opcode, &name, &[number], lease);
        let setup = query(SETUP, 0, LEASE);
        let number = self.clone().served(setup.clone(), NOW)[0];
        vec![setup, query(SETUP, number, LEASE), query(REFRESH, number, 0)]
    }

    /// Whether tables and replies are the same.
    fn same_bytes(&self, other: &Work) -> bool {
        self.table == other.table && self.exchanges == other.exchanges
    }
}

/// A table filled by the oracle, and what is timed on it. Every client has 2 or 3 entries; the one
/// who calls comes last and has 4 where it asks for 4, or has all. Every slot is taken but for one
/// where a new question is set up.
fn work(call: Call, weeks: Weeks, slots: usize) -> Work {
    let mut holdings = Vec::new();
    let own = call.held(slots);
    let mut left = slots - call.free() - own;
    while left > 0 {
        holdings.push(left.min(2 + holdings.len() % 2));
        left -= holdings.last().expect("just pushed");
    }
    holdings.push(own);

    // Listed: who calls, the first two clients, and one who holds nothing.
    let last = holdings.len() - 1;
    let mut roster = Vec::new();
    for (at, limit) in [(last, own.max(8) as u8), (0, 4), (1, 16), (200, 2)] {
        let held = holdings.get(at).map_or(0, |&held| held as u8);
        let line = [&[3][..], &Client(at as u8).address(), &[held.min(2), limit]].concat();
        if !roster.chunks(19).any(|other| other[..17] == line[..17]) {
            roster.extend(line);
        }
    }

    let table = vec![0; table::head(weeks) + table::SLOT_RECORD * slots];
    let mut work = Work { call, weeks, from: Client(0), table, exchanges: Vec::new() };
    assert_eq!(Oracle.make(week(weeks), MADE, &mut work.table, &roster), 0, "the table is made");
    let (mut names, mut numbers) = (Vec::new(), Vec::new());
    for (at, &held) in holdings.iter().enumerate() {
        work.from = Client(at as u8);
        let second = MADE + 2 * at as u32;
        names = call.names(work.from, held);
        numbers = work.all_served(SETUP, &names, &vec![0; held], second);
        work.all_served(SETUP, &names, &numbers, second);
    }
    assert_eq!(Oracle.tick(week(weeks), NOW, &mut work.table).number, 0, "the clock moves on");
    if call.is_repeated_setup() {
        // At age 0 what remains is the granted lease, which an archive from before that rule tells.
        work.all_served(REFRESH, &names, &numbers, NOW);
    }

    let asked = call.asked(own);
    let (names, numbers) = (&names[asked.clone()], &numbers[asked]);
    let query = |opcode, numbers: &[u64], lease| work.from.query(opcode, names, numbers, lease);
    let queries = match call {
        _ if call.is_repeated_setup() => vec![query(SETUP, &vec![0; numbers.len()], LEASE)],
        // The granted lease, which every rule takes.
        Response => vec![query(SETUP, numbers, LEASE)],
        Handshake => work.handshake(own),
        _ => vec![query(REFRESH, numbers, 3_600)],
    };
    work.exchanges = queries.into_iter().map(Exchange::new).collect();
    match call {
        // The last option runs past the end by a byte.
        DamagedDatagram => {
            let datagram = &mut work.exchanges[0].datagram;
            let option = datagram.len() - OPTION;
            datagram[option + OPTION_LENGTH] += 1;
        }
        // The last slot's last byte, a zero in every sound table.
        DamagedTable => *work.table.last_mut().expect("a table") = 1,
        _ => {}
    }
    work
}

// ---- agreement

/// The work as a first call leaves it, from which on a call changes no byte. Every side that knows such
/// tables is given the same bytes, twice, and must answer and leave the same.
fn agreed(call: Call, weeks: Weeks, slots: usize) -> Result<Work, String> {
    let given = work(call, weeks, slots);
    let mut left = given.clone();
    let answer = left.run(&Oracle);
    assert_eq!(answer.0, call.number(), "the number that the workload is for");
    match call {
        _ if call.is_tick() => assert_eq!(answer.1, 0, "no entry runs out"),
        DamagedDatagram | DamagedTable => assert!(left.table == given.table, "refused"),
        _ => {
            let sent: usize = left.exchanges.iter().map(|exchange| exchange.datagram.len()).sum();
            assert_eq!(answer.1 as usize, sent, "replies are as long as their queries");
            left.exchanges.iter().for_each(|exchange| drop(exchange.granted()));
        }
    }
    assert!(call.free() == 0 || left.table == given.table, "what is set up is ended");
    for side in SIDES.iter().filter(|side| side.knows(weeks)) {
        let mut work = given.clone();
        for _ in 0..2 {
            let same = work.run(side.server) == answer;
            if !same || !work.same_bytes(&left) {
                let (row, name) = (row_name(call, weeks), side.name);
                return Err(format!("{row}, {slots} slots: {name} differs from the oracle"));
            }
        }
    }
    Ok(left)
}

// ---- timing

struct Timing {
    batches: usize,
    batch: Duration,
}

/// How long this many calls take.
fn batch(work: &mut Work, side: &dyn Server, calls: u32) -> Duration {
    let start = Instant::now();
    for _ in 0..calls {
        black_box(black_box(&mut *work).run(black_box(side)));
    }
    start.elapsed()
}

/// The number of calls that fill a batch.
fn calls_in(batch_time: Duration, work: &mut Work, side: &dyn Server) -> u32 {
    let mut calls = 1;
    loop {
        let took = batch(work, side, calls);
        if took * 4 >= batch_time {
            let fit = batch_time.as_secs_f64() / took.as_secs_f64() * f64::from(calls);
            return (fit as u32).max(1);
        }
        calls *= 2;
    }
}

/// Nanoseconds per call of each side that knows such tables: the least over the batches.
type Least = [Option<f64>; SIDES.len()];

fn timed(work: &mut Work, timing: &Timing) -> Least {
    let mut calls = [0; SIDES.len()];
    let mut least = [None; SIDES.len()];
    for (at, side) in SIDES.iter().enumerate() {
        if side.knows(work.weeks) {
            calls[at] = calls_in(timing.batch, work, side.server);
            least[at] = Some(f64::INFINITY);
        }
    }
    for round in 0..timing.batches {
        for turn in 0..SIDES.len() {
            // Each side has its turn in each place.
            let side = (round + turn) % SIDES.len();
            if let Some(ns) = &mut least[side] {
                let took = batch(work, SIDES[side].server, calls[side]);
                *ns = ns.min(took.as_secs_f64() * 1e9 / f64::from(calls[side]));
            }
        }
    }
    least
}

/// One number by another, as wide as this; a stroke if one of them is not there.
fn ratio(one: Option<f64>, other: Option<f64>, width: usize) -> String {
    match (one, other) {
        (Some(one), Some(other)) => format!("{:>width$.2}", one / other),
        _ => format!("{:>width$}", "-"),
    }
}

fn run(timing: &Timing) -> Result<(), String> {
    let [short, long] = [Client(0).name(0), Client(0).long_name(0)].map(|name| name.len());
    println!(
        "ns per call: the least of {} batches of about {} us, sides in turn\n\
         buffers: the same for all sides, not cleared between calls\n\
         tables: every slot taken (one free where a question is set up and ended), names of {short} \
         bytes (all of {long} where the row says so), 2 or 3 entries an address (4 for who asks for \
         4), 3 or 4 roster lines\n\
         all alike, all unlike: one address and port has every slot, by names of {long} bytes that \
         differ in the last letter, or in the first; who sets up again asks for the last slot's\n\
         {}: three calls, timed as one\n\
         13-bit weeks: tables of 317 + 320n bytes, week {}; all others are of 313 + 320n, week {}",
        timing.batches,
        timing.batch.as_micros(),
        Handshake.name(),
        week(Weeks::Thirteen),
        week(Weeks::Ten),
    );
    let mut all = Vec::new();
    for (call, weeks) in rows() {
        for slots in SLOTS {
            all.push((slots, agreed(call, weeks, slots)?));
        }
    }
    println!("answers, tables and replies: compared, equal on all sides that know the table\n");
    let names = || SIDES.iter().map(|side| side.name);
    let columns: String = names().map(|name| format!(" {name:>10}")).collect();
    let ratios: String = names().skip(1).map(|name| format!("  library/{name}")).collect();
    println!("{:<26} {:>5}{columns}{ratios}", "workload", "slots");
    let mut times = Vec::new();
    for (slots, agreed) in all {
        let mut work = agreed.clone();
        let row = row_name(work.call, work.weeks);
        let least = timed(&mut work, timing);
        let column = |ns: &Option<f64>| match ns {
            Some(ns) => format!(" {ns:>10.0}"),
            None => format!(" {:>10}", "-"),
        };
        let columns: String = least.iter().map(column).collect();
        let by = |(name, ns): (&str, &Option<f64>)| ratio(least[0], *ns, name.len() + 10);
        let ratios: String = names().zip(&least).skip(1).map(by).collect();
        println!("{row:<26} {slots:>5}{columns}{ratios}");
        if !work.same_bytes(&agreed) {
            return Err(format!("{row}, {slots} slots: changed by timed calls"));
        }
        times.push((row, slots, least));
    }
    // The same call on the same number of slots, by the sides that know both tables.
    let both = || (0..SIDES.len()).filter(|&side| SIDES[side].knows(Weeks::Thirteen));
    let columns: String = both().map(|side| format!(" {:>10}", SIDES[side].name)).collect();
    println!("\n13-bit weeks by those of ten bits\n{:<26} {:>5}{columns}", "workload", "slots");
    for call in CALLS.into_iter().filter(|call| call.is_wide_too()) {
        for slots in SLOTS {
            let [wide, narrow] = [Weeks::Thirteen, Weeks::Ten].map(|weeks| {
                let row = row_name(call, weeks);
                let found = times.iter().find(|time| time.0 == row && time.1 == slots);
                found.expect("every row was timed").2
            });
            let columns: String = both().map(|side| ratio(wide[side], narrow[side], 11)).collect();
            println!("{:<26} {slots:>5}{columns}", call.name());
        }
    }
    Ok(())
}

fn main() -> ExitCode {
    let words: Vec<String> = std::env::args().skip(1).collect();
    let timing = match words.iter().map(String::as_str).collect::<Vec<_>>()[..] {
        [] => Timing { batches: 1000, batch: Duration::from_micros(100) },
        ["--quick"] => Timing { batches: 20, batch: Duration::from_micros(100) },
        _ => {
            eprintln!("usage: bench [--quick]");
            return ExitCode::from(2);
        }
    };
    match run(&timing) {
        Ok(()) => ExitCode::SUCCESS,
        Err(wrong) => {
            eprintln!("{wrong}");
            ExitCode::FAILURE
        }
    }
}

//! Document 01's tally of demand 3, worked out from the calls' arguments alone.
//! Its rules are spelled out here once more, plainly, and share nothing with
//! the calls: whole numbers for ages, a list of holdings, no slots.

pub mod datagram;
pub mod table;

use datagram::{Datagram, Sent};

#[derive(Clone, PartialEq, Eq, PartialOrd, Ord, Debug)]
pub struct Line {
    pub address: [u8; 16],
    pub share: usize,
    pub limit: usize,
}

#[derive(Clone, PartialEq, Eq, PartialOrd, Ord, Debug)]
pub struct Question {
    /// Folded, its final zero included.
    pub name: Vec<u8>,
    pub qtype: u16,
    pub qclass: u16,
}

#[derive(Clone, PartialEq, Eq, PartialOrd, Ord, Debug)]
pub struct Holding {
    pub address: [u8; 16],
    pub port: u16,
    pub question: Question,
    pub number: u64,
    pub lease: u64,
    pub age: u64,
    pub established: bool,
}

#[derive(Clone, PartialEq, Eq, Debug)]
pub struct Tally {
    /// How many weeks its readings know, by the buffer's length.
    pub weeks: i64,
    pub place: i64,
    pub count: u64,
    /// n
    pub slots: usize,
    pub roster: Vec<Line>,
    pub holdings: Vec<Holding>,
}

/// What a call is told, as far as the tally settles it.
#[derive(Clone, PartialEq, Eq, Debug, Default)]
pub struct Answer {
    pub number: u32,
    pub freed: usize,
    pub reply: Vec<u8>,
    /// What became of each option of the reply.
    pub cases: Vec<Case>,
    /// The holding that each of them found of its sender and question, as it was then.
    pub found: Vec<Option<Holding>>,
    /// How many bytes of each one's name were looked at, at the least, to compare it with holdings.
    pub compared: Vec<usize>,
}

/// What becomes of an option.
#[derive(Clone, Copy, PartialEq, Eq, Hash, Debug)]
pub enum Case {
    /// The one option of a query that fails the count and length test.
    Mismatch,
    BadVersion,
    BadFormat,
    /// A setup that finds a holding.
    Found,
    /// Full: the address is at its limit.
    FullAtLimit,
    /// Full: the address has reached its share, and no slot is free.
    FullNoneFree,
    /// Full: the address has reached its share, and every free slot is reserved.
    FullReserved,
    Granted,
    /// Granted below its share, where anyone else would be told full.
    GrantedFromReserve,
    /// A right response to a pending holding, and to an established one.
    Established,
    EstablishedAgain,
    NoResponse,
    /// A right refresh with a lease, and with lease 0.
    Renewed,
    Ended,
    NoRefresh,
    /// A refresh right but for its holding, which is pending.
    NoRefreshPending,
}

impl Case {
    pub const ALL: [Case; 16] = [
        Case::Mismatch,
        Case::BadVersion,
        Case::BadFormat,
        Case::Found,
        Case::FullAtLimit,
        Case::FullNoneFree,
        Case::FullReserved,
        Case::Granted,
        Case::GrantedFromReserve,
        Case::Established,
        Case::EstablishedAgain,
        Case::NoResponse,
        Case::Renewed,
        Case::Ended,
        Case::NoRefresh,
        Case::NoRefreshPending,
    ];

    /// Told "full".
    pub fn is_full(self) -> bool {
        matches!(self, Case::FullAtLimit | Case::FullNoneFree | Case::FullReserved)
    }

    pub fn error(self) -> u16 {
        match self {
            Case::Mismatch | Case::BadFormat => 3,
            Case::BadVersion => 5,
            Case::FullAtLimit | Case::FullNoneFree | Case::FullReserved => 1,
            Case::NoResponse | Case::NoRefresh | Case::NoRefreshPending => 4,
            Case::Found | Case::Granted | Case::GrantedFromReserve => 0,
            Case::Established | Case::EstablishedAgain | Case::Renewed | Case::Ended => 0,
        }
    }
}

impl Answer {
    fn refused(number: u32) -> Answer {
        Answer { number, ..Answer::default() }
    }
}

/// A place this many seconds behind the last one, or fewer, is ignored.
const BEHIND_IGNORED: i64 = 60;

/// The sender of a datagram: address and port.
pub type From = ([u8; 16], u16);

/// Week and second to a place, or nothing if one is too large for so many weeks.
fn place_of(weeks: i64, week: u32, second: u32) -> Option<i64> {
    let (week, second) = (i64::from(week), i64::from(second));
    if week > weeks - 1 || second > 604_799 {
        None
    } else {
        Some(week * 604_800 + second)
    }
}

/// Weeks and n by the buffer's length.
pub fn by_length(length: usize) -> Option<(i64, usize)> {
    for n in 1..=64 {
        if length == 313 + 320 * n {
            return Some((1_024, n));
        }
        if length == 317 + 320 * n {
            return Some((8_192, n));
        }
    }
    None
}

/// The roster rules: addresses differ, share at most limit, limit 1 to 64, shares at most n in all.
pub fn roster_is_right(roster: &[Line], slots: usize) -> bool {
    let mut addresses: Vec<_> = roster.iter().map(|line| line.address).collect();
    addresses.sort();
    addresses.dedup();
    addresses.len() == roster.len()
        && roster.iter().all(|line| line.share <= line.limit && line.limit >= 1 && line.limit <= 64)
        && roster.iter().map(|line| line.share).sum::<usize>() <= slots
}

/// The roster that a making gives: 0 to 16 records of kind 0x03.
fn roster_given(bytes: &[u8], slots: usize) -> Option<Vec<Line>> {
    if !bytes.len().is_multiple_of(19) || bytes.len() / 19 > 16 {
        return None;
    }
    let mut roster = Vec::new();
    for record in bytes.chunks(19) {
        if record[0] != 3 {
            return None;
        }
        let mut address = [0; 16];
        address.copy_from_slice(&record[1..17]);
        roster.push(Line { address, share: record[17] as usize, limit: record[18] as usize });
    }
    roster_is_right(&roster, slots).then_some(roster)
}

/// The lease asked for, but at least 60 and at most 7,200.
fn lease_for(asked: u32) -> u64 {
    match asked {
        0..60 => 60,
        60..=7_200 => asked.into(),
        _ => 7_200,
    }
}

/// A making. `known` is the tally so far, or nothing while the buffer holds no sound table.
pub fn make(
    known: &mut Option<Tally>,
    week: u32,
    second: u32,
    table_length: usize,
    roster: &[u8],
) -> Answer {
    let Some((weeks, slots)) = by_length(table_length) else {
        return Answer::refused(1);
    };
    let Some(place) = place_of(weeks, week, second) else {
        return Answer::refused(2);
    };
    let Some(roster) = roster_given(roster, slots) else {
        return Answer::refused(9);
    };
    *known = Some(Tally { weeks, place, count: 0, slots, roster, holdings: Vec::new() });
    Answer::default()
}

/// A tick.
pub fn tick(known: &mut Option<Tally>, week: u32, second: u32) -> Answer {
    let Some(tally) = known else {
        return Answer::refused(1);
    };
    let Some(place) = place_of(tally.weeks, week, second) else {
        return Answer::refused(2);
    };
    let freed = tally.move_clock(place);
    Answer { freed, ..Answer::default() }
}

/// A datagram, lent a reply buffer of this length.
pub fn serve(
    known: &mut Option<Tally>,
    week: u32,
    second: u32,
    from: From,
    random: u64,
    bytes: &[u8],
    reply_length: usize,
) -> Answer {
    let Some(tally) = known else {
        return Answer::refused(1);
    };
    let Some(place) = place_of(tally.weeks, week, second) else {
        return Answer::refused(2);
    };
    let datagram = match datagram::read(bytes) {
        Ok(datagram) => datagram,
        Err(number) => return Answer::refused(number),
    };
    let sent = datagram.options_by_question();
    let replied = sent.as_ref().map_or(1, Vec::len);
    let length = 12 + datagram.question_bytes.len() + 11 + 22 * replied;
    if length > reply_length || length > 1_472 {
        return Answer::refused(8);
    }
    let freed = tally.move_clock(place);
    let mut options = Vec::new();
    let mut found = Vec::new();
    let mut compared = Vec::new();
    match sent {
        None => {
            found.push(None);
            compared.push(0);
            options.push((1, told(Case::Mismatch, 0, 0)));
        }
        Some(sent) => {
            for (question, sent) in datagram.questions.iter().zip(&sent) {
                found.push(tally.holding(from, question).map(|at| tally.holdings[at].clone()));
                compared.push(tally.compared(from, question, sent));
                options.push((sent.opcode, tally.option(from, random, question, sent)));
            }
        }
    }
    let cases = options.iter().map(|(_, told)| told.case).collect();
    Answer { number: 0, freed, reply: reply(&datagram, &options), cases, found, compared }
}

/// What an option of the reply says.
struct Told {
    case: Case,
    number: u64,
    lease: u64,
}

fn told(case: Case, number: u64, lease: u64) -> Told {
    Told { case, number, lease }
}

impl Tally {
    /// The new place lies ahead of the last one and, the other way around the cycle, behind it: the
    /// shorter way counts, and the way back if they are equal. The way on is added to the count and
    /// to every age. The way back is added to nothing; one of over 60 seconds keeps the new place.
    fn move_clock(&mut self, place: i64) -> usize {
        let cycle = self.weeks * 604_800;
        let ahead = (place - self.place).rem_euclid(cycle);
        let behind = cycle - ahead;
        if ahead < behind {
            self.place = place;
            self.count = (self.count + ahead as u64) % 4_294_967_296;
            for holding in &mut self.holdings {
                holding.age += ahead as u64;
            }
        } else if behind > BEHIND_IGNORED {
            self.place = place;
        }
        let before = self.holdings.len();
        self.holdings.retain(|holding| holding.age < holding.lease);
        before - self.holdings.len()
    }

    fn held(&self, address: [u8; 16]) -> usize {
        self.holdings.iter().filter(|holding| holding.address == address).count()
    }

    pub fn share_and_limit(&self, address: [u8; 16]) -> (usize, usize) {
        for line in &self.roster {
            if line.address == address {
                return (line.share, line.limit);
            }
        }
        (0, 4)
    }

    fn free(&self) -> usize {
        self.slots - self.holdings.len()
    }

    fn reserve(&self) -> usize {
        let mut sum = 0;
        for line in &self.roster {
            let held = self.held(line.address);
            if line.share > held {
                sum += line.share - held;
            }
        }
        sum
    }

    /// The holding of this sender and question.
    fn holding(&self, from: From, question: &Question) -> Option<usize> {
        self.holdings.iter().position(|holding| {
            (holding.address, holding.port) == from && holding.question == *question
        })
    }

    /// How far a name is looked at, from its front, by one who stops at the first difference
    /// from a holding's of the same length. Only holdings count that the option fits but for its name.
    fn compared(&self, from: From, question: &Question, sent: &Sent) -> usize {
        let length = question.name.len();
        let alike = |holding: &&Holding| {
            let held = &holding.question;
            (holding.address, holding.port) == from
                && (held.qtype, held.qclass) == (question.qtype, question.qclass)
                && held.name.len() == length
        };
        let fits = |holding: &&Holding| {
            let holdings = vec![Holding::clone(holding)];
            let mut alone = Tally { roster: Vec::new(), holdings, ..*self };
            alone.option(from, 0, &holding.question, sent).case.error() == 0
        };
        let looked_at = |holding: &Holding| {
            let pairs = holding.question.name.iter().zip(&question.name);
            length.min(1 + pairs.take_while(|(held, sent)| held == sent).count())
        };
        self.holdings.iter().filter(alike).filter(fits).map(looked_at).max().unwrap_or(0)
    }

    fn option(&mut self, from: From, random: u64, question: &Question, sent: &Sent) -> Told {
        let repeated = if sent.opcode == 2 { sent.number } else { 0 };
        if sent.version != 1 {
            return told(Case::BadVersion, repeated, 0);
        }
        if sent.error != 0 || (sent.opcode != 1 && sent.opcode != 2) {
            return told(Case::BadFormat, repeated, 0);
        }
        let found = self.holding(from, question);
        match (sent.opcode, sent.number, found) {
            (1, 0, Some(at)) => {
                // It is told what is left of the lease; nothing changes.
                let holding = &self.holdings[at];
                told(Case::Found, holding.number, holding.lease - holding.age)
            }
            (1, 0, None) => self.new_question(from, random, question, sent),
            (1, _, found) => self.response(found, sent),
            (_, _, found) => self.refresh(found, sent),
        }
    }

    /// A well-formed setup that finds no holding: full, or a pending holding of age 0.
    fn new_question(&mut self, from: From, random: u64, question: &Question, sent: &Sent) -> Told {
        let held = self.held(from.0);
        let (share, limit) = self.share_and_limit(from.0);
        let free = self.free();
        if held >= limit {
            return told(Case::FullAtLimit, 0, 60);
        }
        let all_reserved = free <= self.reserve();
        if held >= share && all_reserved {
            return told(if free == 0 { Case::FullNoneFree } else { Case::FullReserved }, 0, 60);
        }
        let lease = lease_for(sent.lease);
        let number = (0..=65)
            .map(|more| ((u128::from(random) + more) % (1 << 64)) as u64)
            .find(|&number| number != 0 && self.holdings.iter().all(|h| h.number != number))
            .expect("at most 64 numbers are in use");
        self.holdings.push(Holding {
            address: from.0,
            port: from.1,
            question: question.clone(),
            number,
            lease,
            age: 0,
            established: false,
        });
        told(if all_reserved { Case::GrantedFromReserve } else { Case::Granted }, number, lease)
    }

    /// A response is right with a lease that is no longer than the granted one and shorter by
    /// no more than the age. It is told what is left of the granted one.
    fn response(&mut self, found: Option<usize>, sent: &Sent) -> Told {
        if let Some(at) = found {
            let holding = &mut self.holdings[at];
            let lease = u64::from(sent.lease);
            let too_long = lease > holding.lease;
            let too_short = lease + holding.age < holding.lease;
            if holding.number == sent.number && !too_long && !too_short {
                let again = holding.established;
                holding.established = true;
                let case = if again { Case::EstablishedAgain } else { Case::Established };
                return told(case, holding.number, holding.lease - holding.age);
            }
        }
        told(Case::NoResponse, 0, 0)
    }

    fn refresh(&mut self, found: Option<usize>, sent: &Sent) -> Told {
        let Some(at) = found.filter(|&at| self.holdings[at].number == sent.number) else {
            return told(Case::NoRefresh, sent.number, 0);
        };
        let holding = &mut self.holdings[at];
        if !holding.established {
            return told(Case::NoRefreshPending, sent.number, 0);
        }
        if sent.lease == 0 {
            self.holdings.remove(at);
            return told(Case::Ended, sent.number, 0);
        }
        holding.lease = lease_for(sent.lease);
        holding.age = 0;
        told(Case::Renewed, sent.number, holding.lease)
    }
}

/// The reply's bytes, one part after another.
fn reply(datagram: &Datagram, options: &[(u16, Told)]) -> Vec<u8> {
    let mut bytes = datagram.message.to_vec();
    bytes.push(if datagram.recursion_desired { 0x85 } else { 0x84 });
    bytes.push(0);
    bytes.extend([0, datagram.questions.len() as u8, 0, 0, 0, 0, 0, 1]);
    bytes.extend(&datagram.question_bytes);
    bytes.extend([0, 0, 41, 0x05, 0xC0, 0, 0, 0, 0]);
    bytes.extend((22 * options.len() as u16).to_be_bytes());
    for (opcode, told) in options {
        bytes.extend([0, 1, 0, 18, 0, 1]);
        bytes.extend(opcode.to_be_bytes());
        bytes.extend(told.case.error().to_be_bytes());
        bytes.extend(told.number.to_be_bytes());
        bytes.extend((told.lease as u32).to_be_bytes());
    }
    bytes
}

#[cfg(test)]
mod tests {
    use super::*;
    use crate::moves::{MOVES, WIDE_MOVES};
    use crate::spans::SPANS;

    fn holding(lease: u64, age: u64) -> Holding {
        let question = Question { name: vec![0], qtype: 1, qclass: 1 };
        Holding { address: [0; 16], port: 0, question, number: 1, lease, age, established: false }
    }

    #[test]
    fn ages_are_whole_numbers() {
        let mut tally = Tally {
            weeks: 1_024,
            place: 619_315_199,
            count: 4_294_967_295,
            slots: 2,
            roster: vec![],
            holdings: vec![holding(60, 0), holding(61, 0)],
        };
        assert_eq!(tally.move_clock(0), 0);
        assert_eq!((tally.place, tally.count, tally.holdings[0].age), (0, 0, 1));
        assert_eq!(tally.move_clock(59), 1);
        assert_eq!(tally.holdings, [holding(61, 60)]);
        assert_eq!(tally.move_clock(309_657_658), 1);
    }

    /// Also by steps over 31 bits, of which two are more than the count holds.
    #[test]
    fn ages_are_whole_numbers_over_the_wide_cycle() {
        let mut tally = Tally {
            weeks: 8_192,
            place: 4_954_521_599,
            count: 4_294_967_295,
            slots: 2,
            roster: vec![],
            holdings: vec![holding(60, 0), holding(1 << 40, 0)],
        };
        assert_eq!(tally.move_clock(0), 0);
        assert_eq!((tally.place, tally.count, tally.holdings[0].age), (0, 0, 1));
        assert_eq!(tally.move_clock(2_477_260_799), 1);
        assert_eq!(tally.move_clock(4_954_521_598), 0);
        assert_eq!(tally.holdings, [holding(1 << 40, 4_954_521_599)]);
        assert_eq!((tally.place, tally.count), (4_954_521_598, 659_554_302));
        // Half a cycle back, nothing is older.
        assert_eq!(tally.move_clock(2_477_260_798), 0);
        assert_eq!((tally.place, tally.count), (2_477_260_798, 659_554_302));
        assert_eq!(tally.holdings, [holding(1 << 40, 4_954_521_599)]);
    }

    /// What is added to the count is added to every age, and nothing else is.
    #[test]
    fn the_clock_moves_and_ages_with_it() {
        let wide = WIDE_MOVES.map(|clock| (8_192, clock));
        for (weeks, ((from, before), to, (place, count))) in
            MOVES.map(|clock| (1_024, clock)).into_iter().chain(wide)
        {
            let mut tally = Tally {
                weeks,
                place: from as i64,
                count: before.into(),
                slots: 2,
                roster: vec![],
                holdings: vec![holding(1 << 40, 0), holding(1 << 40, 50)],
            };
            let added = u64::from(count.wrapping_sub(before));
            assert_eq!(tally.move_clock(to as i64), 0);
            let moved = (tally.place, tally.count);
            assert_eq!(moved, (place as i64, count.into()), "{from} to {to} of {weeks}");
            assert_eq!(tally.holdings, [holding(1 << 40, added), holding(1 << 40, 50 + added)]);
        }
    }

    /// A step back strikes nothing, however little is left; what is left runs on from the new place.
    #[test]
    fn leases_run_on_from_a_place_set_back() {
        for (weeks, back) in [
            (1_024, 1),
            (1_024, 60),
            (1_024, 61),
            (1_024, 31_536_000),
            (1_024, 309_657_600),
            (8_192, 60),
            (8_192, 61),
            (8_192, 619_315_200),
            (8_192, 2_147_483_649),
            (8_192, 2_477_260_800),
        ] {
            let place = 400_000_000 + (weeks - 1_024) * 604_800;
            let mut tally = Tally {
                weeks,
                place,
                count: 9,
                slots: 2,
                roster: vec![],
                holdings: vec![holding(60, 59), holding(3_600, 100)],
            };
            let before = tally.clone();
            assert_eq!(tally.move_clock(place - back), 0);
            let kept = if back > 60 { place - back } else { place };
            assert_eq!(tally, Tally { place: kept, ..before });
            assert_eq!(tally.move_clock(kept + 1), 1);
            assert_eq!(tally.move_clock(kept + 3_499), 0);
            assert_eq!(tally.holdings, [holding(3_600, 3_599)]);
            assert_eq!(tally.move_clock(kept + 3_500), 1);
        }
    }

    /// What the response is told, pending or established.
    #[test]
    fn a_response_keeps_between_what_is_left_and_what_was_granted() {
        for (lease, age, sent, right) in SPANS {
            let (lease, age) = (u64::from(lease), u64::from(age));
            for established in [false, true] {
                let before = Holding { established, ..holding(lease, age) };
                let mut tally = Tally {
                    weeks: 1_024,
                    place: 0,
                    count: 0,
                    slots: 1,
                    roster: vec![],
                    holdings: vec![before.clone()],
                };
                let sent = Sent { version: 1, opcode: 1, error: 0, number: 1, lease: sent };
                let told = tally.option(([0; 16], 0), 9, &before.question, &sent);
                let said = (told.case.error(), told.number, told.lease);
                assert_eq!(said, if right { (0, 1, lease - age) } else { (4, 0, 0) }, "{sent:?}");
                let after = Holding { established: established || right, ..before };
                assert_eq!(tally.holdings, std::slice::from_ref(&after));

                // A setup is told what is left, whatever it asks for.
                let sent = Sent { number: 0, ..sent };
                let told = tally.option(([0; 16], 0), 9, &after.question, &sent);
                assert_eq!((told.case, told.number, told.lease), (Case::Found, 1, lease - age));
                assert_eq!(tally.holdings, [after]);
            }
        }
    }

    /// Up to the first difference, and only where all but the name is right.
    #[test]
    fn names_are_compared_as_far_as_they_are_the_same() {
        let asked = |name: &[u8]| Question { name: name.to_vec(), qtype: 1, qclass: 1 };
        let held = |name, number, established| Holding {
            question: asked(name),
            number,
            established,
            ..holding(100, 10)
        };
        let tally = Tally {
            weeks: 1_024,
            place: 0,
            count: 0,
            slots: 4,
            roster: vec![],
            holdings: vec![held(b"\x03abc\x00", 1, false), held(b"\x03abd\x00", 2, true)],
        };
        let from = ([0; 16], 0);
        let setup = Sent { version: 1, opcode: 1, error: 0, number: 0, lease: 0 };
        for (name, looked_at) in [
            (&b"\x03abc\x00"[..], 5),
            (b"\x03abd\x00", 5),
            (b"\x03abe\x00", 4),
            (b"\x03acd\x00", 3),
            (b"\x01a\x01b\x00", 1),
            (b"\x04abcd\x00", 0),
            (b"\x00", 0),
        ] {
            assert_eq!(tally.compared(from, &asked(name), &setup), looked_at, "{name:?}");
        }
        let name = asked(b"\x03aBC\x00");
        for (opcode, number, lease, looked_at) in [
            // Responses: the span is from 90 to 100.
            (1, 1, 90, 3),
            (1, 2, 100, 3),
            (1, 3, 100, 0),
            (1, 1, 89, 0),
            (1, 1, 101, 0),
            // Refreshes: of what is established.
            (2, 2, 0, 3),
            (2, 2, 60, 3),
            (2, 1, 60, 0),
            (2, 0, 60, 0),
            (3, 2, 60, 0),
        ] {
            let sent = Sent { opcode, number, lease, ..setup };
            assert_eq!(tally.compared(from, &name, &sent), looked_at, "{sent:?}");
        }
        for other in [Sent { version: 2, ..setup }, Sent { error: 1, ..setup }] {
            assert_eq!(tally.compared(from, &name, &other), 0);
        }
        for other in [([1; 16], 0), ([0; 16], 1)] {
            assert_eq!(tally.compared(other, &name, &setup), 0);
        }
        assert_eq!(tally.compared(from, &Question { qtype: 2, ..name.clone() }, &setup), 0);
        assert_eq!(tally.compared(from, &Question { qclass: 2, ..name }, &setup), 0);
    }

    #[test]
    fn a_making_begins_anew() {
        let mut known = None;
        assert_eq!(tick(&mut known, 0, 0).number, 1);
        assert_eq!(make(&mut known, 0, 0, 313, &[]).number, 1);
        assert_eq!(make(&mut known, 1_024, 0, 633, &[]).number, 2);
        assert_eq!(make(&mut known, 0, 0, 633, &[3]).number, 9);
        assert_eq!(known, None);
        assert_eq!(make(&mut known, 1, 2, 633, &[]).number, 0);
        let made = |weeks, place| {
            Some(Tally { weeks, place, count: 0, slots: 1, roster: vec![], holdings: vec![] })
        };
        assert_eq!(known, made(1_024, 604_802));
        // By the length alone the weeks are more.
        assert_eq!(make(&mut known, 1_024, 0, 317, &[]).number, 1);
        assert_eq!(make(&mut known, 8_192, 0, 637, &[]).number, 2);
        assert_eq!(make(&mut known, 8_191, 604_800, 637, &[]).number, 2);
        assert_eq!(make(&mut known, 8_191, 604_799, 637, &[3]).number, 9);
        assert_eq!(known, made(1_024, 604_802));
        assert_eq!(make(&mut known, 8_191, 604_799, 637, &[]).number, 0);
        assert_eq!(known, made(8_192, 4_954_521_599));
        assert_eq!(tick(&mut known, 8_192, 0).number, 2);
        assert_eq!(tick(&mut known, 1_024, 0).number, 0);
        assert_eq!(make(&mut known, 0, 0, 633, &[]).number, 0);
        assert_eq!(tick(&mut known, 1_024, 0).number, 2);
        assert_eq!(known, made(1_024, 0));
    }

    #[test]
    fn lengths_of_tables() {
        assert_eq!(by_length(633), Some((1_024, 1)));
        assert_eq!(by_length(20_793), Some((1_024, 64)));
        assert_eq!(by_length(637), Some((8_192, 1)));
        assert_eq!(by_length(20_797), Some((8_192, 64)));
        for length in [0, 313, 314, 315, 316, 317, 632, 634, 635, 636, 638, 21_113, 21_117] {
            assert_eq!(by_length(length), None);
        }
    }

    #[test]
    fn tables_read_as_tallies() {
        for length in [313 + 3 * 320, 317 + 3 * 320] {
            let mut known = None;
            let mut bytes = vec![7; length];
            assert_eq!(table::read(&bytes), None);
            let mut roster = [0; 19];
            roster[0] = 3;
            roster[17..].copy_from_slice(&[1, 2]);
            make(&mut known, 3, 4, bytes.len(), &roster);
            assert_eq!(crate::make(3, 4, &mut bytes, &roster), 0);
            assert_eq!(table::read(&bytes), known);
            // The kind is that of the length.
            bytes[0] ^= 8;
            assert_eq!(table::read(&bytes), None);
            bytes[0] ^= 8;
            assert_eq!(table::read(&bytes), known);
            bytes[400] = 1;
            assert_eq!(table::read(&bytes), None);
        }
    }

    #[test]
    fn places_of_tables_are_under_the_cycle() {
        let mut wide = vec![7; 637];
        assert_eq!(crate::make(0, 0, &mut wide, &[]), 0);
        for (place, sound) in [
            (4_954_521_599u64, true),
            (4_954_521_600, false),
            (1 << 40, false),
            (1 << 63, false),
            (u64::MAX, false),
        ] {
            wide[1..9].copy_from_slice(&place.to_be_bytes());
            wide[9..13].copy_from_slice(&[1, 2, 3, 4]);
            let read = table::read(&wide).map(|tally| (tally.place as u64, tally.count));
            assert_eq!(read, sound.then_some((place, 0x0102_0304)));
        }
        let mut narrow = vec![7; 633];
        assert_eq!(crate::make(0, 0, &mut narrow, &[]), 0);
        for (place, sound) in [(619_315_199u32, true), (619_315_200, false), (u32::MAX, false)] {
            narrow[1..5].copy_from_slice(&place.to_be_bytes());
            assert_eq!(table::read(&narrow).is_some(), sound);
        }
    }
}

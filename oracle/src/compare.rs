//! A list of calls carried out by a reference and by a server under test, each
//! on buffers of its own, with the tally beside them. After every step all
//! three are compared: numbers, lengths, freed counts, every byte of tables and
//! replies, the bytes around the buffers, and the table's content with the tally.

use crate::clock::Weeks;
use crate::coverage::{Coverage, Mark};
use crate::random::Random;
use crate::script::{self, Datagram, Step};
use crate::server::Server;
use crate::set_back::SetBack;
use crate::table;
use crate::tally::{self, Answer, Case, Tally};
use crate::told::ToldLeases;

const MARGIN: usize = 64;

/// A buffer with bytes around it that nobody may write.
struct Guarded {
    bytes: Vec<u8>,
    margins: [[u8; MARGIN]; 2],
}

impl Guarded {
    fn new(inner: &[u8], random: &mut Random) -> Self {
        let mut margin = || std::array::from_fn(|_| random.byte());
        let margins = [margin(), margin()];
        Guarded { bytes: [&margins[0], inner, &margins[1]].concat(), margins }
    }

    fn inner(&self) -> &[u8] {
        &self.bytes[MARGIN..self.bytes.len() - MARGIN]
    }

    fn inner_mut(&mut self) -> &mut [u8] {
        let end = self.bytes.len() - MARGIN;
        &mut self.bytes[MARGIN..end]
    }

    fn margins_kept(&self) -> bool {
        self.bytes.starts_with(&self.margins[0]) && self.bytes.ends_with(&self.margins[1])
    }
}

pub struct Run<'a> {
    /// The oracle or an earlier archive; or the server under test itself, to go by the tally alone.
    reference: &'a dyn Server,
    tested: &'a dyn Server,
    random: Random,
    right_table: Vec<u8>,
    tested_table: Guarded,
    /// Nothing while the buffer holds no sound table.
    tally: Option<Tally>,
    /// The tally goes by the calls since an answered making.
    by_calls: bool,
    told: ToldLeases,
    set_back: SetBack,
    pub coverage: Coverage,
}

type Outcome = Result<(), String>;

fn same<T: PartialEq + std::fmt::Debug>(what: &str, tested: T, right: T) -> Outcome {
    if tested == right {
        Ok(())
    } else {
        Err(format!("{what}: {tested:?}, but {right:?} is right"))
    }
}

fn same_bytes(what: &str, tested: &[u8], right: &[u8]) -> Outcome {
    match tested.iter().zip(right).position(|(tested, right)| tested != right) {
        Some(at) => {
            Err(format!("{what}: byte {at} is {:02x}, but {:02x} is right", tested[at], right[at]))
        }
        None => same(what, tested.len(), right.len()),
    }
}

impl<'a> Run<'a> {
    pub fn new(reference: &'a dyn Server, tested: &'a dyn Server) -> Self {
        let mut random = Random::new(0);
        let tested_table = Guarded::new(&[], &mut random);
        Run {
            reference,
            tested,
            random,
            right_table: Vec::new(),
            tested_table,
            tally: None,
            by_calls: false,
            told: ToldLeases::default(),
            set_back: SetBack::default(),
            coverage: Coverage::default(),
        }
    }

    pub fn tally(&self) -> Option<&Tally> {
        self.tally.as_ref()
    }

    pub fn table(&self) -> &[u8] {
        &self.right_table
    }

    pub fn told(&self) -> &ToldLeases {
        &self.told
    }

    /// Carries out one step; says what is wrong, if anything is.
    pub fn step(&mut self, step: &Step) -> Outcome {
        self.coverage.calls += u64::from(step.is_call());
        self.carry_out(step)?;
        self.told.keep(self.tally.as_ref());
        Ok(())
    }

    fn carry_out(&mut self, step: &Step) -> Outcome {
        match step {
            Step::Buffer { length, seed } => {
                self.put_table(&script::buffer(*length, *seed));
                Ok(())
            }
            Step::Table { bytes } => {
                self.put_table(bytes);
                Ok(())
            }
            Step::Edit { at, bytes } => {
                let mut table = self.right_table.clone();
                let end = at.saturating_add(bytes.len());
                let place = table.get_mut(*at..end).ok_or("an edit past the table's end")?;
                place.copy_from_slice(bytes);
                self.put_table(&table);
                Ok(())
            }
            Step::Make { week, second, roster } => self.make(*week, *second, roster),
            Step::Tick { week, second } => self.tick(*week, *second),
            Step::Serve(datagram) => self.serve(datagram),
        }
    }

    /// A table that no call has written: the tally starts from its content.
    fn put_table(&mut self, bytes: &[u8]) {
        self.right_table = bytes.to_vec();
        self.tested_table = Guarded::new(bytes, &mut self.random);
        self.tally = tally::table::read(bytes);
        self.by_calls = false;
        self.told = ToldLeases::default();
        self.set_back = SetBack::default();
    }

    fn make(&mut self, week: u32, second: u32, roster: &[u8]) -> Outcome {
        let before = self.right_table.clone();
        let right = self.reference.make(week, second, &mut self.right_table, roster);
        let lent = Guarded::new(roster, &mut self.random);
        let kept = lent.bytes.clone();
        let number = self.tested.make(week, second, self.tested_table.inner_mut(), lent.inner());
        same("number of making", number, right)?;
        same_bytes("roster lent to making", &lent.bytes, &kept)?;

        let entries = self.tally.as_ref().map_or(0, |tally| tally.holdings.len());
        let answer = tally::make(&mut self.tally, week, second, before.len(), roster);
        self.compare_with_tally(number, &answer, &before)?;

        self.coverage.makings[number as usize] += 1;
        self.mark_refused(number, week, second, &before);
        if let (0, Some(tally)) = (number, &self.tally) {
            self.by_calls = true;
            self.set_back = SetBack::default();
            let wide = tally.weeks == 8_192;
            self.coverage.mark(Mark::MadeOverEntries, entries > 0);
            self.coverage.mark(Mark::OneSlot, !wide && tally.slots == 1);
            self.coverage.mark(Mark::WideOneSlot, wide && tally.slots == 1);
            self.coverage.mark(Mark::SixtyFourSlots, !wide && tally.slots == 64);
            self.coverage.mark(Mark::WideSixtyFourSlots, wide && tally.slots == 64);
            self.coverage.mark(Mark::SixteenLines, tally.roster.len() == 16);
        }
        Ok(())
    }

    fn tick(&mut self, week: u32, second: u32) -> Outcome {
        let before = self.right_table.clone();
        let right = self.reference.tick(week, second, &mut self.right_table);
        let ticked = self.tested.tick(week, second, self.tested_table.inner_mut());
        same("tick", ticked, right)?;

        let known = self.tally.clone();
        let answer = tally::tick(&mut self.tally, week, second);
        same("entries freed by tick", ticked.freed as usize, answer.freed)?;
        self.compare_with_tally(ticked.number, &answer, &before)?;

        self.coverage.ticks[ticked.number as usize] += 1;
        self.mark_refused(ticked.number, week, second, &before);
        self.mark_clock(known.as_ref(), ticked.number, week, second);
        Ok(())
    }

    fn serve(&mut self, sent: &Datagram) -> Outcome {
        let before = self.right_table.clone();
        let mut right_reply = vec![sent.fill; sent.reply_length];
        let right = self.reference.serve(
            sent.week,
            sent.second,
            sent.address_high,
            sent.address_low,
            sent.port,
            sent.random,
            &sent.bytes,
            &mut self.right_table,
            &mut right_reply,
        );
        let lent = Guarded::new(&sent.bytes, &mut self.random);
        let kept = lent.bytes.clone();
        let mut reply = Guarded::new(&vec![sent.fill; sent.reply_length], &mut self.random);
        let served = self.tested.serve(
            sent.week,
            sent.second,
            sent.address_high,
            sent.address_low,
            sent.port,
            sent.random,
            lent.inner(),
            self.tested_table.inner_mut(),
            reply.inner_mut(),
        );
        same("datagram", served, right)?;
        same("reply within its buffer", served.length as usize <= sent.reply_length, true)?;
        same_bytes("datagram lent to serving", &lent.bytes, &kept)?;
        same("bytes around the reply kept", reply.margins_kept(), true)?;
        same_bytes("reply buffer", reply.inner(), &right_reply)?;

        let known = self.tally.clone();
        let address = u128::from(sent.address_high) << 64 | u128::from(sent.address_low);
        let answer = tally::serve(
            &mut self.tally,
            sent.week,
            sent.second,
            (address.to_be_bytes(), sent.port),
            sent.random,
            &sent.bytes,
            sent.reply_length,
        );
        let (said, untouched) = reply.inner().split_at(served.length as usize);
        same("reply length by the tally", said.len(), answer.reply.len())?;
        let options = said[said.len() - 22 * answer.cases.len()..].chunks(22);
        for (at, (case, option)) in answer.cases.iter().zip(options).enumerate() {
            same(&format!("told full in option {at}"), option[8..10] == [0, 1], case.is_full())?;
        }
        same_bytes("reply by the tally", said, &answer.reply)?;
        same("bytes past the reply kept", untouched.iter().all(|&byte| byte == sent.fill), true)?;
        self.compare_with_tally(served.number, &answer, &before)?;

        self.coverage.datagrams[served.number as usize] += 1;
        answer.cases.iter().for_each(|&case| self.coverage.case(case));
        self.mark_refused(served.number, sent.week, sent.second, &before);
        self.mark_clock(known.as_ref(), served.number, sent.week, sent.second);
        self.mark_datagram(known, sent, &answer);
        Ok(())
    }

    /// What every call must keep to.
    fn compare_with_tally(&self, number: u32, answer: &Answer, before: &[u8]) -> Outcome {
        let table = self.tested_table.inner();
        same("number by the tally", number, answer.number)?;
        same("bytes around the table kept", self.tested_table.margins_kept(), true)?;
        same_bytes("table", table, &self.right_table)?;
        if number != 0 {
            same_bytes("table of a refused call", table, before)?;
        }
        let Some(tally) = &self.tally else {
            return Ok(());
        };
        let Some(mut seen) = tally::table::read(table) else {
            return Err("the table is unsound after the call".into());
        };
        seen.holdings.sort();
        let mut tally = tally.clone();
        tally.holdings.sort();
        same("table's clock, n, roster and entries by the tally", seen, tally)
    }

    /// A reading or a clock record that the table's length refuses, where all else is right.
    fn mark_refused(&mut self, number: u32, week: u32, second: u32, table: &[u8]) {
        let Some((weeks, _)) = table::shape_of(table.len()) else {
            return;
        };
        let week = if number == 2 && second < 604_800 { week } else { 0 };
        let other_kind = number == 1 && is_sound_but_for_kind(table);
        let coverage = &mut self.coverage;
        match weeks {
            Weeks::Ten => {
                coverage.mark(Mark::Week1024Refused, (1_024..8_192).contains(&week));
                coverage.mark(Mark::Kind9Refused, other_kind);
            }
            Weeks::Thirteen => {
                coverage.mark(Mark::WideWeek8192Refused, week == 8_192);
                coverage.mark(Mark::WideKind1Refused, other_kind);
            }
        }
    }

    fn mark_clock(&mut self, known: Option<&Tally>, number: u32, week: u32, second: u32) {
        self.coverage.mark(Mark::Unsound, number == 1);
        let (Some(before), Some(after), 0) = (known, &self.tally, number) else {
            return;
        };
        let (weeks, _) = table::shape_of(self.right_table.len()).expect("answered, so a table");
        let place = weeks.place(week, second).expect("answered, so a reading");
        let last = before.place as u64;
        let step = weeks.step(last, place);
        let on = step.max(0) as u64;
        let held = !before.holdings.is_empty();
        let back_over_end = held && step < 0 && place > last;
        let rolled_over = step >= 0 && place < last;
        let wrapped = before.count + on > 4_294_967_295;
        let live = |tally: &Tally, number| tally.holdings.iter().any(|h| h.number == number);
        let freed: Vec<_> = before.holdings.iter().filter(|h| h.age + on >= h.lease).collect();
        let across = before.holdings.iter().any(|h| live(after, h.number));
        let one_left = after.holdings.iter().any(|h| h.age + 1 == h.lease);
        let coverage = &mut self.coverage;
        coverage.mark(Mark::StepZero, step == 0);
        coverage.mark(Mark::StepBackUnder60, held && (-59..0).contains(&step));
        coverage.mark(Mark::CountWrapped, wrapped);
        coverage.mark(Mark::CountWrappedByCalls, wrapped && across && self.by_calls);
        coverage.mark(Mark::OneSecondLeft, one_left);
        coverage.mark(Mark::SeveralFreed, freed.len() > 1);
        coverage.mark(Mark::PendingFreed, freed.iter().any(|h| !h.established));
        match weeks {
            Weeks::Ten => {
                coverage.mark(Mark::StepLongest, step == 309_657_599);
                coverage.mark(Mark::StepBack60, held && step == -60);
                coverage.mark(Mark::StepBack61, held && step == -61);
                coverage.mark(Mark::StepBackOver61, held && (-309_657_599..-61).contains(&step));
                coverage.mark(Mark::StepBackHalfCycle, held && step == -309_657_600);
                coverage.mark(Mark::StepBack60OverCycleEnd, back_over_end && step == -60);
                coverage.mark(Mark::StepBack61OverCycleEnd, back_over_end && step == -61);
                coverage.mark(Mark::CycleRolledOver, rolled_over);
                coverage.mark(Mark::LiveAcrossWrap, wrapped && across);
            }
            Weeks::Thirteen => {
                let over_31_bits = step >= 2_147_483_648;
                let back_over_31_bits = (-2_477_260_799..-2_147_483_648).contains(&step);
                let last_week = last / 604_800;
                let to_1024 = step >= 0 && (last_week, week) == (1_023, 1_024);
                coverage.mark(Mark::WideStepLongest, step == 2_477_260_799);
                coverage.mark(Mark::WideStepOver31Bits, over_31_bits);
                coverage.mark(Mark::WideRanOutOver31Bits, over_31_bits && !freed.is_empty());
                coverage.mark(Mark::WideStepBack60, held && step == -60);
                coverage.mark(Mark::WideStepBack61, held && step == -61);
                coverage.mark(Mark::WideStepBackOver31Bits, held && back_over_31_bits);
                coverage.mark(Mark::WideStepBackHalfCycle, held && step == -2_477_260_800);
                coverage.mark(Mark::WideStepBack60OverCycleEnd, back_over_end && step == -60);
                coverage.mark(Mark::WideStepBack61OverCycleEnd, back_over_end && step == -61);
                let to_0 = rolled_over && (last_week, week) == (8_191, 0);
                coverage.mark(Mark::WideCycleRolledOver, to_0);
                coverage.mark(Mark::WideWeek1023To1024, to_1024);
                coverage.mark(Mark::WideLiveAcrossWrap, wrapped && across);
            }
        }
        self.set_back.call(coverage, step, before, after);
    }

    fn mark_datagram(&mut self, known: Option<Tally>, sent: &Datagram, answer: &Answer) {
        let coverage = &mut self.coverage;
        if answer.number == 8 {
            // The same datagram with room enough for any reply.
            let asked = tally::datagram::read(&sent.bytes).expect("refused with 8, so read");
            let options = asked.options_by_question().map_or(1, |options| options.len());
            let length = 12 + asked.question_bytes.len() + 11 + 22 * options;
            coverage.mark(Mark::ReplyTooLong, length > 1_472 && sent.reply_length >= length);
            coverage.mark(Mark::BufferOneShort, length <= 1_472 && sent.reply_length + 1 == length);
        }
        coverage.mark(Mark::DatagramTooLong, answer.number == 3 && sent.bytes.len() == 1_473);
        let (Some(before), Some(after), 0) = (known, &self.tally, answer.number) else {
            return;
        };
        let asked = tally::datagram::read(&sent.bytes).expect("answered, so read");
        self.told.datagram(coverage, &asked, answer);
        let added: Vec<_> = after
            .holdings
            .iter()
            .filter(|new| {
                new.age == 0 && before.holdings.iter().all(|old| old.number != new.number)
            })
            .collect();
        let is_granted = |case: &Case| matches!(case, Case::Granted | Case::GrantedFromReserve);
        let granted = answer.cases.iter().any(is_granted);
        let names = asked.names_sent().into_iter().zip(&answer.cases).zip(&answer.compared);
        for ((name, case), &compared) in names {
            let stored = if is_granted(case) { name.len() } else { 0 };
            coverage.stored.add(name, stored);
            coverage.compared.add(name, compared);
        }
        coverage.mark(Mark::AllValuesStored, coverage.stored.are_all());
        coverage.mark(Mark::AllValuesCompared, coverage.compared.are_all());
        let in_use = |number: u64| before.holdings.iter().any(|h| h.number == number);
        let name = |wanted: &dyn Fn(&[u8]) -> bool| {
            after.holdings.iter().any(|h| wanted(&h.question.name))
        };
        coverage.mark(Mark::NumberZeroPassedOver, granted && sent.random == 0);
        coverage.mark(Mark::NumberInUsePassedOver, granted && in_use(sent.random));
        let wrapped = added.iter().any(|new| new.number < sent.random);
        coverage.mark(Mark::NumberWrapped, wrapped);
        coverage.mark(Mark::LongestReply, answer.reply.len() == 1_472);
        coverage.mark(Mark::BufferExact, answer.reply.len() == sent.reply_length);
        coverage.mark(Mark::LongestDatagram, sent.bytes.len() == 1_472);
        coverage.mark(Mark::LongestName, name(&|name| name.len() == 255));
        let mixed = asked.question_bytes.iter().any(u8::is_ascii_uppercase);
        coverage.mark(Mark::NameFolded, granted && mixed);
        coverage.mark(Mark::NameBytesPast127, name(&|name| name.iter().any(|&byte| byte > 127)));
        coverage.mark(Mark::EightQuestions, answer.cases.len() == 8);
        coverage.mark(Mark::NineOptions, asked.option_count() > 8 && asked.options_of_18() > 8);
        coverage.mark(Mark::Options256, asked.option_count() > 255);
        let ended = answer.cases.contains(&Case::Ended);
        let number_again =
            after.holdings.iter().any(|h| h.number == sent.random && h.age == 0 && !h.established);
        coverage.mark(Mark::NumberFreedAndGranted, ended && in_use(sent.random) && number_again);
        let full = before.holdings.len() == before.slots && answer.freed == 0;
        coverage.mark(Mark::SlotFreedAndTaken, full && ended && granted);
        coverage.mark(Mark::MismatchFrees, answer.cases == [Case::Mismatch] && answer.freed > 0);
        coverage.mark(Mark::SixtyFourEntries, after.holdings.len() == 64);
        coverage.mark(Mark::AllSlotsTaken, after.holdings.len() == after.slots);
    }
}

/// The table has the clock's other kind, and with the right one it is sound.
fn is_sound_but_for_kind(table: &[u8]) -> bool {
    let mut other = table.to_vec();
    other[0] ^= 0x01 ^ 0x09;
    tally::table::read(&other).is_some()
}

/// Where a list first goes wrong, and how.
pub fn first_fault(
    reference: &dyn Server,
    tested: &dyn Server,
    steps: &[Step],
) -> Option<(usize, String)> {
    let mut run = Run::new(reference, tested);
    steps.iter().enumerate().find_map(|(at, step)| run.step(step).err().map(|wrong| (at, wrong)))
}

/// A shorter list that still goes wrong: steps are left out as long as it does.
pub fn shortened(reference: &dyn Server, tested: &dyn Server, steps: &[Step]) -> Vec<Step> {
    let mut steps = steps.to_vec();
    loop {
        let Some((last, _)) = first_fault(reference, tested, &steps) else {
            return steps;
        };
        steps.truncate(last + 1);
        let before = steps.len();
        for at in (0..before).rev() {
            let left_out = steps.remove(at);
            // An edit of a table that is not there is no fault of the server.
            let fault = first_fault(reference, tested, &steps);
            if !fault.is_some_and(|(at, _)| steps[at].is_call()) {
                steps.insert(at, left_out);
            }
        }
        if steps.len() == before {
            return steps;
        }
    }
}

#[cfg(test)]
mod tests {
    use super::*;
    use crate::calls::{Served, Ticked};
    use crate::server::Oracle;
    use crate::values::Values;

    /// The oracle, but a tick says one more was freed.
    struct OneMore;

    impl Server for OneMore {
        fn make(&self, week: u32, second: u32, table: &mut [u8], roster: &[u8]) -> u32 {
            Oracle.make(week, second, table, roster)
        }

        fn tick(&self, week: u32, second: u32, table: &mut [u8]) -> Ticked {
            let ticked = Oracle.tick(week, second, table);
            Ticked { freed: ticked.freed + 1, ..ticked }
        }

        fn serve(
            &self,
            week: u32,
            second: u32,
            high: u64,
            low: u64,
            port: u16,
            random: u64,
            datagram: &[u8],
            table: &mut [u8],
            reply: &mut [u8],
        ) -> Served {
            Oracle.serve(week, second, high, low, port, random, datagram, table, reply)
        }
    }

    /// A setup of one question by one sender, in week 0.
    fn setup(name: &[u8]) -> Step {
        setup_at(0, 0, name)
    }

    fn setup_at(week: u32, second: u32, name: &[u8]) -> Step {
        let mut bytes = vec![0x12, 0x34, 1, 0, 0, 1, 0, 0, 0, 0, 0, 1];
        bytes.extend(name);
        bytes.extend([0, 12, 0, 1, 0, 0, 41, 5, 0xC0, 0, 0, 0, 0, 0, 22, 0, 1, 0, 18, 0, 1, 0, 1]);
        bytes.extend([0; 14]);
        Step::Serve(Datagram {
            week,
            second,
            address_high: 0,
            address_low: 1,
            port: 9,
            random: 7,
            fill: 0,
            reply_length: bytes.len(),
            bytes,
        })
    }

    #[test]
    fn values_count_where_a_name_is_stored_or_compared() {
        let mut run = Run::new(&Oracle, &Oracle);
        for (step, stored, compared) in [
            (Step::Buffer { length: 633, seed: 1 }, &b""[..], &b""[..]),
            (Step::Make { week: 0, second: 0, roster: vec![] }, b"", b""),
            (setup(b"\x03aB\xC1\x00"), b"aB\xC1", b""),
            // Full, with a name of the same length that differs in its second byte, and in its length.
            (setup(b"\x03Acd\x00"), b"aB\xC1", b"Ac"),
            (setup(b"\x04efgh\x00"), b"aB\xC1", b"Ac"),
            // Found.
            (setup(b"\x03Ab\xC1\x00"), b"aB\xC1", b"Abc\xC1"),
        ] {
            assert_eq!(run.step(&step), Ok(()));
            assert_eq!(run.coverage.stored, stored.iter().copied().collect(), "{step}");
            assert_eq!(run.coverage.compared, compared.iter().copied().collect(), "{step}");
        }
        let mut marks = |change: &dyn Fn(&mut Coverage)| {
            change(&mut run.coverage);
            assert_eq!(run.step(&setup(b"\x00")), Ok(()));
            [Mark::AllValuesStored, Mark::AllValuesCompared]
                .map(|mark| run.coverage.marks[mark as usize])
        };
        let all: Values = (0..=255).collect();
        assert_eq!(marks(&|_| {}), [0, 0]);
        assert_eq!(marks(&|coverage| coverage.stored = all.clone()), [1, 0]);
        assert_eq!(marks(&|coverage| coverage.compared = all.clone()), [2, 1]);
    }

    /// Of the marks on the clock and its record, those that each step reaches and no others: on a table
    /// of one slot, of weeks of ten bits or of thirteen.
    fn reaches(length: usize, steps: &[(Step, &[Mark])]) {
        const OTHERS: [Mark; 7] = [
            Mark::StepBackUnder60,
            Mark::CountWrapped,
            Mark::CountWrappedByCalls,
            Mark::OneSecondLeft,
            Mark::PendingFreed,
            Mark::RanOutWhileSetBack,
            Mark::AllSlotsTaken,
        ];
        let mut run = Run::new(&Oracle, &Oracle);
        run.step(&Step::Buffer { length, seed: 1 }).unwrap();
        for (step, marks) in steps {
            run.coverage = Coverage::default();
            assert_eq!(run.step(step), Ok(()));
            let is_of_clock = |mark: Mark| {
                let at = mark as usize;
                at > Mark::StepZero as usize && at < Mark::NumberZeroPassedOver as usize
                    || at > Mark::AllValuesCompared as usize
                    || [Mark::OneSlot, Mark::SixtyFourSlots].contains(&mark)
            };
            let reached: Vec<Mark> = Mark::ALL
                .iter()
                .map(|&(mark, _)| mark)
                .filter(|&mark| run.coverage.marks[mark as usize] > 0)
                .filter(|&mark| is_of_clock(mark) && !OTHERS.contains(&mark))
                .collect();
            assert_eq!(reached, *marks, "{step}");
        }
    }

    fn make(week: u32, second: u32) -> Step {
        Step::Make { week, second, roster: vec![] }
    }

    fn tick(week: u32, second: u32) -> Step {
        Step::Tick { week, second }
    }

    fn kind(kind: u8) -> Step {
        Step::Edit { at: 0, bytes: vec![kind] }
    }

    #[test]
    fn marks_of_weeks_of_ten_bits() {
        use Mark::*;
        reaches(
            633,
            &[
                (make(1_024, 0), &[Week1024Refused]),
                (make(8_191, 604_799), &[Week1024Refused]),
                (make(8_192, 0), &[]),
                (make(1_024, 604_800), &[]),
                (make(1_023, 604_799), &[OneSlot]),
                (tick(1_024, 0), &[Week1024Refused]),
                (tick(0, 0), &[CycleRolledOver]),
                (tick(512, 0), &[]),
                (tick(0, 0), &[]),
                (setup_at(0, 0, b"\x00"), &[]),
                (tick(1_023, 604_740), &[StepBack60, StepBack60OverCycleEnd]),
                (tick(1_023, 604_739), &[StepBack61, StepBack61OverCycleEnd]),
                (tick(1_023, 604_678), &[StepBack61]),
                (tick(1_023, 604_616), &[StepBackOver61]),
                (tick(511, 604_616), &[StepBackHalfCycle]),
                (tick(1_023, 604_615), &[StepLongest]),
                (kind(9), &[]),
                (tick(0, 0), &[Kind9Refused]),
                (setup_at(1_024, 0, b"\x00"), &[Kind9Refused]),
                (kind(8), &[]),
                (tick(0, 0), &[]),
            ],
        );
    }

    #[test]
    fn marks_of_weeks_of_thirteen_bits() {
        use Mark::*;
        reaches(
            637,
            &[
                (make(8_192, 0), &[WideWeek8192Refused]),
                (make(8_193, 0), &[]),
                (make(8_192, 604_800), &[]),
                (make(8_191, 604_799), &[WideOneSlot]),
                (setup_at(8_192, 0, b"\x00"), &[WideWeek8192Refused]),
                (tick(0, 0), &[WideCycleRolledOver]),
                (setup_at(0, 0, b"\x00"), &[]),
                (tick(8_191, 604_740), &[WideStepBack60, WideStepBack60OverCycleEnd]),
                (tick(8_191, 604_739), &[WideStepBack61, WideStepBack61OverCycleEnd]),
                (tick(8_191, 604_679), &[WideStepBack60]),
                (tick(8_191, 604_678), &[WideStepBack61]),
                (tick(4_095, 604_678), &[WideStepBackHalfCycle]),
                // Back by 2^31 and by one second more.
                (tick(545, 161_030), &[]),
                (tick(4_095, 604_678), &[WideStepOver31Bits, WideRanOutOver31Bits]),
                (setup_at(4_095, 604_678, b"\x00"), &[]),
                (tick(545, 161_029), &[WideStepBackOver31Bits]),
                // On by one second less than 2^31.
                (tick(4_095, 604_676), &[]),
                (tick(8_191, 604_675), &[WideStepLongest, WideStepOver31Bits]),
                (tick(1_023, 604_799), &[]),
                (setup_at(1_023, 604_799, b"\x00"), &[]),
                (tick(1_024, 0), &[WideWeek1023To1024]),
                (tick(1_023, 604_799), &[]),
                // The week counter comes around, but not from its last week to its first.
                (tick(7_000, 0), &[]),
                (tick(0, 604_800), &[]),
                (tick(1, 0), &[]),
                (kind(1), &[]),
                (tick(0, 0), &[WideKind1Refused]),
                (tick(8_192, 0), &[WideKind1Refused]),
                // The running count's last number, and an entry live across it.
                (kind(9), &[]),
                (Step::Edit { at: 9, bytes: vec![0xFF; 4] }, &[]),
                (setup_at(1, 0, b"\x00"), &[]),
                (tick(1, 1), &[WideLiveAcrossWrap]),
            ],
        );
    }

    #[test]
    fn faults_are_found_and_lists_shortened() {
        let steps = [
            Step::Buffer { length: 633, seed: 1 },
            Step::Make { week: 1_024, second: 0, roster: vec![] },
            Step::Make { week: 0, second: 0, roster: vec![] },
            Step::Edit { at: 1, bytes: vec![1] },
            Step::Tick { week: 0, second: 5 },
            Step::Tick { week: 0, second: 6 },
        ];
        assert_eq!(first_fault(&Oracle, &Oracle, &steps), None);
        assert_eq!(first_fault(&Oracle, &OneMore, &steps).unwrap().0, 4);
        assert_eq!(first_fault(&OneMore, &OneMore, &steps).unwrap().0, 4);
        let short = shortened(&Oracle, &OneMore, &steps);
        assert_eq!(short, [Step::Tick { week: 0, second: 5 }]);
    }
}

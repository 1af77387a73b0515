//! What a run has met: how many calls gave each number, how many options each
//! error, and the places that a run must reach to be worth its name.

use crate::generate::Widths;
use crate::tally::Case;
use crate::values::Values;
use std::fmt;

/// Places on a rule's edge.
#[derive(Clone, Copy, PartialEq, Eq, Debug)]
pub enum Mark {
    StepZero,
    StepLongest,
    StepBackUnder60,
    StepBack60,
    StepBack61,
    StepBackOver61,
    StepBackHalfCycle,
    StepBack60OverCycleEnd,
    StepBack61OverCycleEnd,
    CreptBack,
    RanOutWhileSetBack,
    AgedBackAndForth,
    CycleRolledOver,
    CountWrapped,
    LiveAcrossWrap,
    OneSecondLeft,
    SeveralFreed,
    PendingFreed,
    NumberZeroPassedOver,
    NumberInUsePassedOver,
    NumberWrapped,
    LongestReply,
    ReplyTooLong,
    BufferExact,
    BufferOneShort,
    LongestDatagram,
    DatagramTooLong,
    LongestName,
    NameFolded,
    NameBytesPast127,
    EightQuestions,
    NineOptions,
    Options256,
    NumberFreedAndGranted,
    SlotFreedAndTaken,
    MismatchFrees,
    CountWrappedByCalls,
    AllSlotsTaken,
    SixtyFourEntries,
    OneSlot,
    SixtyFourSlots,
    SixteenLines,
    MadeOverEntries,
    Unsound,
    SetupAgainPending,
    SetupAgainEstablished,
    LeaseOneUnder,
    LeaseLowerEnd,
    LeaseTold,
    LeaseInside,
    LeaseUpperEnd,
    LeaseOneOver,
    LeaseBeforeRefresh,
    SetupBehindRefresh,
    AllValuesStored,
    AllValuesCompared,
    Week1024Refused,
    Kind9Refused,
    WideStepLongest,
    WideStepOver31Bits,
    WideRanOutOver31Bits,
    WideStepBack60,
    WideStepBack61,
    WideStepBackOver31Bits,
    WideStepBackHalfCycle,
    WideStepBack60OverCycleEnd,
    WideStepBack61OverCycleEnd,
    WideCycleRolledOver,
    WideWeek1023To1024,
    WideLiveAcrossWrap,
    WideWeek8192Refused,
    WideKind1Refused,
    WideOneSlot,
    WideSixtyFourSlots,
}

impl Mark {
    /// What has a mark for weeks of thirteen bits too is marked above on tables for weeks of ten alone.
    pub const ALL: [(Mark, &'static str); 74] = [
        (Mark::StepZero, "step of 0"),
        (Mark::StepLongest, "step of +309,657,599"),
        // Steps back with entries held.
        (Mark::StepBackUnder60, "step of -59 to -1"),
        (Mark::StepBack60, "step of -60"),
        (Mark::StepBack61, "step of -61"),
        (Mark::StepBackOver61, "step of -309,657,599 to -62"),
        (Mark::StepBackHalfCycle, "step of -309,657,600"),
        (Mark::StepBack60OverCycleEnd, "step of -60 over the cycle's end"),
        (Mark::StepBack61OverCycleEnd, "step of -61 over the cycle's end"),
        // One of over 60 seconds that came by several readings, each a little further back.
        (Mark::CreptBack, "clock that crept back"),
        // Entries held while the clock was set back, and with no new stamp since: run out before
        // steps forward have made up for the step back, or held still when they have.
        (Mark::RanOutWhileSetBack, "entry run out while set back"),
        (Mark::AgedBackAndForth, "entry aged by back and forth"),
        (Mark::CycleRolledOver, "week counter rolled over"),
        (Mark::CountWrapped, "running count wrapped"),
        (Mark::LiveAcrossWrap, "entry live across the wrap"),
        (Mark::OneSecondLeft, "entry with one second left"),
        (Mark::SeveralFreed, "several entries freed at once"),
        (Mark::PendingFreed, "pending entry freed"),
        (Mark::NumberZeroPassedOver, "number 0 passed over"),
        (Mark::NumberInUsePassedOver, "number in use passed over"),
        (Mark::NumberWrapped, "number search wrapped"),
        (Mark::LongestReply, "reply of 1,472 bytes"),
        (Mark::ReplyTooLong, "reply over 1,472 bytes refused"),
        (Mark::BufferExact, "reply buffer just long enough"),
        (Mark::BufferOneShort, "reply buffer one byte short"),
        (Mark::LongestDatagram, "datagram of 1,472 bytes answered"),
        (Mark::DatagramTooLong, "datagram of 1,473 bytes refused"),
        (Mark::LongestName, "name of 255 bytes held"),
        (Mark::NameFolded, "mixed-case name granted"),
        (Mark::NameBytesPast127, "name with bytes past 127 held"),
        (Mark::EightQuestions, "eight questions answered"),
        (Mark::NineOptions, "nine options of length 18 answered"),
        (Mark::Options256, "more than 255 options answered"),
        (Mark::NumberFreedAndGranted, "number freed and granted at once"),
        (Mark::SlotFreedAndTaken, "last slot freed and taken at once"),
        (Mark::MismatchFrees, "mismatch that frees entries"),
        (Mark::CountWrappedByCalls, "running count wrapped by calls alone"),
        (Mark::AllSlotsTaken, "all slots taken"),
        (Mark::SixtyFourEntries, "64 entries held"),
        (Mark::OneSlot, "n = 1"),
        (Mark::SixtyFourSlots, "n = 64"),
        (Mark::SixteenLines, "16 roster lines"),
        (Mark::MadeOverEntries, "making over entries"),
        (Mark::Unsound, "unsound table refused"),
        // Setups and responses that find an entry of age over 0.
        (Mark::SetupAgainPending, "setup again, entry pending"),
        (Mark::SetupAgainEstablished, "setup again, entry established"),
        (Mark::LeaseOneUnder, "response one under what remains"),
        (Mark::LeaseLowerEnd, "response with what remains"),
        (Mark::LeaseTold, "response with a lease told before"),
        (Mark::LeaseInside, "response with a lease never told"),
        (Mark::LeaseUpperEnd, "response with the granted lease"),
        (Mark::LeaseOneOver, "response one over the granted lease"),
        // Responses with a lease told before a refresh, and not since.
        (Mark::LeaseBeforeRefresh, "response told before a refresh"),
        // Setups that find an entry which an option before them in the datagram refreshed.
        (Mark::SetupBehindRefresh, "setup behind a refresh"),
        // Datagrams answered once every byte value has been sent in labels.
        (Mark::AllValuesStored, "all 256 values in names stored"),
        (Mark::AllValuesCompared, "all 256 values in names compared"),
        // Weeks of ten bits. A kind is refused on a table that is sound but for it.
        (Mark::Week1024Refused, "10 bits: week over 1,023 refused"),
        (Mark::Kind9Refused, "10 bits: kind 0x09 refused"),
        // Weeks of thirteen bits. Steps back are with entries held.
        (Mark::WideStepLongest, "13 bits: step of +2,477,260,799"),
        (Mark::WideStepOver31Bits, "13 bits: step of 2^31 or more"),
        (Mark::WideRanOutOver31Bits, "13 bits: entry run out by such"),
        (Mark::WideStepBack60, "13 bits: step of -60"),
        (Mark::WideStepBack61, "13 bits: step of -61"),
        (Mark::WideStepBackOver31Bits, "13 bits: step under -2^31"),
        (Mark::WideStepBackHalfCycle, "13 bits: step of -2,477,260,800"),
        (Mark::WideStepBack60OverCycleEnd, "13 bits: -60 over the cycle's end"),
        (Mark::WideStepBack61OverCycleEnd, "13 bits: -61 over the cycle's end"),
        (Mark::WideCycleRolledOver, "13 bits: week 8,191 to week 0"),
        (Mark::WideWeek1023To1024, "13 bits: week 1,023 to week 1,024"),
        (Mark::WideLiveAcrossWrap, "13 bits: live across the wrap"),
        (Mark::WideWeek8192Refused, "13 bits: week 8,192 refused"),
        (Mark::WideKind1Refused, "13 bits: kind 0x01 refused"),
        (Mark::WideOneSlot, "13 bits: n = 1"),
        (Mark::WideSixtyFourSlots, "13 bits: n = 64"),
    ];

    /// A mark that lists on tables with weeks of ten bits cannot reach.
    fn is_wide(self) -> bool {
        self as usize >= Mark::WideStepLongest as usize
    }
}

#[derive(Clone)]
pub struct Coverage {
    pub calls: u64,
    pub makings: [u64; 10],
    pub ticks: [u64; 10],
    pub datagrams: [u64; 10],
    pub errors: [u64; 7],
    pub cases: [u64; Case::ALL.len()],
    pub marks: [u64; Mark::ALL.len()],
    /// The byte values sent in labels of names that were stored.
    pub stored: Values,
    /// Those sent in labels that were compared with stored ones.
    pub compared: Values,
}

impl Default for Coverage {
    fn default() -> Self {
        Coverage {
            calls: 0,
            makings: [0; 10],
            ticks: [0; 10],
            datagrams: [0; 10],
            errors: [0; 7],
            cases: [0; Case::ALL.len()],
            marks: [0; Mark::ALL.len()],
            stored: Values::default(),
            compared: Values::default(),
        }
    }
}

impl Coverage {
    pub fn case(&mut self, case: Case) {
        self.cases[case as usize] += 1;
        self.errors[usize::from(case.error())] += 1;
    }

    pub fn mark(&mut self, mark: Mark, met: bool) {
        self.marks[mark as usize] += u64::from(met);
    }

    /// The byte values sent, by what became of them.
    fn values(&self) -> [(&'static str, &Values); 2] {
        [("names stored", &self.stored), ("names compared", &self.compared)]
    }

    /// What a run of such lists has never met of what it must meet.
    pub fn missing(&self, widths: Widths) -> Vec<String> {
        let mut missing = Vec::new();
        for number in 0..10 {
            if self.makings[number] + self.ticks[number] + self.datagrams[number] == 0 {
                missing.push(format!("number {number}"));
            }
        }
        for (calls, name, given) in [
            (&self.makings, "making", &[0, 1, 2, 9][..]),
            (&self.ticks, "tick", &[0, 1, 2]),
            (&self.datagrams, "datagram", &[0, 1, 2, 3, 4, 5, 6, 7, 8]),
        ] {
            for &number in given.iter().filter(|&&number| calls[number] == 0) {
                missing.push(format!("{name} with number {number}"));
            }
        }
        for error in [0, 1, 3, 4, 5] {
            if self.errors[error] == 0 {
                missing.push(format!("error {error}"));
            }
        }
        for case in Case::ALL {
            if self.cases[case as usize] == 0 {
                missing.push(format!("case {case:?}"));
            }
        }
        for (mark, name) in Mark::ALL {
            let must = widths == Widths::Both || !mark.is_wide();
            if must && self.marks[mark as usize] == 0 {
                missing.push(name.into());
            }
        }
        for (names, values) in self.values() {
            missing.extend(values.missing().map(|byte| format!("value {byte:02x} in {names}")));
        }
        missing
    }
}

impl fmt::Display for Coverage {
    fn fmt(&self, to: &mut fmt::Formatter) -> fmt::Result {
        writeln!(to, "number      making        tick    datagram")?;
        for number in 0..10 {
            writeln!(
                to,
                "{number:6}{:12}{:12}{:12}",
                self.makings[number], self.ticks[number], self.datagrams[number]
            )?;
        }
        writeln!(to, "options by error:")?;
        for (error, count) in self.errors.iter().enumerate() {
            writeln!(to, "  {error:<34}{count:10}")?;
        }
        writeln!(to, "options by case:")?;
        for case in Case::ALL {
            writeln!(to, "  {:<34}{:10}", format!("{case:?}"), self.cases[case as usize])?;
        }
        writeln!(to, "calls by mark:")?;
        for (mark, name) in Mark::ALL {
            writeln!(to, "  {name:<34}{:10}", self.marks[mark as usize])?;
        }
        writeln!(to, "byte values sent in labels:")?;
        for (names, values) in self.values() {
            writeln!(to, "  {names:<34}{:10}", 256 - values.missing().count())?;
        }
        Ok(())
    }
}

#[cfg(test)]
mod tests {
    use super::*;

    /// All values but these.
    fn values_but(for_these: &[u8]) -> Values {
        (0..=255).filter(|byte| !for_these.contains(byte)).collect()
    }

    /// A run that has met everything.
    fn met() -> Coverage {
        Coverage {
            calls: 1,
            makings: [1; 10],
            ticks: [1; 10],
            datagrams: [1; 10],
            errors: [1; 7],
            cases: [1; Case::ALL.len()],
            marks: [1; Mark::ALL.len()],
            stored: values_but(&[]),
            compared: values_but(&[]),
        }
    }

    #[test]
    fn a_value_that_was_missed_is_named() {
        let mut met =
            Coverage { stored: values_but(&[9, 0xC1]), compared: values_but(&[255]), ..met() };
        for mark in [Mark::AllValuesStored, Mark::AllValuesCompared] {
            met.marks[mark as usize] = 0;
        }
        assert_eq!(
            met.missing(Widths::Both),
            [
                "all 256 values in names stored",
                "all 256 values in names compared",
                "value 09 in names stored",
                "value c1 in names stored",
                "value ff in names compared",
            ]
        );
    }

    #[test]
    fn a_mark_that_was_missed_is_named() {
        let mut met = met();
        assert_eq!(met.missing(Widths::Both), Vec::<String>::new());
        for (mark, name) in Mark::ALL {
            met.marks[mark as usize] = 0;
            assert_eq!(met.missing(Widths::Both), [name]);
            met.mark(mark, false);
            assert_eq!(met.missing(Widths::Both), [name]);
            // Without tables for weeks of thirteen bits their marks are not missed.
            let wide = name.starts_with("13 bits: ");
            assert_eq!(met.missing(Widths::TenBits).is_empty(), wide, "{name}");
            met.mark(mark, true);
        }
    }

    #[test]
    fn lists_are_in_order() {
        for (at, case) in Case::ALL.into_iter().enumerate() {
            assert_eq!(case as usize, at);
        }
        for (at, (mark, _)) in Mark::ALL.into_iter().enumerate() {
            assert_eq!(mark as usize, at);
        }
    }
}

//! What becomes of the entries that are held while the clock is set back, for the marks on it.

use crate::clock::SMALL_STEP_BACK;
use crate::coverage::{Coverage, Mark};
use crate::tally::{Holding, Tally};
use std::collections::BTreeMap;

/// The steps back on one table since it was made, or since its bytes were put there by no call.
#[derive(Default)]
pub struct SetBack {
    /// By LLQ number, for each entry that was held while the clock was set back and has had no new
    /// stamp since: what the clock was set back by, less the steps forward since, in seconds.
    behind: BTreeMap<u64, u64>,
    /// The last reading's step, if it was a step back that changed nothing; else 0.
    last: i64,
    /// How many readings in a row have each gone a little further back, and changed nothing.
    creeping: u32,
}

impl SetBack {
    /// An answered tick or datagram with this step, the tally before it and after it.
    pub fn call(&mut self, coverage: &mut Coverage, step: i64, before: &Tally, after: &Tally) {
        let set_back = step < 0 && after.place != before.place;
        // From the last reading it is a small step back, whatever it is from the last place.
        let further = (self.last - SMALL_STEP_BACK..self.last).contains(&step);
        let crept = set_back && further && self.creeping >= 3;
        self.creeping = if further && !set_back { self.creeping + 1 } else { 0 };
        self.last = if step < 0 && !set_back { step } else { 0 };

        let on = step.max(0) as u64;
        let (mut ran_out, mut aged) = (false, false);
        let mut behind = BTreeMap::new();
        for old in &before.holdings {
            let was = self.behind.get(&old.number).copied();
            ran_out |= was.is_some_and(|was| on < was) && old.age + on >= old.lease;
            if !after.holdings.iter().any(|new| is_still(new, old, on)) {
                continue;
            }
            if set_back {
                behind.insert(old.number, was.unwrap_or(0) + step.unsigned_abs());
            } else if let Some(was) = was {
                aged |= 0 < was && was <= on;
                behind.insert(old.number, was.saturating_sub(on));
            }
        }
        self.behind = behind;

        coverage.mark(Mark::CreptBack, crept && !before.holdings.is_empty());
        coverage.mark(Mark::RanOutWhileSetBack, ran_out);
        coverage.mark(Mark::AgedBackAndForth, aged);
    }
}

/// The entry that was held, its stamp too, so many seconds on.
fn is_still(new: &Holding, old: &Holding, on: u64) -> bool {
    new.number == old.number
        && (new.lease, new.age) == (old.lease, old.age + on)
        && (new.address, new.port) == (old.address, old.port)
        && new.question == old.question
}

#[cfg(test)]
mod tests {
    use super::*;
    use crate::clock::Weeks;
    use crate::tally::{self, Question};

    const START: u32 = 500_000;

    fn held(leases: &[u64]) -> Option<Tally> {
        let holdings = leases.iter().zip(1..).map(|(&lease, number)| {
            let question = Question { name: vec![0], qtype: 1, qclass: number as u16 };
            let (address, port, age, established) = ([0; 16], 0, 0, true);
            Holding { address, port, question, number, lease, age, established }
        });
        let holdings = holdings.collect();
        let (weeks, place) = (1_024, START.into());
        Some(Tally { weeks, place, count: 0, slots: 9, roster: vec![], holdings })
    }

    /// The marks that a tick reaches, at seconds from the start.
    fn tick(set_back: &mut SetBack, known: &mut Option<Tally>, at: i32) -> Vec<Mark> {
        let before = known.clone().unwrap();
        let place = START.wrapping_add_signed(at);
        assert_eq!(tally::tick(known, 0, place).number, 0);
        let step = Weeks::Ten.step(before.place as u64, place.into());
        marks(set_back, step, &before, known.as_ref().unwrap())
    }

    fn marks(set_back: &mut SetBack, step: i64, before: &Tally, after: &Tally) -> Vec<Mark> {
        let mut coverage = Coverage::default();
        set_back.call(&mut coverage, step, before, after);
        let all = Mark::ALL.iter().map(|&(mark, _)| mark);
        all.filter(|&mark| coverage.marks[mark as usize] > 0).collect()
    }

    /// Ticks on entries with these leases, and the marks that each reaches.
    fn run(leases: &[u64], ticks: &[(i32, &[Mark])]) {
        let (mut set_back, mut known) = (SetBack::default(), held(leases));
        for &(at, marks) in ticks {
            assert_eq!(tick(&mut set_back, &mut known, at), marks, "{at} of {ticks:?}");
        }
    }

    #[test]
    fn entries_aged_and_run_out_after_steps_back() {
        use Mark::{AgedBackAndForth as Aged, RanOutWhileSetBack as RanOut};
        // Aged when steps forward have made up for the step back, and once for each step back.
        run(&[300], &[(-61, &[]), (-1, &[]), (0, &[Aged]), (1, &[]), (239, &[])]);
        run(&[300], &[(-61, &[]), (1, &[Aged]), (-60, &[]), (0, &[]), (1, &[Aged])]);
        // Two steps back in a row are made up for together.
        run(&[300], &[(-61, &[]), (-122, &[]), (-1, &[]), (0, &[Aged])]);
        // What runs out is not held still; it is marked if the clock has not come back before.
        run(&[60], &[(-61, &[]), (-2, &[]), (-1, &[RanOut])]);
        run(&[61], &[(-61, &[]), (0, &[])]);
        run(&[60, 61, 62], &[(-61, &[]), (-1, &[RanOut]), (0, &[Aged])]);
        run(&[60], &[(-31_536, &[]), (-31_477, &[]), (-31_476, &[RanOut])]);
        // Nor does a step back that changes nothing count.
        run(&[60], &[(-60, &[]), (0, &[]), (-59, &[]), (59, &[]), (60, &[])]);
        run(&[], &[(-61, &[]), (0, &[])]);
    }

    #[test]
    fn a_clock_that_creeps_back() {
        let crept: &[Mark] = &[Mark::CreptBack];
        run(&[60], &[(-10, &[]), (-20, &[]), (-60, &[]), (-61, crept), (-71, &[])]);
        run(&[60], &[(-1, &[]), (-2, &[]), (-3, &[]), (-63, crept)]);
        // From the last reading too it is a large step.
        run(&[60], &[(-1, &[]), (-2, &[]), (-3, &[]), (-64, &[])]);
        // Too few readings, or some that do not go further back.
        run(&[60], &[(-10, &[]), (-20, &[]), (-61, &[])]);
        run(&[60], &[(-10, &[]), (-20, &[]), (-20, &[]), (-60, &[]), (-61, &[])]);
        run(&[60], &[(-10, &[]), (-20, &[]), (-30, &[]), (0, &[]), (-61, &[])]);
        run(&[], &[(-10, &[]), (-20, &[]), (-60, &[]), (-61, &[])]);
    }

    #[test]
    fn a_new_stamp_begins_anew() {
        let mut set_back = SetBack::default();
        let mut known = held(&[100]);
        assert_eq!(tick(&mut set_back, &mut known, 10), []);
        assert_eq!(tick(&mut set_back, &mut known, -61), []);
        // Refreshed: by this call it is no older.
        let before = known.clone().unwrap();
        known.as_mut().unwrap().holdings[0].age = 0;
        assert_eq!(marks(&mut set_back, 0, &before, known.as_ref().unwrap()), []);
        assert_eq!(tick(&mut set_back, &mut known, 10), []);
        assert_eq!(tick(&mut set_back, &mut known, 39), []);
        assert_eq!(known.unwrap().holdings, []);
    }
}

//! The leases that replies have told of each entry, so that a list can send them again, and the
//! places of its span that a response's lease has met.

use crate::coverage::{Coverage, Mark};
use crate::tally::datagram::{Datagram, Sent};
use crate::tally::{Answer, Case, Holding, Tally};
use std::collections::BTreeMap;

/// The leases told of one entry.
#[derive(Clone, PartialEq, Eq, Default, Debug)]
pub struct OfEntry {
    /// Since it was granted, or refreshed last.
    pub since: Vec<u32>,
    /// Before it was refreshed.
    pub before: Vec<u32>,
}

/// The leases told of every entry, by its LLQ number.
#[derive(Default)]
pub struct ToldLeases(BTreeMap<u64, OfEntry>);

/// Nothing told.
static NOTHING: OfEntry = OfEntry { since: Vec::new(), before: Vec::new() };

impl ToldLeases {
    pub fn of(&self, number: u64) -> &OfEntry {
        self.0.get(&number).unwrap_or(&NOTHING)
    }

    /// Of entries that are no longer held nothing is kept.
    pub fn keep(&mut self, tally: Option<&Tally>) {
        let holdings = tally.map_or(&[][..], |tally| &tally.holdings);
        self.0.retain(|&number, _| holdings.iter().any(|holding| holding.number == number));
    }

    /// The options of an answered datagram in order: marks what each met, and takes in what it was told.
    pub fn datagram(&mut self, coverage: &mut Coverage, asked: &Datagram, answer: &Answer) {
        let mut renewed = Vec::new();
        let sent = asked.options_by_question().unwrap_or_default();
        let options = answer.reply[answer.reply.len() - 22 * sent.len()..].chunks(22);
        for (at, (sent, option)) in sent.iter().zip(options).enumerate() {
            let case = answer.cases[at];
            if let Some(holding) = &answer.found[at] {
                self.mark(coverage, case, holding, sent);
                let behind = renewed.contains(&holding.number);
                coverage.mark(Mark::SetupBehindRefresh, case == Case::Found && behind);
            }
            let number = option[10..18].iter().fold(0, |number, &b| number << 8 | u64::from(b));
            let lease = option[18..].iter().fold(0, |number, &b| number << 8 | u32::from(b));
            self.tell(case, number, lease);
            if case == Case::Renewed {
                renewed.push(number);
            }
        }
    }

    fn tell(&mut self, case: Case, number: u64, lease: u32) {
        match case {
            Case::Granted | Case::GrantedFromReserve => {
                self.0.insert(number, OfEntry { since: vec![lease], before: vec![] });
            }
            Case::Found | Case::Established | Case::EstablishedAgain => {
                self.0.entry(number).or_default().since.push(lease);
            }
            Case::Renewed => {
                let told = self.0.entry(number).or_default();
                let since = std::mem::replace(&mut told.since, vec![lease]);
                told.before.extend(since);
            }
            Case::Ended => {
                self.0.remove(&number);
            }
            _ => {}
        }
    }

    /// A setup or response that found this holding: the place of its lease, at an age over 0.
    fn mark(&self, coverage: &mut Coverage, case: Case, holding: &Holding, sent: &Sent) {
        let aged = holding.age > 0;
        let setup = case == Case::Found && aged;
        coverage.mark(Mark::SetupAgainPending, setup && !holding.established);
        coverage.mark(Mark::SetupAgainEstablished, setup && holding.established);

        let response =
            matches!(case, Case::Established | Case::EstablishedAgain | Case::NoResponse);
        if !response || sent.number != holding.number {
            return;
        }
        let lease = u64::from(sent.lease);
        let (lower, upper) = (holding.lease - holding.age, holding.lease);
        let inside = lower < lease && lease < upper;
        let told = self.of(holding.number);
        let since = told.since.contains(&sent.lease);
        coverage.mark(Mark::LeaseOneUnder, aged && lease + 1 == lower);
        coverage.mark(Mark::LeaseLowerEnd, aged && lease == lower);
        coverage.mark(Mark::LeaseTold, aged && inside && since);
        coverage.mark(Mark::LeaseInside, aged && inside && !since);
        coverage.mark(Mark::LeaseUpperEnd, aged && lease == upper);
        coverage.mark(Mark::LeaseOneOver, aged && lease == upper + 1);
        // It was right, and is judged by the span that the refresh left.
        let refreshed = told.before.contains(&sent.lease) && !since;
        coverage.mark(Mark::LeaseBeforeRefresh, refreshed && case == Case::NoResponse);
    }
}

#[cfg(test)]
mod tests {
    use super::*;
    use crate::tally::Question;

    /// The marks that an option with this case, number and lease reaches.
    fn marks(
        told: &ToldLeases,
        holding: &Holding,
        case: Case,
        number: u64,
        lease: u32,
    ) -> Vec<Mark> {
        let mut coverage = Coverage::default();
        let sent = Sent { version: 1, opcode: 1, error: 0, number, lease };
        told.mark(&mut coverage, case, holding, &sent);
        let all = Mark::ALL.iter().map(|&(mark, _)| mark);
        all.filter(|&mark| coverage.marks[mark as usize] > 0).collect()
    }

    #[test]
    fn marks_say_where_a_lease_lies() {
        let question = Question { name: vec![0], qtype: 1, qclass: 1 };
        let (address, port, number) = ([0; 16], 0, 7);
        let aged = |age, established| {
            let question = question.clone();
            Holding { address, port, question, number, lease: 100, age, established }
        };
        let mut told = ToldLeases::default();
        told.tell(Case::Granted, 7, 300);
        told.tell(Case::Found, 7, 250);
        told.tell(Case::Established, 7, 95);
        told.tell(Case::Renewed, 7, 100);
        told.tell(Case::Found, 7, 97);
        for (lease, case, mark) in [
            (88, Case::NoResponse, None),
            (89, Case::NoResponse, Some(Mark::LeaseOneUnder)),
            (90, Case::Established, Some(Mark::LeaseLowerEnd)),
            (91, Case::EstablishedAgain, Some(Mark::LeaseInside)),
            (95, Case::EstablishedAgain, Some(Mark::LeaseInside)),
            (97, Case::Established, Some(Mark::LeaseTold)),
            (99, Case::Established, Some(Mark::LeaseInside)),
            (100, Case::Established, Some(Mark::LeaseUpperEnd)),
            (101, Case::NoResponse, Some(Mark::LeaseOneOver)),
            (102, Case::NoResponse, None),
            (250, Case::NoResponse, Some(Mark::LeaseBeforeRefresh)),
            (300, Case::NoResponse, Some(Mark::LeaseBeforeRefresh)),
        ] {
            let mark: Vec<Mark> = mark.into_iter().collect();
            assert_eq!(marks(&told, &aged(10, true), case, 7, lease), mark, "{lease}");
            // By another number it is no response to this entry.
            assert_eq!(marks(&told, &aged(10, true), Case::NoResponse, 8, lease), []);
        }
        for (age, established, mark) in [
            (0, false, None),
            (0, true, None),
            (1, false, Some(Mark::SetupAgainPending)),
            (1, true, Some(Mark::SetupAgainEstablished)),
        ] {
            let mark: Vec<Mark> = mark.into_iter().collect();
            assert_eq!(marks(&told, &aged(age, established), Case::Found, 0, 90), mark);
        }
        // At age 0 the ends are one.
        for lease in [99, 100, 101] {
            assert_eq!(marks(&told, &aged(0, false), Case::NoResponse, 7, lease), []);
        }
    }

    #[test]
    fn leases_are_told_by_entry() {
        let mut told = ToldLeases::default();
        told.tell(Case::Granted, 7, 100);
        told.tell(Case::Found, 7, 95);
        told.tell(Case::FullAtLimit, 0, 60);
        told.tell(Case::GrantedFromReserve, 8, 60);
        told.tell(Case::Established, 7, 90);
        told.tell(Case::NoResponse, 0, 0);
        assert_eq!(*told.of(7), OfEntry { since: vec![100, 95, 90], before: vec![] });
        told.tell(Case::Renewed, 7, 300);
        told.tell(Case::EstablishedAgain, 7, 299);
        assert_eq!(*told.of(7), OfEntry { since: vec![300, 299], before: vec![100, 95, 90] });
        assert_eq!(*told.of(8), OfEntry { since: vec![60], before: vec![] });
        assert_eq!(*told.of(0), NOTHING);
        told.tell(Case::Ended, 7, 0);
        assert_eq!(*told.of(7), NOTHING);
        told.keep(None);
        assert_eq!(*told.of(8), NOTHING);
    }
}

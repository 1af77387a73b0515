//! Random lists of makings, ticks and datagrams on one table.

mod damage;
mod message;
mod world;

use crate::clock::Weeks;
use crate::random::Random;
use crate::script::{Datagram, Step};
use crate::table;
use crate::tally::{Holding, Tally};
use crate::told::ToldLeases;
use world::World;

const YEAR: i64 = 31_536_000;

/// Week and second.
type Reading = (u32, u32);

/// The tables that lists are on.
#[derive(Clone, Copy, PartialEq, Eq, Debug)]
pub enum Widths {
    /// With weeks of ten bits or of thirteen, as each list draws it.
    Both,
    /// With weeks of ten bits; no buffer has the length of a table with others.
    TenBits,
}

/// What a list does to its table besides calling.
#[derive(Clone, Copy, PartialEq, Eq)]
enum Kind {
    /// Nothing: an answered making first, then calls.
    Undamaged,
    /// Edits it, mostly into another sound table.
    Edited,
    /// Damages it for a call or two.
    Damaged,
    /// Calls it before anything is made, or at a length that no table has.
    Unmade,
}

/// One list, its steps made one by one as the calls go on.
pub struct List {
    random: Random,
    world: World,
    kind: Kind,
    steps_left: usize,
    /// Steps already decided on.
    ahead: Vec<Step>,
    /// Readings already decided on, the next one last.
    readings: Vec<Reading>,
}

impl List {
    pub fn new(seed: u64, widths: Widths) -> List {
        let mut random = Random::new(seed);
        let world = World::new(&mut random, widths);
        let kind = match random.below(100) {
            0..58 => Kind::Undamaged,
            58..76 => Kind::Edited,
            76..94 => Kind::Damaged,
            _ => Kind::Unmade,
        };
        let steps_left = match kind {
            Kind::Unmade => 6,
            _ => 10 + random.below(40) + 2 * world.slots,
        };
        let (ahead, readings) = (Vec::new(), Vec::new());
        let mut list = List { random, world, kind, steps_left, ahead, readings };
        list.begin();
        list
    }

    fn begin(&mut self) {
        let random = &mut self.random;
        let mut length = self.world.length();
        if self.kind == Kind::Unmade && random.percent(75) {
            length = match random.below(14) {
                0 => random.below(318),
                1..4 => 313,
                4..6 => 317,
                6 => *random.pick(&[313 + 320 * 65, 317 + 320 * 65]),
                7 => length + 1,
                8 => length - 1,
                // Between the two lengths of one n.
                9 => 314 + 320 * random.pick(&[0, 1, self.world.slots, 64]) + random.below(3),
                10 => 0,
                11 => 317 + 320 * 64 + 1 + random.below(315),
                _ => random.below(25_000),
            };
            if self.world.widths == Widths::TenBits && is_wide(length) {
                length += 1;
            }
        }
        self.ahead.push(Step::Buffer { length, seed: random.number() });
        if self.kind == Kind::Unmade {
            return;
        }
        while random.percent(25) {
            let weeks = self.world.weeks;
            let last = (weeks.count() - 1, 604_799);
            let reading = if random.percent(60) { wrong_reading(random, weeks) } else { last };
            let roster = if random.percent(60) {
                self.world.wrong_roster(random)
            } else {
                self.world.roster(random)
            };
            self.ahead.push(Step::Make { week: reading.0, second: reading.1, roster });
        }
        let cycle = self.world.cycle();
        let wide = self.world.weeks == Weeks::Thirteen;
        let place = match random.below(6) {
            0 => cycle - 1,
            1 => cycle - 1 - random.between(0, 300),
            2 => 0,
            3 => cycle / 2 + random.between(-2, 2),
            // Week 1,024's start, and the ends of 31 and 32 bits.
            4 if wide => *random.pick(&[1_024 * 604_800, 1 << 31, 1 << 32]) - random.between(0, 99),
            _ => random.between(0, cycle - 1),
        };
        let (week, second) = reading_of(place);
        self.ahead.push(Step::Make { week, second, roster: self.world.roster(random) });
        if random.percent(6) {
            self.run_the_count_up(place);
        }
        self.ahead.reverse();
    }

    /// Ticks that bring the running count close to its wrap.
    fn run_the_count_up(&mut self, mut place: i64) {
        let mut left = 4_294_967_295 - self.random.between(0, 80);
        let cycle = self.world.cycle();
        while left > 0 {
            let step = left.min(cycle / 2 - 1);
            place = (place + step) % cycle;
            left -= step;
            let (week, second) = reading_of(place);
            self.ahead.push(Step::Tick { week, second });
        }
    }

    /// The next step, or nothing at the list's end.
    pub fn next(&mut self, tally: Option<&Tally>, table: &[u8], told: &ToldLeases) -> Option<Step> {
        if let Some(step) = self.ahead.pop() {
            return Some(step);
        }
        self.steps_left = self.steps_left.checked_sub(1)?;
        let random = &mut self.random;
        let sound = tally.is_some();
        match self.kind {
            Kind::Edited if sound && random.percent(15) => {
                self.ahead = damage::sound_edits(random, &self.world, table);
                self.ahead.reverse();
                return self.ahead.pop();
            }
            Kind::Damaged if sound && random.percent(40) => {
                let step = damage::damage(random, &self.world, table);
                self.ahead.push(match &step {
                    Step::Edit { at, bytes } => {
                        Step::Edit { at: *at, bytes: table[*at..*at + bytes.len()].to_vec() }
                    }
                    _ => Step::Table { bytes: table.to_vec() },
                });
                for _ in 0..*random.pick(&[1, 1, 2]) {
                    let ticks = self.random.percent(40);
                    let call = if ticks { self.tick(tally) } else { self.serve(tally, told) };
                    self.ahead.push(call);
                }
                return Some(step);
            }
            _ => {}
        }
        let choice = self.random.below(100);
        Some(match choice {
            // A table that is to fill is seldom made anew.
            0..3 if !self.world.filling || self.random.percent(30) => self.make(tally),
            3..18 => self.tick(tally),
            _ if !sound && choice < 60 => self.make(tally),
            _ => self.serve(tally, told),
        })
    }

    fn make(&mut self, tally: Option<&Tally>) -> Step {
        let (week, second) = self.reading(tally);
        let random = &mut self.random;
        let roster = if random.percent(50) {
            self.world.wrong_roster(random)
        } else {
            self.world.roster(random)
        };
        Step::Make { week, second, roster }
    }

    fn tick(&mut self, tally: Option<&Tally>) -> Step {
        let (week, second) = self.reading(tally);
        Step::Tick { week, second }
    }

    fn serve(&mut self, tally: Option<&Tally>, told: &ToldLeases) -> Step {
        let (week, second) = self.reading(tally);
        let then = tally.map(|tally| aged(tally, (week, second)));
        let message = message::message(&mut self.random, &self.world, then.as_ref(), told);
        let address = u128::from_be_bytes(message.from.0);
        Step::Serve(Datagram {
            week,
            second,
            address_high: (address >> 64) as u64,
            address_low: address as u64,
            port: message.from.1,
            random: message.random,
            fill: self.random.byte(),
            reply_length: message.reply_length,
            bytes: message.bytes,
        })
    }

    /// A reading at some step from the last place.
    fn reading(&mut self, tally: Option<&Tally>) -> Reading {
        if let Some(reading) = self.readings.pop() {
            return reading;
        }
        let random = &mut self.random;
        let (weeks, cycle) = (self.world.weeks, self.world.cycle());
        let half = cycle / 2;
        let place = tally.map_or(0, |tally| tally.place);
        let at = |step: i64| reading_of((place + step).rem_euclid(cycle));
        let holdings = tally.map_or(&[][..], |tally| &tally.holdings);
        let step = match random.below(100) {
            0..45 => 0,
            45..93 if self.world.filling && random.percent(95) => random.between(0, 1),
            45..70 => random.between(1, 9),
            70..76 => random.between(1, 60),
            76..86 if !holdings.is_empty() => {
                // Just before, at or after the end of a lease.
                let holding = random.pick(holdings);
                (holding.lease - holding.age) as i64 + random.between(-1, 1)
            }
            86 => -random.between(1, 100),
            87..89 => *random.pick(&[-59, -60, -61, -62, -YEAR, -half, 1 - half]),
            89 if !holdings.is_empty() => {
                let steps = steps_back(random, holdings, half).into_iter().rev();
                self.readings = steps.map(at).collect();
                return self.reading(tally);
            }
            90 => *random.pick(&[59, 60, 61, 7_199, 7_200, 7_201, 604_800, -604_800]),
            91 => longest_step(random, weeks),
            92 => random.between(0, cycle - 1),
            93 => cycle - place - random.between(0, 1),
            94..97 => return wrong_reading(random, weeks),
            97 => {
                self.readings = around_the_end(random);
                return self.reading(tally);
            }
            _ if self.kind == Kind::Unmade && random.percent(30) => {
                return wrong_reading(random, weeks)
            }
            _ => 0,
        };
        at(step)
    }
}

/// A buffer of this length is a table for weeks of thirteen bits.
fn is_wide(length: usize) -> bool {
    matches!(table::shape_of(length), Some((Weeks::Thirteen, _)))
}

/// About half a cycle; of thirteen bits also what 31 bits do not hold, and a cycle of ten bits.
fn longest_step(random: &mut Random, weeks: Weeks) -> i64 {
    let half = weeks.cycle() as i64 / 2;
    let over_31_bits = [(1 << 31) - 1, 1 << 31, (1 << 31) + 1, -(1 << 31), -(1 << 31) - 1];
    match weeks {
        Weeks::Thirteen if random.percent(30) => *random.pick(&over_31_bits),
        Weeks::Thirteen if random.percent(20) => {
            random.pick(&[-1, 1]) * Weeks::Ten.cycle() as i64 + random.between(0, 1)
        }
        _ => half + random.between(-2, 1),
    }
}

/// Readings one after the other that go back while entries are held, each by its distance from the
/// place before the first.
fn steps_back(random: &mut Random, holdings: &[Holding], half: i64) -> Vec<i64> {
    match random.below(8) {
        // By 10 seconds a call, to more than 60.
        0..2 => (1..=8).map(|calls| -10 * calls).collect(),
        2 => vec![-60, 0, -60, 0],
        3..5 => vec![-61, 0, -61, 0],
        5..7 => {
            // Far back, and on to the end of a lease.
            let holding = random.pick(holdings);
            let left = (holding.lease - holding.age) as i64 + random.between(-1, 1);
            let back = *random.pick(&[-61, -YEAR, -YEAR, -half]);
            vec![back, back + left]
        }
        // A wild reading and the right one again.
        _ => vec![*random.pick(&[-YEAR, YEAR]), 1],
    }
}

/// Readings on both sides of the end of week 1,023 or 8,191, the first of them last. Behind it comes
/// the next week, which weeks of as many bits do not have, or week 0.
fn around_the_end(random: &mut Random) -> Vec<Reading> {
    let week = *random.pick(&[1_023, 8_191]);
    let seconds = random.below(3) as u32;
    vec![(*random.pick(&[week + 1, week + 1, 0]), seconds), (week, 604_799 - seconds)]
}

/// The tally with the ages that its holdings have at a reading; what has run out is still there.
fn aged(tally: &Tally, (week, second): Reading) -> Tally {
    let mut then = tally.clone();
    let cycle = tally.weeks * 604_800;
    let step = (i64::from(week) * 604_800 + i64::from(second) - tally.place).rem_euclid(cycle);
    if i64::from(week) < tally.weeks && second < 604_800 && step < cycle / 2 {
        then.holdings.iter_mut().for_each(|holding| holding.age += step as u64);
    }
    then
}

fn reading_of(place: i64) -> Reading {
    ((place / 604_800) as u32, (place % 604_800) as u32)
}

fn wrong_reading(random: &mut Random, weeks: Weeks) -> Reading {
    let week = match weeks {
        Weeks::Ten => *random.pick(&[1_024, 1_025, 2_048, 8_191, 8_192, 0x8000_0000, u32::MAX]),
        Weeks::Thirteen => *random.pick(&[8_192, 8_193, 16_384, 0x8000_0000, u32::MAX]),
    };
    let second = *random.pick(&[604_800, 604_801, 1_000_000, 0x8000_0000, u32::MAX]);
    match random.below(3) {
        0 => (week, random.below(604_800) as u32),
        1 => (random.below(weeks.count() as usize) as u32, second),
        _ => (week, second),
    }
}

#[cfg(test)]
mod tests {
    use super::*;

    /// The lengths of the buffers that lists begin with.
    fn lengths(widths: Widths) -> Vec<usize> {
        let length = |seed| match List::new(seed, widths).ahead.pop() {
            Some(Step::Buffer { length, .. }) => length,
            _ => panic!("a list begins with its buffer"),
        };
        (0..20_000).map(length).collect()
    }

    #[test]
    fn lists_are_on_tables_of_both_widths_or_of_ten_bits_alone() {
        let both = lengths(Widths::Both);
        for wrong in [313, 314, 315, 316, 317, 634, 635, 636, 21_113, 21_117] {
            assert!(both.contains(&wrong), "{wrong}");
        }
        for slots in [1, 2, 63, 64] {
            assert!(both.contains(&(313 + 320 * slots)));
            assert!(both.contains(&(317 + 320 * slots)));
        }
        let of = |weeks| {
            let shapes = both.iter().filter_map(|&length| table::shape_of(length));
            shapes.filter(|shape| shape.0 == weeks).count()
        };
        let (narrow, wide) = (of(Weeks::Ten), of(Weeks::Thirteen));
        assert!(wide <= narrow && narrow < 2 * wide, "{wide} and {narrow}");
        assert!(!lengths(Widths::TenBits).into_iter().any(is_wide));
    }
}

//! The clock: readings, places, steps, the running count and ages, for weeks of ten and of thirteen bits.

pub const WEEK: u32 = 604_800;
/// A step back of this many seconds or less changes nothing.
pub const SMALL_STEP_BACK: i64 = 60;

/// How many bits a receiver's week has. The table's length says it of every reading.
#[derive(Clone, Copy, PartialEq, Eq, Debug)]
pub enum Weeks {
    Ten,
    Thirteen,
}

impl Weeks {
    /// How many weeks there are: 1,024 or 8,192.
    pub const fn count(self) -> u32 {
        match self {
            Weeks::Ten => 1 << 10,
            Weeks::Thirteen => 1 << 13,
        }
    }

    /// Their seconds, after which places come around: 619,315,200 or 4,954,521,600.
    pub const fn cycle(self) -> u64 {
        self.count() as u64 * WEEK as u64
    }

    /// The place of a reading, or nothing if its week or second is too large.
    pub fn place(self, week: u32, second: u32) -> Option<u64> {
        (week < self.count() && second < WEEK).then(|| place_of(week, second))
    }

    /// The difference of two places, brought by whole cycles into -309,657,600 to 309,657,599 or
    /// -2,477,260,800 to 2,477,260,799. Both places are under the cycle.
    pub fn step(self, from: u64, to: u64) -> i64 {
        let cycle = self.cycle() as i64;
        let half = cycle / 2;
        let difference = to.wrapping_sub(from) as i64;
        if difference >= half {
            difference - cycle
        } else if difference < -half {
            difference + cycle
        } else {
            difference
        }
    }
}

/// Week and second together, in seconds.
pub fn place_of(week: u32, second: u32) -> u64 {
    u64::from(week) * u64::from(WEEK) + u64::from(second)
}

/// The running count less the stamp, modulo 2^32.
pub fn age(count: u32, stamp: u32) -> u32 {
    count.wrapping_sub(stamp)
}

#[derive(Clone, Copy, PartialEq, Eq, Debug)]
pub struct Clock {
    pub weeks: Weeks,
    pub place: u64,
    pub count: u32,
}

impl Clock {
    pub fn moved(self, place: u64) -> Clock {
        self.moved_by(self.weeks.step(self.place, place), place)
    }

    /// A step of 0 or more is added to the count and the new place kept. A negative step of 60
    /// seconds or less changes nothing; a larger one leaves the count and keeps the new place.
    pub fn moved_by(self, step: i64, place: u64) -> Clock {
        if step >= 0 {
            // No step is longer than 2^32.
            Clock { place, count: self.count.wrapping_add(step as u32), ..self }
        } else if step >= -SMALL_STEP_BACK {
            self
        } else {
            Clock { place, ..self }
        }
    }
}

#[cfg(test)]
mod tests {
    use super::*;
    use crate::moves::{MOVES, WIDE_MOVES};
    use Weeks::{Ten, Thirteen};

    #[test]
    fn cycles() {
        assert_eq!((Ten.count(), Ten.cycle()), (1_024, 619_315_200));
        assert_eq!((Thirteen.count(), Thirteen.cycle()), (8_192, 4_954_521_600));
    }

    #[test]
    fn readings_have_places() {
        for weeks in [Ten, Thirteen] {
            assert_eq!(weeks.place(0, 0), Some(0));
            assert_eq!(weeks.place(1, 0), Some(604_800));
            assert_eq!(weeks.place(1_023, 604_799), Some(619_315_199));
            assert_eq!(weeks.place(0, 604_800), None);
            assert_eq!(weeks.place(8_192, 0), None);
            assert_eq!(weeks.place(u32::MAX, u32::MAX), None);
        }
        for (week, second, place) in [
            (1_024, 0, 619_315_200),
            (7_101, 282_495, 4_294_967_295),
            (7_101, 282_496, 4_294_967_296),
            (8_191, 604_799, 4_954_521_599),
        ] {
            assert_eq!(Ten.place(week, second), None);
            assert_eq!(Thirteen.place(week, second), Some(place));
        }
        assert_eq!(Thirteen.place(8_191, 604_800), None);
    }

    #[test]
    fn steps_reach_both_ends() {
        assert_eq!(Ten.step(0, 0), 0);
        assert_eq!(Ten.step(0, 309_657_599), 309_657_599);
        assert_eq!(Ten.step(0, 309_657_600), -309_657_600);
        assert_eq!(Ten.step(309_657_600, 0), -309_657_600);
        assert_eq!(Ten.step(309_657_601, 0), 309_657_599);
        assert_eq!(Ten.step(309_657_599, 0), -309_657_599);
        assert_eq!(Ten.step(0, 619_315_199), -1);
        assert_eq!(Ten.step(619_315_199, 0), 1);
    }

    #[test]
    fn wide_steps_reach_both_ends() {
        assert_eq!(Thirteen.step(0, 0), 0);
        assert_eq!(Thirteen.step(0, 2_477_260_799), 2_477_260_799);
        assert_eq!(Thirteen.step(0, 2_477_260_800), -2_477_260_800);
        assert_eq!(Thirteen.step(2_477_260_800, 0), -2_477_260_800);
        assert_eq!(Thirteen.step(2_477_260_801, 0), 2_477_260_799);
        assert_eq!(Thirteen.step(2_477_260_799, 0), -2_477_260_799);
        assert_eq!(Thirteen.step(0, 4_954_521_599), -1);
        assert_eq!(Thirteen.step(4_954_521_599, 0), 1);
        assert_eq!(Thirteen.step(10, 9), -1);
        // Past 31 bits either way, and over the ends of ten bits.
        assert_eq!(Thirteen.step(0, 2_147_483_648), 2_147_483_648);
        assert_eq!(Thirteen.step(2_147_483_649, 0), -2_147_483_649);
        assert_eq!(Thirteen.step(0, 309_657_600), 309_657_600);
        assert_eq!(Thirteen.step(619_315_199, 619_315_200), 1);
        assert_eq!(Thirteen.step(619_315_199, 0), -619_315_199);
    }

    /// Around either cycle a step is found from any place, and no other number is one.
    #[test]
    fn steps_are_the_same_from_every_place() {
        for weeks in [Ten, Thirteen] {
            let cycle = weeks.cycle();
            let half = cycle as i64 / 2;
            for from in [0, 1, 60, cycle / 2 - 1, cycle / 2, cycle / 2 + 1, cycle - 61, cycle - 1] {
                for step in [-half, 1 - half, -61, -60, -1, 0, 1, 60, half - 2, half - 1] {
                    let to = (from as i64 + step).rem_euclid(cycle as i64) as u64;
                    assert_eq!(weeks.step(from, to), step, "{weeks:?} {from}");
                }
            }
        }
    }

    #[test]
    fn clocks_move() {
        for (weeks, moves) in [(Ten, &MOVES[..]), (Thirteen, &WIDE_MOVES)] {
            for &((from, before), to, (place, count)) in moves {
                let moved = Clock { weeks, place: from, count: before }.moved(to);
                assert_eq!(moved, Clock { weeks, place, count }, "{from} to {to}");
            }
        }
    }
}

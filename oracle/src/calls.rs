//! The three calls. Each judges everything before it writes its first byte.

use crate::clock::Clock;
use crate::fault::{self, Fault};
use crate::query::{Query, Sender, LONGEST_DATAGRAM};
use crate::rules::{Law, Rules};
use crate::serve::{self, Writer};
use crate::sound;
use crate::table::{self, Table, LINES, LISTED, UNUSED_LINE};

#[derive(Clone, Copy, PartialEq, Eq, Debug)]
pub struct Ticked {
    pub number: u32,
    pub freed: u32,
}

#[derive(Clone, Copy, PartialEq, Eq, Debug)]
pub struct Served {
    pub number: u32,
    pub length: u32,
}

/// Makes a table: 0, 1, 2 or 9.
pub fn make(week: u32, second: u32, table: &mut [u8], roster: &[u8]) -> u32 {
    make_by::<Law>(week, second, table, roster)
}

/// Moves the clock and frees run-out entries: 0, 1 or 2.
pub fn tick(week: u32, second: u32, table: &mut [u8]) -> Ticked {
    tick_by::<Law>(week, second, table)
}

/// Serves a datagram: 0 to 8.
#[allow(clippy::too_many_arguments)]
pub fn serve(
    week: u32,
    second: u32,
    address_high: u64,
    address_low: u64,
    port: u16,
    random: u64,
    datagram: &[u8],
    table: &mut [u8],
    reply: &mut [u8],
) -> Served {
    let sender = Sender { address: u128::from(address_high) << 64 | u128::from(address_low), port };
    serve_by::<Law>(week, second, sender, random, datagram, table, reply)
}

pub fn make_by<R: Rules>(week: u32, second: u32, table: &mut [u8], roster: &[u8]) -> u32 {
    match made::<R>(week, second, table, roster) {
        Ok(()) => fault::DONE,
        Err(number) => number,
    }
}

pub fn tick_by<R: Rules>(week: u32, second: u32, table: &mut [u8]) -> Ticked {
    match ticked::<R>(week, second, table) {
        Ok(freed) => Ticked { number: fault::DONE, freed },
        Err(number) => Ticked { number, freed: 0 },
    }
}

pub fn serve_by<R: Rules>(
    week: u32,
    second: u32,
    sender: Sender,
    random: u64,
    datagram: &[u8],
    table: &mut [u8],
    reply: &mut [u8],
) -> Served {
    match served::<R>(week, second, sender, random, datagram, table, reply) {
        Ok(length) => Served { number: fault::DONE, length: length as u32 },
        Err(number) => Served { number, length: 0 },
    }
}

/// Writes the reading's place, running count 0, the roster in the order given, free slots.
fn made<R: Rules>(week: u32, second: u32, table: &mut [u8], roster: &[u8]) -> Result<(), u32> {
    let mut table = Table::new(table).ok_or(fault::UNSOUND)?;
    let place = R::place(table.weeks, week, second).ok_or(fault::READING)?;
    let (lines, rest) = roster.as_chunks();
    if R::faulty(Fault::RosterLength, !rest.is_empty())
        || R::faulty(Fault::RosterKind, lines.iter().any(|line| line[0] != LISTED))
        || R::faulty(Fault::RosterOver16, lines.len() > LINES)
        || !sound::keeps_roster_rules::<R>(lines, table.slots.len())
    {
        return Err(fault::ROSTER);
    }

    table.clock[0] = R::clock_kind(table.weeks);
    table.set_clock(Clock { weeks: table.weeks, place, count: 0 });
    for (at, line) in table.roster.iter_mut().enumerate() {
        *line = lines.get(at).copied().unwrap_or(UNUSED_LINE);
    }
    table.slots.iter_mut().for_each(table::clear);
    Ok(())
}

fn ticked<R: Rules>(week: u32, second: u32, table: &mut [u8]) -> Result<u32, u32> {
    let mut table = sound_table::<R>(table)?;
    let place = R::place(table.weeks, week, second).ok_or(fault::READING)?;
    Ok(move_on::<R>(&mut table, place))
}

fn served<R: Rules>(
    week: u32,
    second: u32,
    sender: Sender,
    random: u64,
    datagram: &[u8],
    table: &mut [u8],
    reply: &mut [u8],
) -> Result<usize, u32> {
    let mut table = sound_table::<R>(table)?;
    let place = R::place(table.weeks, week, second).ok_or(fault::READING)?;
    let query = Query::read::<R>(datagram)?;
    let length = query.reply_length();
    if length > reply.len() || R::faulty(Fault::ReplyOver1472, length > LONGEST_DATAGRAM) {
        return Err(fault::REPLY);
    }

    move_on::<R>(&mut table, place);
    let mut writer = Writer::new(reply);
    writer.head(&query);
    if query.matched {
        for (question, option) in query.asked() {
            let said = serve::option::<R>(&mut table, sender, random, question, option);
            writer.option(option.opcode, said);
        }
    } else {
        writer.mismatch();
    }
    Ok(length)
}

fn sound_table<R: Rules>(bytes: &mut [u8]) -> Result<Table<'_>, u32> {
    Table::new(bytes).filter(sound::is_sound::<R>).ok_or(fault::UNSOUND)
}

/// The clock moves, then run-out entries are freed; how many these were.
fn move_on<R: Rules>(table: &mut Table, place: u64) -> u32 {
    let clock = R::moved(table.clock(), place);
    table.set_clock(clock);
    let mut freed = 0;
    for slot in 0..table.slots.len() {
        if !table.is_free(slot) && R::run_out(table.entry(slot), clock.count) {
            table.release(slot);
            freed += 1;
        }
    }
    freed
}

#[cfg(test)]
mod tests {
    use super::*;
    use crate::query::{flag, MOST_QUESTIONS};

    const SLOTS_4: usize = 313 + 4 * 320;
    /// With weeks of thirteen bits.
    const WIDE_SLOTS_4: usize = 317 + 4 * 320;

    fn listed(address: u8, share: u8, limit: u8) -> Vec<u8> {
        let mut line = vec![3; 19];
        line[1..17].fill(0);
        line[16] = address;
        line[17] = share;
        line[18] = limit;
        line
    }

    /// A query with one option for each of the names, a setup of this lease.
    fn setups(names: &[&[u8]], lease: u32) -> Vec<u8> {
        let mut bytes = vec![0xAB, 0xCD, flag::RD, 0, 0, names.len() as u8, 0, 0, 0, 0, 0, 1];
        for name in names {
            bytes.extend(*name);
            bytes.extend([0, 12, 0, 1]);
        }
        bytes.extend([0, 0, 41, 0, 0, 0, 0, 0, 0, 0, 22 * names.len() as u8]);
        for _ in names {
            bytes.extend([0, 1, 0, 18, 0, 1, 0, 1, 0, 0, 0, 0, 0, 0, 0, 0, 0, 0]);
            bytes.extend(lease.to_be_bytes());
        }
        bytes
    }

    #[test]
    fn makings() {
        let mut table = vec![0xAA; SLOTS_4];
        assert_eq!(
            make(1_023, 604_799, &mut table, &[listed(1, 2, 3), listed(2, 2, 64)].concat()),
            0
        );
        assert_eq!(table[..9], [1, 0x24, 0xE9, 0xFF, 0xFF, 0, 0, 0, 0]);
        assert_eq!(table[9..28], listed(1, 2, 3));
        assert_eq!(table[28..47], listed(2, 2, 64));
        assert_eq!(table[47..66], UNUSED_LINE);
        assert_eq!(table[313], 4);
        assert_eq!(tick(0, 0, &mut table), Ticked { number: 0, freed: 0 });
        assert_eq!(table[..9], [1, 0, 0, 0, 0, 0, 0, 0, 1]);
    }

    #[test]
    fn wide_makings() {
        let mut table = vec![0xAA; 317 + 320];
        let roster = [listed(1, 1, 3), listed(2, 0, 64)].concat();
        assert_eq!(make(8_191, 604_799, &mut table, &roster), 0);
        assert_eq!(table[..13], [9, 0, 0, 0, 1, 0x27, 0x4F, 0xFF, 0xFF, 0, 0, 0, 0]);
        assert_eq!(table[13..32], listed(1, 1, 3));
        assert_eq!(table[32..51], listed(2, 0, 64));
        assert_eq!(table[51..70], UNUSED_LINE);
        assert_eq!(table[317], 4);
        assert!(table[318..].iter().all(|&byte| byte == 0));
        assert_eq!(tick(0, 0, &mut table), Ticked { number: 0, freed: 0 });
        assert_eq!(table[..13], [9, 0, 0, 0, 0, 0, 0, 0, 0, 0, 0, 0, 1]);
        // Made again, its length is the same, and so are its weeks.
        assert_eq!(make(8_192, 0, &mut table, &[]), 2);
        assert_eq!(make(1_024, 0, &mut table, &[]), 0);
        assert_eq!(table[..13], [9, 0, 0, 0, 0, 0x24, 0xEA, 0, 0, 0, 0, 0, 0]);
    }

    /// The length alone says which weeks are read, and a week is never taken modulo 1,024.
    #[test]
    fn refused_weeks_by_the_table_s_length() {
        for (length, weeks) in [(SLOTS_4, 1_024), (WIDE_SLOTS_4, 8_192)] {
            let mut table = vec![0; length];
            assert_eq!(make(0, 0, &mut table, &[]), 0);
            let query = setups(&[b"\x01a\x00"], 60);
            for week in [0, 1, 1_022, 1_023, 1_024, 1_025, 2_048, 8_191, 8_192, 8_193, u32::MAX] {
                let number = if week < weeks { 0 } else { 2 };
                let mut lent = table.clone();
                assert_eq!(tick(week, 0, &mut lent), Ticked { number, freed: 0 });
                assert_eq!(tick(week, 604_800, &mut lent).number, 2);
                let mut lent = table.clone();
                let mut reply = [0; 52];
                let served = serve(week, 0, 0, 1, 9, 7, &query, &mut lent, &mut reply);
                assert_eq!(served.number, number, "{week}");
                assert_eq!(lent == table, number == 2);
                assert_eq!(make(week, 0, &mut lent, &[]), number);
            }
            // Unsound, it is refused with 1 whatever the reading.
            table[0] ^= 8;
            for week in [0, 1_024, 8_192] {
                assert_eq!(tick(week, 0, &mut table.clone()).number, 1);
            }
        }
    }

    /// An entry ends by a step that 31 bits do not hold, and by no step back.
    #[test]
    fn wide_ticks_free_run_out_entries() {
        let mut table = vec![0; WIDE_SLOTS_4];
        make(8_191, 604_790, &mut table, &[]);
        let mut reply = [0; 200];
        let setup = |week, second, table: &mut [u8], reply: &mut [u8]| {
            let served =
                serve(week, second, 0, 1, 9, 7, &setups(&[b"\x01a\x00"], 60), table, reply);
            assert_eq!(served.number, 0);
        };
        setup(8_191, 604_790, &mut table, &mut reply);
        assert_eq!(table[317], 5);
        for (week, second, freed) in [
            (0, 49, 0),
            // Back by 60 and by 61; on from there.
            (8_191, 604_789, 0),
            (8_191, 604_788, 0),
            (8_191, 604_789, 1),
        ] {
            assert_eq!(tick(week, second, &mut table), Ticked { number: 0, freed });
        }
        assert_eq!(table[..9], [9, 0, 0, 0, 1, 0x27, 0x4F, 0xFF, 0xF5]);
        assert_eq!(table[9..13], 60u32.to_be_bytes());
        // Half a cycle is a step back; a second less is the longest one on, over 2^31.
        setup(8_191, 604_789, &mut table, &mut reply);
        assert_eq!(tick(4_095, 604_789, &mut table), Ticked { number: 0, freed: 0 });
        assert_eq!(table[9..13], 60u32.to_be_bytes());
        assert_eq!(tick(8_191, 604_788, &mut table), Ticked { number: 0, freed: 1 });
        assert_eq!(table[9..13], (60 + 2_477_260_799u32).to_be_bytes());
    }

    #[test]
    fn refused_makings_keep_every_byte() {
        let mut sixteen = Vec::new();
        for address in 0..16 {
            sixteen.extend(listed(address, 0, 1));
        }
        let seventeen = [&sixteen[..], &listed(16, 0, 1)].concat();
        let mut other_kind = listed(1, 0, 1);
        other_kind[0] = 2;
        for (length, week, second, roster, number) in [
            (SLOTS_4, 0, 0, sixteen, 0),
            (SLOTS_4, 0, 0, listed(1, 4, 4), 0),
            (SLOTS_4 - 1, 1_024, 604_800, seventeen.clone(), 1),
            (313, 0, 0, vec![], 1),
            (313 + 65 * 320, 0, 0, vec![], 1),
            (317, 0, 0, vec![], 1),
            (317 + 65 * 320, 0, 0, vec![], 1),
            (WIDE_SLOTS_4 - 1, 8_192, 604_800, seventeen.clone(), 1),
            (WIDE_SLOTS_4 + 1, 8_192, 604_800, seventeen.clone(), 1),
            (WIDE_SLOTS_4, 8_192, 0, seventeen.clone(), 2),
            (WIDE_SLOTS_4, 0, 604_800, vec![], 2),
            (WIDE_SLOTS_4, 8_191, 0, seventeen.clone(), 9),
            (WIDE_SLOTS_4, 8_191, 0, listed(1, 4, 4), 0),
            (WIDE_SLOTS_4, 8_191, 0, listed(1, 5, 5), 9),
            (SLOTS_4, 8_191, 0, vec![], 2),
            (SLOTS_4, 8_192, 0, vec![], 2),
            (SLOTS_4, 1_024, 0, seventeen.clone(), 2),
            (SLOTS_4, 0, 604_800, vec![], 2),
            (SLOTS_4, 0, 0, seventeen, 9),
            (SLOTS_4, 0, 0, other_kind, 9),
            (SLOTS_4, 0, 0, listed(1, 0, 1)[..18].to_vec(), 9),
            (SLOTS_4, 0, 0, [listed(1, 0, 1), vec![3]].concat(), 9),
            (SLOTS_4, 0, 0, [listed(1, 0, 1), listed(1, 0, 2)].concat(), 9),
            (SLOTS_4, 0, 0, listed(1, 2, 1), 9),
            (SLOTS_4, 0, 0, listed(1, 0, 0), 9),
            (SLOTS_4, 0, 0, listed(1, 0, 65), 9),
            (SLOTS_4, 0, 0, listed(1, 5, 5), 9),
            (SLOTS_4, 0, 0, [listed(1, 3, 3), listed(2, 2, 2)].concat(), 9),
        ] {
            let mut table = vec![0xAA; length];
            assert_eq!(make(week, second, &mut table, &roster), number);
            assert!(number == 0 || table == vec![0xAA; length]);
        }
    }

    #[test]
    fn ticks_free_run_out_entries() {
        let mut table = vec![0; SLOTS_4];
        make(1_023, 604_790, &mut table, &[]);
        let mut reply = [0; 200];
        serve(1_023, 604_790, 0, 1, 9, 7, &setups(&[b"\x01a\x00"], 60), &mut table, &mut reply);
        serve(1_023, 604_795, 0, 1, 9, 7, &setups(&[b"\x01b\x00"], 60), &mut table, &mut reply);
        assert_eq!(tick(0, 49, &mut table), Ticked { number: 0, freed: 0 });
        assert_eq!(tick(0, 50, &mut table), Ticked { number: 0, freed: 1 });
        assert_eq!(tick(1_023, 604_799, &mut table), Ticked { number: 0, freed: 0 });
        assert_eq!(tick(1_024, 0, &mut table), Ticked { number: 2, freed: 0 });
        assert_eq!(tick(0, 55, &mut table), Ticked { number: 0, freed: 1 });
        table[313] = 0;
        assert_eq!(tick(1_024, 0, &mut table), Ticked { number: 1, freed: 0 });
    }

    /// With one second left: of all bytes only the place may change, and then the second runs on.
    #[test]
    fn ticks_that_step_back_free_nothing() {
        let mut table = vec![0; SLOTS_4];
        make(600, 100, &mut table, &[]);
        serve(600, 110, 0, 1, 9, 7, &setups(&[b"\x01a\x00"], 60), &mut table, &mut [0; 200]);
        assert_eq!(tick(600, 169, &mut table), Ticked { number: 0, freed: 0 });
        for (week, second, next) in [
            (600, 168, (600, 170)),
            (600, 109, (600, 170)),
            (600, 108, (600, 109)),
            (547, 518_569, (547, 518_570)),
            (88, 169, (88, 170)),
        ] {
            let mut lent = table.clone();
            assert_eq!(tick(week, second, &mut lent), Ticked { number: 0, freed: 0 });
            let mut expected = table.clone();
            let kept: u32 = next.0 * 604_800 + next.1 - 1;
            expected[1..5].copy_from_slice(&kept.to_be_bytes());
            assert_eq!(lent, expected, "{week} {second}");
            assert_eq!(tick(next.0, next.1, &mut lent), Ticked { number: 0, freed: 1 });
        }
    }

    #[test]
    fn holdings_count_over_ports_and_earlier_questions() {
        let mut table = vec![0; 313 + 8 * 320];
        make(0, 0, &mut table, &[]);
        let mut reply = [0; 400];
        let names: [&[u8]; MOST_QUESTIONS] = [
            b"\x01a\x00",
            b"\x01b\x00",
            b"\x01a\x00",
            b"\x01c\x00",
            b"\x01d\x00",
            b"\x01e\x00",
            b"\x01A\x00",
            b"\x00",
        ];
        let query = setups(&names, 100);
        let served = serve(0, 0, 0, 1, 9, 0, &query, &mut table, &mut reply);
        assert_eq!(served.number, 0);
        let told: Vec<_> = reply[served.length as usize - 8 * 22..served.length as usize]
            .chunks(22)
            .map(|option| (option[9], option[17], option[21]))
            .collect();
        let full = (1, 0, 60);
        assert_eq!(
            told,
            [
                (0, 1, 100),
                (0, 2, 100),
                (0, 1, 100),
                (0, 3, 100),
                (0, 4, 100),
                full,
                (0, 1, 100),
                full
            ]
        );
        let served =
            serve(0, 0, 0, 1, 10, 0, &setups(&[b"\x01f\x00"], 100), &mut table, &mut reply);
        assert_eq!(reply[served.length as usize - 13], 1);
    }

    #[test]
    fn refused_datagrams_keep_every_byte() {
        let mut table = vec![0; SLOTS_4];
        make(0, 0, &mut table, &[]);
        let query = setups(&[b"\x01a\x00"], 100);
        let mut unsound = table.clone();
        unsound[0] = 0;
        let mut no_option = query.clone();
        no_option[31] = 2;
        let mut question = query.clone();
        question[12] = 0xC0;
        let mut opt = query.clone();
        opt[21] = 40;
        let mut header = query.clone();
        header[2] = 0x80;
        for (table, week, query, length, number) in [
            (&unsound, 1_024, &query[..11], 0, 1),
            (&table, 1_024, &query[..11], 0, 2),
            (&table, 0, &query[..11], 0, 3),
            (&table, 0, &header[..12], 0, 4),
            (&table, 0, &question[..], 0, 5),
            (&table, 0, &opt[..], 0, 6),
            (&table, 0, &no_option[..], 0, 7),
            (&table, 0, &query[..], 51, 8),
        ] {
            let mut lent = table.clone();
            let mut reply = vec![0xEE; length];
            let served = serve(week, 5, 0, 1, 9, 7, query, &mut lent, &mut reply);
            assert_eq!(served, Served { number, length: 0 });
            assert_eq!(lent, *table);
            assert_eq!(reply, vec![0xEE; length]);
        }
    }

    #[test]
    fn a_mismatch_moves_the_clock_and_frees() {
        let mut table = vec![0; SLOTS_4];
        make(0, 0, &mut table, &[]);
        let mut reply = [0xEE; 100];
        serve(0, 0, 0, 1, 9, 7, &setups(&[b"\x01a\x00"], 60), &mut table, &mut reply);
        assert_eq!(table[313], 5);
        let mut query = setups(&[b"\x01a\x00", b"\x01B\x00"], 60);
        query[37 + 22 + 1] = 9;
        let served = serve(0, 60, 0, 1, 9, 7, &query, &mut table, &mut reply);
        assert_eq!(served, Served { number: 0, length: 12 + 14 + 11 + 22 });
        assert_eq!(table[313], 4);
        assert_eq!(table[8], 60);
        let mut expected = query[..37].to_vec();
        expected[2] = 0x85;
        expected[29] = 0x05;
        expected[30] = 0xC0;
        expected[36] = 22;
        expected.extend([0, 1, 0, 18, 0, 1, 0, 1, 0, 3]);
        expected.extend([0; 12]);
        assert_eq!(reply[..59], expected);
    }

    /// Replies over 1,472 bytes come of options shorter than the reply's own.
    #[test]
    fn replies_of_1472_and_1473_bytes() {
        for (more, served) in
            [(0, Served { number: 0, length: 1_472 }), (1, Served { number: 8, length: 0 })]
        {
            // Questions of 1,427 + more bytes in all: five of 259, one of 132.
            let name = |length: usize| {
                let mut name = Vec::new();
                let mut left = length - 1;
                while left > 0 {
                    let label = if left == 65 { 62 } else { left.min(64) - 1 };
                    name.push(label as u8);
                    name.resize(name.len() + label, b'x');
                    left -= label + 1;
                }
                name.push(0);
                name
            };
            let mut query = vec![0, 0, 0, 0, 0, 6, 0, 0, 0, 0, 0, 1];
            for length in [255, 255, 255, 255, 255, 128 + more] {
                query.extend(name(length));
                query.extend([0, 12, 0, 1]);
            }
            assert_eq!(query.len(), 12 + 1_427 + more);
            query.extend([0, 0, 41, 0, 0, 0, 0, 0, 0, 0, 4, 0, 1, 0, 0]);
            let mut table = vec![0; SLOTS_4];
            make(0, 0, &mut table, &[]);
            let mut reply = [0; 1_500];
            assert_eq!(serve(0, 0, 0, 1, 9, 7, &query, &mut table, &mut reply), served);
        }
    }
}

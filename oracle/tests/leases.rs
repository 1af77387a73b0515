//! The lease that a repeated setup is told, and those that a response may send.

use oracle::{make, serve, tick, Served, Ticked};

const WEEK: u32 = 1;

/// A panel and its one table: made at second 2, its question set up at second 7.
struct Panel {
    table: Vec<u8>,
}

type Told = (u16, u64, u32);

const NO_SUCH: Told = (4, 0, 0);

impl Panel {
    fn new(lease: u32) -> Panel {
        let mut panel = Panel { table: vec![0; 313 + 2 * 320] };
        assert_eq!(make(WEEK, 2, &mut panel.table, &[]), 0);
        assert_eq!(panel.setup(7, lease), (0, 7, lease));
        panel
    }

    /// Sends options for one question in one datagram: opcode, number and lease of each.
    fn send<const N: usize>(&mut self, second: u32, sent: [(u16, u64, u32); N]) -> [Told; N] {
        let mut query = vec![0x12, 0x34, 1, 0, 0, N as u8, 0, 0, 0, 0, 0, 1];
        for _ in 0..N {
            query.extend(b"\x01a\x00\x00\x0C\x00\x01");
        }
        query.extend([0, 0, 41, 0x05, 0xC0, 0, 0, 0, 0, 0, 22 * N as u8]);
        for (opcode, number, lease) in sent {
            query.extend([0, 1, 0, 18, 0, 1]);
            query.extend(opcode.to_be_bytes());
            query.extend([0, 0]);
            query.extend(number.to_be_bytes());
            query.extend(lease.to_be_bytes());
        }
        let mut reply = vec![0; query.len()];
        let served = serve(WEEK, second, 0, 1, 5_353, 7, &query, &mut self.table, &mut reply);
        assert_eq!(served, Served { number: 0, length: query.len() as u32 });
        let options = &reply[query.len() - 22 * N..];
        std::array::from_fn(|at| {
            let option = &options[22 * at..][..22];
            (
                u16::from_be_bytes(option[8..10].try_into().unwrap()),
                u64::from_be_bytes(option[10..18].try_into().unwrap()),
                u32::from_be_bytes(option[18..22].try_into().unwrap()),
            )
        })
    }

    fn setup(&mut self, second: u32, lease: u32) -> Told {
        self.send(second, [(1, 0, lease)])[0]
    }

    fn response(&mut self, second: u32, lease: u32) -> Told {
        self.send(second, [(1, 7, lease)])[0]
    }

    fn refresh(&mut self, second: u32, lease: u32) -> Told {
        self.send(second, [(2, 7, lease)])[0]
    }

    /// The table's bytes but for the clock.
    fn slots(&self) -> Vec<u8> {
        self.table[9..].to_vec()
    }
}

#[test]
fn a_repeated_setup_is_told_what_remains() {
    let mut panel = Panel::new(3_600);
    let pending = panel.slots();
    assert_eq!(panel.setup(47, 3_600), (0, 7, 3_560));
    // The lease asked is not looked at, and a step back does not give time back.
    assert_eq!(panel.setup(47, 0), (0, 7, 3_560));
    assert_eq!(panel.setup(46, 7_200), (0, 7, 3_560));
    assert_eq!(panel.setup(3_606, 60), (0, 7, 1));
    assert_eq!(panel.slots(), pending);
    // Run out, it is a new question.
    assert_eq!(panel.setup(3_607, 100), (0, 7, 100));
}

/// In a step back what remains does not move, and a step forward is one like any other.
#[test]
fn what_remains_over_steps_back() {
    let mut panel = Panel::new(3_600);
    let pending = panel.slots();
    for (second, left) in [
        (1_007, 2_600),
        // Back and forth by 60, by 61, and by 61 again.
        (947, 2_600),
        (1_007, 2_600),
        (946, 2_600),
        (1_007, 2_539),
        (946, 2_539),
        (1_007, 2_478),
        // Back by 10 a call: the step is from the last place, and at 70 it is taken whole.
        (997, 2_478),
        (987, 2_478),
        (977, 2_478),
        (967, 2_478),
        (957, 2_478),
        (947, 2_478),
        (937, 2_478),
        (938, 2_477),
    ] {
        assert_eq!(panel.setup(second, 60), (0, 7, left), "{second}");
        assert_eq!(panel.slots(), pending);
    }
    // Every lease told is right still, but none under what remains.
    assert_eq!(panel.response(938, 2_476), NO_SUCH);
    for told in [3_600, 2_600, 2_539, 2_478, 2_477] {
        assert_eq!(panel.response(938, told), (0, 7, 2_477), "{told}");
    }
    assert_eq!(tick(WEEK, 3_414, &mut panel.table), Ticked { number: 0, freed: 0 });
    assert_eq!(tick(WEEK, 3_415, &mut panel.table), Ticked { number: 0, freed: 1 });
}

#[test]
fn an_established_entry_too() {
    let mut panel = Panel::new(3_600);
    assert_eq!(panel.response(7, 3_600), (0, 7, 3_600));
    let established = panel.slots();
    assert_eq!(panel.setup(47, 3_600), (0, 7, 3_560));
    for (sent, told) in [
        (3_554, NO_SUCH),
        (3_555, (0, 7, 3_555)),
        (3_560, (0, 7, 3_555)),
        (3_600, (0, 7, 3_555)),
        (3_601, NO_SUCH),
    ] {
        assert_eq!(panel.response(52, sent), told, "{sent}");
        assert_eq!(panel.slots(), established);
    }
}

#[test]
fn a_response_establishes_within_the_span() {
    for (sent, right) in [
        (0, false),
        (3_553, false),
        (3_554, false),
        (3_555, true),
        (3_560, true),
        (3_580, true),
        (3_600, true),
        (3_601, false),
        (3_600 + 65_536, false),
        (u32::MAX, false),
    ] {
        let mut panel = Panel::new(3_600);
        let mut expected = panel.slots();
        // Both challenges were told; the table is the same as without the second.
        assert_eq!(panel.setup(47, 3_600), (0, 7, 3_560));
        let told = panel.response(52, sent);
        // Never counted from the lease sent.
        assert_eq!(told, if right { (0, 7, 3_555) } else { NO_SUCH }, "{sent}");
        if right {
            expected[313 - 9] = 6;
        }
        assert_eq!(panel.slots(), expected, "{sent}");
    }
}

#[test]
fn at_age_0_the_granted_lease_alone_is_right() {
    for (sent, told) in [(99, NO_SUCH), (100, (0, 7, 100)), (101, NO_SUCH)] {
        assert_eq!(Panel::new(100).response(7, sent), told);
    }
}

#[test]
fn a_refresh_gives_a_new_span() {
    let mut panel = Panel::new(3_600);
    assert_eq!(panel.setup(47, 3_600), (0, 7, 3_560));
    assert_eq!(panel.response(50, 3_560), (0, 7, 3_557));
    assert_eq!(panel.refresh(60, 1_800), (0, 7, 1_800));
    for told_before in [3_600, 3_560, 3_557] {
        assert_eq!(panel.response(70, told_before), NO_SUCH);
    }
    assert_eq!(panel.response(70, 1_790), (0, 7, 1_790));
    // A lease told before that lies in the span of the new one is right.
    assert_eq!(panel.refresh(100, 3_570), (0, 7, 3_570));
    assert_eq!(panel.response(109, 3_560), NO_SUCH);
    assert_eq!(panel.response(110, 3_560), (0, 7, 3_560));
}

#[test]
fn within_one_datagram() {
    let mut panel = Panel::new(600);
    // Every setup is told the same of an entry that was there.
    let told = panel.send(107, [(1, 0, 600), (1, 7, 500), (1, 0, 60)]);
    assert_eq!(told, [(0, 7, 500); 3]);
    // Behind a refresh it is the refreshed lease.
    let told = panel.send(207, [(1, 0, 600), (2, 7, 900), (1, 0, 600), (1, 7, 600), (1, 7, 900)]);
    assert_eq!(told, [(0, 7, 400), (0, 7, 900), (0, 7, 900), NO_SUCH, (0, 7, 900)]);
    // Behind an end it is a new question, told whole twice.
    let told = panel.send(307, [(2, 7, 0), (1, 0, 200), (1, 0, 300)]);
    assert_eq!(told, [(0, 7, 0), (0, 7, 200), (0, 7, 200)]);
}

#[test]
fn what_remains_over_the_count_s_wrap() {
    let mut panel = Panel::new(7_200);
    // The entry's stamp is 4,294,967,290 and the count the same.
    let stamp = 4_294_967_290u32.to_be_bytes();
    panel.table[5..9].copy_from_slice(&stamp);
    panel.table[313 + 31..][..4].copy_from_slice(&stamp);
    assert_eq!(panel.setup(17, 60), (0, 7, 7_190));
    assert_eq!(panel.table[5..9], 4u32.to_be_bytes());
    assert_eq!(panel.response(17, 7_189), NO_SUCH);
    assert_eq!(panel.response(17, 7_190), (0, 7, 7_190));
    assert_eq!(tick(WEEK, 7_206, &mut panel.table), Ticked { number: 0, freed: 0 });
    assert_eq!(panel.response(7_206, 0), NO_SUCH);
    assert_eq!(panel.response(7_206, 1), (0, 7, 1));
    assert_eq!(panel.response(7_207, 1), NO_SUCH);
}

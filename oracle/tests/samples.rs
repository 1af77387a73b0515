//! The samples W1 to W11 of document 01, and those of the clock with weeks of thirteen bits.

use oracle::clock::{self, Clock, Weeks, WEEK};
use oracle::query::LlqNumber;
use oracle::rules::{Law, Rules};
use oracle::table::{Entry, SlotRecord};
use oracle::{make, serve, tick, Served, Ticked};

#[test]
fn w1_to_w3_steps() {
    let weeks = Weeks::Ten;
    assert_eq!(weeks.step(619_315_199, 0), 1);
    assert_eq!(weeks.step(0, 309_657_600), -309_657_600);
    assert_eq!(weeks.step(10, 9), -1);
    let moved = Clock { weeks, place: 619_315_199, count: 5 }.moved(0);
    assert_eq!(moved, Clock { weeks, place: 0, count: 6 });
}

#[test]
fn steps_over_the_wide_cycle() {
    let weeks = Weeks::Thirteen;
    for (from, to, step) in [
        (4_954_521_599, 0, 1),
        (0, 2_477_260_800, -2_477_260_800),
        (0, 2_477_260_799, 2_477_260_799),
        (0, 2_147_483_648, 2_147_483_648),
        (619_315_199, 619_315_200, 1),
        (10, 9, -1),
    ] {
        assert_eq!(weeks.step(from, to), step, "{from} to {to}");
    }
    let clock = |place, count| Clock { weeks, place, count };
    // The longest step on the last count.
    let moved = clock(0, 4_294_967_295).moved(2_477_260_799);
    assert_eq!(moved, clock(2_477_260_799, 2_477_260_798));
    // 60 back and 61 back.
    assert_eq!(clock(5_000_000, 9).moved(4_999_940), clock(5_000_000, 9));
    assert_eq!(clock(5_000_000, 9).moved(4_999_939), clock(4_999_939, 9));
}

#[test]
fn a_table_at_the_end_of_the_wide_cycle() {
    let mut table = vec![0xAA; 637];
    assert_eq!(make(8_191, 604_799, &mut table, &[]), 0);
    assert_eq!(table[..13], bytes("09 00 00 00 01 27 4F FF FF 00 00 00 00"));
    assert_eq!(tick(0, 0, &mut table), Ticked { number: 0, freed: 0 });
    assert_eq!(table[..13], bytes("09 00 00 00 00 00 00 00 00 00 00 00 01"));
    assert_eq!(tick(8_192, 0, &mut table), Ticked { number: 2, freed: 0 });
}

#[test]
fn w4_age() {
    assert_eq!(clock::age(4, 4_294_967_290), 10);
}

#[test]
fn w5_and_w6_run_out() {
    let mut record: SlotRecord = [0; 320];
    record[30] = 60;
    assert_eq!(Entry(&record).lease(), 60);
    assert!(!Law::run_out(Entry(&record), 59));
    assert!(Law::run_out(Entry(&record), 60));
}

#[test]
fn w7_and_w8_granted_lease() {
    assert_eq!(Law::granted(0), 60);
    assert_eq!(Law::granted(7_201), 7_200);
}

#[test]
fn w9_number() {
    let in_use = |number| number == LlqNumber(u64::MAX);
    assert_eq!(Law::number(u64::MAX, in_use), LlqNumber(1));
}

const QUERY: &str = "12 34 01 00 00 01 00 00 00 00 00 01 01 61 00 00 0C 00 01 00 00 29 05 C0 \
                     00 00 00 00 00 16 00 01 00 12 00 01 00 01 00 00 00 00 00 00 00 00 00 00 \
                     00 00 0E 10";

fn bytes(hex: &str) -> Vec<u8> {
    hex.split_whitespace().map(|byte| u8::from_str_radix(byte, 16).unwrap()).collect()
}

/// The sample's query for the name of one letter.
fn query(letter: u8) -> Vec<u8> {
    let mut query = bytes(QUERY);
    query[13] = letter;
    query
}

fn error(reply: &[u8]) -> u16 {
    u16::from_be_bytes([reply[38], reply[39]])
}

#[test]
fn w10_reserve() {
    let mut table = vec![0xAA; 313 + 320 * 4];
    let mut listed = [0; 19];
    listed[0] = 3;
    listed[16] = 1;
    listed[17] = 3;
    listed[18] = 3;
    assert_eq!(make(0, 0, &mut table, &listed), 0);
    let mut reply = [0; 52];
    let done = Served { number: 0, length: 52 };
    assert_eq!(serve(0, 0, 0, 2, 9, 1, &query(b'a'), &mut table, &mut reply), done);
    assert_eq!(error(&reply), 0);
    assert_eq!(table[313..].chunks(320).filter(|slot| slot[0] == 4).count(), 3);
    let before = table.clone();
    assert_eq!(serve(0, 0, 0, 2, 9, 1, &query(b'b'), &mut table, &mut reply), done);
    assert_eq!(error(&reply), 1);
    assert_eq!(reply[40..], [0, 0, 0, 0, 0, 0, 0, 0, 0, 0, 0, 60]);
    assert_eq!(table, before);
    for letter in b'a'..b'd' {
        serve(0, 0, 0, 1, 9, 1, &query(letter), &mut table, &mut reply);
        assert_eq!(error(&reply), 0);
    }
}

#[test]
fn w11_query_and_reply() {
    let mut table = vec![0xAA; 313 + 320 * 4];
    assert_eq!(make(7, 100, &mut table, &[]), 0);
    let query = bytes(QUERY);
    assert_eq!(query.len(), 52);
    let mut expected = query.clone();
    expected[2] = 0x85;
    expected[40..48].copy_from_slice(&7u64.to_be_bytes());
    let mut reply = vec![0xEE; 60];
    let served = serve(7, 100, 0, 0xFFFF_7F00_0001, 5_353, 7, &query, &mut table, &mut reply);
    assert_eq!(served, Served { number: 0, length: 52 });
    assert_eq!(reply[..52], expected);
    assert_eq!(reply[52..], [0xEE; 8]);

    // The table after it, in full.
    let place = 7 * WEEK + 100;
    let mut whole = vec![1];
    whole.extend(place.to_be_bytes());
    whole.extend([0; 4]);
    for _ in 0..16 {
        whole.push(2);
        whole.extend([0; 18]);
    }
    whole.push(5);
    whole.extend(bytes("00 00 00 00 00 00 00 00 00 00 FF FF 7F 00 00 01 14 E9"));
    whole.extend(bytes("00 00 00 00 00 00 00 07 00 00 0E 10 00 00 00 00"));
    whole.extend(bytes("00 0C 00 01 03 01 61 00"));
    whole.resize(313 + 320, 0);
    for _ in 1..4 {
        whole.push(4);
        whole.extend([0; 319]);
    }
    assert_eq!(table, whole);

    // Established by the response, live at age 3,599, run out at 3,600.
    let mut response = expected;
    response[2] = 0x01;
    let served = serve(7, 110, 0, 0xFFFF_7F00_0001, 5_353, 7, &response, &mut table, &mut reply);
    assert_eq!(served, Served { number: 0, length: 52 });
    assert_eq!(error(&reply), 0);
    assert_eq!(reply[48..52], 3_590u32.to_be_bytes());
    assert_eq!(table[313], 6);
    assert_eq!(tick(7, 3_699, &mut table), Ticked { number: 0, freed: 0 });
    assert_eq!(tick(7, 3_700, &mut table), Ticked { number: 0, freed: 1 });
    assert!(table[313] == 4 && table[314..633].iter().all(|&byte| byte == 0));
}

//! Short runs of what `differ` does at length.

use oracle::compare::first_fault;
use oracle::generate::Widths;
use oracle::runs::random_lists;
use oracle::script;
use oracle::server::{Oracle, Server};
use oracle::variants;
use oracle::{Served, Ticked};

const SEED: u64 = 8_764;

#[test]
fn the_oracle_agrees_with_the_tally() {
    for widths in [Widths::Both, Widths::TenBits] {
        let (coverage, failure) = random_lists(&Oracle, &Oracle, widths, SEED, 40_000, None);
        assert!(failure.is_none(), "{}", failure.unwrap().wrong);
        assert_eq!(coverage.missing(widths), Vec::<String>::new());
    }
}

#[test]
fn every_variant_is_told_apart() {
    for widths in [Widths::Both, Widths::TenBits] {
        for (name, variant) in variants::all(SEED, widths) {
            let (_, failure) = random_lists(&Oracle, &*variant, widths, SEED, 100_000, None);
            assert!(failure.is_some(), "{name}");
        }
    }
}

/// The oracle before it knew tables for weeks of thirteen bits: their lengths are wrong.
struct Earlier;

fn is_wide(table: &[u8]) -> bool {
    (1..=64).any(|slots| table.len() == 317 + 320 * slots)
}

impl Server for Earlier {
    fn make(&self, week: u32, second: u32, table: &mut [u8], roster: &[u8]) -> u32 {
        if is_wide(table) {
            1
        } else {
            Oracle.make(week, second, table, roster)
        }
    }

    fn tick(&self, week: u32, second: u32, table: &mut [u8]) -> Ticked {
        if is_wide(table) {
            Ticked { number: 1, freed: 0 }
        } else {
            Oracle.tick(week, second, table)
        }
    }

    fn serve(
        &self,
        week: u32,
        second: u32,
        high: u64,
        low: u64,
        port: u16,
        random: u64,
        datagram: &[u8],
        table: &mut [u8],
        reply: &mut [u8],
    ) -> Served {
        if is_wide(table) {
            Served { number: 1, length: 0 }
        } else {
            Oracle.serve(week, second, high, low, port, random, datagram, table, reply)
        }
    }
}

/// An earlier archive can be the reference where no table has weeks of thirteen bits.
#[test]
fn an_earlier_archive_agrees_on_tables_for_ten_bits() {
    let failed = |widths| random_lists(&Earlier, &Oracle, widths, SEED, 40_000, None).1.is_some();
    assert!(!failed(Widths::TenBits));
    assert!(failed(Widths::Both));
}

/// Those left out where no table has weeks of thirteen bits are right there.
#[test]
fn variants_of_thirteen_bits_are_right_on_other_tables() {
    let named = |widths| variants::all(SEED, widths).into_iter();
    let ten_bits: Vec<String> = named(Widths::TenBits).map(|(name, _)| name).collect();
    let mut left_out = 0;
    for (name, variant) in named(Widths::Both).filter(|(name, _)| !ten_bits.contains(name)) {
        let (_, failure) = random_lists(&Oracle, &*variant, Widths::TenBits, SEED, 5_000, None);
        assert!(failure.is_none(), "{name}");
        left_out += 1;
    }
    assert_eq!(left_out, 22);
}

/// Whichever bytes the seed picks.
#[test]
fn a_fold_wrong_at_any_byte_is_told_apart() {
    for byte in variants::unfolded() {
        for (name, variant) in variants::folds_wrong_at([byte; 2]) {
            for reference in [&Oracle as &dyn Server, &*variant] {
                let (_, failure) =
                    random_lists(reference, &*variant, Widths::Both, SEED, 100_000, None);
                assert!(failure.is_some(), "{name}");
            }
        }
    }
}

/// The tally has no slots, so that which slot is taken is not its to tell.
#[test]
fn the_tally_alone_tells_all_but_the_slot() {
    for (name, variant) in variants::all(SEED, Widths::Both) {
        let calls = if name == "HighestFreeSlot" { 5_000 } else { 100_000 };
        let (_, failure) = random_lists(&*variant, &*variant, Widths::Both, SEED, calls, None);
        assert_eq!(failure.is_some(), name != "HighestFreeSlot", "{name}");
    }
}

#[test]
fn a_failed_list_can_be_run_again() {
    let variants = variants::all(SEED, Widths::Both);
    let (_, variant) = variants.iter().find(|(name, _)| name == "OldBoxNoReserve").unwrap();
    let variant: &dyn Server = variant.as_ref();
    let (_, failure) = random_lists(&Oracle, variant, Widths::Both, SEED, 100_000, None);
    let text = failure.unwrap().script(&Oracle, variant);
    let steps = script::read(&text).unwrap();
    assert!(first_fault(&Oracle, variant, &steps).is_some());
    assert_eq!(first_fault(&Oracle, &Oracle, &steps), None);
    assert!(steps.len() <= 8, "{text}");
}

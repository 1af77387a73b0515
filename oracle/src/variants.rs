//! Wrong variants of the oracle, each with one rule wrong: the old box's five
//! faults, document 01's impostors, one variant blind to each single fault
//! that refuses a call, and others on the edges of the rules. A run is sharp
//! if it tells every one of them from the oracle.

mod around;
mod by_rules;

pub use by_rules::folds_wrong_at;

use crate::generate::Widths;
use crate::name;
use crate::random::Random;
use crate::server::Server;

pub type Named = (String, Box<dyn Server>);

/// Every wrong variant with its name, or every one that is wrong on tables for weeks of ten bits. The
/// seed picks the bytes at which two of them fold wrongly.
pub fn all(seed: u64, widths: Widths) -> Vec<Named> {
    let mut all = by_rules::all(widths);
    all.extend(folds_wrong_at(picked(seed)));
    all.extend(around::all(widths));
    all
}

/// The bytes that do not fold.
pub fn unfolded() -> Vec<u8> {
    (0..=255).filter(|&byte| name::fold(byte) == byte).collect()
}

/// Two of them, not the same one, and the same two for the same seed.
fn picked(seed: u64) -> [u8; 2] {
    let (mut random, mut left) = (Random::new(seed), unfolded());
    let mut pick = || left.swap_remove(random.below(left.len()));
    [pick(), pick()]
}

#[cfg(test)]
mod tests {
    use super::*;

    #[test]
    fn any_two_bytes_that_do_not_fold_are_picked() {
        let pairs: Vec<[u8; 2]> = (0..10_000).map(picked).collect();
        assert!(pairs.iter().all(|[one, other]| one != other));
        for at in 0..2 {
            let mut all: Vec<u8> = pairs.iter().map(|pair| pair[at]).collect();
            all.sort();
            all.dedup();
            assert_eq!(all, unfolded());
            assert_eq!(all, [(0..b'A').collect::<Vec<u8>>(), (b'['..=255).collect()].concat());
        }
    }
}

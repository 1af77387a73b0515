//! How names are compared: the answer, and how many byte pairs are looked at.

use oracle::name::{compare_stored, Compared};
use oracle::pairs;
use oracle::random::Random;
use oracle::rules::{Law, Rules};

/// A walk from the front with a counter.
fn walked(stored: &[u8], sent: &[u8], folded: bool) -> Compared {
    let mut pairs = 0;
    if stored.len() != sent.len() {
        return Compared { same: false, pairs };
    }
    while pairs < stored.len() {
        let mut byte = sent[pairs];
        if folded && (0x41..=0x5A).contains(&byte) {
            byte += 0x20;
        }
        let differ = stored[pairs] != byte;
        pairs += 1;
        if differ {
            return Compared { same: false, pairs };
        }
    }
    Compared { same: true, pairs }
}

/// With the sent one folded, and as it is.
fn compared(stored: &[u8], sent: &[u8]) -> [Compared; 2] {
    [Law::same_name(stored, sent), compare_stored(stored, sent)]
}

/// Compared as the walk does.
fn checked(stored: &[u8], sent: &[u8]) -> [Compared; 2] {
    let compared = compared(stored, sent);
    let walked = [true, false].map(|folded| walked(stored, sent, folded));
    assert_eq!(compared, walked, "{stored:02x?} with {sent:02x?}");
    compared
}

#[test]
fn rows() {
    for (stored, sent, right) in pairs::rows() {
        assert_eq!(compared(&stored, &sent), right, "{stored:02x?} with {sent:02x?}");
    }
    assert_eq!(compared(&[], &[]), [Compared::same(0); 2]);
}

/// Names of every length to 300: of varied bytes, of letters and of random bytes.
fn names(random: &mut Random) -> Vec<Vec<u8>> {
    let mut names = Vec::new();
    for length in 0..=300 {
        names.push(pairs::bytes(length));
        names.push((0..length).map(|_| b'a' + random.below(26) as u8).collect());
        names.push(random.bytes(length));
    }
    names
}

#[test]
fn one_difference_at_every_place() {
    let mut random = Random::new(1);
    for name in names(&mut random) {
        assert_eq!(checked(&name, &name)[1], Compared::same(name.len()));
        for at in 0..name.len() {
            let mut other = name.clone();
            other[at] ^= 1 + random.below(255) as u8;
            assert_eq!(checked(&name, &other)[1], Compared::differ(at + 1));
            // More of them behind it.
            other[at + 1..].copy_from_slice(&random.bytes(name.len() - at - 1));
            assert_eq!(checked(&name, &other)[1], Compared::differ(at + 1));
        }
    }
}

#[test]
fn another_length() {
    let mut random = Random::new(2);
    for name in names(&mut random) {
        let longer = [&name[..], &[random.byte()]].concat();
        let before = [&[random.byte()], &name[..]].concat();
        for (one, other) in [(&name, &longer), (&name, &before)] {
            assert_eq!(checked(one, other), [Compared::differ(0); 2]);
            assert_eq!(checked(other, one), [Compared::differ(0); 2]);
        }
    }
}

#[test]
fn another_case() {
    let mut random = Random::new(3);
    for name in names(&mut random) {
        let stored = name.to_ascii_lowercase();
        let letters: Vec<_> =
            (0..name.len()).filter(|&at| stored[at].is_ascii_lowercase()).collect();
        let all = Compared::same(name.len());
        for &at in &letters {
            let mut sent = stored.clone();
            sent[at] ^= 0x20;
            let first = Compared::differ(at + 1);
            assert_eq!(checked(&stored, &sent), [all, first]);
            // Stored, a capital is never found.
            assert_eq!(checked(&sent, &stored), [first; 2]);
            assert_eq!(checked(&sent, &sent)[0], first);
        }
        assert_eq!(checked(&stored, &stored.to_ascii_uppercase())[0], all);
        let mut mixed = stored.clone();
        letters.iter().filter(|_| random.percent(50)).for_each(|&at| mixed[at] ^= 0x20);
        assert_eq!(checked(&stored, &mixed)[0], all);
    }
}

/// Of few byte values, letters and their neighbours among them, so that pairs agree for a while.
#[test]
fn random_pairs() {
    let mut random = Random::new(4);
    let values = b"@AZ[`az{\xC1\xE1";
    let mut met = [[0; 2]; 2];
    for _ in 0..200_000 {
        let few = &values[random.below(values.len() - 2)..][..1 + random.below(3)];
        let length = random.below(301);
        let mut name = || (0..length).map(|_| *random.pick(few)).collect::<Vec<u8>>();
        for (met, Compared { same, .. }) in met.iter_mut().zip(checked(&name(), &name())) {
            met[usize::from(same)] += 1;
        }
    }
    assert!(met.as_flattened().iter().all(|&met| met > 1_000), "{met:?}");
}

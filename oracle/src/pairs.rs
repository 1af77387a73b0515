//! Samples of how names are compared, for the tests and for `bin/samples`.

use crate::name::{Compared, LONGEST};
use crate::variants;

/// A stored name, one as sent, and what comparing them gives: with the sent one folded, and as it is.
pub type Row = (Vec<u8>, Vec<u8>, [Compared; 2]);

/// Bytes that do not fold, the same one again after 230 places only, so that a look at a wrong place
/// shows.
pub fn bytes(length: usize) -> Vec<u8> {
    let all = variants::unfolded();
    (0..length).map(|at| all[(73 + 141 * at) % all.len()]).collect()
}

/// A stored name of 255 bytes, with such bytes in its labels.
pub fn longest() -> Vec<u8> {
    let mut name = bytes(LONGEST);
    for (at, byte) in [(0, 63), (64, 63), (128, 63), (192, 61), (254, 0)] {
        name[at] = byte;
    }
    name
}

/// A name of 255 bytes whose letters are a, but for the last.
fn of_a(last: u8) -> Vec<u8> {
    let label = [&[63][..], &[b'a'; 63]].concat();
    [&label[..], &label, &label, &[61], &[b'a'; 60], &[last, 0]].concat()
}

/// Short names, the root, the longest name, and a letter in its two cases.
pub fn rows() -> [Row; 9] {
    let [of_a, last_letter] = [b'a', b'b'].map(of_a);
    let rows: [(&[u8], &[u8], [Compared; 2]); 9] = [
        (b"\x01a\x00", b"\x01a\x00", [Compared::same(3); 2]),
        (b"\x00", b"\x00", [Compared::same(1); 2]),
        (b"\x01a\x00", b"\x01b\x00", [Compared::differ(2); 2]),
        // Labels parted, and a dot in a label.
        (b"\x01a\x01b\x00", b"\x03a.b\x00", [Compared::differ(1); 2]),
        (b"\x01a\x01b\x00", b"\x01a\x01c\x00", [Compared::differ(4); 2]),
        // Another length.
        (b"\x01a\x00", b"\x02aa\x00", [Compared::differ(0); 2]),
        (&of_a, &of_a, [Compared::same(255); 2]),
        (&of_a, &last_letter, [Compared::differ(254); 2]),
        // A capital sent.
        (b"\x01z\x00", b"\x01Z\x00", [Compared::same(3), Compared::differ(2)]),
    ];
    rows.map(|(stored, sent, compared)| (stored.to_vec(), sent.to_vec(), compared))
}

#[cfg(test)]
mod tests {
    use super::*;
    use crate::name::is_stored;

    #[test]
    fn bytes_come_again_after_230_places() {
        let bytes = bytes(500);
        assert!(!bytes.iter().any(u8::is_ascii_uppercase));
        for (at, byte) in bytes.iter().enumerate() {
            let next = bytes[at + 1..].iter().position(|other| other == byte);
            assert_eq!(next, (at < 270).then_some(229), "{at}");
        }
    }

    #[test]
    fn the_longest_name_is_one() {
        assert_eq!(longest().len(), 255);
        assert!(is_stored(&longest()));
        assert!(rows().iter().all(|(stored, ..)| is_stored(stored)));
    }
}

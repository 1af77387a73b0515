//! Wire names: labels of a length byte and its bytes, ended by a zero byte.

/// The most bytes of a name, its length bytes and its final zero included.
pub const LONGEST: usize = 255;
/// A length byte of this or more is no label.
pub const LABEL_END: u8 = 64;

/// A to Z folded to a to z, other bytes as they are. Length bytes are under
/// 64, so that folding a whole name touches its labels only.
pub fn fold(byte: u8) -> u8 {
    byte.to_ascii_lowercase()
}

/// Whether two names are the same, and how many byte pairs were looked at, the differing one included.
#[derive(Clone, Copy, PartialEq, Eq, Debug)]
pub struct Compared {
    pub same: bool,
    pub pairs: usize,
}

impl Compared {
    pub const fn same(pairs: usize) -> Compared {
        Compared { same: true, pairs }
    }

    pub const fn differ(pairs: usize) -> Compared {
        Compared { same: false, pairs }
    }
}

/// A stored name with one as sent, its bytes folded: the lengths, then byte pairs from the front, up
/// to the first that differs.
pub fn compare(stored: &[u8], sent: &[u8], fold: impl Fn(u8) -> u8) -> Compared {
    if stored.len() != sent.len() {
        return Compared::differ(0);
    }
    match stored.iter().zip(sent).position(|(&stored, &byte)| stored != fold(byte)) {
        Some(at) => Compared::differ(at + 1),
        None => Compared::same(stored.len()),
    }
}

/// Two stored names, as they lie.
pub fn compare_stored(one: &[u8], other: &[u8]) -> Compared {
    compare(one, other, |byte| byte)
}

/// Whether the bytes are one whole wire name with no byte of a label in A to Z.
pub fn is_stored(bytes: &[u8]) -> bool {
    let mut rest = bytes;
    while let Some((&length, after)) = rest.split_first() {
        if length == 0 {
            return after.is_empty() && bytes.len() <= LONGEST;
        }
        let length_of_label = usize::from(length);
        if length >= LABEL_END || length_of_label > after.len() {
            return false;
        }
        let (label, after) = after.split_at(length_of_label);
        if label.iter().any(u8::is_ascii_uppercase) {
            return false;
        }
        rest = after;
    }
    false
}

#[cfg(test)]
mod tests {
    use super::*;

    #[test]
    fn only_letters_fold() {
        for byte in 0..=255u8 {
            let folded = if (0x41..=0x5A).contains(&byte) { byte + 0x20 } else { byte };
            assert_eq!(fold(byte), folded);
        }
    }

    #[test]
    fn stored_names() {
        assert!(is_stored(&[0]));
        assert!(is_stored(b"\x01a\x00"));
        assert!(is_stored(b"\x03\x00\xC1\xDA\x00"));
        assert!(!is_stored(&[]));
        assert!(!is_stored(&[0, 0]));
        assert!(!is_stored(b"\x01a"));
        assert!(!is_stored(b"\x02a\x00"));
        assert!(!is_stored(b"\x01A\x00"));
        assert!(!is_stored(b"\x01Z\x00"));
        assert!(is_stored(b"\x02@[\x00"));
        assert!(!is_stored(&[&[64][..], &[b'a'; 64], &[0]].concat()));
        assert!(is_stored(&[&[63][..], &[b'a'; 63], &[0]].concat()));
    }

    #[test]
    fn stored_names_end_at_255_bytes() {
        let label = [&[63][..], &[b'x'; 63]].concat();
        let three = [&label[..], &label, &label].concat();
        assert!(is_stored(&[&three[..], &[61], &[b'y'; 61], &[0]].concat()));
        assert!(!is_stored(&[&three[..], &[62], &[b'y'; 62], &[0]].concat()));
    }
}

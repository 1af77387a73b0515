//! The byte values that names have held in their labels, their length bytes and final zeros aside.

#[derive(Clone, PartialEq, Eq, Debug)]
pub struct Values([bool; 256]);

impl Default for Values {
    fn default() -> Self {
        Values([false; 256])
    }
}

impl Values {
    /// Takes in what lies in labels of the first bytes of a wire name.
    pub fn add(&mut self, name: &[u8], bytes: usize) {
        let mut left_of_label = 0;
        for &byte in &name[..bytes] {
            if left_of_label == 0 {
                left_of_label = byte;
            } else {
                left_of_label -= 1;
                self.0[usize::from(byte)] = true;
            }
        }
    }

    /// The values that were in no label.
    pub fn missing(&self) -> impl Iterator<Item = u8> + '_ {
        (0..=255).filter(|&byte| !self.0[usize::from(byte)])
    }

    pub fn are_all(&self) -> bool {
        self.missing().next().is_none()
    }
}

/// The values themselves, each as if it had been in a label.
#[cfg(test)]
impl FromIterator<u8> for Values {
    fn from_iter<T: IntoIterator<Item = u8>>(bytes: T) -> Values {
        let mut values = Values::default();
        bytes.into_iter().for_each(|byte| values.add(&[1, byte, 0], 3));
        values
    }
}

#[cfg(test)]
mod tests {
    use super::*;

    #[test]
    fn length_bytes_and_the_final_zero_are_no_values() {
        let name = b"\x03a\x00B\x02\x03\xFF\x00";
        for (bytes, held) in [
            (0, &[][..]),
            (1, &[]),
            (2, b"a"),
            (3, b"\x00a"),
            (5, b"\x00Ba"),
            (6, b"\x00\x03Ba"),
            (8, b"\x00\x03Ba\xFF"),
        ] {
            let mut values = Values::default();
            values.add(name, bytes);
            let missing: Vec<u8> = (0..=255).filter(|byte| !held.contains(byte)).collect();
            assert_eq!(values.missing().collect::<Vec<u8>>(), missing, "{bytes}");
        }
    }

    #[test]
    fn names_add_up() {
        let mut values = Values::default();
        for byte in 0..=255 {
            assert!(!values.are_all());
            values.add(&[1, byte, 0], 3);
        }
        assert!(values.are_all());
        assert_eq!(values, (0..=255).collect());
    }
}

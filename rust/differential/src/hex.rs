//! Bytes as a failure tells them.

use std::fmt;

/// The most bytes that are shown.
const SHOWN: usize = 1_024;

/// Bytes in hexadecimal, cut where they are long.
pub struct Hex<'a>(pub &'a [u8]);

impl fmt::Debug for Hex<'_> {
    fn fmt(&self, out: &mut fmt::Formatter<'_>) -> fmt::Result {
        write!(out, "{} bytes ", self.0.len())?;
        for byte in self.0.iter().take(SHOWN) {
            write!(out, "{byte:02x}")?;
        }
        if self.0.len() > SHOWN {
            write!(out, "..")?;
        }
        Ok(())
    }
}

#[cfg(test)]
mod tests {
    use super::*;

    #[test]
    fn long_bytes_are_cut() {
        assert_eq!(format!("{:?}", Hex(&[1, 0xAB])), "2 bytes 01ab");
        let long = format!("{:?}", Hex(&[7; SHOWN + 1]));
        assert!(long.starts_with("1025 bytes 0707") && long.ends_with("0707.."));
    }
}

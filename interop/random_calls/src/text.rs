//! Bytes as text.

use std::fmt;

/// Most runs of one value that are printed.
const RUNS: usize = 24;

/// Bytes as runs of one value: `300 x 41, 44 x 00`. The first ones only, where
/// there are many.
pub struct Bytes<'a>(pub &'a [u8]);

impl fmt::Display for Bytes<'_> {
    fn fmt(&self, f: &mut fmt::Formatter<'_>) -> fmt::Result {
        if self.0.is_empty() {
            return write!(f, "none");
        }
        let mut runs = self.0.chunk_by(|one, two| one == two);
        for (index, run) in runs.by_ref().take(RUNS).enumerate() {
            let comma = if index > 0 { ", " } else { "" };
            match run.len() {
                1 => write!(f, "{comma}{:02x}", run[0])?,
                length => write!(f, "{comma}{length} x {:02x}", run[0])?,
            }
        }
        if runs.next().is_some() {
            write!(f, ", .. of {} bytes", self.0.len())?;
        }
        Ok(())
    }
}

#[cfg(test)]
mod tests {
    use super::*;

    #[test]
    fn runs_of_bytes() {
        assert_eq!(Bytes(&[]).to_string(), "none");
        assert_eq!(Bytes(&[1, 7, 7, 0]).to_string(), "01, 2 x 07, 00");
        let many: Vec<u8> = (0..100).collect();
        let text = Bytes(&many).to_string();
        assert!(text.starts_with("00, 01, "), "{text}");
        assert!(text.ends_with("17, .. of 100 bytes"), "{text}");
    }
}

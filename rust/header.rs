//! What the headers of the C interface say, for tests that the crates say the same.

use std::fs;
use std::path::Path;

/// A header.
pub struct Header(String);

impl Header {
    /// The one of this name.
    pub fn of(name: &str) -> Self {
        let folder = Path::new(env!("CARGO_MANIFEST_DIR")).join("../../include");
        Header(fs::read_to_string(folder.join(name)).expect("the header"))
    }

    /// Asserts that this constant of an enum has this number.
    #[track_caller]
    pub fn assert_number(&self, name: &str, number: u8) {
        assert_eq!(self.number(name), Some(number), "PERLOVASTA_{name}");
    }

    /// The number of this constant of an enum, decimal or hexadecimal; `None` where there is none.
    pub fn number(&self, name: &str) -> Option<u8> {
        let (_, rest) = self.0.split_once(&format!(" PERLOVASTA_{name} = "))?;
        let digits = rest.split([',', ' ', '\n']).next()?;
        match digits.strip_prefix("0x") {
            Some(digits) => u8::from_str_radix(digits, 16).ok(),
            None => digits.parse().ok(),
        }
    }

    /// Asserts that this stands there.
    #[track_caller]
    pub fn assert_says(&self, text: &str) {
        assert!(self.0.contains(text), "{text}");
    }
}

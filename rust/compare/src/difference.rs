//! Where library and model disagree.

use std::fmt;

/// The bytes that one of the two wrote, with their name.
pub type Named<'a> = (&'static str, &'a [u8]);

/// An input on which the two disagree, and the first place where they do.
#[derive(Clone, Debug, PartialEq, Eq)]
pub struct Difference {
    /// The input, in hexadecimal, line by line.
    pub input: String,
    /// Where, and what each has there.
    pub place: String,
}

impl fmt::Display for Difference {
    fn fmt(&self, f: &mut fmt::Formatter<'_>) -> fmt::Result {
        writeln!(f, "library and model disagree on:")?;
        writeln!(f, "{}", self.input)?;
        write!(f, "{}", self.place)
    }
}

/// The first byte that differs between what the library and the model wrote, in words.
pub fn first(library: &[Named], model: &[Named]) -> Option<String> {
    let pairs = library.iter().zip(model);
    pairs
        .filter_map(|(library, model)| in_bytes(*library, model.1))
        .next()
}

fn in_bytes((name, library): Named, model: &[u8]) -> Option<String> {
    let mut pairs = library.iter().zip(model);
    let at = pairs.position(|(library, model)| library != model)?;
    let (library, model) = (library[at], model[at]);
    Some(format!(
        "{name}, byte {at}: library {library:02X}, model {model:02X}"
    ))
}

/// The bytes in hexadecimal.
pub fn hex(bytes: &[u8]) -> String {
    let text: Vec<String> = bytes.iter().map(|byte| format!("{byte:02X}")).collect();
    text.join(" ")
}

#[cfg(test)]
mod tests {
    use super::{first, hex};

    #[test]
    fn the_first_place_is_named() {
        let library: [(_, &[u8]); 2] = [("out", &[1, 2]), ("log", &[3, 4, 5])];
        let model: [(_, &[u8]); 2] = [("out", &[1, 2]), ("log", &[3, 7, 9])];
        let place = first(&library, &model);
        assert_eq!(place.as_deref(), Some("log, byte 1: library 04, model 07"));
        assert_eq!(first(&library, &library), None);
    }

    #[test]
    fn bytes_in_hex() {
        assert_eq!(hex(&[0, 0xA5]), "00 A5");
        assert_eq!(hex(&[]), "");
    }
}

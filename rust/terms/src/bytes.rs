//! Bytes that are owned without a heap.

use crate::PLACES;
use core::fmt;
use core::hash::{Hash, Hasher};
use core::ops::Deref;
use core::slice::Iter;

/// Some bytes, `ROOM` at most: those of a finished read, where nothing else is said. They are used
/// as the slice of them.
#[derive(Clone, Copy)]
pub struct Bytes<const ROOM: usize = PLACES> {
    room: [u8; ROOM],
    length: usize,
}

impl<const ROOM: usize> Bytes<ROOM> {
    /// The first so many of these: for the crates that hand bytes out.
    ///
    /// # Panics
    ///
    /// If there are fewer.
    #[doc(hidden)]
    #[must_use]
    pub fn first(room: [u8; ROOM], length: usize) -> Self {
        assert!(length <= ROOM, "{length} bytes of {ROOM}");
        Bytes { room, length }
    }
}

impl<const ROOM: usize> Deref for Bytes<ROOM> {
    type Target = [u8];

    fn deref(&self) -> &[u8] {
        &self.room[..self.length]
    }
}

impl<const ROOM: usize> AsRef<[u8]> for Bytes<ROOM> {
    fn as_ref(&self) -> &[u8] {
        self
    }
}

impl<const ROOM: usize> PartialEq for Bytes<ROOM> {
    fn eq(&self, other: &Self) -> bool {
        **self == **other
    }
}

impl<const ROOM: usize> Eq for Bytes<ROOM> {}

impl<const ROOM: usize> PartialEq<[u8]> for Bytes<ROOM> {
    fn eq(&self, other: &[u8]) -> bool {
        **self == *other
    }
}

impl<const ROOM: usize> PartialEq<&[u8]> for Bytes<ROOM> {
    fn eq(&self, other: &&[u8]) -> bool {
        **self == **other
    }
}

impl<const ROOM: usize, const N: usize> PartialEq<[u8; N]> for Bytes<ROOM> {
    fn eq(&self, other: &[u8; N]) -> bool {
        **self == *other
    }
}

impl<const ROOM: usize> Hash for Bytes<ROOM> {
    fn hash<H: Hasher>(&self, state: &mut H) {
        (**self).hash(state);
    }
}

impl<'a, const ROOM: usize> IntoIterator for &'a Bytes<ROOM> {
    type Item = &'a u8;
    type IntoIter = Iter<'a, u8>;

    fn into_iter(self) -> Iter<'a, u8> {
        self.iter()
    }
}

impl<const ROOM: usize> fmt::Debug for Bytes<ROOM> {
    fn fmt(&self, f: &mut fmt::Formatter<'_>) -> fmt::Result {
        fmt::Debug::fmt(&**self, f)
    }
}

#[cfg(test)]
mod tests {
    use super::Bytes;
    use std::format;
    use std::hash::{DefaultHasher, Hash, Hasher};

    #[test]
    fn the_rest_of_the_room_is_not_shown() {
        let (one, other) = (Bytes::first([1, 2, 9], 2), Bytes::first([1, 2, 7], 2));
        assert_eq!(*one, [1, 2]);
        assert_eq!(one, other);
        assert_ne!(one, Bytes::first([1, 2, 9], 3));
        assert_eq!(format!("{one:?}"), "[1, 2]");
        assert_eq!(hash(one), hash(other));
    }

    fn hash(bytes: Bytes<3>) -> u64 {
        let mut hasher = DefaultHasher::new();
        bytes.hash(&mut hasher);
        hasher.finish()
    }

    #[test]
    fn they_are_used_as_a_slice() {
        let bytes = Bytes::first([1, 2, 9], 2);
        assert_eq!(bytes, [1, 2]);
        assert_eq!(bytes, [1, 2][..]);
        assert_eq!(bytes, &[1, 2][..]);
        assert_ne!(bytes, [1, 2, 9]);
        let mut sum = 0;
        for byte in &bytes {
            sum += byte;
        }
        assert_eq!(sum, 3);
    }

    #[test]
    #[should_panic(expected = "4 bytes of 3")]
    fn no_more_than_there_are() {
        let _ = Bytes::first([0; 3], 4);
    }
}

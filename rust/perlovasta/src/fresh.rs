//! One job on a fresh controller, and what a job that is done hands back.

use crate::job::{Done, Job};
use crate::{Address, Bytes, Event, JobError, OUT_LEN};
use core::ops::Deref;
use core::slice::Iter;

/// Reads `n` bytes, 1 to 68, from this address, on a fresh controller that is enabled, while the
/// script is what the bus does.
///
/// # Errors
///
/// If the job is not done. There are no bytes then.
pub fn read(address: Address, n: usize, script: &[Event]) -> Result<Read, JobError> {
    Job::read(address, n, script).run().map(Read::from)
}

/// Writes these bytes, 1 to 68, to this address, on a fresh controller that is enabled, while the
/// script is what the bus does.
///
/// # Errors
///
/// If the job is not done.
pub fn write(address: Address, data: &[u8], script: &[Event]) -> Result<Written, JobError> {
    Job::write(address, data, script).run().map(Written::from)
}

/// A read that is done. It is used as the slice of the bytes that were read.
#[derive(Clone, Debug, PartialEq, Eq, Hash)]
pub struct Read {
    bytes: Bytes,
    written: Written,
}

/// A write that is done.
#[derive(Clone, Debug, PartialEq, Eq, Hash)]
pub struct Written {
    sent: Bytes<OUT_LEN>,
    events: usize,
}

impl Read {
    /// The bytes that were read.
    #[must_use]
    pub fn bytes(&self) -> Bytes {
        self.bytes
    }

    /// The bytes sent: the address byte.
    #[must_use]
    pub fn sent(&self) -> &[u8] {
        self.written.sent()
    }

    /// The events taken.
    #[must_use]
    pub fn events(&self) -> usize {
        self.written.events()
    }
}

impl Deref for Read {
    type Target = [u8];

    fn deref(&self) -> &[u8] {
        &self.bytes
    }
}

impl AsRef<[u8]> for Read {
    fn as_ref(&self) -> &[u8] {
        self
    }
}

impl PartialEq<[u8]> for Read {
    fn eq(&self, other: &[u8]) -> bool {
        self.bytes == *other
    }
}

impl PartialEq<&[u8]> for Read {
    fn eq(&self, other: &&[u8]) -> bool {
        self.bytes == *other
    }
}

impl<const N: usize> PartialEq<[u8; N]> for Read {
    fn eq(&self, other: &[u8; N]) -> bool {
        self.bytes == *other
    }
}

impl<'a> IntoIterator for &'a Read {
    type Item = &'a u8;
    type IntoIter = Iter<'a, u8>;

    fn into_iter(self) -> Iter<'a, u8> {
        self.iter()
    }
}

impl Written {
    /// The bytes sent, the address byte first.
    #[must_use]
    pub fn sent(&self) -> &[u8] {
        &self.sent
    }

    /// The events taken.
    #[must_use]
    pub fn events(&self) -> usize {
        self.events
    }
}

impl From<Done> for Read {
    fn from(done: Done) -> Self {
        Read {
            bytes: done.bytes,
            written: done.into(),
        }
    }
}

impl From<Done> for Written {
    fn from(done: Done) -> Self {
        Written {
            sent: done.sent,
            events: done.events,
        }
    }
}

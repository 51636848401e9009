//! The comparison: lists until enough accesses, events and pairs were compared.

use super::library::Library;
use super::list;
use super::tally::Tally;
use crate::difference::Difference;
use crate::random::Random;

/// Compares from this seed on, until `least` accesses, events and pairs were.
pub fn compare(library: Library, seed: u64, least: u64) -> Result<Tally, Difference> {
    let mut random = Random::new(seed);
    let mut tally = Tally::new();
    while tally.total() < least {
        list::run(library, random.number(), &mut tally)?;
    }
    Ok(tally)
}

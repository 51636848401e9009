//! The comparison: lists until enough pairs were compared, chips that lie, and states of any
//! content.

use super::any_state::{self, LONGEST};
use super::liars;
use super::library::Library;
use super::list;
use super::tally::Tally;
use crate::difference::Difference;
use crate::random::Random;
use perlovasta_dock::STATE_LEN;

/// States of enough length for each list.
const STATES: usize = 4;

/// Compares from this seed on, until `least` pairs were.
pub fn compare(library: Library, seed: u64, least: u64) -> Result<Tally, Difference> {
    let mut random = Random::new(seed);
    let mut tally = Tally::new();
    for length in 0..=LONGEST {
        any_state::run(library, random.number(), length, &mut tally)?;
    }
    while tally.pairs < least {
        list::run(library, random.number(), &mut tally)?;
        liars::run(library, random.number(), &mut tally)?;
        for _ in 0..STATES {
            let longer = random.pick(&[0, 0, 0, 1, LONGEST - STATE_LEN]);
            any_state::run(library, random.number(), STATE_LEN + longer, &mut tally)?;
        }
    }
    Ok(tally)
}

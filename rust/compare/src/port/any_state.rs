//! States of any content and any length: every function answers, and writes nowhere else.

mod content;

use super::Checked;
use super::answer::{DONE, MALFORMED, NOT_READY, check_over, over};
use super::asked::Asked;
use super::board::BURST;
use super::handed;
use super::lent::Lent;
use super::liar::Liar;
use super::liars::check_give_up;
use super::library::Library;
use super::lying::{self, Lied};
use super::settings;
use super::tally::Tally;
use crate::difference::{Difference, hex};
use crate::port::step::Step;
use crate::random::Random;
use perlovasta::PLACES;
use perlovasta_dock::STATE_LEN;

/// The longest state.
pub const LONGEST: usize = 200;

/// The most accesses before a rest, wherever the state says that it stands.
const ANY_BURST: usize = BURST;

/// A state, and what is asked of it.
struct AnyState<'a> {
    random: Random,
    lent: Lent,
    library: Library,
    tally: &'a mut Tally,
}

/// Checks one state of this length, with the content that the seed makes.
pub fn run(
    library: Library,
    seed: u64,
    length: usize,
    tally: &mut Tally,
) -> Result<(), Difference> {
    let mut random = Random::new(seed);
    let content = content::random(library, length, &mut random);
    tally.states[length] += 1;
    let mut state = AnyState {
        random,
        lent: Lent::holding(library, &content),
        library,
        tally,
    };
    let checked = if length < STATE_LEN {
        state.check_short()
    } else {
        state.check_all()
    };
    checked.map_err(|place| Difference {
        input: format!("a state of {length}, seed {seed}: {}", hex(&content)),
        place,
    })
}

impl AnyState<'_> {
    /// Too short: all say so, and nothing is written.
    fn check_short(&mut self) -> Checked<()> {
        let before = self.lent.content().to_vec();
        let job = Asked::random(&mut self.random);
        let steps = [
            self.lent.start(&job)?,
            self.lent
                .recover(&settings::well_formed(&mut self.random))?,
            self.lent.next(self.random.byte())?,
            self.lent.give_up()?,
        ];
        for step in steps {
            check_over(step, MALFORMED, "too short a state")?;
        }
        handed::expect(handed::take(&mut self.lent, PLACES, job.n)?, MALFORMED)?;
        if self.lent.content() != before {
            return Err("a state that is too short was written".to_owned());
        }
        Ok(())
    }

    /// Each function, on the same content.
    fn check_all(&mut self) -> Checked<()> {
        let length = self.random.pick(&[PLACES, PLACES + 10]);
        // It may well say that it holds a finished read, of 68 bytes at most.
        let mut lent = self.lent.clone();
        if handed::take(&mut lent, length, PLACES as u8)?.is_ok() {
            check_over(lent.next(0)?, MALFORMED, "bytes that were taken")?;
        }
        check_give_up(self.lent.clone(), &Asked::random(&mut self.random))?;
        self.check_next()?;
        self.check_start()?;
        self.check_recover()
    }

    /// Wherever it says that it stands, it goes on, and rests often enough.
    fn check_next(&mut self) -> Checked<()> {
        let (mut lent, mut liar) = (self.lent.clone(), Liar::new(&mut self.random));
        let first = lent.next(self.random.byte())?;
        self.tally.count_any(first);
        self.lie(&mut lent, &mut liar, first).map(drop)
    }

    /// A job is refused at once, or runs as in any other state.
    fn check_start(&mut self) -> Checked<()> {
        let (mut lent, job) = (self.lent.clone(), Asked::random(&mut self.random));
        let first = lent.start(&job)?;
        let refused = match job.flaw() {
            Some(_) => Some(MALFORMED),
            None if first == over(NOT_READY) => Some(NOT_READY),
            None => None,
        };
        if let Some(answer) = refused {
            check_over(first, answer, "a job")?;
            return handed::expect(handed::take(&mut lent, PLACES, job.n)?, answer);
        }
        self.check_begun(&job, &mut lent, first)
    }

    /// A job that begins here runs as in a state that was only recovered.
    fn check_begun(&mut self, job: &Asked, lent: &mut Lent, first: Step) -> Checked<()> {
        let mut liar = Liar::new(&mut self.random);
        let (mut clean, mut same) = (Lent::new(self.library), liar.clone());
        lying::recover(&mut clean, &mut liar.clone())?;
        let clean_first = clean.start(job)?;
        let lied = self.lie(lent, &mut liar, first)?;
        let taken = handed::take(lent, PLACES, job.n)?;
        if lied != self.lie(&mut clean, &mut same, clean_first)?
            || taken != handed::take(&mut clean, PLACES, job.n)?
        {
            return Err(format!("old contents of the state show in a job of {job}"));
        }
        self.tally.begun_anywhere += 1;
        Ok(())
    }

    /// A recovery runs as in a new state, and a job begins after it.
    fn check_recover(&mut self) -> Checked<()> {
        let settings = settings::well_formed(&mut self.random);
        let (mut lent, mut liar) = (self.lent.clone(), Liar::new(&mut self.random));
        let (mut new, mut same) = (Lent::new(self.library), liar.clone());
        let (first, new_first) = (lent.recover(&settings)?, new.recover(&settings)?);
        let lied = self.lie(&mut lent, &mut liar, first)?;
        if lied != self.lie(&mut new, &mut same, new_first)? || lied.ended != Some((DONE, 0)) {
            return Err(format!("a recovery is not as in a new state: {lied:?}"));
        }
        match lent.start(&Asked::well_formed(&mut self.random))? {
            Step::Over { answer, .. } => Err(format!("{answer} after a recovery")),
            _ => Ok(()),
        }
    }

    /// Goes on from this step; what lies behind the state's own bytes stays.
    fn lie(&self, lent: &mut Lent, liar: &mut Liar, first: Step) -> Checked<Lied> {
        let lied = lying::run(lent, liar, first, ANY_BURST, |_, _| Ok(()))?;
        let rest = self.lent.content().get(STATE_LEN..);
        if lent.content().len() == self.lent.content().len()
            && lent.content().get(STATE_LEN..) != rest
        {
            return Err("a byte beyond the 148 of a state was written".to_owned());
        }
        Ok(lied)
    }
}

//! Jobs on a chip that lies: they rest often enough, can be given up anywhere, and hand up nothing
//! that their own reads did not give.

use super::Checked;
use super::answer::{DONE, GIVEN_UP, MALFORMED, NOT_READY, check_over};
use super::asked::Asked;
use super::board::BURST;
use super::exchange;
use super::handed;
use super::lent::Lent;
use super::liar::Liar;
use super::library::Library;
use super::lying::{self, Lied};
use super::settings;
use super::tally::Tally;
use crate::difference::Difference;
use crate::random::Random;
use perlovasta::PLACES;

/// Jobs, one after the other.
const JOBS: usize = 8;
/// In how many jobs in a hundred each step is looked at for giving up there.
const GIVE_UPS: usize = 25;

/// Jobs on chips that lie.
struct Liars<'a> {
    random: Random,
    /// A state, with what its jobs left in it.
    lent: Lent,
    /// Another, with what other jobs left in it.
    other: Lent,
    tally: &'a mut Tally,
    /// The jobs so far.
    jobs: Vec<Asked>,
}

/// Runs jobs from this seed on, each in two states with different old contents.
pub fn run(library: Library, seed: u64, tally: &mut Tally) -> Result<(), Difference> {
    let mut liars = Liars {
        random: Random::new(seed),
        lent: Lent::new(library),
        other: Lent::new(library),
        tally,
        jobs: Vec::new(),
    };
    liars.all_jobs().map_err(|place| {
        let jobs = liars.jobs.iter().map(|job| format!("\n  job of {job}"));
        let jobs = jobs.collect::<String>();
        Difference {
            input: format!("a chip that lies, seed {seed}:{jobs}"),
            place,
        }
    })
}

impl Liars<'_> {
    fn all_jobs(&mut self) -> Checked<()> {
        let mut liar = Liar::new(&mut self.random);
        self.recover(&mut liar)?;
        lying::recover(&mut self.other, &mut liar)?;
        for _ in 0..JOBS {
            self.fill_other()?;
            let job = Asked::random(&mut self.random);
            self.jobs.push(job.clone());
            self.job(&job)?;
        }
        Ok(())
    }

    /// A recovery, looked at for giving up at each of its steps.
    fn recover(&mut self, liar: &mut Liar) -> Checked<()> {
        let job = Asked::well_formed(&mut self.random);
        let tally = &mut *self.tally;
        let settings = settings::well_formed(&mut self.random);
        let first = self.lent.recover(&settings)?;
        let lied = lying::run(&mut self.lent, liar, first, BURST, |lent, step| {
            tally.count_give_up(step);
            check_give_up(lent.clone(), &job)
        })?;
        match lied.ended {
            Some((DONE, 0)) => Ok(()),
            ended => Err(format!("a recovery ended with {ended:?}")),
        }
    }

    /// Another job leaves other bytes in the other state.
    fn fill_other(&mut self) -> Checked<()> {
        let (job, mut liar) = (Asked::random(&mut self.random), Liar::new(&mut self.random));
        let first = self.other.start(&job)?;
        let lied = lying::run(&mut self.other, &mut liar, first, BURST, |_, _| Ok(()))?;
        make_ready(&mut self.other, &mut liar, &lied)
    }

    /// A job, in both states.
    fn job(&mut self, job: &Asked) -> Checked<()> {
        let mut liar = Liar::new(&mut self.random);
        let (mut same_liar, mut copy) = (liar.clone(), self.other.clone());
        let first = self.lent.start(job)?;
        let lied = if self.random.percent(GIVE_UPS) {
            let tally = &mut *self.tally;
            lying::run(&mut self.lent, &mut liar, first, BURST, |lent, step| {
                tally.count_give_up(step);
                check_give_up(lent.clone(), job)
            })?
        } else {
            lying::run(&mut self.lent, &mut liar, first, BURST, |_, _| Ok(()))?
        };
        let handed = self.check(job, &lied)?;

        let first = copy.start(job)?;
        let same = lying::run(&mut copy, &mut same_liar, first, BURST, |_, _| Ok(()))?;
        let same_handed = handed::take(&mut copy, PLACES, job.n)?;
        if same != lied || same_handed.unwrap_or_default() != handed {
            return Err("old contents of the state show".to_owned());
        }
        self.tally.count_lied(job, &lied);
        make_ready(&mut self.lent, &mut liar, &lied)
    }

    /// Whether the exchanges bear the answer out; gives the bytes handed up.
    fn check(&mut self, job: &Asked, lied: &Lied) -> Checked<Vec<u8>> {
        let Some((answer, count)) = lied.ended else {
            handed::expect(handed::take(&mut self.lent, PLACES, job.n)?, GIVEN_UP)?;
            return Ok(Vec::new());
        };
        if job.flaw().is_none() {
            exchange::check(&lied.log, answer, count, job.n)?;
        } else if (answer, count, lied.log.len()) != (MALFORMED, 0, 0) {
            return Err(format!("a wrong job is answered {answer}"));
        }
        let handed = handed::after_job(&mut self.lent, job, answer, &mut self.random)?;
        if answer == DONE && job.is_read() {
            exchange::check_read(&lied.log, &handed)?;
        }
        Ok(handed)
    }
}

/// After a job that went on too long a recovery is run.
fn make_ready(lent: &mut Lent, liar: &mut Liar, lied: &Lied) -> Checked<()> {
    match lied.ended {
        Some(_) => Ok(()),
        None => lying::recover(lent, liar),
    }
}

/// Given up where it stands: over with 27, nothing to be taken, and no job begins.
pub fn check_give_up(mut lent: Lent, job: &Asked) -> Checked<()> {
    check_over(lent.give_up()?, GIVEN_UP, "given up")?;
    check_over(lent.next(0)?, GIVEN_UP, "given up, then the next step")?;
    handed::expect(handed::take(&mut lent, PLACES, job.n)?, GIVEN_UP)?;
    let answer = match job.flaw() {
        Some(_) => MALFORMED,
        None => NOT_READY,
    };
    check_over(lent.start(job)?, answer, "given up, then a job")
}

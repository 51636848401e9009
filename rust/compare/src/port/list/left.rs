//! Jobs and recoveries that are not run to their end.

use super::List;
use crate::port::Checked;
use crate::port::answer::{GIVEN_UP, MALFORMED, NOT_READY, check_over};
use crate::port::asked::Asked;
use crate::port::board::End;
use crate::port::bus::Bus;
use crate::port::handed;
use crate::port::item::{Item, Way};
use crate::port::rule::Unready;
use crate::port::settings;
use crate::port::step::Step;
use perlovasta::PLACES;

impl List<'_> {
    /// Begins a job or a recovery and, after some steps, something else: what was under way is
    /// given up, and none of its bytes can be taken.
    pub(super) fn left(&mut self) -> Checked<()> {
        let job = self.random.percent(80);
        let job = job.then(|| Asked::well_formed(&mut self.random));
        let steps = self.random.pick(&[0, 1, 3, 10, 40, 100]);
        let steps = self.random.below(steps + 1);
        let by = self.random.pick(&Way::ALL);
        let n = job.as_ref().map_or(0, |job| job.n);
        let mut bus = Bus::random(&mut self.random, n);
        let first = match &job {
            Some(job) => self.lent.start(job)?,
            None => {
                let settings = settings::well_formed(&mut self.random);
                self.lent.recover(&settings)?
            }
        };
        let is_over_at_once = matches!(first, Step::Over { .. });
        let run = self.go_on(first, &mut bus, steps);
        self.items.push(Item::Left {
            job: job.clone(),
            pairs: bus.pairs,
            steps,
            by,
        });
        if is_over_at_once {
            return Ok(());
        }
        self.traffic.forget();
        self.leave_by(by, run?.end)
    }

    fn leave_by(&mut self, by: Way, end: End) -> Checked<()> {
        if let End::Over { .. } = end {
            // It came to its end before; a recovery so run, or a job, leaves the port ready.
            self.unready = None;
            return Ok(());
        }
        self.unready = Some(Unready::Left(by));
        self.tally.count_left(by);
        let (step, answer) = match by {
            Way::GiveUp => (self.lent.give_up()?, GIVEN_UP),
            Way::Start => {
                let job = Asked::well_formed(&mut self.random);
                (self.lent.start(&job)?, NOT_READY)
            }
            Way::WrongStart => {
                let job = Asked::flawed(&mut self.random);
                (self.lent.start(&job)?, MALFORMED)
            }
            Way::WrongRecovery => {
                let settings = settings::flawed(&mut self.random);
                (self.lent.recover(&settings)?, MALFORMED)
            }
            Way::Recovery => return self.recovery(),
        };
        check_over(step, answer, "left under way")?;
        self.stays_over(answer, 0)?;
        handed::expect(handed::take(&mut self.lent, PLACES, PLACES as u8)?, answer)
    }
}

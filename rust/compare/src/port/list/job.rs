//! A job on a list, and what it has to come to.

use super::{List, STEPS};
use crate::port::Checked;
use crate::port::answer::{GIVEN_UP, MALFORMED, NOT_READY, REFUSED, check_over};
use crate::port::asked::Asked;
use crate::port::board::{End, Run};
use crate::port::bus::Bus;
use crate::port::driver::{is_fresh, on_library, on_model};
use crate::port::handed;
use crate::port::item::Item;
use crate::port::rule::{Rule, Unready};
use crate::port::told::Told;
use model::Controller;

/// A job as it was run: how, and what it told.
struct Ran {
    rule: Rule,
    run: Run,
    told: Told,
    /// All pairs, with some that nobody looks at.
    script: Vec<u8>,
}

impl List<'_> {
    /// A job, run to its end and judged.
    pub(super) fn job(&mut self) -> Checked<()> {
        let job = Asked::random(&mut self.random);
        let rule = Rule::of(&job, self.unready, &self.controller);
        let mut bus = Bus::random(&mut self.random, job.n);
        let ended = self.run_job(&job, &mut bus);
        self.items.push(Item::Job {
            job: job.clone(),
            pairs: bus.pairs.clone(),
        });
        let (run, told) = ended?;
        let mut script = bus.pairs.into_flattened();
        if run.end != End::ScriptEnded && self.random.percent(20) {
            let later = 2 * self.random.below(4);
            script.extend(self.random.bytes(later));
        }
        let ran = Ran {
            rule,
            run,
            told,
            script,
        };
        self.judge(&job, &ran)?;
        self.tally.count_job(&job, rule, &self.before, &ran.told);
        self.tally.count_fault(&ran.told, &self.controller);
        self.tally.count_looks(&ran.run);
        if let (Rule::State, Some(unready)) = (rule, self.unready) {
            self.tally.count_unready(unready);
        }
        if rule.begins() {
            self.unready = match ran.run.end {
                End::ScriptEnded => Some(Unready::ScriptEnded),
                End::Refused(_) => Some(Unready::Refused),
                _ => None,
            };
            self.traffic.forget();
        }
        Ok(())
    }

    /// Runs it, and gives up where the script ended or an event was refused.
    fn run_job(&mut self, job: &Asked, bus: &mut Bus) -> Checked<(Run, Told)> {
        let first = self.lent.start(job)?;
        let run = self.go_on(first, bus, STEPS)?;
        let (answer, beside, count) = match run.end {
            End::Over { answer, count } => (answer, 0, count),
            End::ScriptEnded => (GIVEN_UP, 0, 0),
            End::Refused(refusal) => (REFUSED, refusal.number(), 0),
            End::Left => return Err(format!("no end after {STEPS} steps")),
        };
        if let End::ScriptEnded | End::Refused(_) = run.end {
            check_over(self.lent.give_up()?, GIVEN_UP, "given up")?;
            self.stays_over(GIVEN_UP, 0)?;
        } else {
            self.stays_over(answer, count)?;
        }
        let told = Told {
            answer,
            beside,
            count,
            events: run.events,
            sent: run.sent.clone(),
            handed: handed::after_job(&mut self.lent, job, answer, &mut self.random)?,
        };
        Ok((run, told))
    }

    /// Whether the job came to what its rule says.
    fn judge(&mut self, job: &Asked, ran: &Ran) -> Checked<()> {
        let Ran { run, told, .. } = ran;
        match ran.rule {
            Rule::Malformed | Rule::State if run.reads + run.writes > 0 => {
                return Err("an access by a job that is refused at once".to_owned());
            }
            Rule::Chip if run.writes > 0 => {
                return Err("a write by a job that the chip is not ready for".to_owned());
            }
            Rule::State => {
                told.check(&Told::refused(NOT_READY), "the rule")?;
                self.check_left(&self.before, "the rule")?;
            }
            Rule::Traffic => self.judge_after_traffic(job, ran)?,
            Rule::Malformed | Rule::Chip | Rule::Driver => self.judge_by_driver(job, ran)?,
        }
        if matches!(ran.rule, Rule::Malformed | Rule::Driver) && is_fresh(&self.before) {
            told.check(&on_library(job, &ran.script), "perlovasta_job")?;
            self.tally.count_fresh(told.answer);
        }
        Ok(())
    }

    /// As the driver runs it on the same controller.
    fn judge_by_driver(&self, job: &Asked, ran: &Ran) -> Checked<()> {
        let (expected, left) = match job.of_the_model() {
            Some(job) => on_model(&self.before, &job, &ran.script),
            // Of another kind.
            None => (Told::refused(MALFORMED), self.before.clone()),
        };
        ran.told.check(&expected, "the driver")?;
        self.check_left(&left, "the driver")
    }

    /// As the driver runs it where it began before the others' traffic.
    fn judge_after_traffic(&mut self, job: &Asked, ran: &Ran) -> Checked<()> {
        let kind = job.kind;
        let (Some((before, traffic)), Some(job)) = (self.traffic.since_free(), job.of_the_model())
        else {
            return Err("a job begun amid traffic that no event told of".to_owned());
        };
        let script = [traffic.as_flattened(), &ran.script].concat();
        let (expected, left) = on_model(before, &job, &script);
        let told = Told {
            events: ran.told.events + traffic.len(),
            ..ran.told.clone()
        };
        told.check(&expected, "the driver, begun before the traffic")?;
        self.check_left(&left, "the driver, begun before the traffic")?;
        self.tally
            .count_traffic(kind, &self.before, traffic, &ran.told);
        self.tally.idle_traffic += u64::from(is_idle_start(&ran.script));
        Ok(())
    }

    fn check_left(&self, expected: &Controller, whose: &str) -> Checked<()> {
        if self.controller == *expected {
            return Ok(());
        }
        let left = &self.controller;
        Err(format!(
            "record left by the port: {left:X?}\nby {whose}: {expected:X?}"
        ))
    }
}

/// Whether the bus fell idle, event 13, in a job's script: its START came so.
fn is_idle_start(script: &[u8]) -> bool {
    script.as_chunks::<2>().0.contains(&[13, 0])
}

//! One list: accesses, events and jobs in any order on one chip, and at times other bytes in its
//! place.

use super::content::{Change, is_stray};
use super::held::{Checked, Held};
use super::layout::RECORD_LEN;
use super::library::Library;
use super::tally::Tally;
use crate::check::describe;
use crate::difference::{Difference, hex};
use crate::group::{self, CONTROL, Group, event, write};
use crate::job_case::JobCase;
use crate::random::Random;
use crate::reference::enabled;
use crate::steer::control::{ENSIO, STA};
use crate::steer::{Steering, pair};
use model::{Controller, Turn};

/// A list under way.
struct List<'a> {
    random: Random,
    held: Held,
    steering: Steering,
    /// What was done to the bytes, until something is stored there.
    change: Option<Change>,
    tally: &'a mut Tally,
    /// What was done so far, line by line.
    items: Vec<String>,
}

/// Runs the list of this seed, and counts what occurred.
pub fn run(library: Library, seed: u64, tally: &mut Tally) -> Result<(), Difference> {
    let mut random = Random::new(seed);
    let longer = random.pick(&[0, 0, 0, 1, 40]);
    let content = random.bytes(RECORD_LEN + longer);
    let noise = random.pick(&[2, 5, 10, 30]);
    let mut list = List {
        held: Held::new(library, &content),
        steering: Steering::new(noise),
        change: None,
        tally,
        items: Vec::new(),
        random,
    };
    list.tally.lists += 1;
    list.all_items().map_err(|wrong| Difference {
        input: format!("the list of seed {seed}:\n{}", list.items.join("\n")),
        place: wrong,
    })
}

impl List<'_> {
    fn all_items(&mut self) -> Checked<()> {
        self.fresh()?;
        for _ in 0..50 + self.random.below(200) {
            self.item()?;
        }
        Ok(())
    }

    fn item(&mut self) -> Checked<()> {
        let is_dead = self.held.sound().is_none();
        match self.random.below(100) {
            0..4 => self.job(),
            4..34 if is_dead => self.revive(),
            4..6 => {
                self.other_bytes();
                Ok(())
            }
            6 => self.fresh(),
            7..13 => {
                let pair = pair::any(&mut self.random);
                self.access(event(pair))
            }
            _ => {
                let group = self.next_group();
                self.access(group)
            }
        }
    }

    /// A group for the controller as it stands; for bytes that are no sound record any will do.
    fn next_group(&mut self) -> Group {
        match self.held.sound() {
            Some(controller) => self.steering.next(controller, &mut self.random),
            None if self.random.percent(30) => group::any(&mut self.random),
            None => self.steering.next(&Controller::fresh(), &mut self.random),
        }
    }

    fn access(&mut self, group: Group) -> Checked<()> {
        self.items.push(format!("  access {}", hex(&group)));
        let before = self.held.record().cloned();
        let is_stray = before
            .as_ref()
            .is_some_and(|record| is_stray(self.held.content(), record));
        let reply = self.held.access(group)?;
        self.tally
            .count_access(group, before.as_ref(), self.held.record(), reply);
        self.tally.count_refused(self.change, reply);
        if reply & 0xFF == 0 {
            self.tally.stray += u64::from(is_stray);
            self.stored();
        }
        Ok(())
    }

    fn fresh(&mut self) -> Checked<()> {
        self.items.push("  fresh".to_owned());
        let is_fresh = self.held.fresh()?;
        self.tally.fresh[usize::from(is_fresh)] += 1;
        if is_fresh {
            self.stored();
        }
        Ok(())
    }

    fn job(&mut self) -> Checked<()> {
        if self.random.percent(70) {
            self.make_ready()?;
        }
        let ready = self.held.sound().filter(|controller| is_ready(controller));
        let on = ready.cloned().unwrap_or_else(enabled);
        let mut case = JobCase::random(&mut self.random, &on);
        self.items.push(describe(&case));
        let before = self.held.record().cloned();
        let answer = self.held.job(&mut case)?;
        self.tally
            .count_job(&case, before.as_ref(), self.held.record(), answer);
        self.tally.count_not_ready(self.change, answer);
        if !matches!(answer, 21 | 22) {
            self.stored();
        }
        Ok(())
    }

    /// A controller that is sound is brought to where a job can begin.
    fn make_ready(&mut self) -> Checked<()> {
        match self.held.sound() {
            None => Ok(()),
            Some(controller) if is_ready(controller) => Ok(()),
            Some(_) => {
                self.access(event([pair::RESET, 0]))?;
                self.access(write(CONTROL, ENSIO))
            }
        }
    }

    /// The record was stored.
    fn stored(&mut self) {
        self.change = None;
        self.tally.longer += u64::from(self.held.content().len() > RECORD_LEN);
    }

    /// Bytes that no call leaves.
    fn other_bytes(&mut self) {
        let change = self.random.pick(&Change::ALL);
        let record = self.held.record().cloned().unwrap_or_else(enabled);
        let bytes = change.bytes(&record, &mut self.random);
        self.put(&bytes);
        self.change = Some(change);
    }

    fn put(&mut self, bytes: &[u8]) {
        self.items.push(format!("  bytes {}", hex(bytes)));
        self.held.put(bytes);
    }

    /// What leads out of bytes that are no sound record: a reset, or a fresh controller.
    fn revive(&mut self) -> Checked<()> {
        if self.random.percent(40) {
            return self.access(event([pair::RESET, 0]));
        }
        self.fresh()?;
        if self.held.content().len() < RECORD_LEN {
            let bytes = self.random.bytes(RECORD_LEN);
            self.put(&bytes);
        }
        self.fresh()
    }
}

/// Whether a job can begin on a sound controller.
fn is_ready(controller: &Controller) -> bool {
    controller.turn() == Turn::Free && controller.control() & (ENSIO | STA) == ENSIO
}

//! One list: a controller in any state, and jobs, recoveries and bus events on it, one after the
//! other, through one port.

mod job;
mod left;
mod recovery;

use super::Checked;
use super::board::{Board, Run};
use super::bus::{self, Bus};
use super::driver::holding;
use super::item::Item;
use super::lent::Lent;
use super::library::Library;
use super::rule::{Unready, is_idle};
use super::tally::Tally;
use super::traffic::Traffic;
use crate::difference::Difference;
use crate::port::step::Step;
use crate::random::Random;
use crate::reference::step;
use crate::steer::Steering;
use model::{Controller, PLACES};

/// The most steps of a job or recovery. No script is so long that one takes them.
const STEPS: usize = 10_000;

/// A list under way.
struct List<'a> {
    random: Random,
    lent: Lent,
    controller: Controller,
    /// Why the port wants a recovery before a job, if it does.
    unready: Option<Unready>,
    traffic: Traffic,
    tally: &'a mut Tally,
    /// What was done so far.
    items: Vec<Item>,
    /// The controller before the last item.
    before: Controller,
}

/// Runs the list of this seed, and counts what occurred.
pub fn run(library: Library, seed: u64, tally: &mut Tally) -> Result<(), Difference> {
    let mut random = Random::new(seed);
    let controller = starting(&mut random);
    let mut list = List {
        lent: Lent::new(library),
        before: controller.clone(),
        controller,
        unready: Some(Unready::New),
        traffic: Traffic::default(),
        tally,
        items: Vec::new(),
        random,
    };
    list.tally.lists += 1;
    list.all_items()
        .map_err(|wrong| list.difference(seed, &wrong))
}

/// A fresh controller, one with something in its buffer, or one that much was done with.
fn starting(random: &mut Random) -> Controller {
    let mut controller = match random.below(2) {
        0 => Controller::fresh(),
        _ => holding(&random.bytes(usize::from(PLACES))),
    };
    let mut steering = Steering::new(5);
    for _ in 0..random.pick(&[0, 0, 10, 40]) {
        let group = steering.next(&controller, random);
        // A refused one changes nothing.
        let _ = step(&mut controller, group);
    }
    controller
}

impl List<'_> {
    fn all_items(&mut self) -> Checked<()> {
        if self.random.percent(90) {
            self.recovery()?;
        }
        for _ in 0..5 + self.random.below(30) {
            self.item()?;
        }
        Ok(())
    }

    fn item(&mut self) -> Checked<()> {
        self.before = self.controller.clone();
        let is_stuck = self.unready.is_some() || !is_idle(&self.controller);
        match self.random.below(100) {
            0..60 if is_stuck => self.recovery(),
            0..65 => self.job(),
            65..93 => {
                self.event();
                Ok(())
            }
            93..97 => self.left(),
            _ => self.recovery(),
        }
    }

    /// A pair between jobs, accepted or refused.
    fn event(&mut self) {
        let pair @ [event, argument] = bus::between_jobs(&self.controller, &mut self.random);
        self.items.push(Item::Event { pair });
        if self.controller.event(event, argument).is_ok() {
            self.traffic
                .note(&self.before, pair, self.controller.turn());
        }
    }

    /// Goes on from this step on the list's controller.
    fn go_on(&mut self, first: Step, bus: &mut Bus, most: usize) -> Checked<Run> {
        let mut board = Board {
            lent: &mut self.lent,
            controller: &mut self.controller,
            bus,
            random: &mut self.random,
        };
        board.run(first, most)
    }

    /// What is over stays so, whatever comes.
    fn stays_over(&mut self, answer: u8, count: u8) -> Checked<()> {
        let over = Step::Over { answer, count };
        match self.lent.next(self.random.byte())? {
            step if step == over => Ok(()),
            step => Err(format!("after {over:?} comes {step:?}")),
        }
    }

    fn difference(&self, seed: u64, wrong: &str) -> Difference {
        let items = self.items.iter().map(|item| format!("  {item}\n"));
        Difference {
            input: format!(
                "the list of seed {seed}:\n{}record before the last: {:X?}",
                items.collect::<String>(),
                self.before
            ),
            place: wrong.to_owned(),
        }
    }
}

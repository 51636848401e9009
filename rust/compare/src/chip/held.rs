//! One chip in lent bytes beside the model's controller, and all that a call gives and leaves.

use super::layout::{self, RECORD_LEN};
use super::library::Library;
use super::reference::{NO_RECORD, is_accepted, leaves_another, reply, standing};
use crate::difference::{Named, first};
use crate::group::{Group, READ, WRITE};
use crate::job_case::JobCase;
use crate::reference::job_on;
use model::Controller;
use std::hint::black_box;

/// What was found; or, in words, what is wrong.
pub type Checked<T> = Result<T, String>;

/// Before and after what is lent, to see that it stays.
const GUARD: [u8; 16] = [0xD7; 16];

/// A chip as it is held.
pub struct Held {
    library: Library,
    /// What is lent, between guards.
    bytes: Vec<u8>,
    /// The record that the bytes hold, if they hold one.
    model: Option<Controller>,
}

impl Held {
    /// A chip in bytes of this content.
    pub fn new(library: Library, content: &[u8]) -> Self {
        let mut held = Held {
            library,
            bytes: Vec::new(),
            model: None,
        };
        held.put(content);
        held
    }

    /// Other bytes are lent from now on.
    pub fn put(&mut self, content: &[u8]) {
        self.bytes = [&GUARD, content, &GUARD].concat();
        self.model = layout::controller(content);
    }

    /// What is lent.
    pub fn content(&self) -> &[u8] {
        &self.bytes[GUARD.len()..self.bytes.len() - GUARD.len()]
    }

    /// The record that the bytes hold, if they hold one.
    pub fn record(&self) -> Option<&Controller> {
        self.model.as_ref()
    }

    /// The same if it is sound.
    pub fn sound(&self) -> Option<&Controller> {
        self.record().filter(|controller| controller.is_sound())
    }

    /// A fresh controller: whether there is one now.
    pub fn fresh(&mut self) -> Checked<bool> {
        let fresh = self.library.fresh;
        let before = self.content().to_vec();
        let returned = self.call(fresh);
        let fits = before.len() >= RECORD_LEN;
        if fits {
            self.model = Some(Controller::fresh());
        }
        let expected = if fits { 0 } else { NO_RECORD };
        same("returned", u32::from(returned), u32::from(expected))?;
        self.left(before, fits)?;
        Ok(fits)
    }

    /// An access or an event: the reply.
    pub fn access(&mut self, group: Group) -> Checked<u32> {
        let Library {
            read, write, event, ..
        } = self.library;
        let before = self.content().to_vec();
        let [kind, place, value] = group;
        let given = self.call(|chip| match kind {
            READ => read(chip, place),
            WRITE => write(chip, place, value),
            _ => event(chip, place, value),
        });
        let expected = reply(self.model.as_mut(), group);
        same("reply", given, expected)?;
        self.left(before, is_accepted(expected))?;
        Ok(given)
    }

    /// A job: its answer. Report, destination and out record are then in the case.
    pub fn job(&mut self, case: &mut JobCase) -> Checked<u8> {
        let job = self.library.job;
        let before = self.content().to_vec();
        let mut other = case.clone();
        let given = [self.call(|chip| {
            job(
                chip,
                case.kind,
                case.address,
                case.n,
                &case.data,
                &mut case.destination,
                &mut case.out,
                &case.script,
                &mut case.report,
            )
        })];
        let mut controller = standing(self.model.clone());
        let expected = [by_model(&mut controller, &mut other)];
        if let Some(place) = first(&written(&given, case), &written(&expected, &other)) {
            return Err(place);
        }
        let is_another = leaves_another(expected[0]);
        if is_another {
            self.model = Some(controller);
        }
        self.left(before, is_another)?;
        Ok(given[0])
    }

    fn call<T>(&mut self, function: impl FnOnce(&mut [u8]) -> T) -> T {
        let end = self.bytes.len() - GUARD.len();
        let given = function(&mut self.bytes[GUARD.len()..end]);
        black_box(&mut self.bytes);
        given
    }

    /// Whether the bytes are those from before, with the record if it was stored.
    fn left(&self, before: Vec<u8>, is_stored: bool) -> Checked<()> {
        let mut expected = before;
        if let (true, Some(controller)) = (is_stored, &self.model) {
            expected[..RECORD_LEN].copy_from_slice(&layout::bytes(controller));
        }
        let expected = [&GUARD, &expected[..], &GUARD].concat();
        let (library, model) = (
            self.bytes.split_at(GUARD.len()),
            expected.split_at(GUARD.len()),
        );
        let library: [Named; 2] = [("before the chip", library.0), ("chip", library.1)];
        let model: [Named; 2] = [("before the chip", model.0), ("chip", model.1)];
        first(&library, &model).map_or(Ok(()), Err)
    }
}

fn same(name: &str, library: u32, model: u32) -> Checked<()> {
    if library == model {
        Ok(())
    } else {
        Err(format!("{name}: library {library:04X}, model {model:04X}"))
    }
}

/// The job on the model's controller.
fn by_model(controller: &mut Controller, case: &mut JobCase) -> u8 {
    job_on(
        controller,
        case.kind,
        case.address,
        case.n,
        &case.data,
        &mut case.destination,
        &mut case.out,
        &case.script,
        &mut case.report,
    )
}

/// All that a job may write but the chip.
fn written<'a>(answer: &'a [u8], case: &'a JobCase) -> [Named<'a>; 4] {
    [
        ("answer", answer),
        ("report", &case.report),
        ("out", &case.out),
        ("destination", &case.destination),
    ]
}

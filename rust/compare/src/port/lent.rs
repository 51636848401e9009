//! A state that is lent to the library, between guard bytes.

use super::Checked;
use super::asked::Asked;
use super::library::Library;
use crate::port::step::Step;
use perlovasta_dock::STATE_LEN;
use std::hint::black_box;

const GUARD: [u8; 16] = [0xC3; 16];

/// The last register of a chip.
const LAST_REGISTER: u8 = 3;

/// A state, and the library that works on it. Each call is an error if it wrote outside the state,
/// gave a number that is no step, or named a register that there is not.
#[derive(Clone, Debug)]
pub struct Lent {
    library: Library,
    /// The state, with a guard on each side.
    bytes: Vec<u8>,
}

impl Lent {
    /// A new state: all bytes 0.
    pub fn new(library: Library) -> Self {
        Self::holding(library, &[0; STATE_LEN])
    }

    /// A state with this content, of any length.
    pub fn holding(library: Library, content: &[u8]) -> Self {
        let bytes = [&GUARD, content, &GUARD].concat();
        Lent { library, bytes }
    }

    /// What the state holds.
    pub fn content(&self) -> &[u8] {
        &self.bytes[GUARD.len()..self.bytes.len() - GUARD.len()]
    }

    /// A job begins. Its data are lent for the call alone.
    pub fn start(&mut self, job: &Asked) -> Checked<Step> {
        let start = self.library.start;
        let mut data = job.data.clone();
        let step = self.call(|state| start(state, job.kind, job.address, job.n, &data));
        spoil(&mut data);
        step
    }

    /// A recovery begins. Its settings are lent for the call alone.
    pub fn recover(&mut self, settings: &[u8]) -> Checked<Step> {
        let recover = self.library.recover;
        let mut settings = settings.to_vec();
        let step = self.call(|state| recover(state, &settings));
        spoil(&mut settings);
        step
    }

    /// The next step.
    pub fn next(&mut self, value: u8) -> Checked<Step> {
        let next = self.library.next;
        self.call(|state| next(state, value))
    }

    /// The clock ran out.
    pub fn give_up(&mut self) -> Checked<Step> {
        let give_up = self.library.give_up;
        self.call(give_up)
    }

    /// The bytes of a finished read. Where there are none the state stays.
    pub fn take(&mut self, destination: &mut [u8]) -> Checked<u8> {
        let before = self.bytes.clone();
        let take = self.library.take;
        let why_not = self.guarded(|state| take(state, destination))?;
        if why_not == 0 || *black_box(&self.bytes) == before {
            Ok(why_not)
        } else {
            Err("the state was written, and no bytes were taken".to_owned())
        }
    }

    fn guarded<T>(&mut self, function: impl FnOnce(&mut [u8]) -> T) -> Checked<T> {
        let end = self.bytes.len() - GUARD.len();
        let given = function(&mut self.bytes[GUARD.len()..end]);
        if !self.bytes.starts_with(&GUARD) || !self.bytes.ends_with(&GUARD) {
            return Err("a byte outside the state was written".to_owned());
        }
        Ok(given)
    }

    fn call(&mut self, function: impl FnOnce(&mut [u8]) -> u32) -> Checked<Step> {
        let number = self.guarded(function)?;
        match Step::from_number(number) {
            None => Err(format!("{number:08X}h is no step")),
            Some(Step::Write { register, .. } | Step::Read { register })
                if register > LAST_REGISTER =>
            {
                Err(format!("a step at register {register}"))
            }
            Some(step) => Ok(step),
        }
    }
}

/// Writes over what was lent: whoever looked at it now would see other bytes.
fn spoil(lent: &mut [u8]) {
    lent.fill(0xDB);
    black_box(lent);
}

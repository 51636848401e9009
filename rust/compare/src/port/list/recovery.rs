//! A recovery on a list: from wherever the controller is, to where its settings lead.

use super::{List, STEPS};
use crate::group::{CONTROL, INDIRECT, POINTER};
use crate::port::Checked;
use crate::port::answer::{DONE, MALFORMED, check_over};
use crate::port::board::End;
use crate::port::bus::Bus;
use crate::port::handed;
use crate::port::item::Item;
use crate::port::settings;
use crate::steer::pair;
use model::{Controller, Refusal};
use perlovasta::PLACES;

impl List<'_> {
    /// A recovery; one in ten has settings that are wrong.
    pub(super) fn recovery(&mut self) -> Checked<()> {
        if self.random.percent(10) {
            return self.wrong_recovery();
        }
        let settings = settings::well_formed(&mut self.random);
        self.items.push(Item::Recovery {
            settings: settings.clone(),
        });
        self.tally.count_recovery(&self.controller, &settings);
        let expected = recovered(&self.controller, &settings);
        let first = self.lent.recover(&settings)?;
        let run = self.go_on(first, &mut Bus::silent(), STEPS)?;
        if !matches!(
            run.end,
            End::Over {
                answer: DONE,
                count: 0
            }
        ) {
            return Err(format!("a recovery ended with {:?}", run.end));
        }
        if run.pauses == 0 || run.burst > 0 {
            return Err("a recovery without a pause at its end".to_owned());
        }
        if expected.as_ref() != Ok(&self.controller) {
            let left = &self.controller;
            return Err(format!(
                "record left by a recovery: {left:X?}\nexpected: {expected:X?}"
            ));
        }
        self.stays_over(DONE, 0)?;
        self.is_no_read()?;
        self.unready = None;
        self.traffic.forget();
        Ok(())
    }

    /// Wrong settings: over at once with 21. A port that was ready stays so.
    fn wrong_recovery(&mut self) -> Checked<()> {
        let settings = settings::flawed(&mut self.random);
        self.items.push(Item::Recovery {
            settings: settings.clone(),
        });
        self.tally.count_wrong_settings(&settings);
        check_over(self.lent.recover(&settings)?, MALFORMED, "wrong settings")?;
        self.stays_over(MALFORMED, 0)?;
        self.is_no_read()
    }

    /// Nothing can be taken from what was no read.
    fn is_no_read(&mut self) -> Checked<()> {
        handed::expect(
            handed::take(&mut self.lent, PLACES, PLACES as u8)?,
            MALFORMED,
        )
    }
}

/// What a reset, these settings and 40h to I2CCON make of the controller.
fn recovered(controller: &Controller, settings: &[u8]) -> Result<Controller, Refusal> {
    let mut controller = controller.clone();
    controller.event(pair::RESET, 0)?;
    for &[pointer, value] in settings.as_chunks::<2>().0 {
        controller.write(POINTER, pointer)?;
        controller.write(INDIRECT, value)?;
    }
    controller.write(CONTROL, 0x40)?;
    Ok(controller)
}

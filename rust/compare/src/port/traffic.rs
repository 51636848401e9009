//! What other masters did between jobs, since the bus was last free.

use model::{Controller, Turn};

/// Other masters' traffic, and the controller before it.
#[derive(Clone, Debug, Default)]
pub struct Traffic {
    before: Option<Controller>,
    pairs: Vec<[u8; 2]>,
}

impl Traffic {
    /// Notes a pair that was accepted between jobs, on this controller.
    pub fn note(&mut self, before: &Controller, pair: [u8; 2], after: Turn) {
        match after {
            Turn::Busy | Turn::Listen => {
                if before.turn() == Turn::Free {
                    self.before = Some(before.clone());
                    self.pairs.clear();
                }
                self.pairs.push(pair);
            }
            // Free again, a fault or a reset.
            _ => self.forget(),
        }
    }

    /// A job or a recovery was run: what came before it is no traffic between jobs.
    pub fn forget(&mut self) {
        self.before = None;
        self.pairs.clear();
    }

    /// The controller as it was while the bus was last free, and the pairs since, if it is known.
    pub fn since_free(&self) -> Option<(&Controller, &[[u8; 2]])> {
        let before = self.before.as_ref()?;
        Some((before, &self.pairs))
    }
}

#[cfg(test)]
mod tests {
    use super::Traffic;
    use crate::reference::enabled;

    #[test]
    fn since_the_bus_was_last_free() {
        let (free, mut controller) = (enabled(), enabled());
        let mut traffic = Traffic::default();
        let pairs = [
            [10, 0],
            [2, 0],
            [5, 0x20],
            [3, 0],
            [2, 0],
            [5, 0x22],
            [10, 0],
            [2, 0],
        ];
        for pair in pairs {
            let before = controller.clone();
            controller.event(pair[0], pair[1]).unwrap();
            traffic.note(&before, pair, controller.turn());
        }
        assert_eq!(traffic.since_free(), Some((&free, &pairs[4..])));
        traffic.forget();
        assert_eq!(traffic.since_free(), None);
    }
}

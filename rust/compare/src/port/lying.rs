//! A run of the port on a chip that lies.

use super::Checked;
use super::answer::DONE;
use super::board::BURST;
use super::exchange::Exchange;
use super::lent::Lent;
use super::liar::Liar;
use crate::port::step::Step;

/// The most rests of a run; one that is not over by then is left.
const RESTS: usize = 60;

/// What a run came to.
#[derive(Clone, Debug, PartialEq, Eq)]
pub struct Lied {
    /// All exchanges with the chip.
    pub log: Vec<Exchange>,
    /// Answer and count, if it was over.
    pub ended: Option<(u8, u8)>,
    /// The most accesses from one rest to the next.
    pub longest: usize,
}

/// Goes on from this step until it is over. From one rest to the next there may be so many accesses
/// at most. Before each step `look` sees the state, with the step that it is at.
pub fn run(
    lent: &mut Lent,
    liar: &mut Liar,
    first: Step,
    burst: usize,
    mut look: impl FnMut(&Lent, Step) -> Checked<()>,
) -> Checked<Lied> {
    let mut lied = Lied {
        log: Vec::new(),
        ended: None,
        longest: 0,
    };
    let (mut step, mut since, mut rests) = (first, 0, 0);
    while rests < RESTS {
        look(lent, step)?;
        if let Step::Over { answer, count } = step {
            lied.ended = Some((answer, count));
            break;
        }
        let (exchange, value) = exchange(step, liar);
        lied.log.push(exchange);
        if matches!(exchange, Exchange::Wait | Exchange::Pause) {
            (since, rests) = (0, rests + 1);
        } else {
            since += 1;
        }
        lied.longest = lied.longest.max(since);
        if lied.longest > burst {
            return Err(format!("more than {burst} accesses without a rest"));
        }
        step = lent.next(value)?;
    }
    Ok(lied)
}

/// Does a step that is not over, and gives the value for the next; after anything but a read any.
fn exchange(step: Step, liar: &mut Liar) -> (Exchange, u8) {
    let exchange = match step {
        Step::Read { register } => {
            let value = liar.read(register);
            return (Exchange::Read(register, value), value);
        }
        Step::Write { register, value } => {
            liar.write(register, value);
            Exchange::Write(register, value)
        }
        Step::Wait | Step::Over { .. } => Exchange::Wait,
        Step::Pause => Exchange::Pause,
    };
    (exchange, liar.any())
}

/// Recovers the state, whatever the chip says; a job may begin on it then.
pub fn recover(lent: &mut Lent, liar: &mut Liar) -> Checked<()> {
    let first = lent.recover(&[])?;
    let lied = run(lent, liar, first, BURST, |_, _| Ok(()))?;
    liar.begin();
    match lied.ended {
        Some((DONE, 0)) => Ok(()),
        ended => Err(format!("a recovery ended with {ended:?}")),
    }
}

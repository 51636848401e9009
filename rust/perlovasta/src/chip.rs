//! The model as a device: a controller that is held for as long as one likes.

use crate::job::Job;
use crate::sys;
use crate::{Address, CHIP_LEN, Event, JobError, Read, Reason, Refusal, Register, Turn, Written};
use core::error::Error;
use core::fmt;

/// A virtual chip: the controller of the model, with its registers and its bus.
///
/// A new one is fresh: as after reset, not enabled, with no [reason](VirtualChip::reason) yet and a
/// buffer of zeros. 40h to [`Register::Control`] enables it.
///
/// ```
/// use perlovasta::{Event, Refusal, Register, Turn, VirtualChip};
///
/// let mut chip = VirtualChip::new();
/// chip.write(Register::Control, 0x60)?; // ENSIO and STA: a START is wanted
/// chip.event(Event::OwnStart)?;
/// assert_eq!(chip.read(Register::Status), Ok(0x08));
/// assert_eq!(chip.turn(), Turn::Host { status: 0x08, edge: None });
/// // No byte is under way yet.
/// assert_eq!(chip.event(Event::ByteIn(0x5C)), Err(Refusal::Unexpected));
/// # Ok::<(), Refusal>(())
/// ```
///
/// Two chips are equal if all their [bytes](VirtualChip::as_bytes) are, those of the buffer that
/// are of no more use too.
#[derive(Clone, PartialEq, Eq)]
pub struct VirtualChip {
    record: [u8; CHIP_LEN],
}

/// Bytes that hold no controller.
#[derive(Clone, Copy, Debug, PartialEq, Eq, Hash)]
pub struct NoRecord;

/// A register that there is not. Only bytes that hold no controller refuse it for another reason.
const NO_REGISTER: u8 = 4;

impl VirtualChip {
    /// A fresh chip.
    #[must_use]
    pub fn new() -> Self {
        let mut record = [0; CHIP_LEN];
        let refusal = sys::chip_fresh(&mut record);
        assert_eq!(refusal, 0, "{CHIP_LEN} bytes are a chip's");
        VirtualChip { record }
    }

    /// The chip in bytes that [`as_bytes`](VirtualChip::as_bytes) gave.
    ///
    /// # Errors
    ///
    /// If the bytes hold no controller. One that is not sound is taken: it refuses all but the
    /// reset pin, for [`Refusal::Unsound`].
    pub fn from_bytes(bytes: &[u8; CHIP_LEN]) -> Result<Self, NoRecord> {
        let mut record = *bytes;
        match refused(sys::chip_read(&mut record, NO_REGISTER)) {
            Some(Refusal::Unsound) => Err(NoRecord),
            _ => Ok(VirtualChip { record }),
        }
    }

    /// The bytes of the chip, as `perlovasta.h` has them.
    #[must_use]
    pub fn as_bytes(&self) -> &[u8; CHIP_LEN] {
        &self.record
    }

    /// Reads a register.
    ///
    /// # Errors
    ///
    /// If it is refused. Nothing has changed then.
    pub fn read(&mut self, register: Register) -> Result<u8, Refusal> {
        value(sys::chip_read(&mut self.record, register.number()))
    }

    /// Writes a byte to a register.
    ///
    /// # Errors
    ///
    /// If it is refused. Nothing has changed then.
    pub fn write(&mut self, register: Register, byte: u8) -> Result<(), Refusal> {
        let reply = sys::chip_write(&mut self.record, register.number(), byte);
        value(reply).map(drop)
    }

    /// Something happens on the bus. The value is the byte that went out; or 1 if the controller
    /// does not acknowledge the byte that came in; else 0.
    ///
    /// # Errors
    ///
    /// If it is refused. Nothing has changed then.
    pub fn event(&mut self, event: Event) -> Result<u8, Refusal> {
        self.give(event.pair())
    }

    pub(crate) fn give(&mut self, [event, argument]: [u8; 2]) -> Result<u8, Refusal> {
        value(sys::chip_event(&mut self.record, event, argument))
    }

    /// The driver reads `n` bytes, 1 to 68, from this address, while the script is what the bus
    /// does. The chip is left as the job leaves it.
    ///
    /// # Errors
    ///
    /// If the job is not done. There are no bytes then. The chip has to be enabled before, by 40h
    /// to [`Register::Control`]: a fresh one is [not ready](crate::Answer::NotReady).
    pub fn run_read(
        &mut self,
        address: Address,
        n: usize,
        script: &[Event],
    ) -> Result<Read, JobError> {
        let done = Job::read(address, n, script).run_on(&mut self.record);
        done.map(Read::from)
    }

    /// The driver writes these bytes, 1 to 68, to this address, while the script is what the bus
    /// does. The chip is left as the job leaves it.
    ///
    /// # Errors
    ///
    /// If the job is not done. The chip has to be enabled before, as for
    /// [`run_read`](VirtualChip::run_read).
    pub fn run_write(
        &mut self,
        address: Address,
        data: &[u8],
        script: &[Event],
    ) -> Result<Written, JobError> {
        let done = Job::write(address, data, script).run_on(&mut self.record);
        done.map(Written::from)
    }

    /// What the chip waits for.
    pub fn turn(&self) -> Turn {
        Turn::told(self.record[2], self.record[3])
    }

    /// Why a move ended.
    pub fn reason(&self) -> Reason {
        Reason::from_number(self.record[4]).expect("a record has one of the reasons")
    }
}

impl Default for VirtualChip {
    fn default() -> Self {
        Self::new()
    }
}

/// Says nothing of the buffer: it can hold what a badge said and was not handed up. Bytes that were
/// handed up show themselves.
impl fmt::Debug for VirtualChip {
    fn fmt(&self, f: &mut fmt::Formatter<'_>) -> fmt::Result {
        f.debug_struct("VirtualChip")
            .field("turn", &self.turn())
            .field("reason", &self.reason())
            .finish_non_exhaustive()
    }
}

impl fmt::Display for NoRecord {
    fn fmt(&self, f: &mut fmt::Formatter<'_>) -> fmt::Result {
        f.write_str("the bytes hold no controller")
    }
}

impl Error for NoRecord {}

/// The value of a reply, or why there is none.
fn value(reply: u32) -> Result<u8, Refusal> {
    let [_, value, ..] = reply.to_le_bytes();
    refused(reply).map_or(Ok(value), Err)
}

/// The refusal of a reply, none for accepted.
///
/// # Panics
///
/// For a number that no refusal has; the library is proved not to give one.
fn refused(reply: u32) -> Option<Refusal> {
    let [number, ..] = reply.to_le_bytes();
    Refusal::of_reply(number)
}

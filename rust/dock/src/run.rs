//! Whole jobs of a port on a board.

use crate::{Address, Answer, Argument, Board, Bytes, Clock, Port, PortError, Setting, Step, Wait};

impl Port {
    /// Brings the chip back, whatever it was doing: a software reset, the settings, 40h to I2CCON,
    /// and a pause. The writes were made if it is done; nothing is read back. Set the clock
    /// before each job, recovery included.
    ///
    /// # Errors
    ///
    /// If there are more than [six](Setting::MOST) settings, the board failed, or its clock ran out
    /// in the pause.
    pub fn recover<B: Board + ?Sized>(
        &mut self,
        board: &mut B,
        settings: &[Setting],
    ) -> Result<(), PortError<B::Error>> {
        let first = self.start_recover(settings);
        self.run(board, first, Argument::Settings(settings.len()))
    }

    /// Reads `n` bytes, 1 to 68, from this address.
    ///
    /// # Errors
    ///
    /// If the job is not done. There are no bytes then.
    pub fn read<B: Board + ?Sized>(
        &mut self,
        board: &mut B,
        address: Address,
        n: usize,
    ) -> Result<Bytes, PortError<B::Error>> {
        let first = self.start_read(address, n);
        self.run(board, first, Argument::Count(n))?;
        self.take().map_err(|error| not_done(error.answer(), 0))
    }

    /// Writes these bytes, 1 to 68, to this address.
    ///
    /// # Errors
    ///
    /// If the job is not done.
    pub fn write<B: Board + ?Sized>(
        &mut self,
        board: &mut B,
        address: Address,
        data: &[u8],
    ) -> Result<(), PortError<B::Error>> {
        let first = self.start_write(address, data);
        self.run(board, first, Argument::Data(data.len()))
    }

    /// Does what each step says until it is over. `doubtful` is what is wrong if it is malformed:
    /// nothing else can be.
    fn run<B: Board + ?Sized>(
        &mut self,
        board: &mut B,
        first: Step,
        doubtful: Argument,
    ) -> Result<(), PortError<B::Error>> {
        let mut step = first;
        loop {
            match step {
                Step::Over { answer, count } => return over(answer, count, doubtful),
                step_to_do => step = self.after(board, step_to_do)?,
            }
        }
    }

    /// The board does this step, and the port gives the next.
    fn after<B: Board + ?Sized>(
        &mut self,
        board: &mut B,
        step: Step,
    ) -> Result<Step, PortError<B::Error>> {
        match perform(board, step) {
            Ok(Some(value)) => Ok(self.next(value)),
            Ok(None) => Ok(self.give_up()),
            Err(error) => {
                let _over = self.give_up();
                Err(PortError::Board(error))
            }
        }
    }
}

/// The board does this step: the value for the next one, or none if the clock ran out.
fn perform<B: Board + ?Sized>(board: &mut B, step: Step) -> Result<Option<u8>, B::Error> {
    let wait = match step {
        Step::Read { register } => return board.read(register).map(Some),
        Step::Write { register, value } => return board.write(register, value).map(|()| Some(0)),
        Step::Wait => Wait::Interrupt,
        Step::Pause => Wait::Pause,
        Step::Over { .. } => return Ok(Some(0)),
    };
    match board.wait(wait)? {
        Clock::Running => Ok(Some(0)),
        Clock::RanOut => Ok(None),
    }
}

fn over<E>(answer: Answer, count: u8, doubtful: Argument) -> Result<(), PortError<E>> {
    match answer {
        Answer::Done => Ok(()),
        Answer::Malformed => Err(PortError::Malformed(doubtful)),
        answer => Err(not_done(answer, count)),
    }
}

fn not_done<E>(answer: Answer, moved: u8) -> PortError<E> {
    PortError::Answered { answer, moved }
}

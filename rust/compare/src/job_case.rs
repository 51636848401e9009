//! Random jobs: mostly well formed, at times with flaws that the answer 21 is for.

use crate::random::Random;
use crate::script::random_script;
use crate::steer::pair;
use model::{Controller, Job, Kind};
use perlovasta::{OUT_LEN, PLACES, REPORT_LEN};

/// A job, and what it is lent as it is before.
#[derive(Clone, Debug)]
pub struct JobCase {
    /// 0 write, 1 read, or neither.
    pub kind: u8,
    /// The seven-bit address.
    pub address: u8,
    /// How many data bytes.
    pub n: u8,
    /// The data of a write.
    pub data: Vec<u8>,
    /// Pairs of event and argument.
    pub script: Vec<u8>,
    /// The destination before the call.
    pub destination: Vec<u8>,
    /// The out record before the call.
    pub out: Vec<u8>,
    /// The report before the call.
    pub report: Vec<u8>,
}

/// What is wrong with a job.
#[derive(Clone, Copy, Debug, PartialEq, Eq)]
pub enum Flaw {
    /// The kind is over 1.
    Kind,
    /// The address is not 08h to 77h.
    Address,
    /// n is not 1 to 68.
    Count,
    /// The data of a write are shorter than n.
    Data,
    /// The destination of a read is shorter than n.
    Destination,
    /// The out record is too short.
    Out,
    /// The script has an odd length.
    Script,
    /// The report is too short, so that none is given.
    Report,
}

impl Flaw {
    /// All of them.
    pub const ALL: [Flaw; 8] = [
        Flaw::Kind,
        Flaw::Address,
        Flaw::Count,
        Flaw::Data,
        Flaw::Destination,
        Flaw::Out,
        Flaw::Script,
        Flaw::Report,
    ];
}

impl JobCase {
    /// A random job for this controller; one in six has a flaw, and few have two.
    pub fn random(random: &mut Random, on: &Controller) -> Self {
        let mut job = Self::well_formed(random, on);
        if random.percent(1) {
            let pairs = 200 + random.below(200);
            job.wait(pairs);
        }
        while random.percent(15) {
            let flaw = random.pick(&Flaw::ALL);
            job.spoil(random, flaw);
        }
        job
    }

    fn well_formed(random: &mut Random, on: &Controller) -> Self {
        let kind = random.below(2) as u8;
        let any = 1 + random.below(PLACES) as u8;
        let n = random.pick(&[1, 2, 8, 67, 68, any]);
        let any = 0x08 + random.below(0x70) as u8;
        let address = random.pick(&[0x08, 0x50, 0x77, any]);
        // What is not used may be of any length.
        let data = room(random, n, kind == 0);
        let destination = room(random, n, kind == 1);
        let longer = random.pick(&[0, 0, 1, 40]);
        let mut job = JobCase {
            kind,
            address,
            n,
            data: random.bytes(data),
            script: Vec::new(),
            destination: random.bytes(destination),
            out: random.bytes(OUT_LEN + longer),
            report: random.bytes(REPORT_LEN + longer),
        };
        job.script = random_script(random, &job.of_the_model(), on);
        job
    }

    /// A job for this controller that takes more pairs than two bytes tell.
    pub fn long(random: &mut Random, on: &Controller) -> Self {
        let mut job = Self::well_formed(random, on);
        job.wait(0x1_0000);
        job
    }

    /// Puts pairs before the script that change nothing: illegal edges while the bus is free.
    fn wait(&mut self, pairs: usize) {
        let waiting = [pair::ILLEGAL_EDGE, 0].repeat(pairs);
        self.script.splice(0..0, waiting);
    }

    fn of_the_model(&self) -> Job<'_> {
        Job {
            kind: if self.kind == 0 {
                Kind::Write
            } else {
                Kind::Read
            },
            address: self.address,
            n: self.n,
            data: &self.data,
        }
    }

    fn spoil(&mut self, random: &mut Random, flaw: Flaw) {
        match flaw {
            Flaw::Kind => self.kind = 2 + random.below(254) as u8,
            Flaw::Address => self.address = random.pick_or_any(&[0, 7, 0x78, 0x7F, 0xD0]),
            Flaw::Count => self.spoil_count(random),
            Flaw::Data => shorten(&mut self.data, random, usize::from(self.n)),
            Flaw::Destination => shorten(&mut self.destination, random, usize::from(self.n)),
            Flaw::Out => shorten(&mut self.out, random, OUT_LEN),
            Flaw::Script => self.script.push(random.byte()),
            Flaw::Report => shorten(&mut self.report, random, REPORT_LEN),
        }
    }

    /// Another n; what is lent is longer than any, so that n alone is wrong.
    fn spoil_count(&mut self, random: &mut Random) {
        self.n = random.pick_or_any(&[0, 69, 70, 255]);
        self.data.extend(random.bytes(255));
        self.destination.extend(random.bytes(255));
    }

    /// What is wrong with it.
    pub fn flaws(&self) -> Vec<Flaw> {
        let n = usize::from(self.n);
        let wrong = [
            (Flaw::Kind, self.kind > 1),
            (Flaw::Address, !(0x08..=0x77).contains(&self.address)),
            (Flaw::Count, !(1..=PLACES).contains(&n)),
            (Flaw::Data, self.kind == 0 && self.data.len() < n),
            (
                Flaw::Destination,
                self.kind == 1 && self.destination.len() < n,
            ),
            (Flaw::Out, self.out.len() < OUT_LEN),
            (Flaw::Script, !self.script.len().is_multiple_of(2)),
            (Flaw::Report, self.report.len() < REPORT_LEN),
        ];
        let found = wrong.into_iter().filter(|&(_, wrong)| wrong);
        found.map(|(flaw, _)| flaw).collect()
    }
}

/// A length that holds n if it is used, and else any.
fn room(random: &mut Random, n: u8, used: bool) -> usize {
    match used {
        true => usize::from(n) + random.pick(&[0, 0, 1, 255]),
        false => random.pick(&[0, 1, usize::from(n), 100]),
    }
}

/// Shorter than the limit, mostly by one; a limit of 0 leaves it.
fn shorten(bytes: &mut Vec<u8>, random: &mut Random, limit: usize) {
    if limit > 0 {
        let any = random.below(limit);
        bytes.truncate(random.pick(&[limit - 1, limit - 1, 0, any]));
    }
}

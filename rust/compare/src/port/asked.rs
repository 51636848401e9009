//! Jobs as they are asked of the port: mostly well formed, at times with a flaw that 21 is for.

use crate::difference::hex;
use crate::random::Random;
use model::{Job, Kind};
use perlovasta::PLACES;
use std::fmt;

/// A job.
#[derive(Clone, Debug, PartialEq, Eq)]
pub struct Asked {
    /// 0 write, 1 read, or neither.
    pub kind: u8,
    /// The seven-bit address.
    pub address: u8,
    /// How many data bytes.
    pub n: u8,
    /// The data of a write; a read's are not looked at.
    pub data: Vec<u8>,
}

/// What is wrong with a job.
#[derive(Clone, Copy, Debug, PartialEq, Eq)]
pub enum Flaw {
    /// The kind is over 1.
    Kind,
    /// The address is not 08h to 77h.
    Address,
    /// n is not 1 to 68.
    Count,
    /// The data of a write are shorter than n.
    Data,
}

impl Flaw {
    /// All of them.
    pub const ALL: [Flaw; 4] = [Flaw::Kind, Flaw::Address, Flaw::Count, Flaw::Data];
}

impl Asked {
    /// A random job; one in ten has a flaw.
    pub fn random(random: &mut Random) -> Self {
        if random.percent(10) {
            Self::flawed(random)
        } else {
            Self::well_formed(random)
        }
    }

    /// A job that is answered 21 by nothing.
    pub fn well_formed(random: &mut Random) -> Self {
        let kind = random.below(2) as u8;
        let any = 1 + random.below(PLACES) as u8;
        let n = random.pick(&[1, 2, 8, 67, 68, any]);
        let any = 0x08 + random.below(0x70) as u8;
        let address = random.pick(&[0x08, 0x50, 0x77, any]);
        let length = match kind {
            0 => usize::from(n) + random.pick(&[0, 0, 0, 1, 255]),
            _ => random.pick(&[0, 1, usize::from(n)]),
        };
        let data = random.bytes(length);
        Asked {
            kind,
            address,
            n,
            data,
        }
    }

    /// A job with one thing wrong.
    pub fn flawed(random: &mut Random) -> Self {
        let mut job = Self::well_formed(random);
        match random.pick(&Flaw::ALL) {
            Flaw::Kind => job.kind = 2 + random.below(254) as u8,
            Flaw::Address => job.address = random.pick(&[0, 7, 0x78, 0x7F, 0x80, 0xD0, 0xFF]),
            Flaw::Count => {
                job.n = random.pick(&[0, 69, 70, 128, 255]);
                job.data.resize(255, 0x5C);
            }
            Flaw::Data => {
                job.kind = 0;
                let any = random.below(usize::from(job.n));
                job.data
                    .truncate(random.pick(&[usize::from(job.n) - 1, 0, any]));
            }
        }
        job
    }

    /// The first thing that is wrong with it.
    pub fn flaw(&self) -> Option<Flaw> {
        let n = usize::from(self.n);
        let wrong = [
            (Flaw::Kind, self.kind > 1),
            (Flaw::Address, !(0x08..=0x77).contains(&self.address)),
            (Flaw::Count, !(1..=PLACES).contains(&n)),
            (Flaw::Data, self.kind == 0 && self.data.len() < n),
        ];
        let found = wrong.into_iter().find(|&(_, wrong)| wrong);
        found.map(|(flaw, _)| flaw)
    }

    /// Whether it is a read.
    pub const fn is_read(&self) -> bool {
        self.kind == 1
    }

    /// The model's job, if it is a write or a read.
    pub fn of_the_model(&self) -> Option<Job<'_>> {
        let kind = match self.kind {
            0 => Kind::Write,
            1 => Kind::Read,
            _ => return None,
        };
        Some(Job {
            kind,
            address: self.address,
            n: self.n,
            data: &self.data,
        })
    }
}

impl fmt::Display for Asked {
    fn fmt(&self, f: &mut fmt::Formatter<'_>) -> fmt::Result {
        let Asked {
            kind, address, n, ..
        } = self;
        write!(f, "kind {kind}, address {address:02X}, n {n}")?;
        if !self.is_read() {
            write!(f, ", data {}", hex(&self.data))?;
        }
        Ok(())
    }
}

#[cfg(test)]
mod tests {
    use super::Asked;
    use crate::random::Random;

    #[test]
    fn flaws_are_flaws() {
        let mut random = Random::new(1);
        for _ in 0..1000 {
            assert_eq!(Asked::well_formed(&mut random).flaw(), None);
            assert!(Asked::flawed(&mut random).flaw().is_some());
        }
    }
}

//! The phases of a thread and the record that is lent for one (document 01, 'One step of one thread').

/// A thread record as lent: phase code, the number that the phase carries (else 0), and b in phase 5 (else 0).
#[derive(Clone, Copy, Debug, Default, PartialEq, Eq)]
pub struct Record {
    pub phase: u8,
    pub number: i32,
    pub end: u8,
}

/// The phase of a thread, with its number where it has one.
#[derive(Clone, Copy, Debug, PartialEq, Eq)]
pub enum Phase {
    Rest,
    CalledPut,
    Reserved { slot: usize },
    Stored,
    CalledTake,
    Scanning { slot: usize, end: usize },
    Holding { sample: i32 },
}

impl Phase {
    /// The phase as a lent thread record.
    pub fn record(self) -> Record {
        let (phase, number, end) = match self {
            Phase::Rest => (0, 0, 0),
            Phase::CalledPut => (1, 0, 0),
            Phase::Reserved { slot } => (2, slot as i32, 0),
            Phase::Stored => (3, 0, 0),
            Phase::CalledTake => (4, 0, 0),
            Phase::Scanning { slot, end } => (5, slot as i32, end as u8),
            Phase::Holding { sample } => (6, sample, 0),
        };
        Record { phase, number, end }
    }
}

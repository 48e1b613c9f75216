//! Replaying a trace file on a program file.

use std::fmt;

use crate::{array, calls, number_at, served, Machine, Why, MACHINE};

/// A trace whose every step was accepted.
#[derive(Clone, PartialEq, Eq, Debug)]
pub struct Replayed {
    pub steps: u32,
    pub machine: Machine,
    /// Every thread is at its end with no promise left.
    pub complete: bool,
    /// It is complete and the question holds.
    pub holds: bool,
}

/// The file that a refusal is in.
#[derive(Clone, Copy, PartialEq, Eq, Debug)]
pub enum File {
    Program,
    Trace,
}

/// A refused replay: where, why, and how far it came.
#[derive(Clone, PartialEq, Eq)]
pub struct ReplayRefused {
    pub why: Why,
    pub file: File,
    /// The index of the trace's record, from 0.
    pub index: u32,
    /// The place in the file.
    pub place: u32,
    /// The steps before the refusal, and the machine after them.
    pub steps: u32,
    pub machine: Box<Machine>,
}

impl fmt::Display for ReplayRefused {
    fn fmt(&self, out: &mut fmt::Formatter) -> fmt::Result {
        let ReplayRefused { why, file, index, place, steps, .. } = self;
        let (name, record) = match file {
            File::Program => ("program", String::new()),
            File::Trace => ("trace", format!(" (record {index}, counted from 0)")),
        };
        let taken = match steps {
            0 => "before any step".to_string(),
            1 => "after 1 step".to_string(),
            _ => format!("after {steps} steps"),
        };
        let Why(number) = why;
        write!(
            out,
            "the {name} file is refused with {number} at byte {place}{record}, {taken}: {}",
            why.meaning()
        )
    }
}

/// In words too: an error that `main` returns is printed by `Debug`.
impl fmt::Debug for ReplayRefused {
    fn fmt(&self, out: &mut fmt::Formatter) -> fmt::Result {
        fmt::Display::fmt(self, out)
    }
}

impl std::error::Error for ReplayRefused {}

/// Replays the trace from the fresh machine, until its end or its first refusal.
pub fn replay(file: &[u8], trace: &[u8]) -> Result<Replayed, ReplayRefused> {
    let mut answer = [0; 16 + MACHINE];
    served(calls::replay(file, trace, &mut answer));
    let [number, within, complete, holds] = array(&answer, 0);
    let steps = number_at(&answer, 4);
    let machine = Machine::from_bytes(array(&answer, 16));
    if number == 0 {
        return Ok(Replayed { steps, machine, complete: complete == 1, holds: holds == 1 });
    }
    Err(ReplayRefused {
        why: Why(number),
        file: if within == 1 { File::Program } else { File::Trace },
        index: number_at(&answer, 8),
        place: number_at(&answer, 12),
        steps,
        machine: Box::new(machine),
    })
}

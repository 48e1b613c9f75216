//! The steps of a run that shows how a thread alone keeps its promises.

use std::fmt;

/// A step of such a run.
#[derive(Clone, Copy, PartialEq, Eq, Debug)]
pub enum RunStep {
    /// The next instruction is executed at a time, 0 where it is neither load nor store.
    Executed { time: u8 },
    /// The next instruction, a store that was not promised before, is executed with a message of its
    /// own, which is the newest.
    OwnMessage { time: u8 },
}

impl RunStep {
    /// The step of two bytes that the library wrote.
    pub(crate) fn from_bytes([kind, time]: [u8; 2]) -> RunStep {
        match kind {
            0 => RunStep::Executed { time },
            _ => RunStep::OwnMessage { time },
        }
    }
}

impl fmt::Display for RunStep {
    fn fmt(&self, out: &mut fmt::Formatter) -> fmt::Result {
        match self {
            RunStep::Executed { time } => write!(out, "executed at time {time}"),
            RunStep::OwnMessage { time } => write!(out, "executed with its own message, at time {time}"),
        }
    }
}

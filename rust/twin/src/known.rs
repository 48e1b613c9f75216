//! What a walk knows of the machines it has left. All that can follow depends on the machine
//! alone, however it was reached, so a machine met again has the same number of sequences.

use std::collections::HashMap;

use crate::machine::Machine;

/// The machines from which every accepted sequence has been visited. No search ends there any more, and
/// whatever they end with has been listed, at an earlier place.
pub trait Known {
    /// How many accepted sequences begin at the machine, where that is known.
    fn sequences(&self, machine: &Machine) -> Option<u64>;
    fn learn(&mut self, machine: &Machine, sequences: u64);
}

/// Knows no machine: the walk visits every sequence itself.
pub struct Nothing;

impl Known for Nothing {
    #[inline]
    fn sequences(&self, _: &Machine) -> Option<u64> {
        None
    }

    #[inline]
    fn learn(&mut self, _: &Machine, _: u64) {}
}

/// Knows every machine it was told.
#[derive(Default)]
pub struct Table(HashMap<Machine, u64>);

impl Known for Table {
    fn sequences(&self, machine: &Machine) -> Option<u64> {
        self.0.get(machine).copied()
    }

    fn learn(&mut self, machine: &Machine, sequences: u64) {
        self.0.insert(*machine, sequences);
    }
}

//! The listing of all outcomes, each once and with the place of the first sequence that ends with it. It
//! comes in the two forms of the search, with the same answers.

use std::collections::BTreeMap;

use crate::known::{Known, Nothing, Table};
use crate::machine::Machine;
use crate::program::Program;
use crate::sequences::{walk, End};

/// Eight registers for each of four threads, then 16 locations.
pub const OUTCOME: usize = 4 * 8 + 16;

/// What a sequence ends with: the registers of every thread, 0 where there is none, and the last values
/// of the locations.
pub type Outcome = [u8; OUTCOME];

/// What a listing gives.
#[derive(Clone, PartialEq, Eq, Debug)]
pub enum Listed {
    /// All sequences were visited, so many; the outcomes in order, with the places.
    Finished { sequences: u64, places: BTreeMap<Outcome, u64> },
    /// There are more sequences than the budget, and what was seen until then is not shown.
    NotFinished,
}

/// The listing of a program; every sequence is visited.
pub fn list(program: &Program, budget: u64) -> Listed {
    list_with(Nothing, program, budget)
}

/// The same listing, also where the sequences are too many to visit: those from a machine that was left
/// before have nothing new.
pub fn list_known(program: &Program, budget: u64) -> Listed {
    list_with(Table::default(), program, budget)
}

fn list_with<K: Known>(known: K, program: &Program, budget: u64) -> Listed {
    let mut places = BTreeMap::new();
    let walked = walk(program, budget, known, |machine, place| {
        places.entry(outcome(machine)).or_insert(place);
        false
    });
    match walked.end {
        End::Spent => Listed::NotFinished,
        _ => Listed::Finished { sequences: walked.count, places },
    }
}

/// The outcome of a complete machine.
pub fn outcome(machine: &Machine) -> Outcome {
    let (mut outcome, memory) = ([0; OUTCOME], &machine.memory);
    let registers = machine.thread.iter().flat_map(|thread| thread.register);
    for (byte, register) in outcome.iter_mut().zip(registers) {
        *byte = register.value;
    }
    // A later message to the location takes the place of an earlier one.
    for index in 0..memory.count as usize {
        outcome[4 * 8 + memory.location[index] as usize] = memory.value[index];
    }
    outcome
}

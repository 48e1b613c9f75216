//! Trace files: a record of six bytes for each step, and their replay.

use crate::machine::{complete, holds, Machine};
use crate::program::{self, Program};
use crate::step::{accepted, Step};

/// The file a refusal is in.
#[derive(Clone, Copy, PartialEq, Eq, Debug)]
pub enum In {
    Program,
    Trace,
}

/// A refusal of either file; `index` is how many records of the trace come before.
#[derive(Clone, Copy, PartialEq, Eq, Debug)]
pub struct Refusal {
    pub file: In,
    pub number: u8,
    pub index: u32,
    pub place: u32,
}

/// The answer of a replay; what is not complete does not hold either.
#[derive(Clone, Copy, PartialEq, Eq, Debug)]
pub struct Replayed {
    pub refusal: Option<Refusal>,
    pub steps: u32,
    pub complete: bool,
    pub holds: bool,
    pub machine: Machine,
}

/// Replays a trace on a program file.
pub fn replay(file: &[u8], trace: &[u8]) -> Replayed {
    match program::read(file) {
        Ok(program) => replay_program(&program, trace),
        Err(refused) => {
            let place = refused.place as u32;
            let refusal = Refusal { file: In::Program, number: refused.number, index: 0, place };
            refused_after(refusal, 0, Machine::default())
        }
    }
}

/// After a refusal nothing is complete and nothing holds.
fn refused_after(refusal: Refusal, steps: u32, machine: Machine) -> Replayed {
    Replayed { refusal: Some(refusal), steps, complete: false, holds: false, machine }
}

/// Takes the steps one by one, up to the first that is refused.
fn replay_program(program: &Program, trace: &[u8]) -> Replayed {
    let mut machine = Machine::default();
    let mut steps = 0;
    for record in trace.chunks(6) {
        match read_step(record).and_then(|step| accepted(program, &machine, step)) {
            Ok(next) => machine = next,
            Err(number) => {
                let refusal = Refusal { file: In::Trace, number, index: steps, place: steps * 6 };
                return refused_after(refusal, steps, machine);
            }
        }
        steps += 1;
    }
    let complete = complete(program, &machine);
    let holds = complete && holds(program, &machine);
    Replayed { refusal: None, steps, complete, holds, machine }
}

/// The step of a record, which refusals 1 and 2 are about; what the step itself may do is tested later.
fn read_step(record: &[u8]) -> Result<Step, u8> {
    let &[first, second, kind, thread, a, b] = record else {
        return Err(1);
    };
    if [first, second] != [0x53, 0x54] {
        return Err(2);
    }
    Ok(Step { kind, thread, a, b })
}

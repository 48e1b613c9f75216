//! One step: what it needs, what it changes, and whether the thread is certified afterwards. Where
//! several refusals apply, the lowest number is the answer.

use crate::certify::{self, RunStep};
use crate::machine::{self, Machine};
use crate::program::{self, Program};
use crate::rules::{decode, execute};

/// Kind 0 is an execution, a its time; kind 1 is a promise, a its location and b its value.
#[derive(Clone, Copy, PartialEq, Eq, Debug, Default)]
pub struct Step {
    pub kind: u8,
    pub thread: u8,
    pub a: u8,
    pub b: u8,
}

/// The step on any values: refusals 20 to 29.
pub fn step(program: &Program, machine: &Machine, step: Step) -> Result<Machine, u8> {
    if !well_formed(program, machine) {
        return Err(20);
    }
    accepted(program, machine, step)
}

/// What refusal 20 asks of the two values.
pub fn well_formed(program: &Program, machine: &Machine) -> bool {
    program::well_formed(program) && machine::well_formed(program, machine)
}

/// The step on well-formed values: refusals 21 to 29.
pub fn accepted(program: &Program, machine: &Machine, step: Step) -> Result<Machine, u8> {
    if step.thread >= program.threads {
        return Err(21);
    }
    if step.kind > 1 || step.kind == 0 && step.b != 0 {
        return Err(22);
    }
    let next = if step.kind == 1 { promised(machine, step)? } else { executed(program, machine, step)? };
    let number = step.thread as usize;
    if !certify::certified(&program.code[number], step.thread, &next.thread[number], &next.memory) {
        return Err(29);
    }
    Ok(next)
}

/// Memory has one message more and the thread one promise; it executes nothing.
fn promised(machine: &Machine, step: Step) -> Result<Machine, u8> {
    if step.a > 15 {
        return Err(23);
    }
    if machine.memory.count >= 16 {
        return Err(24);
    }
    let mut next = *machine;
    let time = next.memory.append(step.a, step.b, step.thread);
    next.thread[step.thread as usize].promise(time);
    Ok(next)
}

fn executed(program: &Program, machine: &Machine, step: Step) -> Result<Machine, u8> {
    let number = step.thread as usize;
    let (thread, code) = (&machine.thread[number], &program.code[number]);
    if thread.position >= code.count {
        return Err(25);
    }
    let instr = decode(&code.instructions[thread.position as usize]);
    let mut next = *machine;
    next.thread[number] = execute(&instr, thread, &machine.memory, step.a)?;
    Ok(next)
}

/// Certification as a call: the first certifying run, if there is one. It is refused by 20 or 21 only.
pub fn certify(program: &Program, machine: &Machine, thread: u8) -> Result<Option<Vec<RunStep>>, u8> {
    if !well_formed(program, machine) {
        return Err(20);
    }
    if thread >= program.threads {
        return Err(21);
    }
    let number = thread as usize;
    Ok(certify::first_run(&program.code[number], thread, &machine.thread[number], &machine.memory))
}

//! Files and machines that take longest: many loads that matter before a store.

use crate::litmus::{vector, Vector};
use crate::machine::Machine;
use crate::program::{Instruction, Program, BRANCH, COMPUTE, LOAD, STORE};

/// The budget of the recorded answers.
pub const BUDGET: u32 = 100;

/// The files of `programs/worst`, with what a budget of 100 gives.
pub fn files() -> Vec<Vector> {
    include_str!("../../../programs/worst/vectors.txt").lines().map(vector).collect()
}

/// `loads` loads of location 0, their values combined by computes of the mode (0 added up, 1 subtracted,
/// 2 by exclusive or) and stored: a promise that no run keeps. Certification has to look at every run.
pub fn unkept(loads: u8, mode: u8) -> (Program, Machine) {
    odd_promise(&combined(loads, mode))
}

/// The same loads added up, with a promise that only the last run keeps: every load reads the newest message.
/// Eight loads make the longest of runs, 16 steps.
pub fn kept_last(loads: u8) -> (Program, Machine) {
    promise(&combined(loads, 0), 1, 15 * loads)
}

fn combined(loads: u8, mode: u8) -> Vec<Instruction> {
    let mut code: Vec<Instruction> = (0..loads).map(load).collect();
    code.extend((1..loads).map(|register| [COMPUTE, mode, 0, 1, 0, 1, register]));
    code.push([STORE, 0, 0, 0, 1, 1, 0]);
    code
}

/// Ten loads of location 0, four pairs of them compared by branches, the last pair added up and stored: a
/// promise that no run keeps.
pub fn compared() -> (Program, Machine) {
    let pair = |register| [BRANCH, 1, 0, 1, register, 1, register + 1];
    let mut code: Vec<Instruction> = (0..8).map(load).collect();
    code.extend([pair(0), load(0), load(1), pair(2), pair(4), pair(6)]);
    code.extend([[COMPUTE, 0, 0, 1, 0, 1, 1], [STORE, 0, 0, 0, 1, 1, 0]]);
    odd_promise(&code)
}

fn load(register: u8) -> Instruction {
    [LOAD, 0, register, 0, 0, 0, 0]
}

/// An odd value where all that can be read is even.
fn odd_promise(code: &[Instruction]) -> (Program, Machine) {
    promise(code, 16, 1)
}

/// Thread 1 has the code, and a promise of the value at location 1; the fifteen messages that it can read at
/// location 0 are the multiples of the factor.
fn promise(code: &[Instruction], factor: u8, value: u8) -> (Program, Machine) {
    let mut program = Program { version: 1, threads: 2, ..Program::default() };
    let stores: Vec<Instruction> = (1..=15).map(|number| [STORE, 0, 0, 0, 0, 0, factor * number]).collect();
    for (thread, instructions) in program.code.iter_mut().zip([stores.as_slice(), code]) {
        thread.count = instructions.len() as u8;
        thread.instructions[..instructions.len()].copy_from_slice(instructions);
    }
    let mut machine = Machine::default();
    for number in 1..=15 {
        machine.memory.append(0, factor * number, 0);
    }
    let time = machine.memory.append(1, value, 1);
    machine.thread[1].promise(time);
    (program, machine)
}

//! The values as bytes: 487 for a program, 341 for a machine. Any bytes of these lengths are a
//! value, and writing it gives them back.

use crate::certify::RunStep;
use crate::machine::{Forward, Machine, Memory, Register, Thread};
use crate::program::{Code, Condition, Program};
use crate::step::Step;

pub const PROGRAM: usize = 487;
pub const MACHINE: usize = 341;

/// Takes bytes off the front.
struct Take<'a>(&'a [u8]);

impl Take<'_> {
    fn byte(&mut self) -> u8 {
        let (first, rest) = self.0.split_first().expect("the length is checked before");
        self.0 = rest;
        *first
    }

    fn bytes<const N: usize>(&mut self) -> [u8; N] {
        std::array::from_fn(|_| self.byte())
    }
}

/// Version and thread count, four threads of a count and 16 instructions, condition count, 8 conditions.
pub fn program_from(bytes: &[u8; PROGRAM]) -> Program {
    let mut take = Take(bytes);
    Program {
        version: take.byte(),
        threads: take.byte(),
        code: std::array::from_fn(|_| Code {
            count: take.byte(),
            instructions: std::array::from_fn(|_| take.bytes()),
        }),
        conditions: take.byte(),
        condition: std::array::from_fn(|_| {
            let [kind, thread, index, value] = take.bytes();
            Condition { kind, thread, index, value }
        }),
    }
}

pub fn program_bytes(program: &Program) -> [u8; PROGRAM] {
    let mut bytes = vec![program.version, program.threads];
    for code in &program.code {
        bytes.push(code.count);
        bytes.extend(code.instructions.iter().flatten());
    }
    bytes.push(program.conditions);
    for condition in &program.condition {
        bytes.extend([condition.kind, condition.thread, condition.index, condition.value]);
    }
    bytes.try_into().expect("the parts make up the length")
}

/// Message count, 16 messages, four threads.
pub fn machine_from(bytes: &[u8; MACHINE]) -> Machine {
    let mut take = Take(bytes);
    let mut memory = Memory { count: take.byte(), ..Memory::default() };
    for index in 0..16 {
        [memory.location[index], memory.value[index], memory.thread[index]] = take.bytes();
    }
    Machine { memory, thread: std::array::from_fn(|_| thread_from(&mut take)) }
}

/// Position, 8 registers, 16 coherence views, 16 forward pairs, the six other views, and two bytes of
/// promises, the low one first.
fn thread_from(take: &mut Take) -> Thread {
    Thread {
        position: take.byte(),
        register: std::array::from_fn(|_| Register { value: take.byte(), view: take.byte() }),
        coherence: take.bytes(),
        forward: std::array::from_fn(|_| Forward { time: take.byte(), view: take.byte() }),
        r_old: take.byte(),
        w_old: take.byte(),
        r_new: take.byte(),
        w_new: take.byte(),
        cap: take.byte(),
        rel: take.byte(),
        promises: u16::from_le_bytes(take.bytes()),
    }
}

pub fn machine_bytes(machine: &Machine) -> [u8; MACHINE] {
    let memory = &machine.memory;
    let mut bytes = vec![memory.count];
    for index in 0..16 {
        bytes.extend([memory.location[index], memory.value[index], memory.thread[index]]);
    }
    for thread in &machine.thread {
        bytes.push(thread.position);
        bytes.extend(thread.register.iter().flat_map(|register| [register.value, register.view]));
        bytes.extend(thread.coherence);
        bytes.extend(thread.forward.iter().flat_map(|pair| [pair.time, pair.view]));
        bytes.extend([thread.r_old, thread.w_old, thread.r_new, thread.w_new, thread.cap, thread.rel]);
        bytes.extend(thread.promises.to_le_bytes());
    }
    bytes.try_into().expect("the parts make up the length")
}

/// A step as its record in a trace file.
pub fn step_bytes(step: &Step) -> [u8; 6] {
    [0x53, 0x54, step.kind, step.thread, step.a, step.b]
}

/// A step of a certifying run: its kind and its time.
pub fn run_step_bytes(step: &RunStep) -> [u8; 2] {
    match *step {
        RunStep::Executed(time) => [0, time],
        RunStep::OwnMessage(time) => [1, time],
    }
}

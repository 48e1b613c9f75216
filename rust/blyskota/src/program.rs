//! The program value: threads of instructions, and the question about how they end.

use std::fmt;

use crate::{array, calls, number_at, served, Instruction, Refused, Why, PROGRAM};

/// A program value, as the reader gives it.
#[derive(Clone, PartialEq, Eq, Debug)]
pub struct Program([u8; PROGRAM]);

/// One condition of the question; the outcome that is asked for meets all of them.
#[derive(Clone, Copy, PartialEq, Eq, Debug)]
pub enum Condition {
    /// The thread's register has the value at the end.
    Register { thread: u8, register: u8, value: u8 },
    /// The last message to the location has the value; 0 where there is none.
    Location { location: u8, value: u8 },
}

/// Bytes of an instruction and of a condition.
const INSTRUCTION: usize = 7;
const CONDITION: usize = 4;
/// Where the threads start in the value, how long one is, and where the question starts. A thread
/// and the question each begin with the number of their entries.
const THREADS: usize = 2;
const THREAD: usize = 1 + 16 * INSTRUCTION;
const QUESTION: usize = THREADS + 4 * THREAD;

impl Program {
    /// Reads a program file.
    pub fn read(file: &[u8]) -> Result<Program, Refused> {
        let mut answer = [0; 8 + PROGRAM];
        served(calls::read(file, &mut answer));
        match answer[0] {
            0 => Ok(Program(array(&answer, 8))),
            number => Err(Refused { why: Why(number), place: number_at(&answer, 4) }),
        }
    }

    /// Any bytes are a value; steps on one that no file gives are refused with 20.
    pub fn from_bytes(bytes: [u8; PROGRAM]) -> Program {
        Program(bytes)
    }

    pub fn as_bytes(&self) -> &[u8; PROGRAM] {
        &self.0
    }

    /// How many threads it has.
    pub fn threads(&self) -> u8 {
        self.0[1]
    }

    /// The instructions of a thread, 0 to 3, in order. None where the program has no such thread, or
    /// where the value is made of bytes that are no instructions there.
    pub fn instructions(&self, thread: u8) -> Option<Vec<Instruction>> {
        if !self.has(thread) {
            return None;
        }
        let start = THREADS + THREAD * usize::from(thread);
        let count = at_most(16, self.0[start])?;
        let instruction = |index: u8| {
            let bytes = array(&self.0, start + 1 + INSTRUCTION * usize::from(index));
            Instruction::from_bytes(bytes, count - 1 - index)
        };
        (0..count).map(instruction).collect()
    }

    /// The conditions of the question, in order. None where the value is made of bytes that are none.
    pub fn conditions(&self) -> Option<Vec<Condition>> {
        let count = at_most(8, self.0[QUESTION])?;
        let condition =
            |index: u8| self.condition(array(&self.0, QUESTION + 1 + CONDITION * usize::from(index)));
        (0..count).map(condition).collect()
    }

    /// The condition of the bytes kind, thread, index, value, unless the reader would refuse them.
    fn condition(&self, bytes: [u8; CONDITION]) -> Option<Condition> {
        match bytes {
            [0, thread, register @ 0..=7, value] if self.has(thread) => {
                Some(Condition::Register { thread, register, value })
            }
            [1, 0, location @ 0..=15, value] => Some(Condition::Location { location, value }),
            _ => None,
        }
    }

    /// Whether it has a thread of this number. There is room for four, whatever a value's bytes say.
    fn has(&self, thread: u8) -> bool {
        thread < self.threads().min(4)
    }
}

/// The number of entries, unless there is no room for so many.
fn at_most(room: u8, count: u8) -> Option<u8> {
    (count <= room).then_some(count)
}

/// As a listing has it.
impl fmt::Display for Condition {
    fn fmt(&self, out: &mut fmt::Formatter) -> fmt::Result {
        match self {
            Condition::Register { thread, register, value } => write!(out, "{thread}:r{register} = {value}"),
            Condition::Location { location, value } => write!(out, "[{location}] = {value}"),
        }
    }
}

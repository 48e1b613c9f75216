//! The machine value and its two calls.

use crate::{array, calls, served, Program, RunStep, Step, Why, MACHINE};

/// A machine value: memory and four threads.
#[derive(Clone, PartialEq, Eq, Debug)]
pub struct Machine([u8; MACHINE]);

/// A message of the memory.
#[derive(Clone, Copy, PartialEq, Eq, Debug)]
pub struct Message {
    pub location: u8,
    pub value: u8,
    pub thread: u8,
}

/// A thread's state; views and times are times of messages.
#[derive(Clone, Copy, PartialEq, Eq, Debug)]
pub struct Thread {
    pub position: u8,
    /// Value and view of each register.
    pub registers: [(u8, u8); 8],
    pub coherence: [u8; 16],
    /// Forward time and view of each location.
    pub forward: [(u8, u8); 16],
    pub r_old: u8,
    pub w_old: u8,
    pub r_new: u8,
    pub w_new: u8,
    pub cap: u8,
    pub rel: u8,
    /// Bit t - 1 for an outstanding promise at time t.
    pub promises: u16,
}

/// Where the threads start in the value, and how long one is.
const THREADS: usize = 49;
const THREAD: usize = 73;

impl Machine {
    /// The machine before any step: no message, every register and view 0, no promise.
    pub fn fresh() -> Machine {
        Machine([0; MACHINE])
    }

    /// Any bytes are a value; steps on one that is not well formed are refused with 20.
    pub fn from_bytes(bytes: [u8; MACHINE]) -> Machine {
        Machine(bytes)
    }

    pub fn as_bytes(&self) -> &[u8; MACHINE] {
        &self.0
    }

    /// The machine after the step, or why it is refused.
    pub fn step(&self, program: &Program, step: Step) -> Result<Machine, Why> {
        let mut answer = [0; 1 + MACHINE];
        served(calls::step(program.as_bytes(), &self.0, step.bytes(), &mut answer));
        match answer[0] {
            0 => Ok(Machine(array(&answer, 1))),
            number => Err(Why(number)),
        }
    }

    /// The first run by which the thread, alone, keeps all its promises; None where it cannot. Where runs part,
    /// the one with the earlier time comes first, and a store's own message last; a run ends as soon as no
    /// promise is left.
    pub fn certify(&self, program: &Program, thread: u8) -> Result<Option<Vec<RunStep>>, Why> {
        let mut answer = [0; 36];
        served(calls::certify(program.as_bytes(), &self.0, thread, &mut answer));
        let step = |index: u8| RunStep::from_bytes(array(&answer, 4 + 2 * usize::from(index)));
        match answer[..3] {
            [0, 1, length] => Ok(Some((0..length).map(step).collect())),
            [0, ..] => Ok(None),
            _ => Err(Why(answer[0])),
        }
    }

    /// The messages of the memory, from time 1 on.
    pub fn messages(&self) -> Vec<Message> {
        let count = self.0[0].min(16) as usize;
        let message = |[location, value, thread]: [u8; 3]| Message { location, value, thread };
        (0..count).map(|index| message(array(&self.0, 1 + 3 * index))).collect()
    }

    /// The state of a thread, 0 to 3.
    pub fn thread(&self, number: usize) -> Option<Thread> {
        if number > 3 {
            return None;
        }
        let bytes: [u8; THREAD] = array(&self.0, THREADS + THREAD * number);
        let pair = |at: usize| (bytes[at], bytes[at + 1]);
        Some(Thread {
            position: bytes[0],
            registers: std::array::from_fn(|index| pair(1 + 2 * index)),
            coherence: array(&bytes, 17),
            forward: std::array::from_fn(|index| pair(33 + 2 * index)),
            r_old: bytes[65],
            w_old: bytes[66],
            r_new: bytes[67],
            w_new: bytes[68],
            cap: bytes[69],
            rel: bytes[70],
            promises: u16::from_le_bytes([bytes[71], bytes[72]]),
        })
    }
}

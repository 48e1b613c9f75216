//! The machine: memory, threads, the outcome question, and the machine's well-formedness.

use std::hash::{Hash, Hasher};

use crate::program::Program;

/// The messages in the order of their times, which begin with 1; time t is entry t - 1.
#[derive(Clone, Copy, PartialEq, Eq, Hash, Debug, Default)]
pub struct Memory {
    pub count: u8,
    pub location: [u8; 16],
    pub value: [u8; 16],
    pub thread: [u8; 16],
}

/// What a register holds, and what that depends on.
#[derive(Clone, Copy, PartialEq, Eq, Debug, Default)]
pub struct Register {
    pub value: u8,
    pub view: u8,
}

/// The thread's last store to a location: its time, and the view with which the thread itself reads it.
#[derive(Clone, Copy, PartialEq, Eq, Debug, Default)]
pub struct Forward {
    pub time: u8,
    pub view: u8,
}

/// The state of a thread; a fresh one is all 0.
#[derive(Clone, Copy, PartialEq, Eq, Debug, Default)]
pub struct Thread {
    pub position: u8,
    pub register: [Register; 8],
    pub coherence: [u8; 16],
    pub forward: [Forward; 16],
    pub r_old: u8,
    pub w_old: u8,
    pub r_new: u8,
    pub w_new: u8,
    pub cap: u8,
    pub rel: u8,
    /// The outstanding ones: bit t - 1 for time t.
    pub promises: u16,
}

#[derive(Clone, Copy, PartialEq, Eq, Hash, Debug, Default)]
pub struct Machine {
    pub memory: Memory,
    pub thread: [Thread; 4],
}

impl Memory {
    /// The times at which the location has a message: bit t for time t, and bit 0, since before all
    /// messages every location holds 0.
    #[inline]
    pub fn times_of(&self, location: u8) -> u32 {
        let mut times = 0;
        for index in 0..16 {
            times |= u32::from(self.location[index] == location) << (index + 1);
        }
        times & ((2 << self.count) - 1) | 1
    }

    /// The value at a time, 0 at time 0.
    #[inline]
    pub fn value_at(&self, time: u8) -> u8 {
        if time == 0 {
            0
        } else {
            self.value[(time - 1) as usize & 15]
        }
    }

    /// Adds a message behind the others; the caller knows that fewer than 16 stand.
    #[inline]
    pub fn append(&mut self, location: u8, value: u8, thread: u8) -> u8 {
        let index = self.count as usize & 15;
        self.location[index] = location;
        self.value[index] = value;
        self.thread[index] = thread;
        self.count += 1;
        self.count
    }

    /// Makes another message of the one at a time.
    pub fn set(&mut self, time: u8, location: u8, value: u8) {
        let index = (time - 1) as usize & 15;
        self.location[index] = location;
        self.value[index] = value;
    }

    /// Takes the newest message back.
    #[inline]
    pub fn take_back(&mut self) {
        self.count -= 1;
        let index = self.count as usize & 15;
        self.location[index] = 0;
        self.value[index] = 0;
        self.thread[index] = 0;
    }

    /// What the location holds after all messages.
    pub fn last_value(&self, location: u8) -> u8 {
        self.value_at(31 - self.times_of(location).leading_zeros() as u8)
    }
}

impl Thread {
    #[inline]
    pub fn has_promised(&self, time: u8) -> bool {
        time > 0 && time <= 16 && self.promises >> (time - 1) & 1 == 1
    }

    #[inline]
    pub fn promise(&mut self, time: u8) {
        self.promises |= 1 << (time - 1);
    }

    /// The promise is kept: it is outstanding no longer.
    #[inline]
    pub fn take_out(&mut self, time: u8) {
        self.promises &= !(1 << (time - 1));
    }
}

/// In few wide pieces: derived, which is byte by byte, it would cost more than the rest of a visit
/// of a search that knows machines again.
impl Hash for Thread {
    fn hash<H: Hasher>(&self, state: &mut H) {
        self.register.map(|register| u16::from_le_bytes([register.value, register.view])).hash(state);
        self.coherence.hash(state);
        self.forward.map(|pair| u16::from_le_bytes([pair.time, pair.view])).hash(state);
        [self.position, self.r_old, self.w_old, self.r_new, self.w_new, self.cap, self.rel].hash(state);
        self.promises.hash(state);
    }
}

/// Whether all threads have run to their end and kept what they promised.
pub fn complete(program: &Program, machine: &Machine) -> bool {
    (0..program.threads as usize).all(|number| {
        let thread = &machine.thread[number];
        thread.position == program.code[number].count && thread.promises == 0
    })
}

/// Whether every condition of the question is met, as it is where there are none.
pub fn holds(program: &Program, machine: &Machine) -> bool {
    program.condition[..program.conditions as usize].iter().all(|condition| {
        let value = match condition.kind {
            0 => machine.thread[condition.thread as usize].register[condition.index as usize].value,
            _ => machine.memory.last_value(condition.index),
        };
        value == condition.value
    })
}

/// Whether this is a machine of the well-formed program.
pub fn well_formed(program: &Program, machine: &Machine) -> bool {
    memory_well_formed(program, &machine.memory)
        && (0..4).all(|number| {
            let thread = &machine.thread[number];
            if number < program.threads as usize {
                thread_well_formed(thread, number as u8, program.code[number].count, &machine.memory)
            } else {
                *thread == Thread::default()
            }
        })
}

/// Each message has one of the 16 locations and one of the program's threads; all behind the last is 0.
fn memory_well_formed(program: &Program, memory: &Memory) -> bool {
    memory.count <= 16
        && (0..16).all(|index| {
            let (location, thread) = (memory.location[index], memory.thread[index]);
            if index < memory.count as usize {
                location < 16 && thread < program.threads
            } else {
                (location, memory.value[index], thread) == (0, 0, 0)
            }
        })
}

/// Nothing is later than the newest message, the position is no further than the end, and only own
/// messages are promised.
fn thread_well_formed(thread: &Thread, number: u8, instructions: u8, memory: &Memory) -> bool {
    let views = [thread.r_old, thread.w_old, thread.r_new, thread.w_new, thread.cap, thread.rel];
    let own = |time: u8| time <= memory.count && memory.thread[time as usize - 1] == number;
    thread.position <= instructions
        && views.iter().chain(&thread.coherence).all(|&view| view <= memory.count)
        && thread.register.iter().all(|register| register.view <= memory.count)
        && thread.forward.iter().all(|pair| pair.time.max(pair.view) <= memory.count)
        && (1..=16).all(|time| !thread.has_promised(time) || own(time))
}

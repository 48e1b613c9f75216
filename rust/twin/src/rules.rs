//! The machine's rules: what one instruction needs and what it changes.
//! A thread's own state and the memory decide everything; certification is not done here.

use crate::machine::{Forward, Memory, Register, Thread};
use crate::program::{Instruction, BRANCH, COMPUTE, LOAD, STORE};

/// Two bytes of an instruction: by the first, the second is a value or names a register.
#[derive(Clone, Copy, PartialEq, Eq, Debug)]
pub enum Operand {
    Constant(u8),
    Register(u8),
}

/// How a load reads, in the order in which byte m counts them.
#[derive(Clone, Copy, PartialEq, Eq, Debug)]
pub enum Mode {
    Plain,
    Acquire,
    WeakAcquire,
}

#[derive(Clone, Copy, PartialEq, Eq, Debug)]
pub enum Fence {
    DmbSy,
    DmbLd,
    DmbSt,
    Isb,
}

/// An instruction, decoded.
#[derive(Clone, Copy, PartialEq, Eq, Debug)]
pub enum Instr {
    Compute { how: u8, into: u8, left: Operand, right: Operand },
    Load { mode: Mode, into: u8, left: Operand, right: Operand },
    Store { release: bool, address: Operand, data: Operand },
    Branch { skip: u8, left: Operand, right: Operand },
    Fence(Fence),
}

/// The instruction that the seven bytes of a well-formed program mean.
pub fn decode(instruction: &Instruction) -> Instr {
    let [op, m, r, k1, n1, k2, n2] = *instruction;
    let operand = |k: u8, n: u8| {
        if k == 0 {
            Operand::Constant(n)
        } else {
            Operand::Register(n)
        }
    };
    let (left, right) = (operand(k1, n1), operand(k2, n2));
    match op {
        COMPUTE => Instr::Compute { how: m, into: r, left, right },
        LOAD => {
            let mode = [Mode::Plain, Mode::Acquire, Mode::WeakAcquire][m as usize];
            Instr::Load { mode, into: r, left, right }
        }
        STORE => Instr::Store { release: m == 1, address: left, data: right },
        BRANCH => Instr::Branch { skip: m, left, right },
        _ => Instr::Fence([Fence::DmbSy, Fence::DmbLd, Fence::DmbSt, Fence::Isb][m as usize]),
    }
}

/// A view only grows: the other is taken where it is larger.
#[inline]
pub fn raise(view: &mut u8, by: u8) {
    *view = (*view).max(by);
}

/// What an operand is worth. A constant depends on no message, so it has view 0.
#[inline]
fn operand(thread: &Thread, operand: Operand) -> Register {
    match operand {
        Operand::Constant(value) => Register { value, view: 0 },
        Operand::Register(number) => thread.register[number as usize & 7],
    }
}

/// The result of a compute, by its byte m. Sums and differences wrap, as bytes do.
pub fn computed(how: u8, left: u8, right: u8) -> u8 {
    match how {
        0 => left.wrapping_add(right),
        1 => left.wrapping_sub(right),
        2 => left ^ right,
        _ => u8::from(left == right),
    }
}

/// A load that is about to execute: where it reads and what it must not miss.
#[derive(Clone, Copy, Debug)]
pub struct Load {
    pub mode: Mode,
    pub into: u8,
    pub location: u8,
    pub address_view: u8,
    pub pre_view: u8,
}

impl Load {
    /// The sum of the operands names one of the 16 locations, by its remainder.
    #[inline]
    pub fn of(thread: &Thread, mode: Mode, into: u8, left: Operand, right: Operand) -> Load {
        let (left, right) = (operand(thread, left), operand(thread, right));
        let location = left.value.wrapping_add(right.value) % 16;
        let address_view = left.view.max(right.view);
        // It comes after its address and rNew; an acquire, unlike a weak one, also after Rel.
        let mut pre_view = address_view;
        raise(&mut pre_view, thread.r_new);
        if mode == Mode::Acquire {
            raise(&mut pre_view, thread.rel);
        }
        Load { mode, into, location, address_view, pre_view }
    }

    /// The end of the forbidden span: as far as the load or its location has come.
    #[inline]
    fn span_end(&self, thread: &Thread) -> u8 {
        self.pre_view.max(thread.coherence[self.location as usize & 15])
    }

    /// Refusals 26 and 27, one after the other.
    pub fn allowed(&self, thread: &Thread, memory: &Memory, time: u8) -> Result<(), u8> {
        let here = |time: u8| memory.location[time as usize - 1] == self.location;
        // Time 0 is there for every location; another time needs a message of this one.
        if time > memory.count || time > 0 && !here(time) {
            return Err(26);
        }
        // A newer message of the location within the span must not be passed over.
        if (time + 1..=self.span_end(thread)).any(here) {
            return Err(27);
        }
        Ok(())
    }

    /// All times that 26 and 27 allow at once: the newest one within the span, and those above.
    #[inline]
    pub fn times(&self, thread: &Thread, memory: &Memory) -> u32 {
        let times = memory.times_of(self.location);
        let newest = 31 - (times & ((2 << self.span_end(thread)) - 1)).leading_zeros();
        times >> newest << newest
    }

    /// What an allowed load changes.
    #[inline]
    pub fn done(&self, thread: &mut Thread, memory: &Memory, time: u8) {
        let at = self.location as usize & 15;
        // The thread's own last store there counts with the view that was noted for it.
        let forward = thread.forward[at];
        let read_view = if time == forward.time { forward.view } else { time };
        // What comes after the load comes after both.
        let post_view = self.pre_view.max(read_view);
        // Register, location and rOld have come as far.
        let value = memory.value_at(time);
        thread.register[self.into as usize & 7] = Register { value, view: post_view };
        raise(&mut thread.coherence[at], post_view);
        raise(&mut thread.r_old, post_view);
        // Either acquire orders all accesses after it; CAP keeps what the address depends on.
        if self.mode != Mode::Plain {
            raise(&mut thread.r_new, post_view);
            raise(&mut thread.w_new, post_view);
        }
        raise(&mut thread.cap, self.address_view);
        thread.position += 1;
    }
}

/// What the pre-view of every store has of the thread; it only grows.
#[inline]
pub fn common_view(thread: &Thread) -> u8 {
    let mut view = thread.w_new;
    raise(&mut view, thread.cap);
    view
}

/// A store that is about to execute: what it writes and what must lie below its time.
#[derive(Clone, Copy, Debug)]
pub struct Store {
    pub release: bool,
    pub location: u8,
    pub value: u8,
    pub address_view: u8,
    pub data_view: u8,
    pub pre_view: u8,
}

impl Store {
    /// The first operand says where, the second what.
    #[inline]
    pub fn of(thread: &Thread, release: bool, address: Operand, data: Operand) -> Store {
        let (address, data) = (operand(thread, address), operand(thread, data));
        let (location, value) = (address.value % 16, data.value);
        let (address_view, data_view) = (address.view, data.view);
        // It comes after address, data, wNew and CAP; a release also after all accesses before it.
        let mut pre_view = address_view;
        raise(&mut pre_view, data_view);
        raise(&mut pre_view, common_view(thread));
        if release {
            raise(&mut pre_view, thread.r_old);
            raise(&mut pre_view, thread.w_old);
        }
        Store { release, location, value, address_view, data_view, pre_view }
    }

    /// The larger of the two views that the time has to exceed.
    #[inline]
    pub fn floor(&self, thread: &Thread) -> u8 {
        self.pre_view.max(thread.coherence[self.location as usize & 15])
    }

    /// Refusals 26 and 28, one after the other.
    pub fn allowed(&self, thread: &Thread, memory: &Memory, time: u8) -> Result<(), u8> {
        // The thread has promised just this at the time, and not yet kept it.
        let written = |index: usize| (memory.location[index], memory.value[index]);
        if !thread.has_promised(time) || written(time as usize - 1) != (self.location, self.value) {
            return Err(26);
        }
        if self.floor(thread) >= time {
            return Err(28);
        }
        Ok(())
    }

    /// All times that 26 and 28 allow at once.
    #[inline]
    pub fn times(&self, thread: &Thread, memory: &Memory) -> u32 {
        let mut left = u32::from(thread.promises) << 1 & !((2 << self.floor(thread)) - 1);
        let mut times = 0;
        while left != 0 {
            let index = (left.trailing_zeros() as usize - 1) & 15;
            let same = memory.location[index] == self.location && memory.value[index] == self.value;
            times |= u32::from(same) << (index + 1);
            left &= left - 1;
        }
        times
    }

    /// What an allowed store changes.
    #[inline]
    pub fn done(&self, thread: &mut Thread, time: u8) {
        let at = self.location as usize & 15;
        thread.take_out(time);
        // Location and wOld, and for a release Rel, have come as far; CAP keeps what the address depends on.
        raise(&mut thread.coherence[at], time);
        raise(&mut thread.w_old, time);
        if self.release {
            raise(&mut thread.rel, time);
        }
        raise(&mut thread.cap, self.address_view);
        // A load of this thread that reads the store depends on no more than its operands.
        let view = self.address_view.max(self.data_view);
        thread.forward[at] = Forward { time, view };
        thread.position += 1;
    }
}

/// The result depends on all that its operands depend on.
#[inline]
pub fn compute(thread: &mut Thread, how: u8, into: u8, left: Operand, right: Operand) {
    let (left, right) = (operand(thread, left), operand(thread, right));
    let value = computed(how, left.value, right.value);
    let view = left.view.max(right.view);
    thread.register[into as usize & 7] = Register { value, view };
    thread.position += 1;
}

/// Taken where the two values are the same; either way CAP keeps what they depend on.
#[inline]
pub fn branch(thread: &mut Thread, skip: u8, left: Operand, right: Operand) {
    let (left, right) = (operand(thread, left), operand(thread, right));
    raise(&mut thread.cap, left.view.max(right.view));
    thread.position += 1;
    if left.value == right.value {
        thread.position += skip;
    }
}

/// The four fences.
#[inline]
pub fn fence(thread: &mut Thread, fence: Fence) {
    match fence {
        // Reads and writes before it come before those after it.
        Fence::DmbSy => {
            raise(&mut thread.r_new, thread.r_old);
            raise(&mut thread.r_new, thread.w_old);
            raise(&mut thread.w_new, thread.r_old);
            raise(&mut thread.w_new, thread.w_old);
        }
        // Reads before it come before reads and writes after it.
        Fence::DmbLd => {
            raise(&mut thread.r_new, thread.r_old);
            raise(&mut thread.w_new, thread.r_old);
        }
        // Writes before it come before writes after it.
        Fence::DmbSt => {
            raise(&mut thread.w_new, thread.w_old);
        }
        // Branches and addresses before it come before reads after it.
        Fence::Isb => {
            raise(&mut thread.r_new, thread.cap);
        }
    }
    thread.position += 1;
}

/// An instruction that accesses no memory.
#[inline]
pub fn local(instr: &Instr, thread: &mut Thread) {
    match *instr {
        Instr::Compute { how, into, left, right } => compute(thread, how, into, left, right),
        Instr::Branch { skip, left, right } => branch(thread, skip, left, right),
        Instr::Fence(kind) => fence(thread, kind),
        Instr::Load { .. } | Instr::Store { .. } => unreachable!("a memory access has a time"),
    }
}

/// Executes the instruction at the time, or says why not: 26, 27 or 28.
pub fn execute(instr: &Instr, thread: &Thread, memory: &Memory, time: u8) -> Result<Thread, u8> {
    let mut next = *thread;
    match *instr {
        Instr::Load { mode, into, left, right } => {
            let load = Load::of(thread, mode, into, left, right);
            load.allowed(thread, memory, time)?;
            load.done(&mut next, memory, time);
        }
        Instr::Store { release, address, data } => {
            let store = Store::of(thread, release, address, data);
            store.allowed(thread, memory, time)?;
            store.done(&mut next, time);
        }
        _ if time != 0 => return Err(26),
        _ => local(instr, &mut next),
    }
    Ok(next)
}

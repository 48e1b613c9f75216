//! The walk over all accepted sequences, in order and one after the other. It tries only times that
//! the rules allow and only promises that a run could store, certifies only where a promise is
//! outstanding, and changes one machine in place. What is made of a complete machine is up to the
//! caller: the search looks for one, the listing takes them all.

use std::ops::ControlFlow;

use crate::candidates::{possible_stores, Plan};
use crate::certify::{promisable, quickly};
use crate::known::Known;
use crate::machine::{Machine, Memory, Thread};
use crate::program::Program;
use crate::rules::{local, Instr, Load, Store};
use crate::step::Step;

/// How a walk ends.
#[derive(Clone, Copy, PartialEq, Eq, Debug)]
pub enum End {
    /// At the sequence with which the caller has enough.
    Enough,
    /// There are no more.
    Visited,
    /// There are more than the budget.
    Spent,
}

/// The walk's end, how many sequences it has visited, and the one it has stopped at.
pub struct Walked {
    pub end: End,
    pub count: u64,
    pub trace: Vec<Step>,
}

/// No sequence is longer than the instructions and the stores of a program: 64 and 16.
const LONGEST: usize = 80;

/// Where more promises than this look possible, it pays to walk all runs and see which are.
const MANY: u32 = 16;

struct Walk<'a, K, C> {
    plans: &'a [Plan],
    known: K,
    /// Takes a complete machine in, with its place; whether that is enough.
    complete: C,
    machine: Machine,
    budget: u64,
    /// What is left of the budget.
    left: u64,
    trace: [Step; LONGEST],
    length: usize,
}

/// Visits the sequences up to the budget. Each complete one is given to the caller, by its machine and
/// its place, 1 for the first of all sequences, and may be enough. Those from a machine that is known
/// are counted, but not visited again.
pub fn walk<K: Known, C>(program: &Program, budget: u64, known: K, complete: C) -> Walked
where
    C: FnMut(&Machine, u64) -> bool,
{
    let plans: Vec<Plan> = program.code[..program.threads as usize].iter().map(Plan::new).collect();
    let mut walk = Walk {
        plans: &plans,
        known,
        complete,
        machine: Machine::default(),
        budget,
        left: budget,
        trace: [Step::default(); LONGEST],
        length: 0,
    };
    let end = match walk.visit() {
        ControlFlow::Continue(()) => End::Visited,
        ControlFlow::Break(end) => end,
    };
    Walked { end, count: budget - walk.left, trace: walk.trace[..walk.length].to_vec() }
}

impl<'a, K: Known, C: FnMut(&Machine, u64) -> bool> Walk<'a, K, C> {
    /// Spends the budget on all sequences that begin at the machine, unless one of them is enough.
    fn visit(&mut self) -> ControlFlow<End> {
        if let Some(sequences) = self.known.sequences(&self.machine) {
            return self.spend(sequences);
        }
        let before = self.left;
        self.spend(1)?;
        let mut complete = true;
        for number in 0..self.plans.len() {
            let thread = &self.machine.thread[number];
            complete &= thread.position == self.plans[number].count() && thread.promises == 0;
        }
        if complete {
            return self.completed();
        }
        for number in 0..self.plans.len() {
            self.executions(number)?;
            self.promises(number)?;
        }
        self.known.learn(&self.machine, before - self.left);
        ControlFlow::Continue(())
    }

    /// A sequence takes one off the budget: too few left are spent all the same.
    #[inline]
    fn spend(&mut self, sequences: u64) -> ControlFlow<End> {
        if sequences > self.left {
            self.left = 0;
            return ControlFlow::Break(End::Spent);
        }
        self.left -= sequences;
        ControlFlow::Continue(())
    }

    /// A complete sequence has no extension.
    fn completed(&mut self) -> ControlFlow<End> {
        if (self.complete)(&self.machine, self.budget - self.left) {
            ControlFlow::Break(End::Enough)
        } else {
            ControlFlow::Continue(())
        }
    }

    /// The executions of a thread, the earliest time first.
    #[inline]
    fn executions(&mut self, number: usize) -> ControlFlow<End> {
        let thread = self.machine.thread[number];
        let plan: &'a Plan = &self.plans[number];
        if thread.position == plan.count() {
            return ControlFlow::Continue(());
        }
        match plan.instr(thread.position) {
            Instr::Load { mode, into, left, right } => {
                let load = Load::of(&thread, mode, into, left, right);
                let times = load.times(&thread, &self.machine.memory);
                self.each_time(number, times, |next, memory, time| load.done(next, memory, time))
            }
            Instr::Store { release, address, data } => {
                let store = Store::of(&thread, release, address, data);
                let times = store.times(&thread, &self.machine.memory);
                self.each_time(number, times, |next, _, time| store.done(next, time))
            }
            // What accesses no memory has time 0 only.
            instr => self.each_time(number, 1, |next, _, _| local(&instr, next)),
        }
    }

    /// Executes at each of the times that pass, bit t for time t.
    #[inline]
    fn each_time(
        &mut self,
        number: usize,
        mut times: u32,
        done: impl Fn(&mut Thread, &Memory, u8),
    ) -> ControlFlow<End> {
        let thread = self.machine.thread[number];
        while times != 0 {
            let time = times.trailing_zeros() as u8;
            times &= times - 1;
            let mut next = thread;
            done(&mut next, &self.machine.memory, time);
            self.executed(number, &thread, &next, time)?;
        }
        ControlFlow::Continue(())
    }

    /// Goes on from an executed instruction if the thread is certified, and takes it back.
    #[inline]
    fn executed(&mut self, number: usize, before: &Thread, next: &Thread, time: u8) -> ControlFlow<End> {
        if !quickly(&self.plans[number], number as u8, next, &mut self.machine.memory) {
            return ControlFlow::Continue(());
        }
        self.machine.thread[number] = *next;
        self.go_on(Step { kind: 0, thread: number as u8, a: time, b: 0 })?;
        self.machine.thread[number] = *before;
        ControlFlow::Continue(())
    }

    /// The promises of a thread, in order: none where every store left is promised already.
    #[inline]
    fn promises(&mut self, number: usize) -> ControlFlow<End> {
        let Thread { position, promises, .. } = self.machine.thread[number];
        let plan: &'a Plan = &self.plans[number];
        let spent = promises.count_ones() >= u32::from(plan.stores_left(position));
        if spent || self.machine.memory.count >= 16 {
            return ControlFlow::Continue(());
        }
        let Some(stores) = plan.constant(position) else {
            return self.possible_promises(number);
        };
        for &(location, value) in stores {
            self.promise(number, location, value)?;
        }
        ControlFlow::Continue(())
    }

    fn possible_promises(&mut self, number: usize) -> ControlFlow<End> {
        let (thread, memory) = (&self.machine.thread[number], &mut self.machine.memory);
        let plan: &'a Plan = &self.plans[number];
        let mut stores = possible_stores(plan, thread, memory);
        if stores.count() > MANY {
            stores = promisable(plan, number as u8, thread, memory);
        }
        for location in 0..16 {
            for value in stores.values[location as usize].iter() {
                self.promise(number, location, value)?;
            }
        }
        ControlFlow::Continue(())
    }

    /// Goes on from a promise if the thread is certified on the memory with it, and takes it back.
    fn promise(&mut self, number: usize, location: u8, value: u8) -> ControlFlow<End> {
        let before = self.machine.thread[number].promises;
        let time = self.machine.memory.append(location, value, number as u8);
        self.machine.thread[number].promise(time);
        let thread = self.machine.thread[number];
        if quickly(&self.plans[number], number as u8, &thread, &mut self.machine.memory) {
            self.go_on(Step { kind: 1, thread: number as u8, a: location, b: value })?;
        }
        self.machine.thread[number].promises = before;
        self.machine.memory.take_back();
        ControlFlow::Continue(())
    }

    #[inline]
    fn go_on(&mut self, step: Step) -> ControlFlow<End> {
        self.trace[self.length] = step;
        self.length += 1;
        self.visit()?;
        self.length -= 1;
        ControlFlow::Continue(())
    }
}

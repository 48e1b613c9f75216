//! Certification: whether the thread can still keep all its promises with no other thread running, and
//! the first run that does. Once as the rules say it, once quickly without the run; the tests hold
//! them equal.

use std::collections::HashSet;

use crate::candidates::{Plan, Stores};
use crate::machine::{Memory, Thread};
use crate::program::Code;
use crate::rules::{common_view, decode, execute, local, Instr, Load, Store};

/// A step of a certifying run: what became of the thread's next instruction. Of two ways on, the one
/// that is tried first is the smaller.
#[derive(Clone, Copy, PartialEq, Eq, PartialOrd, Ord, Debug)]
pub enum RunStep {
    /// Executed at the time: of the message that a load reads, of the promise that a store keeps, and
    /// 0 for what accesses no memory.
    Executed(u8),
    /// A store that wrote its own message, at this new time.
    OwnMessage(u8),
}

/// The literal test: whether there is a run.
pub fn certified(code: &Code, number: u8, thread: &Thread, memory: &Memory) -> bool {
    first_run(code, number, thread, memory).is_some()
}

/// The first run to an empty promise set, if there is one: each way of the next instruction is tried with
/// all that can follow it. Steps inside a run are not certified themselves.
pub fn first_run(code: &Code, number: u8, thread: &Thread, memory: &Memory) -> Option<Vec<RunStep>> {
    if thread.promises == 0 {
        return Some(Vec::new());
    }
    if thread.position >= code.count {
        return None;
    }
    let instr = decode(&code.instructions[thread.position as usize]);
    ways(instr, number, thread, memory).find_map(|(step, next, memory)| {
        let mut run = first_run(code, number, &next, &memory)?;
        run.insert(0, step);
        Some(run)
    })
}

/// What can become of an instruction, in the order of runs, each with the thread and the memory after it:
/// it is executed, at every time that the rules allow, ascending; then a store writes its own message.
pub fn ways<'a>(
    instr: Instr,
    number: u8,
    thread: &'a Thread,
    memory: &'a Memory,
) -> impl Iterator<Item = (RunStep, Thread, Memory)> + 'a {
    let executed = move |time: u8| {
        let next = execute(&instr, thread, memory, time).ok()?;
        Some((RunStep::Executed(time), next, *memory))
    };
    let own = std::iter::once_with(move || own_message(instr, number, thread, memory)).flatten();
    (0..=memory.count).filter_map(executed).chain(own)
}

/// A store with a message that was not promised: where memory has room, it is appended and fulfilled at once.
fn own_message(
    instr: Instr,
    number: u8,
    thread: &Thread,
    memory: &Memory,
) -> Option<(RunStep, Thread, Memory)> {
    let Instr::Store { release, address, data } = instr else {
        return None;
    };
    if memory.count >= 16 {
        return None;
    }
    let store = Store::of(thread, release, address, data);
    let (mut promising, mut longer) = (*thread, *memory);
    let time = longer.append(store.location, store.value, number);
    promising.promise(time);
    let next = execute(&instr, &promising, &longer, time).ok()?;
    Some((RunStep::OwnMessage(time), next, longer))
}

/// What `certified` says of well-formed values.
pub fn quickly(plan: &Plan, number: u8, thread: &Thread, memory: &mut Memory) -> bool {
    thread.promises == 0 || Alone { plan, number, memory, open: None, failed: HashSet::new() }.reaches(thread)
}

/// A location that no load reads and no store writes.
const NOWHERE: u8 = 16;

/// The promises that the thread can make next and is then certified; the caller knows that fewer
/// than 16 messages stand. All are found in one walk beside a promise that is nowhere yet: until a
/// run fulfils it, it need not be known, since with a view or coherence view not below its time no
/// store could fulfil it.
pub fn promisable(plan: &Plan, number: u8, thread: &Thread, memory: &mut Memory) -> Stores {
    let mut promising = *thread;
    let time = memory.append(NOWHERE, 0, number);
    promising.promise(time);
    let mut open = Open { time, stores: Stores::default() };
    Alone { plan, number, memory, open: Some(&mut open), failed: HashSet::new() }.reaches(&promising);
    memory.take_back();
    open.stores
}

/// A promise that is nowhere yet: its time, and what it has been found to be able to be.
struct Open {
    time: u8,
    stores: Stores,
}

/// A thread alone on a memory. Its runs are walked in the literal order; only times that pass are
/// tried, and a run stops where a promise is out of reach or where another has failed before.
struct Alone<'a> {
    plan: &'a Plan,
    number: u8,
    memory: &'a mut Memory,
    open: Option<&'a mut Open>,
    /// The states with several ways on, none of which reaches an empty promise set.
    failed: HashSet<(Thread, Memory)>,
}

impl Alone<'_> {
    /// Whether a run reaches an empty promise set.
    fn reaches(&mut self, thread: &Thread) -> bool {
        if thread.promises == 0 {
            return true;
        }
        if self.out_of_reach(thread) {
            return false;
        }
        match self.plan.instr(thread.position) {
            Instr::Load { mode, into, left, right } => {
                self.loads(thread, &Load::of(thread, mode, into, left, right))
            }
            Instr::Store { release, address, data } => {
                self.stores(thread, &Store::of(thread, release, address, data))
            }
            instr => self.goes_on(thread, |next, _| local(&instr, next)),
        }
    }

    /// More promises than stores left, or one not above the view that all stores have.
    #[inline]
    fn out_of_reach(&self, thread: &Thread) -> bool {
        let too_late = u32::from(thread.promises) & ((1 << common_view(thread)) - 1) != 0;
        let too_many = thread.promises.count_ones() > u32::from(self.plan.stores_left(thread.position));
        too_late || too_many
    }

    #[inline]
    fn goes_on(&mut self, thread: &Thread, done: impl FnOnce(&mut Thread, &Memory)) -> bool {
        let mut next = *thread;
        done(&mut next, self.memory);
        self.reaches(&next)
    }

    fn loads(&mut self, thread: &Thread, load: &Load) -> bool {
        let times = load.times(thread, self.memory);
        self.once(thread, times.count_ones(), |alone| {
            any_time(times, |time| alone.goes_on(thread, |next, memory| load.done(next, memory, time)))
        })
    }

    fn stores(&mut self, thread: &Thread, store: &Store) -> bool {
        self.fills(thread, store);
        let times = store.times(thread, self.memory);
        let room = self.memory.count < 16;
        self.once(thread, times.count_ones() + u32::from(room), |alone| {
            any_time(times, |time| alone.goes_on(thread, |next, _| store.done(next, time)))
                || room && alone.appends(thread, store)
        })
    }

    fn appends(&mut self, thread: &Thread, store: &Store) -> bool {
        let time = self.memory.append(store.location, store.value, self.number);
        let reached = self.goes_on(thread, |next, _| store.done(next, time));
        self.memory.take_back();
        reached
    }

    /// Lets the open promise, if there is one, be this store, and notes whether a run then reaches
    /// an empty promise set.
    fn fills(&mut self, thread: &Thread, store: &Store) {
        let Some(open) = self.open.take() else { return };
        let values = &mut open.stores.values[store.location as usize];
        if store.floor(thread) < open.time && !values.contains(store.value) {
            self.memory.set(open.time, store.location, store.value);
            if self.goes_on(thread, |next, _| store.done(next, open.time)) {
                values.insert(store.value);
            }
            self.memory.set(open.time, NOWHERE, 0);
        }
        self.open = Some(open);
    }

    /// Walks the ways on from a state, but several of them only once. Registers that are not read
    /// again make no difference.
    #[inline]
    fn once(&mut self, thread: &Thread, ways: u32, walk: impl FnOnce(&mut Self) -> bool) -> bool {
        if ways < 2 {
            return walk(self);
        }
        let state = (self.plan.without_unread(thread), *self.memory);
        if self.failed.contains(&state) {
            return false;
        }
        let reached = walk(self);
        if !reached {
            self.failed.insert(state);
        }
        reached
    }
}

/// Whether one of the times, ascending, passes the test.
#[inline]
fn any_time(mut times: u32, mut test: impl FnMut(u8) -> bool) -> bool {
    while times != 0 {
        if test(times.trailing_zeros() as u8) {
            return true;
        }
        times &= times - 1;
    }
    false
}

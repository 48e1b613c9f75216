//! Arbitrary programs, machines, traces and files for the tests. The same seed gives the same ones.

use crate::bytes::{machine_bytes, machine_from, program_bytes, step_bytes, MACHINE};
use crate::candidates::{possible_stores, Plan};
use crate::machine::{Forward, Machine, Memory, Register, Thread};
use crate::program::{Code, Condition, Instruction, Program, BRANCH, COMPUTE, FENCE, LOAD, STORE};
use crate::rules::{decode, Instr, Load, Store};
use crate::step::{accepted, Step};

/// Numbers by splitmix64.
pub struct Random(u64);

impl Random {
    pub fn new(seed: u64) -> Random {
        Random(seed)
    }

    pub fn number(&mut self) -> u64 {
        self.0 = self.0.wrapping_add(0x9E37_79B9_7F4A_7C15);
        let mixed = (self.0 ^ self.0 >> 30).wrapping_mul(0xBF58_476D_1CE4_E5B9);
        let mixed = (mixed ^ mixed >> 27).wrapping_mul(0x94D0_49BB_1331_11EB);
        mixed ^ mixed >> 31
    }

    pub fn byte(&mut self) -> u8 {
        self.number() as u8
    }

    /// A number below the bound.
    pub fn below(&mut self, bound: u8) -> u8 {
        (self.number() % u64::from(bound)) as u8
    }

    /// An index below the length.
    pub fn index(&mut self, length: usize) -> usize {
        (self.number() % length as u64) as usize
    }

    pub fn one_in(&mut self, many: u8) -> bool {
        self.below(many) == 0
    }

    pub fn pick<T: Copy>(&mut self, from: &[T]) -> T {
        from[self.index(from.len())]
    }
}

/// How large a program may be; loads are kept few, since certification tries all their times.
#[derive(Clone, Copy)]
pub struct Size {
    pub threads: u8,
    pub instructions: u8,
    pub loads: u8,
}

pub const SMALL: Size = Size { threads: 2, instructions: 3, loads: 2 };
pub const MIDDLE: Size = Size { threads: 3, instructions: 5, loads: 3 };
pub const LARGE: Size = Size { threads: 4, instructions: 16, loads: 4 };

/// A well-formed program of at most this size.
pub fn program(random: &mut Random, size: Size) -> Program {
    let threads = 1 + random.below(size.threads);
    let mut program = Program { version: 1, threads, ..Program::default() };
    let mut stores = 0;
    for number in 0..threads as usize {
        let count = if random.one_in(20) { 0 } else { 1 + random.below(size.instructions) };
        program.code[number].count = count;
        let mut loads = 0;
        for index in 0..count {
            let mut instruction = instruction(random, count - 1 - index);
            stores += u8::from(instruction[0] == STORE);
            loads += u8::from(instruction[0] == LOAD);
            let too_many =
                instruction[0] == STORE && stores > 16 || instruction[0] == LOAD && loads > size.loads;
            if too_many {
                instruction = [FENCE, random.below(4), 0, 0, 0, 0, 0];
            }
            program.code[number].instructions[index as usize] = instruction;
        }
    }
    program.conditions = random.pick(&[0, 1, 1, 2, 2, 3, 8]);
    for index in 0..program.conditions as usize {
        program.condition[index] = condition(random, threads);
    }
    program
}

/// Four threads of so many computations each (all bytes 0: r0 = 0 + 0), asked for what no run ends
/// with. Every order of them is accepted, so the count is large and known while the machines are few.
pub fn computations(each: u8) -> Program {
    let mut program = Program { version: 1, threads: 4, conditions: 1, ..Program::default() };
    program.code.iter_mut().for_each(|code| code.count = each);
    program.condition[0] = Condition { kind: 1, thread: 0, index: 0, value: 1 };
    program
}

/// A well-formed instruction with so many after it, mostly about few locations and registers.
fn instruction(random: &mut Random, after: u8) -> Instruction {
    let op = random.pick(&[COMPUTE, LOAD, LOAD, LOAD, STORE, STORE, STORE, BRANCH, FENCE]);
    let [k1, n1] = operand(random, op != COMPUTE && op != BRANCH);
    let [mut k2, mut n2] = operand(random, false);
    if op == LOAD && random.one_in(2) {
        [k2, n2] = [0, 0];
    }
    match op {
        COMPUTE => [op, random.below(4), random.below(3), k1, n1, k2, n2],
        LOAD => [op, random.pick(&[0, 0, 1, 2]), random.below(3), k1, n1, k2, n2],
        STORE => [op, random.pick(&[0, 0, 1]), 0, k1, n1, k2, n2],
        BRANCH => [op, random.below(after.min(15) + 1), 0, k1, n1, k2, n2],
        _ => [op, random.below(4), 0, 0, 0, 0, 0],
    }
}

/// A small constant, a low register, and now and then anything.
fn operand(random: &mut Random, address: bool) -> [u8; 2] {
    let anything = random.one_in(40);
    match random.below(if address { 5 } else { 2 }) {
        0 => [1, random.below(if anything { 8 } else { 3 })],
        _ => [0, if anything { random.byte() } else { random.below(3) }],
    }
}

fn condition(random: &mut Random, threads: u8) -> Condition {
    let value = random.below(3);
    match random.below(3) {
        0 => Condition { kind: 1, thread: 0, index: random.below(3), value },
        _ => Condition { kind: 0, thread: random.below(threads), index: random.below(3), value },
    }
}

/// The file of a program.
pub fn file(program: &Program) -> Vec<u8> {
    let mut file = vec![0x50, 0x47, program.version, program.threads];
    for number in 0..program.threads {
        let code = &program.code[number as usize];
        file.extend([0x54, 0x48, number, code.count]);
        for instruction in &code.instructions[..code.count as usize] {
            file.extend([0x49, 0x4E]);
            file.extend(instruction);
        }
    }
    file.extend([0x51, 0x55, program.conditions]);
    for condition in &program.condition[..program.conditions as usize] {
        file.extend([0x43, 0x4E, condition.kind, condition.thread, condition.index, condition.value]);
    }
    file
}

/// Damages bytes in place: one changed, removed, doubled, added at the end, or the end cut off.
pub fn damage(random: &mut Random, bytes: &mut Vec<u8>) {
    if bytes.is_empty() {
        bytes.push(random.byte());
        return;
    }
    let at = random.index(bytes.len());
    match random.below(8) {
        0 => bytes.truncate(at),
        1 => bytes.push(random.byte()),
        2 => drop(bytes.remove(at)),
        3 => bytes.insert(at, bytes[at]),
        _ => bytes[at] = one_byte(random, bytes[at]),
    }
}

/// Another byte: near the old one, small, or anything.
fn one_byte(random: &mut Random, old: u8) -> u8 {
    match random.below(4) {
        0 => old.wrapping_add(1),
        1 => old.wrapping_sub(1),
        2 => random.below(20),
        _ => random.byte(),
    }
}

/// A step that has a good chance to be accepted, or to be refused late.
pub fn likely_step(random: &mut Random, program: &Program, machine: &Machine) -> Step {
    let unfinished =
        |&number: &u8| machine.thread[number as usize].position < program.code[number as usize].count;
    let threads: Vec<u8> = (0..program.threads).filter(unfinished).collect();
    if threads.is_empty() {
        return Step { kind: 0, thread: random.below(program.threads), a: 0, b: 0 };
    }
    let thread = random.pick(&threads);
    if random.one_in(3) {
        let promises = possible_promises(program, machine, thread);
        if !promises.is_empty() {
            return random.pick(&promises);
        }
    }
    let a = likely_time(
        random,
        &program.code[thread as usize],
        &machine.thread[thread as usize],
        &machine.memory,
    );
    Step { kind: 0, thread, a, b: 0 }
}

/// The promises of the thread that are worth trying.
fn possible_promises(program: &Program, machine: &Machine, thread: u8) -> Vec<Step> {
    let plan = Plan::new(&program.code[thread as usize]);
    let stores = possible_stores(&plan, &machine.thread[thread as usize], &machine.memory);
    let of = |a: u8| stores.values[a as usize].iter().map(move |b| Step { kind: 1, thread, a, b });
    (0..16).flat_map(of).collect()
}

/// A time at the location for a load, of a promise for a store, and 0 for the others.
fn likely_time(random: &mut Random, code: &Code, thread: &Thread, memory: &Memory) -> u8 {
    let mut times = match decode(&code.instructions[thread.position as usize]) {
        Instr::Load { mode, into, left, right } => {
            memory.times_of(Load::of(thread, mode, into, left, right).location)
        }
        Instr::Store { .. } => u32::from(thread.promises) << 1,
        _ => 1,
    };
    for _ in 0..random.below(times.count_ones().max(1) as u8) {
        times &= times - 1;
    }
    if times == 0 {
        0
    } else {
        times.trailing_zeros() as u8
    }
}

/// Accepted steps from the fresh machine, and the machine after them.
pub fn walk(random: &mut Random, program: &Program, tries: u8) -> (Vec<Step>, Machine) {
    let (mut steps, mut machine) = (Vec::new(), Machine::default());
    for _ in 0..tries {
        let step = likely_step(random, program, &machine);
        if let Ok(next) = accepted(program, &machine, step) {
            steps.push(step);
            machine = next;
        }
    }
    (steps, machine)
}

/// Any step: mostly in range, now and then not.
pub fn any_step(random: &mut Random, program: &Program, machine: &Machine) -> Step {
    match random.below(4) {
        0 => Step {
            kind: random.pick(&[0, 0, 1, 1, 2, 255]),
            thread: random.below(5),
            a: random.pick(&[0, 1, 2, 15, 16, 17, 255]),
            b: random.pick(&[0, 0, 1, 2, 255]),
        },
        1 => Step {
            kind: 1,
            thread: random.below(program.threads.max(1)),
            a: random.below(3),
            b: random.below(3),
        },
        2 => Step { kind: 0, thread: random.below(program.threads.clamp(1, 4)), a: random.below(17), b: 0 },
        _ if (1..=4).contains(&program.threads) && machine.memory.count <= 16 => {
            let thread = random.below(program.threads);
            Step { kind: 0, thread, a: random.below(machine.memory.count + 1), b: 0 }
        }
        _ => Step::default(),
    }
}

/// A trace file of the steps.
pub fn trace(steps: &[Step]) -> Vec<u8> {
    steps.iter().flat_map(step_bytes).collect()
}

/// A well-formed machine of the program that no run need reach.
pub fn machine(random: &mut Random, program: &Program) -> Machine {
    let mut memory = Memory { count: random.pick(&[0, 1, 2, 3, 4, 5, 6, 8, 15, 16]), ..Memory::default() };
    for index in 0..memory.count as usize {
        memory.location[index] = if random.one_in(10) { random.below(16) } else { random.below(3) };
        memory.value[index] = random.below(3);
        memory.thread[index] = random.below(program.threads);
    }
    let mut machine = Machine { memory, ..Machine::default() };
    for number in 0..program.threads {
        let code = &program.code[number as usize];
        machine.thread[number as usize] = thread(random, code.count, number, &machine.memory);
        if random.one_in(2) {
            promise_next_store(random, code, number, &mut machine);
        }
    }
    machine
}

/// Makes one own message the promise of the thread's next instruction, if that is a store.
fn promise_next_store(random: &mut Random, code: &Code, number: u8, machine: &mut Machine) {
    let (thread, memory) = (&mut machine.thread[number as usize], &mut machine.memory);
    if thread.position == code.count || memory.count == 0 {
        return;
    }
    if let Instr::Store { release, address, data } = decode(&code.instructions[thread.position as usize]) {
        let store = Store::of(thread, release, address, data);
        let index = random.below(memory.count) as usize;
        if memory.thread[index] == number {
            memory.location[index] = store.location;
            memory.value[index] = store.value;
            thread.promise(index as u8 + 1);
        }
    }
}

fn thread(random: &mut Random, instructions: u8, number: u8, memory: &Memory) -> Thread {
    let low = random.below(memory.count + 1);
    let mut view = || random.below(low + 1);
    let mut thread = Thread {
        register: std::array::from_fn(|_| Register { value: 0, view: view() }),
        coherence: std::array::from_fn(|_| view()),
        forward: std::array::from_fn(|_| Forward { time: view(), view: view() }),
        r_old: view(),
        w_old: view(),
        r_new: view(),
        w_new: view(),
        cap: view(),
        rel: view(),
        ..Thread::default()
    };
    thread.register.iter_mut().for_each(|register| register.value = random.below(3));
    thread.position = random.below(instructions.max(1));
    if random.one_in(10) {
        thread.position = instructions;
    }
    for time in 1..=memory.count {
        if memory.thread[time as usize - 1] == number && random.one_in(4) {
            thread.promise(time);
        }
    }
    thread
}

/// A machine value with one byte changed.
pub fn damaged_machine(random: &mut Random, machine: &Machine) -> Machine {
    let mut bytes = machine_bytes(machine);
    let at = random.index(MACHINE);
    bytes[at] = one_byte(random, bytes[at]);
    machine_from(&bytes)
}

/// A well-formed program, and a machine for it that is reached or one that no run need reach.
fn program_and_machine(random: &mut Random) -> (Program, Machine) {
    let size = random.pick(&[SMALL, MIDDLE, MIDDLE, LARGE, LARGE]);
    let program = program(random, size);
    let tries = random.below(2 * size.instructions);
    let state = if random.one_in(2) { machine(random, &program) } else { walk(random, &program, tries).1 };
    (program, state)
}

/// A program value and a machine value for it: reached, well formed, damaged or random bytes.
pub fn values(random: &mut Random) -> (Vec<u8>, Vec<u8>) {
    let (program, mut state) = program_and_machine(random);
    let mut code = program_bytes(&program).to_vec();
    match random.below(10) {
        0 | 1 => state = damaged_machine(random, &state),
        2 => {
            let at = random.index(code.len());
            code[at] = one_byte(random, code[at]);
        }
        3 => return (code, (0..MACHINE).map(|_| random.byte()).collect()),
        _ => {}
    }
    (code, machine_bytes(&state).to_vec())
}

/// The same well-formed ones, and a thread that could store something, with up to three promises more.
pub fn promising(random: &mut Random) -> (Program, Machine, u8) {
    let (program, mut state) = program_and_machine(random);
    let able = |&thread: &u8| !possible_promises(&program, &state, thread).is_empty();
    let threads: Vec<u8> = (0..program.threads).filter(able).collect();
    let thread = if threads.is_empty() { 0 } else { random.pick(&threads) };
    for _ in 0..1 + random.below(3) {
        promise(random, &program, &mut state, thread);
    }
    (program, state, thread)
}

/// A promise of what the thread could store, if it is certified; now and then all the same.
fn promise(random: &mut Random, program: &Program, state: &mut Machine, thread: u8) {
    let promises = possible_promises(program, state, thread);
    if promises.is_empty() || state.memory.count >= 16 {
        return;
    }
    let step = random.pick(&promises);
    if let Ok(next) = accepted(program, state, step) {
        *state = next;
    } else if random.one_in(4) {
        let time = state.memory.append(step.a, step.b, thread);
        state.thread[thread as usize].promise(time);
    }
}

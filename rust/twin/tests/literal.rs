//! The quick search is the literal one, the quick certification the literal one, and the possible
//! stores miss no promise that is accepted.

use twin::arbitrary::{machine, program, walk, Random, Size, LARGE, MIDDLE, SMALL};
use twin::candidates::{possible_stores, Plan};
use twin::certify::{certified, promisable, quickly};
use twin::literal;
use twin::litmus::vectors;
use twin::machine::{Machine, Memory, Thread};
use twin::program::{read, Code, Program, LOAD, STORE};
use twin::search::search;
use twin::step::{accepted, Step};

#[test]
fn searches_of_small_programs() {
    let mut random = Random::new(1);
    for round in 0..600 {
        let program = program(&mut random, if round % 4 == 0 { MIDDLE } else { SMALL });
        let budget = u64::from(random.byte());
        assert_eq!(search(&program, budget), literal::search(&program, budget), "{program:?}");
    }
}

#[test]
fn searches_of_litmus_tests() {
    for vector in vectors().iter().filter(|vector| vector.count <= 700) {
        let program = read(&vector.file).expect(vector.name);
        assert_eq!(search(&program, 1_000), literal::search(&program, 1_000), "{}", vector.name);
    }
}

#[test]
fn certifications() {
    let mut random = Random::new(2);
    for round in 0..20_000 {
        let program = program(&mut random, if round % 4 == 0 { LARGE } else { MIDDLE });
        let state = machine(&mut random, &program);
        for number in 0..program.threads {
            let (code, thread) = (&program.code[number as usize], &state.thread[number as usize]);
            let mut memory = state.memory;
            assert_eq!(
                quickly(&Plan::new(code), number, thread, &mut memory),
                certified(code, number, thread, &state.memory),
                "{program:?} {state:?}"
            );
            assert_eq!(memory, state.memory, "the memory is given back");
        }
    }
}

/// Every promise, all 16 times 256, against the possible ones.
#[test]
fn promises() {
    let mut random = Random::new(3);
    for _ in 0..300 {
        let program = program(&mut random, MIDDLE);
        let tries = random.below(30);
        let (_, state) = walk(&mut random, &program, tries);
        for thread in 0..program.threads {
            let number = thread as usize;
            let plan = Plan::new(&program.code[number]);
            let stores = possible_stores(&plan, &state.thread[number], &state.memory);
            for (a, b) in (0..16).flat_map(|a| (0..=255).map(move |b| (a, b))) {
                if accepted(&program, &state, Step { kind: 1, thread, a, b }).is_ok() {
                    assert_eq!(stores.values[a as usize].next(b as usize), Some(b), "{program:?} {state:?}");
                }
            }
        }
    }
}

/// A thread's possible stores as promises, and whether each is certified: all quick answers are the
/// literal one, which the registers that are not read again do not change.
fn same_promises(program: &Program, state: &Machine, number: u8) -> Vec<(u8, u8, bool)> {
    let (code, thread) = (&program.code[number as usize], &state.thread[number as usize]);
    let (plan, mut memory) = (Plan::new(code), state.memory);
    let found = promisable(&plan, number, thread, &mut memory);
    assert_eq!(memory, state.memory, "the memory is given back");
    let mut promises = Vec::new();
    let possible = possible_stores(&plan, thread, &memory);
    for (a, b) in (0..16).flat_map(|a| possible.values[a as usize].iter().map(move |b| (a, b))) {
        let mut promising = *thread;
        promising.promise(memory.append(a, b, number));
        let literally = certified(code, number, &promising, &memory);
        let unread = certified(code, number, &plan.without_unread(&promising), &memory);
        let quick = quickly(&plan, number, &promising, &mut memory);
        memory.take_back();
        let answers = [quick, found.values[a as usize].contains(b), unread];
        assert_eq!(answers, [literally; 3], "{a} {b} {program:?} {state:?}");
        promises.push((a, b, literally));
    }
    let certified = promises.iter().filter(|promise| promise.2).count();
    assert_eq!(found.count() as usize, certified, "no others are found");
    promises
}

/// Up to three promises one upon the other, certified or not, on machines that no run need reach.
#[test]
fn promises_on_promises() {
    let mut random = Random::new(7);
    let mut counts = [0, 0];
    for _ in 0..60_000 {
        let program = program(&mut random, Size { threads: 2, instructions: 9, loads: 5 });
        let mut state = machine(&mut random, &program);
        let number = random.below(program.threads);
        for _ in 0..3 {
            if state.memory.count >= 10 {
                break;
            }
            let promises = same_promises(&program, &state, number);
            promises.iter().for_each(|promise| counts[usize::from(promise.2)] += 1);
            if promises.is_empty() {
                break;
            }
            let (a, b, _) = random.pick(&promises);
            let time = state.memory.append(a, b, number);
            state.thread[number as usize].promise(time);
        }
    }
    assert!(counts.iter().all(|&count| count > 1_000), "{counts:?}");
}

/// Two runs come to the last load with the same values: the first to be tried has views that are too
/// high for the promise, and is no reason to leave the second out.
#[test]
fn same_values_with_other_views() {
    let mut code = Code { count: 4, ..Code::default() };
    code.instructions[0] = [LOAD, 0, 0, 0, 0, 0, 0]; // r0 = load [0]
    code.instructions[1] = [LOAD, 0, 1, 1, 0, 0, 0]; // r1 = load [r0]
    code.instructions[2] = [LOAD, 0, 3, 0, 3, 0, 0]; // r3 = load [3]
    code.instructions[3] = [STORE, 0, 0, 0, 2, 1, 1]; // store [2], r1
    let (mut thread, mut memory) = (Thread::default(), Memory::default());
    memory.append(0, 1, 0);
    memory.append(1, 7, 0);
    thread.promise(memory.append(2, 7, 1));
    memory.append(0, 7, 0);
    memory.append(3, 1, 0);
    assert!(certified(&code, 1, &thread, &memory));
    assert!(quickly(&Plan::new(&code), 1, &thread, &mut memory));
}

//! The run that a certification shows: worked out by hand, and the least of all runs that certify.

use twin::arbitrary::{promising, Random};
use twin::bytes::{machine_bytes, program_bytes};
use twin::calls::{certify, CERTIFY_ANSWER};
use twin::certify::RunStep::{self, Executed, OwnMessage};
use twin::certify::{certified, first_run, ways};
use twin::machine::{Machine, Memory, Thread};
use twin::program::{Code, Instruction, Program, BRANCH, COMPUTE, FENCE, LOAD, STORE};
use twin::rules::{decode, Instr};
use twin::worst;

/// Thread 1 is the one that is certified; it has promised whatever message is its own.
const NUMBER: u8 = 1;
const OTHER: u8 = 0;

fn store(location: u8, value: u8) -> Instruction {
    [STORE, 0, 0, 0, location, 0, value]
}

/// A store of register 0.
fn store_r0(location: u8) -> Instruction {
    [STORE, 0, 0, 0, location, 1, 0]
}

/// A load into register 0.
fn load(location: u8) -> Instruction {
    [LOAD, 0, 0, 0, location, 0, 0]
}

const DMB_ST: Instruction = [FENCE, 2, 0, 0, 0, 0, 0];

/// Program and machine with the messages (location, value, thread) at times 1, 2, ..
fn values(instructions: &[Instruction], messages: &[(u8, u8, u8)]) -> (Program, Machine) {
    let mut program = Program { version: 1, threads: 2, ..Program::default() };
    let code = &mut program.code[NUMBER as usize];
    code.count = instructions.len() as u8;
    code.instructions[..instructions.len()].copy_from_slice(instructions);
    let mut machine = Machine::default();
    for &(location, value, thread) in messages {
        let time = machine.memory.append(location, value, thread);
        if thread == NUMBER {
            machine.thread[NUMBER as usize].promise(time);
        }
    }
    (program, machine)
}

fn run(instructions: &[Instruction], messages: &[(u8, u8, u8)]) -> Option<Vec<RunStep>> {
    let (program, machine) = values(instructions, messages);
    let number = NUMBER as usize;
    first_run(&program.code[number], NUMBER, &machine.thread[number], &machine.memory)
}

#[test]
fn nothing_to_keep() {
    assert_eq!(run(&[], &[]), Some(vec![]));
    assert_eq!(run(&[store(0, 1), load(0)], &[(0, 1, OTHER)]), Some(vec![]));
}

#[test]
fn nothing_to_keep_it_with() {
    assert_eq!(run(&[], &[(0, 1, NUMBER)]), None);
    assert_eq!(run(&[store(0, 2)], &[(0, 1, NUMBER)]), None);
}

/// The second store is promised, so the first needs a message of its own; a fence between them puts the
/// promise, which is older, out of reach.
#[test]
fn own_message_on_the_way() {
    let kept = Some(vec![OwnMessage(2), Executed(1)]);
    assert_eq!(run(&[store(0, 1), store(1, 1)], &[(1, 1, NUMBER)]), kept);
    assert_eq!(run(&[store(0, 1), DMB_ST, store(1, 1)], &[(1, 1, NUMBER)]), None);
}

/// The load cannot pass over the thread's own message, and has the view of its data only.
#[test]
fn own_message_is_read() {
    let code = [store(0, 5), load(0), store_r0(1)];
    let kept = Some(vec![OwnMessage(2), Executed(2), Executed(1)]);
    assert_eq!(run(&code, &[(1, 5, NUMBER)]), kept);
}

/// Both stores could write own messages instead, and the first could keep the second promise.
#[test]
fn fulfilment_comes_first_and_by_time() {
    let code = [store(0, 1), store(0, 1)];
    assert_eq!(run(&code, &[(0, 1, NUMBER), (0, 1, NUMBER)]), Some(vec![Executed(1), Executed(2)]));
}

/// The store that is left could write an own message, but no promise is left.
#[test]
fn first_empty_promise_set_ends_it() {
    let code = [store(0, 1), store(0, 1), load(0)];
    assert_eq!(run(&code, &[(0, 1, NUMBER)]), Some(vec![Executed(1)]));
}

#[test]
fn first_time_of_a_load() {
    let messages = [(0, 1, OTHER), (0, 2, OTHER), (0, 2, OTHER), (1, 2, NUMBER), (0, 2, OTHER)];
    // Any time would do; 0 is the first.
    assert_eq!(run(&[load(0), store(1, 2)], &messages), Some(vec![Executed(0), Executed(4)]));
    // The data has to be 2, which times 2 and 3 have; time 5 has it too late.
    assert_eq!(run(&[load(0), store_r0(1)], &messages), Some(vec![Executed(2), Executed(4)]));
    // The first load at time 0 leaves the second all its times; the first at 2 would do as well.
    let twice = [load(0), load(0), store_r0(1)];
    assert_eq!(run(&twice, &messages), Some(vec![Executed(0), Executed(2), Executed(4)]));
}

/// The branch skips a store, so the run is shorter than the code.
#[test]
fn without_memory_at_time_0() {
    let compute = [COMPUTE, 0, 0, 0, 1, 0, 0];
    let branch = [BRANCH, 1, 0, 1, 0, 0, 1];
    let code = [compute, branch, store(2, 2), DMB_ST, store_r0(1)];
    let kept = Some(vec![Executed(0), Executed(0), Executed(0), Executed(1)]);
    assert_eq!(run(&code, &[(1, 1, NUMBER)]), kept);
}

/// Eight loads of the newest message, seven computes and the store: as many steps as there can be.
#[test]
fn longest_run() {
    let (program, machine) = worst::kept_last(8);
    let kept = [vec![Executed(15); 8], vec![Executed(0); 7], vec![Executed(16)]].concat();
    assert_eq!(first_run(&program.code[1], 1, &machine.thread[1], &machine.memory), Some(kept));
}

/// All runs up to their first empty promise set, in no order.
fn certifying_runs(code: &Code, number: u8, thread: &Thread, memory: &Memory) -> Vec<Vec<RunStep>> {
    let (mut found, mut open) = (Vec::new(), vec![(Vec::new(), *thread, *memory)]);
    while let Some((run, thread, memory)) = open.pop() {
        if thread.promises == 0 {
            found.push(run);
        } else if thread.position < code.count {
            let instr = decode(&code.instructions[thread.position as usize]);
            for (step, next, memory) in ways(instr, number, &thread, &memory) {
                open.push(([&run[..], &[step]].concat(), next, memory));
            }
        }
    }
    found
}

#[test]
fn least_of_all_runs() {
    let mut random = Random::new(8);
    let mut several = 0;
    for _ in 0..40_000 {
        let (program, state, number) = promising(&mut random);
        let (code, thread) = (&program.code[number as usize], &state.thread[number as usize]);
        let runs = certifying_runs(code, number, thread, &state.memory);
        several += u32::from(runs.len() > 1);
        assert!(runs.iter().all(|run| run.len() <= usize::from(code.count - thread.position)));
        let first = first_run(code, number, thread, &state.memory);
        assert_eq!(first, runs.into_iter().min(), "{number} {program:?} {state:?}");
    }
    assert!(several > 500, "{several}");
}

/// The promises of a location are kept in the order of their times, since its coherence view only grows, and
/// an own message, the newest of all, puts them out of reach. So no store has a choice: runs part at loads.
#[test]
fn one_way_of_a_store_at_most() {
    let mut random = Random::new(9);
    let mut chosen = 0;
    for _ in 0..40_000 {
        let (program, state, number) = promising(&mut random);
        let (code, thread) = (&program.code[number as usize], &state.thread[number as usize]);
        if thread.position == code.count || thread.promises == 0 {
            continue;
        }
        let instr = decode(&code.instructions[thread.position as usize]);
        if matches!(instr, Instr::Store { .. }) {
            let ways: Vec<_> = ways(instr, number, thread, &state.memory).collect();
            let certify =
                ways.iter().filter(|(_, next, memory)| certified(code, number, next, memory)).count();
            assert!(certify <= 1, "{number} {program:?} {state:?}");
            chosen += u32::from(ways.len() > 1 && certify == 1);
        }
    }
    assert!(chosen > 500, "{chosen}");
}

fn value_bytes(instructions: &[Instruction], messages: &[(u8, u8, u8)]) -> (Vec<u8>, Vec<u8>) {
    let (program, machine) = values(instructions, messages);
    (program_bytes(&program).to_vec(), machine_bytes(&machine).to_vec())
}

/// What the call gives, and what it leaves in an answer area of this length.
fn asked(program: &[u8], machine: &[u8], thread: u8, room: usize) -> (u32, Vec<u8>) {
    let mut answer = vec![0xA5; room];
    let code = certify(program, machine, thread, &mut answer);
    (code, answer)
}

/// A served call: these bytes and then 0, and behind the answer the rest of an area of 38 bytes as it was.
fn served(beginning: &[u8]) -> (u32, Vec<u8>) {
    let mut bytes = beginning.to_vec();
    bytes.resize(CERTIFY_ANSWER, 0);
    bytes.extend([0xA5; 2]);
    (0, bytes)
}

#[test]
fn answers() {
    let (program, machine) = value_bytes(&[store(0, 5), load(0), store_r0(1)], &[(1, 5, NUMBER)]);
    assert_eq!(asked(&program, &machine, NUMBER, 38), served(&[0, 1, 3, 0, 1, 2, 0, 2, 0, 1]));
    assert_eq!(asked(&program, &machine, OTHER, 38), served(&[0, 1]));
    assert_eq!(asked(&program, &machine, 2, 38), served(&[21]));
    assert_eq!(asked(&program, &[0xFF; 341], 2, 38), served(&[20]));
    let (program, machine) = value_bytes(&[], &[(1, 5, NUMBER)]);
    assert_eq!(asked(&program, &machine, NUMBER, 38), served(&[0, 0]));
}

#[test]
fn lengths() {
    let (program, machine) = value_bytes(&[store(1, 5)], &[(1, 5, NUMBER)]);
    assert_eq!(CERTIFY_ANSWER, 36);
    assert_eq!(asked(&program, &machine, NUMBER, 36).0, 0);
    for room in [0, 2, 35] {
        assert_eq!(asked(&program, &machine, NUMBER, room), (1, vec![0xA5; room]));
        assert_eq!(asked(&program, &[], NUMBER, room), (1, vec![0xA5; room]));
    }
    assert_eq!(asked(&program[1..], &machine, NUMBER, 36), (2, vec![0xA5; 36]));
    assert_eq!(asked(&program, &machine[1..], NUMBER, 36), (2, vec![0xA5; 36]));
}

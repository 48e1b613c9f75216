//! The deepest calls on small stacks: a search and a listing call themselves once for each step of a
//! sequence, a certification once for each instruction of its thread.

use blyskota::{outcomes_within, search_within, Answer, Machine, Outcomes, Program, Step, TABLE};

/// Bytes of stack that every search and every listing finds enough.
const SEARCH: usize = 160 * 1024;
/// Bytes of stack that every certification finds enough.
const CERTIFICATION: usize = 40 * 1024;

/// Runs on a stack of so many bytes.
fn on_a_stack<T: Send + 'static>(bytes: usize, run: impl FnOnce() -> T + Send + 'static) -> T {
    let thread = std::thread::Builder::new().stack_size(bytes).spawn(run).expect("a thread");
    thread.join().expect("the stack is enough")
}

/// A program file of these threads, asked for the last value of location 0.
fn file(threads: &[Vec<[u8; 7]>], value: u8) -> Vec<u8> {
    let mut file = vec![0x50, 0x47, 1, threads.len() as u8];
    for (number, instructions) in threads.iter().enumerate() {
        file.extend([0x54, 0x48, number as u8, instructions.len() as u8]);
        instructions.iter().for_each(|bytes| file.extend([0x49, 0x4E].iter().chain(bytes)));
    }
    file.extend([0x51, 0x55, 1, 0x43, 0x4E, 1, 0, 0, value]);
    file
}

/// The longest program: four threads of 16 instructions, those of the last one stores.
fn longest(value: u8) -> Vec<u8> {
    let computes = vec![[0, 0, 0, 0, 1, 0, 1]; 16];
    let stores = (0..16).map(|location| [2, 0, 0, 0, location, 0, 1]).collect();
    file(&[computes.clone(), computes.clone(), computes, stores], value)
}

/// The answer with a table of so many bytes, which are not on the stack.
fn on_a_small_stack(file: Vec<u8>, table: usize) -> Answer {
    on_a_stack(SEARCH, move || search_within(&file, 100_000, &mut vec![0; table]).expect("a good file"))
}

#[test]
fn eighty_steps() {
    for table in [0, TABLE] {
        match on_a_small_stack(longest(1), table) {
            Answer::Allowed { count: 81, trace } => assert_eq!(trace.len(), 80),
            other => panic!("table of {table} bytes: {other:?}"),
        }
    }
}

#[test]
fn many_sequences_of_eighty_steps() {
    for table in [0, TABLE] {
        let answer = on_a_small_stack(longest(2), table);
        assert_eq!(answer, Answer::NotFinished { count: 100_000 }, "table of {table} bytes");
    }
}

#[test]
fn many_sequences_listed() {
    for table in [0, TABLE] {
        let listed = on_a_stack(SEARCH, move || outcomes_within(&longest(1), 100_000, 10, &mut vec![0; table]));
        assert_eq!(listed.expect("a good file"), Outcomes::NotFinished { budget: 100_000 }, "table of {table} bytes");
    }
}

/// Fifteen loads, each at the address that the one before has read, and then a store to location
/// 15: the deepest thread, in which each load is asked blindly, since the first address has a view.
/// The messages are 14 to location 0, which say the address 0, and the thread's promise.
fn deepest() -> (Program, Machine) {
    let mut thread = vec![[1, 0, 0, 1, 0, 0, 0]; 15];
    thread.push([2, 0, 0, 0, 15, 0, 1]);
    let others = vec![[2, 0, 0, 0, 0, 0, 0]; 14];
    let program = Program::read(&file(&[thread, others], 0)).expect("a good file");
    let mut machine = Machine::fresh();
    for time in 1..=14 {
        for step in [Step::Promise { thread: 1, location: 0, value: 0 }, Step::Execute { thread: 1, time }] {
            machine = machine.step(&program, step).expect("an accepted step");
        }
    }
    let promise = Step::Promise { thread: 0, location: 15, value: 1 };
    let mut bytes = *machine.step(&program, promise).expect("an accepted step").as_bytes();
    bytes[FIRST_VIEW] = 14;
    (program, Machine::from_bytes(bytes))
}

/// Where the view of thread 0's first register stands in a machine value: after the memory, the
/// position and the value.
const FIRST_VIEW: usize = 49 + 2;

#[test]
fn the_deepest_thread_is_certified() {
    let (program, machine) = deepest();
    let answer = on_a_stack(CERTIFICATION, move || machine.certify(&program, 0));
    assert_eq!(answer.map(|run| run.map(|steps| steps.len())), Ok(Some(16)));
}

//! What a program value says of its instructions and conditions, as values and as text.

use blyskota::{Condition, Fence, Instruction, LoadMode, Operand, Operation, Program, StoreMode, PROGRAM};
use Operand::{Constant, Register};

/// Instructions of every kind and mode: bytes, value and text.
const INSTRUCTIONS: [([u8; 7], Instruction, &str); 16] = [
    ([0, 0, 1, 0, 5, 0, 0], compute(Operation::Add, 1, Constant(5), Constant(0)), "r1 = 5"),
    ([0, 0, 2, 1, 7, 0, 0], compute(Operation::Add, 2, Register(7), Constant(0)), "r2 = r7"),
    ([0, 0, 3, 0, 0, 1, 4], compute(Operation::Add, 3, Constant(0), Register(4)), "r3 = 0 + r4"),
    ([0, 1, 4, 1, 0, 0, 0], compute(Operation::Subtract, 4, Register(0), Constant(0)), "r4 = r0 - 0"),
    ([0, 2, 1, 1, 0, 0, 3], compute(Operation::ExclusiveOr, 1, Register(0), Constant(3)), "r1 = r0 xor 3"),
    ([0, 3, 7, 1, 0, 0, 255], compute(Operation::Equal, 7, Register(0), Constant(255)), "r7 = r0 == 255"),
    ([1, 0, 0, 0, 1, 0, 0], load(LoadMode::Plain, 0, Constant(1), Constant(0)), "r0 = load [1]"),
    ([1, 1, 0, 0, 1, 1, 1], load(LoadMode::Acquire, 0, Constant(1), Register(1)), "r0 = load.acq [1 + r1]"),
    ([1, 2, 5, 1, 2, 0, 0], load(LoadMode::WeakAcquire, 5, Register(2), Constant(0)), "r5 = load.acqpc [r2]"),
    ([2, 0, 0, 1, 3, 0, 9], store(StoreMode::Plain, Register(3), Constant(9)), "store [r3], 9"),
    ([2, 1, 0, 0, 1, 1, 0], store(StoreMode::Release, Constant(1), Register(0)), "store.rel [1], r0"),
    ([3, 4, 0, 1, 0, 0, 1], branch(Register(0), Constant(1), 4), "beq r0, 1, +4"),
    ([4, 0, 0, 0, 0, 0, 0], Instruction::Fence(Fence::DmbSy), "dmb sy"),
    ([4, 1, 0, 0, 0, 0, 0], Instruction::Fence(Fence::DmbLd), "dmb ld"),
    ([4, 2, 0, 0, 0, 0, 0], Instruction::Fence(Fence::DmbSt), "dmb st"),
    ([4, 3, 0, 0, 0, 0, 0], Instruction::Fence(Fence::Isb), "isb"),
];

const fn compute(operation: Operation, into: u8, left: Operand, right: Operand) -> Instruction {
    Instruction::Compute { operation, into, left, right }
}

const fn load(mode: LoadMode, into: u8, base: Operand, offset: Operand) -> Instruction {
    Instruction::Load { mode, into, base, offset }
}

const fn store(mode: StoreMode, address: Operand, data: Operand) -> Instruction {
    Instruction::Store { mode, address, data }
}

const fn branch(left: Operand, right: Operand, skip: u8) -> Instruction {
    Instruction::Branch { left, right, skip }
}

/// A program file of these threads and conditions.
fn file(threads: &[Vec<[u8; 7]>], conditions: &[[u8; 4]]) -> Vec<u8> {
    let mut file = vec![b'P', b'G', 1, threads.len() as u8];
    for (number, instructions) in threads.iter().enumerate() {
        file.extend([b'T', b'H', number as u8, instructions.len() as u8]);
        instructions.iter().for_each(|bytes| file.extend(b"IN".iter().chain(bytes)));
    }
    file.extend([b'Q', b'U', conditions.len() as u8]);
    conditions.iter().for_each(|bytes| file.extend(b"CN".iter().chain(bytes)));
    file
}

/// The value of a thread without an instruction, a thread with those of every kind, and a question
/// with both kinds of condition.
fn value() -> [u8; PROGRAM] {
    *Program::read(&file(&threads(), &CONDITIONS)).expect("a good file").as_bytes()
}

fn threads() -> [Vec<[u8; 7]>; 2] {
    [vec![], INSTRUCTIONS.map(|(bytes, _, _)| bytes).to_vec()]
}

const CONDITIONS: [[u8; 4]; 2] = [[0, 1, 7, 255], [1, 0, 15, 2]];

/// Where thread 1's number of instructions and the number of conditions stand in a value.
const COUNT: usize = 2 + 113;
const QUESTION: usize = 2 + 4 * 113;

/// The program with one byte of the value changed.
fn with(place: usize, byte: u8) -> Program {
    let mut bytes = value();
    bytes[place] = byte;
    Program::from_bytes(bytes)
}

#[test]
fn instructions_of_every_kind() {
    let program = Program::from_bytes(value());
    assert_eq!(program.instructions(0), Some(vec![]));
    assert_eq!(program.instructions(1), Some(INSTRUCTIONS.map(|(_, instruction, _)| instruction).to_vec()));
    for (_, instruction, text) in INSTRUCTIONS {
        assert_eq!(instruction.to_string(), text);
    }
}

#[test]
fn conditions_of_both_kinds() {
    let conditions = Program::from_bytes(value()).conditions().expect("two conditions");
    let register = Condition::Register { thread: 1, register: 7, value: 255 };
    let location = Condition::Location { location: 15, value: 2 };
    assert_eq!(conditions, [register, location]);
    assert_eq!([register.to_string(), location.to_string()], ["1:r7 = 255", "[15] = 2"]);
}

#[test]
fn no_such_thread() {
    let program = Program::from_bytes(value());
    for thread in [2, 3, 4, 255] {
        assert_eq!(program.instructions(thread), None, "thread {thread} of 2");
    }
    assert_eq!(with(1, 0).instructions(0), None, "thread 0 of none");
    assert_eq!(with(1, 255).instructions(3), Some(vec![]), "thread 3, where the bytes say 255");
    for thread in 4..=255 {
        assert_eq!(with(1, 255).instructions(thread), None, "thread {thread}, where there is room for four");
    }
}

#[test]
fn counts_out_of_range() {
    assert_eq!(with(COUNT, 17).instructions(1), None);
    assert_eq!(with(COUNT, 17).instructions(0), Some(vec![]), "the other thread's are there");
    assert_eq!(with(QUESTION, 9).conditions(), None);
}

/// Every byte of every instruction changed to every value: what the reader refuses is none.
#[test]
fn bytes_that_are_no_instruction() {
    for index in 0..INSTRUCTIONS.len() {
        for byte in 0..7 {
            for changed in 0..=255 {
                let mut threads = threads();
                threads[1][index][byte] = changed;
                let read = Program::read(&file(&threads, &CONDITIONS)).is_ok();
                let instructions = with(COUNT + 1 + 7 * index + byte, changed).instructions(1);
                assert_eq!(instructions.is_some(), read, "{:?}", threads[1][index]);
            }
        }
    }
}

/// The same of the conditions.
#[test]
fn bytes_that_are_no_condition() {
    for index in 0..CONDITIONS.len() {
        for byte in 0..4 {
            for changed in 0..=255 {
                let mut conditions = CONDITIONS;
                conditions[index][byte] = changed;
                let read = Program::read(&file(&threads(), &conditions)).is_ok();
                let program = with(QUESTION + 1 + 4 * index + byte, changed);
                assert_eq!(program.conditions().is_some(), read, "{:?}", conditions[index]);
            }
        }
    }
}

/// Every litmus test's file, written again from the text of its instructions and conditions.
#[test]
fn litmus_tests_from_their_text() {
    let lines: Vec<&str> = include_str!("../../../programs/litmus/vectors.txt").lines().collect();
    assert!(lines.len() >= 188);
    for line in lines {
        let original = from_hex(line.split(' ').next_back().expect("the hex of a program file"));
        let program = Program::read(&original).expect("a good file");
        let thread = |number| program.instructions(number).expect("instructions");
        let threads: Vec<Vec<[u8; 7]>> = (0..program.threads())
            .map(|number| thread(number).iter().map(instruction_bytes).collect())
            .collect();
        let conditions: Vec<[u8; 4]> =
            program.conditions().expect("conditions").iter().map(condition_bytes).collect();
        assert_eq!(file(&threads, &conditions), original, "{line}");
    }
}

fn from_hex(hex: &str) -> Vec<u8> {
    let byte = |at| u8::from_str_radix(&hex[at..at + 2], 16).expect("hex digits");
    (0..hex.len()).step_by(2).map(byte).collect()
}

/// The bytes that an instruction's text stands for, found without the library.
fn instruction_bytes(instruction: &Instruction) -> [u8; 7] {
    let text = instruction.to_string();
    let words: Vec<&str> = text.split([' ', ',', '[', ']']).filter(|word| !word.is_empty()).collect();
    let bytes = |op, m, into, first, second| {
        let ([k1, n1], [k2, n2]) = (operand_bytes(first), operand_bytes(second));
        [op, m, into, k1, n1, k2, n2]
    };
    match words[..] {
        ["isb"] => bytes(4, 3, 0, "0", "0"),
        ["dmb", fence] => bytes(4, place(&["sy", "ld", "st"], fence), 0, "0", "0"),
        ["beq", left, right, skip] => bytes(3, number(skip), 0, left, right),
        [into, "=", left] => bytes(0, 0, register(into), left, "0"),
        [into, "=", left, how, right] => {
            bytes(0, place(&["+", "-", "xor", "=="], how), register(into), left, right)
        }
        [into, "=", load, base] => bytes(1, place(&LOADS, load), register(into), base, "0"),
        [into, "=", load, base, "+", offset] => bytes(1, place(&LOADS, load), register(into), base, offset),
        [store, address, data] => bytes(2, place(&["store", "store.rel"], store), 0, address, data),
        _ => panic!("no instruction: {text}"),
    }
}

const LOADS: [&str; 3] = ["load", "load.acq", "load.acqpc"];

/// The bytes that a condition's text stands for.
fn condition_bytes(condition: &Condition) -> [u8; 4] {
    let text = condition.to_string();
    let words: Vec<&str> = text.split([' ', ':', '[', ']']).filter(|word| !word.is_empty()).collect();
    match words[..] {
        [thread, name, "=", value] => [0, number(thread), register(name), number(value)],
        [location, "=", value] => [1, 0, number(location), number(value)],
        _ => panic!("no condition: {text}"),
    }
}

fn operand_bytes(text: &str) -> [u8; 2] {
    match text.starts_with('r') {
        true => [1, register(text)],
        false => [0, number(text)],
    }
}

fn register(text: &str) -> u8 {
    number(text.strip_prefix('r').expect("a register"))
}

fn number(text: &str) -> u8 {
    text.parse().expect("a number")
}

/// The place of a word among those that are known.
fn place(known: &[&str], word: &str) -> u8 {
    known.iter().position(|&other| other == word).expect("a known word") as u8
}

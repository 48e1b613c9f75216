//! Prints every outcome of a program, with the place of its first sequence:
//! `cargo run --release --package blyskota --example outcomes -- FILE [BUDGET]`. FILE is a program file or a
//! listing; BUDGET is a number of sequences, and all of them without it. Exit status: 0 all printed, 2 not
//! finished, 3 refused, 4 not done.

use std::collections::BTreeSet;
use std::process::{Command, ExitCode};

use blyskota::{outcomes, Condition, Instruction, Operand, Outcome, Outcomes, Program};

const NOT_FINISHED: u8 = 2;
const REFUSED: u8 = 3;
const NOT_DONE: u8 = 4;

/// The most outcomes that are printed.
const MOST: usize = 100_000;
const USAGE: &str = "usage: outcomes FILE [BUDGET], FILE a program file or a listing, BUDGET a number or all";

/// The exit status of what is not done, and its reason.
type Failed = (u8, String);

/// The registers, by thread and number, and the locations that are shown of an outcome.
#[derive(Default)]
struct Used {
    registers: BTreeSet<(u8, u8)>,
    locations: BTreeSet<u8>,
}

impl Used {
    /// What instructions write or access and conditions ask for, and where computed addresses have led to.
    fn of(program: &Program, conditions: &[Condition], outcomes: &[Outcome]) -> Used {
        let mut used = Used::default();
        for thread in 0..program.threads() {
            let instructions = program.instructions(thread).unwrap_or_default();
            let written = instructions.iter().filter_map(written_register);
            used.registers.extend(written.map(|register| (thread, register)));
            used.locations.extend(instructions.iter().filter_map(fixed_address));
        }
        for condition in conditions {
            match *condition {
                Condition::Register { thread, register, .. } => used.registers.extend([(thread, register)]),
                Condition::Location { location, .. } => used.locations.extend([location]),
            }
        }
        for outcome in outcomes {
            let held = |&location: &u8| outcome.locations[usize::from(location)] != 0;
            used.locations.extend((0..16).filter(held));
        }
        used
    }

    /// As the conditions of a listing are written.
    fn words(&self, outcome: &Outcome) -> String {
        let registers = self.registers.iter().map(|&(thread, register)| {
            let value = outcome.registers[usize::from(thread)][usize::from(register)];
            Condition::Register { thread, register, value }
        });
        let locations = self.locations.iter().map(|&location| {
            let value = outcome.locations[usize::from(location)];
            Condition::Location { location, value }
        });
        let words: Vec<String> = registers.chain(locations).map(|end| end.to_string()).collect();
        if words.is_empty() {
            "nothing to show".to_string()
        } else {
            words.join(", ")
        }
    }
}

fn written_register(instruction: &Instruction) -> Option<u8> {
    match *instruction {
        Instruction::Compute { into, .. } | Instruction::Load { into, .. } => Some(into),
        _ => None,
    }
}

/// The location of an instruction that is known without a run.
fn fixed_address(instruction: &Instruction) -> Option<u8> {
    match *instruction {
        Instruction::Load { base: Operand::Constant(base), offset: Operand::Constant(offset), .. } => {
            Some(base.wrapping_add(offset) % 16)
        }
        Instruction::Store { address: Operand::Constant(address), .. } => Some(address % 16),
        _ => None,
    }
}

/// The program file at the path, or that of the listing there.
fn program_file(path: &str) -> Result<Vec<u8>, Failed> {
    let file = std::fs::read(path).map_err(|why| (NOT_DONE, format!("{path}: {why}")))?;
    if file.starts_with(b"PG") {
        return Ok(file);
    }
    let assemble = concat!(env!("CARGO_MANIFEST_DIR"), "/../../programs/assemble");
    let run = Command::new(assemble).arg(path).output();
    let assembled = run.map_err(|why| (NOT_DONE, format!("{assemble}: {why}")))?;
    if !assembled.status.success() {
        let why = String::from_utf8_lossy(&assembled.stderr).trim_end().to_string();
        return Err((REFUSED, why));
    }
    Ok(assembled.stdout)
}

fn print(program: &Program, sequences: u64, outcomes: &[Outcome]) {
    let conditions = program.conditions().unwrap_or_default();
    let used = Used::of(program, &conditions, outcomes);
    let mut as_asked = 0;
    for outcome in outcomes {
        let asked = conditions.iter().all(|condition| outcome.meets(condition));
        as_asked += usize::from(asked);
        let said = if asked { "; as asked" } else { "" };
        println!("{}; first by sequence {}{said}", used.words(outcome), outcome.place);
    }
    println!("outcomes: {}, as asked: {as_asked}, sequences: {sequences}", outcomes.len());
}

fn run(words: &[String]) -> Result<(), Failed> {
    let (path, budget) = match words {
        [path] => (path, Some(u64::MAX)),
        [path, all] if all == "all" => (path, Some(u64::MAX)),
        [path, budget] => (path, budget.parse().ok()),
        _ => return Err((NOT_DONE, USAGE.to_string())),
    };
    let budget = budget.ok_or((NOT_DONE, USAGE.to_string()))?;
    let file = program_file(path)?;
    let refused = |why| (REFUSED, format!("{path}: {why}"));
    let program = Program::read(&file).map_err(refused)?;
    match outcomes(&file, budget, MOST).map_err(refused)? {
        Outcomes::Finished { sequences, outcomes } => print(&program, sequences, &outcomes),
        Outcomes::NotFinished { budget } => {
            return Err((NOT_FINISHED, format!("not finished: there are more than {budget} sequences")))
        }
        Outcomes::TooMany { sequences } => {
            return Err((REFUSED, format!("more than {MOST} outcomes, of {sequences} sequences")))
        }
    }
    Ok(())
}

fn main() -> ExitCode {
    let words: Vec<String> = std::env::args().skip(1).collect();
    match run(&words) {
        Ok(()) => ExitCode::SUCCESS,
        Err((status, why)) => {
            eprintln!("{why}");
            ExitCode::from(status)
        }
    }
}

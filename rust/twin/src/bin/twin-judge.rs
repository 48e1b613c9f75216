//! Prints the search's answer for the program file on standard input, as the judge does. The first
//! argument is the budget, `all` for the largest, 1,000,000 without one.

use std::io::Read;
use std::process::ExitCode;

use twin::program;
use twin::search::{search_known, Verdict};

/// The budget without an argument, as the judge has it.
const BUDGET: u64 = 1_000_000;

fn main() -> ExitCode {
    let Some(budget) = budget(std::env::args().nth(1).as_deref()) else {
        eprintln!("twin-judge [BUDGET | all] < PROGRAM");
        return ExitCode::FAILURE;
    };
    let mut file = Vec::new();
    if let Err(error) = std::io::stdin().read_to_end(&mut file) {
        eprintln!("twin-judge: {error}");
        return ExitCode::FAILURE;
    }
    print_answer(&file, budget);
    ExitCode::SUCCESS
}

/// The budget that the argument asks for, if it is one.
fn budget(argument: Option<&str>) -> Option<u64> {
    match argument {
        None => Some(BUDGET),
        Some("all") => Some(u64::MAX),
        Some(number) => number.parse().ok(),
    }
}

fn print_answer(file: &[u8], budget: u64) {
    let program = match program::read(file) {
        Ok(program) => program,
        Err(refused) => return println!("refused {} at {}", refused.number, refused.place),
    };
    let found = search_known(&program, budget);
    let verdict = match found.verdict {
        Verdict::Allowed => "allowed",
        Verdict::Forbidden => "forbidden",
        Verdict::NotFinished => "not finished",
    };
    println!("verdict {verdict}\ncount {}", found.count);
    for step in found.trace {
        match step.kind {
            0 => println!("execute {} {}", step.thread, step.a),
            _ => println!("promise {} {} {}", step.thread, step.a, step.b),
        }
    }
}

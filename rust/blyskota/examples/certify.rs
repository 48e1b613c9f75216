//! Shows how a thread can keep its promises after the steps on standard input, which are as the judge
//! prints them: `cargo run --release --package blyskota --example certify -- FILE THREAD`.

use std::error::Error;
use std::io::stdin;

use blyskota::{Machine, Program, Step};

/// The step of a line; none where the judge says something else there.
fn step(line: &str) -> Result<Option<Step>, Box<dyn Error>> {
    let words: Vec<&str> = line.split_whitespace().collect();
    let number = |index: usize| words[index].parse::<u8>().map_err(|why| format!("{line}: {why}"));
    match words[..] {
        ["execute", _, _] => Ok(Some(Step::Execute { thread: number(1)?, time: number(2)? })),
        ["promise", _, _, _] => {
            Ok(Some(Step::Promise { thread: number(1)?, location: number(2)?, value: number(3)? }))
        }
        ["verdict" | "count", ..] => Ok(None),
        _ => Err(format!("{line}: neither execute THREAD TIME nor promise THREAD LOCATION VALUE").into()),
    }
}

fn main() -> Result<(), Box<dyn Error>> {
    let words: Vec<String> = std::env::args().skip(1).collect();
    let [path, thread] = &words[..] else { Err("a program file and the number of a thread are needed")? };
    let thread: u8 = thread.parse().map_err(|why| format!("{thread}: {why}"))?;
    let file = std::fs::read(path).map_err(|why| format!("{path}: {why}"))?;
    let program = Program::read(&file)?;
    let mut machine = Machine::fresh();
    for line in stdin().lines() {
        let line = line?;
        if let Some(step) = step(&line)? {
            machine = machine.step(&program, step).map_err(|why| format!("{line}: {why}"))?;
        }
    }
    match machine.certify(&program, thread)? {
        None => println!("thread {thread} cannot keep its promises"),
        Some(run) if run.is_empty() => println!("thread {thread} has no promise to keep"),
        Some(run) => {
            println!("thread {thread} can keep its promises: its next instructions are");
            run.iter().for_each(|step| println!("{step}"));
        }
    }
    Ok(())
}

//! Searches a program file: `cargo run --release --package blyskota --example search -- FILE`.

use blyskota::Answer;

fn main() -> Result<(), Box<dyn std::error::Error>> {
    let path = std::env::args().nth(1).ok_or("the path of a program file is needed")?;
    let file = std::fs::read(&path).map_err(|why| format!("{path}: {why}"))?;
    match blyskota::search(&file, u64::MAX)? {
        Answer::Allowed { count, trace } => {
            println!("allowed: sequence {count} ends as asked");
            for step in trace {
                println!("{step:?}");
            }
        }
        Answer::Forbidden { count } => println!("forbidden: none of {count} sequences ends as asked"),
        Answer::NotFinished { count } => println!("not finished: none of the first {count} does"),
    }
    Ok(())
}

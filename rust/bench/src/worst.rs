//! Seconds of the files that take longest, with a budget of 100, and of certifications that have to look
//! at every run. The best of a few rounds counts.

use std::time::Instant;

use twin::bytes::{machine_bytes, program_bytes};
use twin::machine::Machine;
use twin::program::Program;
use twin::worst;

const ROUNDS: u32 = 3;
/// How many loads, and how their values are combined.
const UNKEPT: [(u8, u8, &str); 6] = [
    (4, 0, "added up"),
    (6, 0, "added up"),
    (7, 0, "added up"),
    (8, 0, "added up"),
    (8, 1, "subtracted"),
    (8, 2, "by exclusive or"),
];

/// The seconds of the quickest of a few rounds.
fn quickest(mut run: impl FnMut()) -> f64 {
    let seconds = |_| {
        let start = Instant::now();
        run();
        start.elapsed().as_secs_f64()
    };
    (0..ROUNDS).map(seconds).fold(f64::INFINITY, f64::min)
}

fn searched(file: &[u8]) -> f64 {
    let (mut area, mut answer) = ([0; 480], [0; 12]);
    quickest(|| {
        blyskota::calls::search(file, worst::BUDGET, &mut area, &mut answer);
    })
}

/// The seconds of a certification, and the length of the run that it shows, 0 for none.
fn certified((program, machine): (Program, Machine)) -> (f64, u8) {
    let (program, machine) = (program_bytes(&program), machine_bytes(&machine));
    let mut answer = [0; 36];
    let seconds = quickest(|| {
        assert_eq!(blyskota::calls::certify(&program, &machine, 1, &mut answer), 0, "the call is served");
    });
    (seconds, answer[2])
}

/// The seconds of a certification of a promise that is not kept.
fn refuted(values: (Program, Machine)) -> f64 {
    let (seconds, length) = certified(values);
    assert_eq!(length, 0, "the promise can be kept");
    seconds
}

pub fn times() {
    println!("\n{:<30}{:>10}", "worst files, budget 100", "seconds");
    for vector in worst::files() {
        println!("{:<30}{:>10.3}", vector.name, searched(&vector.file));
    }
    println!("\n{:<30}{:>10}", "a promise, 15 messages", "seconds");
    for (loads, mode, how) in UNKEPT {
        println!("{:<30}{:>10.4}", format!("{loads} loads {how}"), refuted(worst::unkept(loads, mode)));
    }
    println!("{:<30}{:>10.4}", "10 loads, branches on pairs", refuted(worst::compared()));
    let (seconds, length) = certified(worst::kept_last(8));
    assert_eq!(length, 16, "the longest run");
    println!("{:<30}{seconds:>10.4}", "8 loads, kept by the last run");
}

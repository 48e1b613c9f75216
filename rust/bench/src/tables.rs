//! Seconds of whole searches, with the largest budget: the twin's two, and the proved one with tables
//! of several sizes. A search that visits too much for its table is stopped by its budget.

use std::time::Instant;

use blyskota::{search_within, Answer};
use twin::litmus::{examples, vectors, Vector};
use twin::program::{read, Program};
use twin::search::{search, search_known, Found, Verdict};

const KIB: usize = 1 << 10;
const MIB: usize = 1 << 20;
const TABLES: [(&str, usize); 7] = [
    ("0", 0),
    ("64 KiB", 64 * KIB),
    ("1 MiB", MIB),
    ("4 MiB", 4 * MIB),
    ("16 MiB", 16 * MIB),
    ("64 MiB", 64 * MIB),
    ("256 MiB", 256 * MIB),
];
const TIMED: [&str; 10] = [
    "scanner-acquire",
    "sb4",
    "lb4",
    "Peterson",
    "Peterson+acq-missing",
    "Peterson+po-turn",
    "Peterson+po-turn+flags",
    "Ring1",
    "Ring1+acq-missing",
    "Ring1+rel-missing",
];
/// The first budget that is tried, by how much it grows, and the seconds after which it grows no more.
const FIRST: u64 = 1 << 20;
const GROWTH: u64 = 4;
const ENOUGH: f64 = 5.0;

/// The seconds of a search to its end, if one of the growing budgets suffices for it.
fn ended(mut finishes: impl FnMut(u64) -> bool) -> Option<f64> {
    let mut budget = FIRST;
    loop {
        let start = Instant::now();
        let finished = finishes(budget);
        let seconds = start.elapsed().as_secs_f64();
        if finished {
            return Some(seconds);
        }
        if seconds > ENOUGH || budget == u64::MAX {
            return None;
        }
        budget = budget.saturating_mul(GROWTH);
    }
}

fn print_cell(seconds: Option<f64>) {
    match seconds {
        Some(seconds) => print!("{seconds:>10.4}"),
        None => print!("{:>10}", "-"),
    }
}

/// Whether the proved search ends; it must end with the verdict and the count of the vector.
fn proved_ends(vector: &Vector, budget: u64, table: &mut [u8]) -> bool {
    let found = match search_within(&vector.file, budget, table).expect("a good file") {
        Answer::NotFinished { .. } => return false,
        Answer::Allowed { count, .. } => (Verdict::Allowed, count),
        Answer::Forbidden { count } => (Verdict::Forbidden, count),
    };
    assert_eq!(found, (vector.verdict, vector.count), "{}", vector.name);
    true
}

fn twin_ends(program: &Program, budget: u64, search: fn(&Program, u64) -> Found) -> bool {
    search(program, budget).verdict != Verdict::NotFinished
}

fn row(vector: &Vector) {
    let program = read(&vector.file).expect(vector.name);
    print!("{:<24}{:>16}", vector.name, vector.count);
    print_cell(ended(|budget| twin_ends(&program, budget, search)));
    print_cell(ended(|budget| twin_ends(&program, budget, search_known)));
    for (_, length) in TABLES {
        let mut table = vec![0; length];
        print_cell(ended(|budget| proved_ends(vector, budget, &mut table)));
    }
    println!();
}

/// All litmus tests one after the other, with the largest budget.
fn litmus() {
    let mut table = vec![0; MIB];
    let tests = vectors();
    let start = Instant::now();
    let ends = tests.iter().filter(|test| proved_ends(test, u64::MAX, &mut table)).count();
    let seconds = start.elapsed().as_secs_f64();
    println!(
        "{ends} of {} litmus tests end as stated with the largest budget and 1 MiB: {seconds:.3}",
        tests.len()
    );
}

pub fn times() {
    print!("\n{:<24}{:>16}{:>10}{:>10}", "seconds", "sequences", "twin", "its table");
    TABLES.iter().for_each(|(name, _)| print!("{name:>10}"));
    println!();
    let all = examples().into_iter().chain(vectors());
    let timed: Vec<Vector> = all.filter(|vector| TIMED.contains(&vector.name)).collect();
    timed.iter().for_each(row);
    litmus();
}

//! Sequences a second where every sequence is visited. Each program spends the budget below; the
//! best of a few rounds counts.

use std::hint::black_box;
use std::time::Instant;

use twin::litmus::{examples, Vector};

/// Sequences a search spends.
pub const BUDGET: u32 = 2_000_000;
const ROUNDS: u32 = 5;
const TIMED: [&str; 3] = ["sb4", "lb4", "scanner-acquire"];

/// The programs that are timed, which have more sequences than the budget.
pub fn timed() -> Vec<Vector> {
    examples().into_iter().filter(|example| TIMED.contains(&example.name)).collect()
}

/// The answer of a search on a program file: its 12 bytes.
pub fn twin_search(file: &[u8]) -> [u8; 12] {
    let (mut area, mut answer) = ([0; 480], [0; 12]);
    twin::calls::search(file, BUDGET, &mut area, &mut answer);
    answer
}

pub fn proved_search(file: &[u8]) -> [u8; 12] {
    let (mut area, mut answer) = ([0; 480], [0; 12]);
    blyskota::calls::search(file, BUDGET, &mut area, &mut answer);
    answer
}

/// The best rate of a few rounds, each of which spends the budget.
pub fn best_rate<T>(mut spend: impl FnMut() -> T) -> f64 {
    let rate = |_| {
        let start = Instant::now();
        black_box(spend());
        f64::from(BUDGET) / start.elapsed().as_secs_f64()
    };
    (0..ROUNDS).map(rate).fold(0.0, f64::max)
}

pub fn rates() {
    println!("{:<18}{:>14}{:>14}{:>8}", "sequences/second", "twin", "proved", "ratio");
    for example in timed() {
        let file = &example.file;
        let answer = twin_search(file);
        assert_eq!(answer, proved_search(file), "{}: the two searches answer differently", example.name);
        assert_eq!(answer[8..], BUDGET.to_le_bytes(), "{}: the budget is not spent", example.name);
        let [twin, proved] = [twin_search, proved_search].map(|search| best_rate(|| search(file)));
        println!("{:<18}{twin:>14.0}{proved:>14.0}{:>8.2}", example.name, proved / twin);
    }
}

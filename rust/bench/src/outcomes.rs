//! Listings of outcomes: sequences a second where every sequence is visited, beside the searches of the
//! same programs in the same run, and the seconds of all litmus tests to their end.

use std::time::Instant;

use blyskota::{outcomes_within, Outcomes};
use twin::litmus::{vectors, Vector};
use twin::outcomes::{list_known, Listed};
use twin::program::read;

use crate::plain::{best_rate, proved_search, timed, twin_search, BUDGET};

/// More than any litmus test has.
const ROOM: usize = 100;
const TABLE: usize = 64 << 20;

fn twin_listing(file: &[u8]) -> Vec<u8> {
    let (mut table, mut answer) = ([0; 52 * ROOM], [0; 16]);
    twin::calls::outcomes(file, BUDGET, &mut table, &mut answer);
    [&answer[..], &table].concat()
}

fn proved_listing(file: &[u8]) -> Vec<u8> {
    let (mut table, mut answer) = ([0; 52 * ROOM], [0; 16]);
    blyskota::calls::outcomes(file, BUDGET, &mut table, &mut answer);
    [&answer[..], &table].concat()
}

/// The rates of both listings, and what part they are of the rates of the searches.
fn row(example: &Vector) {
    let file = &example.file;
    let [twin_searched, proved_searched] =
        [twin_search, proved_search].map(|search| best_rate(|| search(file)));
    let [twin, proved] = [twin_listing, proved_listing].map(|listing| best_rate(|| listing(file)));
    assert_eq!(twin_listing(file), proved_listing(file), "{}: the two listings differ", example.name);
    let (twin_part, proved_part) = (twin / twin_searched, proved / proved_searched);
    println!(
        "{:<18}{twin:>14.0}{twin_part:>11.2}{proved:>14.0}{proved_part:>11.2}{:>8.2}",
        example.name,
        proved / twin
    );
}

/// The seconds of all litmus tests, one after the other.
fn seconds(tests: &[Vector], mut list: impl FnMut(&Vector) -> Vec<u64>) -> (f64, Vec<Vec<u64>>) {
    let start = Instant::now();
    let listed = tests.iter().map(&mut list).collect();
    (start.elapsed().as_secs_f64(), listed)
}

/// The number of all sequences, then the places of the outcomes in order.
fn proved_places(test: &Vector, table: &mut [u8]) -> Vec<u64> {
    match outcomes_within(&test.file, u64::MAX, ROOM, table) {
        Ok(Outcomes::Finished { sequences, outcomes }) => {
            [sequences].into_iter().chain(outcomes.iter().map(|outcome| outcome.place)).collect()
        }
        other => panic!("{}: {other:?}", test.name),
    }
}

fn twin_places(test: &Vector) -> Vec<u64> {
    match list_known(&read(&test.file).expect(test.name), u64::MAX) {
        Listed::Finished { sequences, places } => {
            [sequences].into_iter().chain(places.into_values()).collect()
        }
        Listed::NotFinished => panic!("{}: the largest budget is enough", test.name),
    }
}

/// All litmus tests with the largest budget.
fn litmus() {
    let (tests, mut table) = (vectors(), vec![0; TABLE]);
    let (twin, listed) = seconds(&tests, twin_places);
    let (proved, proved_listed) = seconds(&tests, |test| proved_places(test, &mut table));
    assert_eq!(listed, proved_listed, "the two listings differ");
    println!(
        "{} litmus tests listed to their end: twin {twin:.3}, proved with 64 MiB {proved:.3} seconds",
        tests.len()
    );
}

pub fn times() {
    println!(
        "\n{:<18}{:>14}{:>11}{:>14}{:>11}{:>8}",
        "listed/second", "twin", "of search", "proved", "of search", "ratio"
    );
    timed().iter().for_each(row);
    litmus();
}

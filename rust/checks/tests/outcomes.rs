//! Listings of outcomes: the library against the twin, and against the axiomatic model of
//! `programs/axiomatic`.

use std::process::Command;

use checks::listings::compare_listings;
use checks::{Call, Library, Table, Twin};
use twin::calls::OUTCOME_WITHIN_ENTRY;
use twin::litmus::{examples, from_hex, vectors, Vector};
use twin::outcomes::{list_known, Listed};
use twin::program::read;

/// More than any litmus test has.
const ROOM: usize = 100;

/// 24 calls on each: both calls, three budgets and four lengths of the table of outcomes.
#[test]
fn outcomes_of_3000_programs() {
    let answers = compare_listings([&Library, &Twin], 3_000, 107).unwrap_or_else(|other| panic!("{other}"));
    let enough = [
        ("finished", answers.finished, 10_000),
        ("finished with more than three outcomes", answers.of_several, 1_000),
        ("not finished", answers.not_finished, 40_000),
        ("refused with 40", answers.too_many, 8_000),
        ("refused with 1 to 10", answers.bad_file, 2_000),
        ("an answer area that is too short", answers.not_served, 3_000),
    ];
    for (what, often, least) in enough {
        assert!(often >= least, "{what} only {often} times: {answers:?}");
    }
}

/// Both sides list alike with exactly as many sequences as there are, one fewer, and no end of them; with
/// room for all outcomes, and for one fewer.
fn to_the_end(vector: &Vector, table: usize) {
    let program = read(&vector.file).expect(vector.name);
    let Listed::Finished { sequences, places } = list_known(&program, u64::MAX) else {
        panic!("{}: the largest budget is enough", vector.name)
    };
    let whole = places.len() * OUTCOME_WITHIN_ENTRY;
    for (budget, area, verdict) in [
        (sequences - 1, whole, 3),
        (sequences, whole, 1),
        (u64::MAX, whole + 60, 1),
        (sequences, whole - 1, 0),
    ] {
        let table = Table(vec![0; table]);
        let call = Call::OutcomesWithin { file: vector.file.clone(), budget, area, table };
        let left = call.ask(&Library, 24);
        assert_eq!(left, call.ask(&Twin, 24), "{} {budget}", vector.name);
        assert_eq!(call.verdict(&left), Some(verdict), "{} {budget}", vector.name);
    }
}

#[test]
fn litmus_tests_and_examples_to_the_end() {
    vectors().iter().for_each(|vector| to_the_end(vector, 16 << 20));
    examples().iter().for_each(|example| to_the_end(example, blyskota::TABLE));
}

/// The outcomes of each litmus test by the axiomatic model.
fn axiomatic(tests: &[Vector]) -> Vec<(String, Vec<Vec<u8>>)> {
    let programs = concat!(env!("CARGO_MANIFEST_DIR"), "/../../programs");
    let listings = tests.iter().map(|test| format!("{programs}/litmus/{}.litmus", test.name));
    let ended = Command::new(format!("{programs}/axiomatic"))
        .arg("--outcomes")
        .args(listings)
        .output()
        .expect("programs/axiomatic runs");
    assert!(ended.status.success(), "{}", String::from_utf8_lossy(&ended.stderr));
    let mut listed: Vec<(String, Vec<Vec<u8>>)> = Vec::new();
    for line in String::from_utf8(ended.stdout).expect("text").lines() {
        match (line.split_once(": "), listed.last_mut()) {
            (Some((name, _)), _) => listed.push((name.to_string(), Vec::new())),
            (None, Some((_, outcomes))) => outcomes.push(from_hex(line)),
            (None, None) => panic!("an outcome before any name: {line}"),
        }
    }
    listed
}

/// The outcomes of a file by the library, as bytes.
fn proved(test: &Vector, table: &mut [u8]) -> Vec<Vec<u8>> {
    let listed = blyskota::outcomes_within(&test.file, u64::MAX, ROOM, table);
    let Ok(blyskota::Outcomes::Finished { outcomes, .. }) = listed else {
        panic!("{}: {listed:?}", test.name)
    };
    let bytes = |outcome: &blyskota::Outcome| [&outcome.registers.concat()[..], &outcome.locations].concat();
    outcomes.iter().map(bytes).collect()
}

/// Two models that share nothing end each litmus test in the same ways: the machine of promises, whose
/// listing is proved, and the axioms.
#[test]
fn axiomatic_outcomes_of_all_litmus_tests() {
    let tests = vectors();
    let listed = axiomatic(&tests);
    assert_eq!(listed.len(), tests.len());
    let mut table = vec![0; blyskota::TABLE];
    let mut outcomes = 0;
    for (test, (name, expected)) in tests.iter().zip(&listed) {
        assert_eq!(test.name, name);
        assert_eq!(proved(test, &mut table), *expected, "{name}");
        outcomes += expected.len();
    }
    assert!(outcomes > 1_000, "{outcomes}");
}

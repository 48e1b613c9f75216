//! Answers that the description in words gives outright: ten small programs, P1 to P10, and an example
//! with its trace; litmus tests of known verdicts; and the places of refusals.

use twin::literal;
use twin::litmus::vectors;
use twin::program::{read, Refused};
use twin::search::{search, search_known, Found, Verdict};
use twin::step::Step;

const EMPTY: &[u8] = &[0x50, 0x47, 1, 1, 0x54, 0x48, 0, 0, 0x51, 0x55, 0];
const STORE: [u8; 7] = [2, 0, 0, 0, 0, 0, 1];
const LOAD: [u8; 7] = [1, 0, 0, 0, 0, 0, 0];

/// The program file of the threads and conditions.
fn file(threads: &[&[[u8; 7]]], conditions: &[[u8; 4]]) -> Vec<u8> {
    let mut file = vec![0x50, 0x47, 1, threads.len() as u8];
    for (number, instructions) in threads.iter().enumerate() {
        file.extend([0x54, 0x48, number as u8, instructions.len() as u8]);
        for instruction in *instructions {
            file.extend([0x49, 0x4E]);
            file.extend(instruction);
        }
    }
    file.extend([0x51, 0x55, conditions.len() as u8]);
    for condition in conditions {
        file.extend([0x43, 0x4E]);
        file.extend(condition);
    }
    file
}

fn s(value: u8) -> Vec<u8> {
    file(&[&[STORE]], &[[1, 0, 0, value]])
}

fn d(value: u8) -> Vec<u8> {
    file(&[&[STORE, LOAD]], &[[0, 0, 0, value]])
}

fn e(value: u8) -> Vec<u8> {
    file(&[&[STORE], &[LOAD]], &[[0, 1, 0, value]])
}

#[test]
fn table() {
    use Verdict::{Allowed, Forbidden, NotFinished};
    let rows = [
        (EMPTY.to_vec(), 1, Allowed, 1),
        (EMPTY.to_vec(), 0, NotFinished, 0),
        (s(1), 3, Allowed, 3),
        (s(0), 3, Forbidden, 3),
        (s(0), 2, NotFinished, 2),
        (d(0), 4, Forbidden, 4),
        (e(1), 5, Allowed, 5),
        (e(0), 4, Allowed, 4),
        (e(2), 12, Forbidden, 12),
        (e(2), 11, NotFinished, 11),
    ];
    for (number, (file, budget, verdict, count)) in rows.into_iter().enumerate() {
        let program = read(&file).expect("a program of the table");
        for found in [literal::search, search, search_known].map(|search| search(&program, budget)) {
            assert_eq!((found.verdict, found.count), (verdict, count), "P{}", number + 1);
        }
    }
}

#[test]
fn printed_example() {
    let found = search(&read(&e(1)).expect("E"), 1_000_000);
    let trace = vec![
        Step { kind: 1, thread: 0, a: 0, b: 1 },
        Step { kind: 0, thread: 0, a: 1, b: 0 },
        Step { kind: 0, thread: 1, a: 1, b: 0 },
    ];
    assert_eq!(found, Found { verdict: Verdict::Allowed, count: 5, trace });
}

/// Load buffering, message passing and store buffering, for which the budget of the judge is enough.
#[test]
fn run_and_compared() {
    let listed = [
        ("LB+copy+po", Verdict::Allowed),
        ("LB+copy+data", Verdict::Forbidden),
        ("LB+copy+addr", Verdict::Forbidden),
        ("LB+copy+ctrl", Verdict::Forbidden),
        ("MP+dmb.st+po", Verdict::Allowed),
        ("MP+dmb.st+addr", Verdict::Forbidden),
        ("MP+dmb.st+ctrl", Verdict::Allowed),
        ("MP+dmb.st+ctrlisb", Verdict::Forbidden),
        ("SB+rel-acqs", Verdict::Forbidden),
        ("SB+rel-acqpcs", Verdict::Allowed),
    ];
    let vectors = vectors();
    for (name, verdict) in listed {
        let vector = vectors.iter().find(|vector| vector.name == name).expect(name);
        let program = read(&vector.file).expect(name);
        let found = search(&program, 1_000_000);
        assert_eq!(found.verdict, verdict, "{name}");
        assert_eq!(literal::search(&program, 1_000_000), found, "{name}");
    }
}

#[test]
fn places_of_refusals() {
    let sixteen = [STORE; 16];
    let good = e(1);
    let with = |at: usize, byte: u8| {
        let mut file = good.clone();
        file[at] = byte;
        file
    };
    let cases: Vec<(Vec<u8>, u8, usize)> = vec![
        (vec![], 1, 0),
        (vec![0x50, 0x48, 1], 1, 0),
        (vec![0x50, 0x47, 1, 1], 1, 4),
        (with(1, 0x48), 2, 0),
        (with(2, 2), 3, 2),
        (with(3, 5), 4, 3),
        (with(3, 0), 4, 3),
        (with(6, 1), 10, 6),
        (with(7, 17), 5, 7),
        (with(10, 5), 6, 10),
        (with(12, 1), 6, 12),
        (with(13, 2), 6, 13),
        (file(&[&[[3, 1, 9, 0, 0, 0, 0]]], &[]), 6, 11),
        (file(&[&[[3, 0, 0, 0, 0, 0, 0]]], &[[2, 0, 0, 0]]), 8, 22),
        (file(&[&[]], &[[1, 1, 0, 0]]), 8, 14),
        (file(&[&[]], &[[0, 1, 0, 0]]), 8, 14),
        (file(&[&[]], &[[1, 0, 16, 0]]), 8, 15),
        (file(&[&sixteen, &[STORE]], &[]), 7, 4 + 4 + 16 * 9 + 4 + 2),
        (file(&[&sixteen, &[[2, 2, 0, 0, 0, 0, 0]]], &[]), 6, 4 + 4 + 16 * 9 + 4 + 3),
        ([EMPTY, &[0]].concat(), 9, 11),
    ];
    for (index, (file, number, place)) in cases.into_iter().enumerate() {
        assert_eq!(read(&file), Err(Refused { number, place }), "case {index}");
    }
}

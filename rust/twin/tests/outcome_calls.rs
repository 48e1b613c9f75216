//! The calls that list outcomes: their answers' bytes, and what they leave in lent memory.

use twin::calls::{
    outcomes, outcomes_within, OUTCOMES_ANSWER, OUTCOMES_WITHIN_ANSWER, OUTCOME_ENTRY, OUTCOME_WITHIN_ENTRY,
};
use twin::litmus::examples;

/// What lent memory holds before a call.
const BEFORE: u8 = 0xA5;

/// Thread 0 stores 1 at location 0, thread 1 loads r0 from there: two outcomes in 12 sequences.
const E: &[u8] =
    b"PG\x01\x02TH\x00\x01IN\x02\x00\x00\x00\x00\x00\x01TH\x01\x01IN\x01\x00\x00\x00\x00\x00\x00QU\x00";

/// The outcome of E with this value read.
fn read(value: u8) -> [u8; 48] {
    let mut outcome = [0; 48];
    (outcome[8], outcome[32]) = (value, 1);
    outcome
}

/// The code, the answer and the entries, after a call that is lent so many bytes for both.
fn asked(file: &[u8], budget: u32, room: usize, entries: usize) -> (u32, Vec<u8>, Vec<u8>) {
    let [mut answer, mut table] = [room, entries].map(|length| vec![BEFORE; length]);
    let code = outcomes(file, budget, &mut table, &mut answer);
    (code, answer, table)
}

/// The same of the other call, with a table of known machines that is all 0 afterwards, or as it was.
fn asked_within(file: &[u8], budget: u64, room: usize, entries: usize) -> (u32, Vec<u8>, Vec<u8>) {
    let [mut answer, mut lent, mut table] = [room, entries, 400].map(|length| vec![BEFORE; length]);
    let code = outcomes_within(file, budget, &mut lent, &mut table, &mut answer);
    let unwritten = code == 1 || matches!(answer[..2], [0, 1..=10]);
    assert_eq!(table, vec![if unwritten { BEFORE } else { 0 }; 400]);
    (code, answer, lent)
}

#[test]
fn finished() {
    let (code, answer, table) = asked(E, 12, OUTCOMES_ANSWER + 1, 3 * OUTCOME_ENTRY + 5);
    assert_eq!(code, 0);
    assert_eq!(answer, [1, 0, 0, 0, 0, 0, 0, 0, 12, 0, 0, 0, 2, 0, 0, 0, BEFORE]);
    let entries = [&read(0)[..], &[4, 0, 0, 0], &read(1), &[5, 0, 0, 0], &[0; OUTCOME_ENTRY], &[BEFORE; 5]];
    assert_eq!(table, entries.concat());
}

#[test]
fn finished_within() {
    let (code, answer, lent) =
        asked_within(E, u64::MAX, OUTCOMES_WITHIN_ANSWER + 1, 2 * OUTCOME_WITHIN_ENTRY + 55);
    assert_eq!(code, 0);
    let numbers = [[2, 0, 0, 0, 0, 0, 0, 0], [12, 0, 0, 0, 0, 0, 0, 0]].concat();
    assert_eq!(answer, [&[1, 0, 0, 0, 0, 0, 0, 0], &numbers[..], &[BEFORE]].concat());
    let places = [4, 5].map(u64::to_le_bytes);
    assert_eq!(lent, [&read(0)[..], &places[0], &read(1), &places[1], &[BEFORE; 55]].concat());
}

/// Of a budget that ends nothing is shown, however many entries there are.
#[test]
fn not_finished() {
    for (budget, length) in [(0, 0), (0, 60), (11, 52), (11, 200)] {
        let (code, answer, table) = asked(E, budget, OUTCOMES_ANSWER, length);
        assert_eq!(code, 0);
        assert_eq!(answer, [3, 0, 0, 0, 0, 0, 0, 0, budget as u8, 0, 0, 0, 0, 0, 0, 0]);
        let whole = length - length % OUTCOME_ENTRY;
        assert_eq!(table, [vec![0; whole], vec![BEFORE; length - whole]].concat());
    }
    let (code, answer, lent) = asked_within(E, 11, OUTCOMES_WITHIN_ANSWER, 60);
    assert_eq!((code, &answer[..8], &answer[8..16]), (0, &[3, 0, 0, 0, 0, 0, 0, 0][..], &[0; 8][..]));
    assert_eq!(answer[16..], 11_u64.to_le_bytes());
    assert_eq!(lent, [&[0; OUTCOME_WITHIN_ENTRY][..], &[BEFORE; 4]].concat());
}

/// One whole entry is too few for two outcomes, and so is none.
#[test]
fn more_outcomes_than_entries() {
    for length in [0, 51, 52, 103] {
        let (code, answer, table) = asked(E, 12, OUTCOMES_ANSWER, length);
        assert_eq!(code, 0);
        assert_eq!(answer, [0, 40, 0, 0, 0, 0, 0, 0, 12, 0, 0, 0, 0, 0, 0, 0]);
        let whole = length - length % OUTCOME_ENTRY;
        assert_eq!(table, [vec![0; whole], vec![BEFORE; length - whole]].concat());
    }
    let (code, answer, lent) = asked_within(E, 12, OUTCOMES_WITHIN_ANSWER, 57);
    assert_eq!((code, &answer[..16]), (0, &[0, 40, 0, 0, 0, 0, 0, 0, 0, 0, 0, 0, 0, 0, 0, 0][..]));
    assert_eq!(answer[16..], 12_u64.to_le_bytes());
    assert_eq!(lent, [&[0; OUTCOME_WITHIN_ENTRY][..], &[BEFORE]].concat());
}

/// A bad file comes before everything else, and leaves all lent memory as it was.
#[test]
fn refused() {
    for (budget, length) in [(0, 0), (12, 52), (12, 300)] {
        let (code, answer, table) = asked(&E[..4], budget, OUTCOMES_ANSWER, length);
        assert_eq!((code, answer), (0, vec![0, 1, 0, 0, 4, 0, 0, 0, 0, 0, 0, 0, 0, 0, 0, 0]));
        assert_eq!(table, vec![BEFORE; length]);
        let (code, answer, lent) = asked_within(&E[..4], budget.into(), OUTCOMES_WITHIN_ANSWER, length);
        assert_eq!((code, &answer[..8], &answer[8..]), (0, &[0, 1, 0, 0, 4, 0, 0, 0][..], &[0; 16][..]));
        assert_eq!(lent, vec![BEFORE; length]);
    }
}

#[test]
fn no_room_for_the_answer() {
    let unwritten = |room, length| (1, vec![BEFORE; room], vec![BEFORE; length]);
    for room in [0, OUTCOMES_ANSWER - 1] {
        assert_eq!(asked(E, 12, room, 300), unwritten(room, 300));
    }
    for room in [0, OUTCOMES_ANSWER, OUTCOMES_WITHIN_ANSWER - 1] {
        assert_eq!(asked_within(E, 12, room, 300), unwritten(room, 300));
    }
}

#[test]
fn a_count_and_places_of_more_than_four_bytes() {
    let lb4 = examples().into_iter().find(|example| example.name == "lb4").expect("an example");
    let (code, answer, lent) =
        asked_within(&lb4.file, u64::MAX, OUTCOMES_WITHIN_ANSWER, 100 * OUTCOME_WITHIN_ENTRY);
    assert_eq!(code, 0);
    assert_eq!(answer[16..], 36_090_238_753_u64.to_le_bytes());
    let place = |entry: &[u8]| u64::from_le_bytes(entry[48..].try_into().expect("eight bytes"));
    let places: Vec<u64> = lent.chunks(OUTCOME_WITHIN_ENTRY).map(place).collect();
    let outcomes = places.iter().filter(|&&place| place > 0).count();
    assert_eq!(u32::from_le_bytes(answer[8..12].try_into().expect("four bytes")), outcomes as u32);
    assert!(places.iter().any(|&place| place > u64::from(u32::MAX)), "{places:?}");
}

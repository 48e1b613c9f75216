//! The call that is lent a table: its answer's bytes, and what it leaves in lent memory.

use twin::calls::{search_within, SEARCH_WITHIN_ANSWER, TRACE_AREA};
use twin::litmus::examples;

/// What lent memory holds before a call.
const BEFORE: u8 = 0xA5;

/// The code and the answer, trace area and table afterwards, each of the length given.
struct Left {
    code: u32,
    answer: Vec<u8>,
    area: Vec<u8>,
    table: Vec<u8>,
}

fn asked(file: &[u8], budget: u64, [answer, area, table]: [usize; 3]) -> Left {
    let [mut answer, mut area, mut table] = [answer, area, table].map(|length| vec![BEFORE; length]);
    let code = search_within(file, budget, &mut area, &mut table, &mut answer);
    Left { code, answer, area, table }
}

fn file(name: &str) -> Vec<u8> {
    examples().into_iter().find(|example| example.name == name).expect(name).file
}

fn untouched(bytes: &[u8]) -> bool {
    bytes.iter().all(|&byte| byte == BEFORE)
}

#[test]
fn a_count_of_more_than_four_bytes() {
    let left = asked(&file("lb4"), u64::MAX, [SEARCH_WITHIN_ANSWER, TRACE_AREA, 0]);
    assert_eq!(left.code, 0);
    assert_eq!(left.answer[..8], [2, 0, 0, 0, 0, 0, 0, 0]);
    assert_eq!(left.answer[8..], 36_090_238_753_u64.to_le_bytes());
    assert!(untouched(&left.area));
}

#[test]
fn a_found_trace() {
    for length in [0, 1, 341, 5_000] {
        let left = asked(&file("scanner"), 832, [SEARCH_WITHIN_ANSWER + 1, TRACE_AREA, length]);
        assert_eq!(left.code, 0);
        assert_eq!(left.answer, [1, 0, 11, 0, 0, 0, 0, 0, 64, 3, 0, 0, 0, 0, 0, 0, BEFORE]);
        assert_eq!(left.area[..12], [0x53, 0x54, 1, 0, 0, 1, 0x53, 0x54, 0, 0, 1, 0]);
        assert!(untouched(&left.area[66..]));
        assert_eq!(left.table, vec![0; length]);
    }
}

#[test]
fn a_budget_that_ends() {
    let left = asked(&file("scanner"), 831, [SEARCH_WITHIN_ANSWER, TRACE_AREA, 400]);
    assert_eq!((left.code, &left.answer[..12]), (0, &[3, 0, 0, 0, 0, 0, 0, 0, 63, 3, 0, 0][..]));
    assert!(untouched(&left.area));
    assert_eq!(left.table, vec![0; 400]);
}

/// A bad file is refused before a short area is.
#[test]
fn refused() {
    let scanner = file("scanner");
    for (file, area, refusal, place) in
        [(&scanner[..4], TRACE_AREA, 1, 4), (&scanner[..4], 0, 1, 4), (&scanner[..], TRACE_AREA - 1, 30, 0)]
    {
        let left = asked(file, u64::MAX, [SEARCH_WITHIN_ANSWER, area, 400]);
        assert_eq!(left.code, 0);
        assert_eq!(left.answer, [0, refusal, 0, 0, place, 0, 0, 0, 0, 0, 0, 0, 0, 0, 0, 0]);
        assert!(untouched(&left.area) && untouched(&left.table));
    }
}

#[test]
fn no_room_for_the_answer() {
    let left = asked(&file("scanner"), 832, [SEARCH_WITHIN_ANSWER - 1, TRACE_AREA, 400]);
    assert_eq!(left.code, 1);
    assert!(untouched(&left.answer) && untouched(&left.area) && untouched(&left.table));
}

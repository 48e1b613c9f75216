//! The two calls that list outcomes. They differ in the widths of numbers and in the table of known
//! machines that one of them is lent besides.

use std::collections::BTreeMap;

use super::write;
use crate::outcomes::{list, list_known, Listed, Outcome, OUTCOME};
use crate::program::{self, Program};

pub const OUTCOMES_ANSWER: usize = 16;
pub const OUTCOMES_WITHIN_ANSWER: usize = 24;
/// An outcome and its place in four bytes, and in eight.
pub const OUTCOME_ENTRY: usize = OUTCOME + 4;
pub const OUTCOME_WITHIN_ENTRY: usize = OUTCOME + 8;

/// What an answer says, in one width or the other.
#[derive(Default)]
struct Answer {
    verdict: u8,
    refusal: u8,
    place: u32,
    count: u64,
    outcomes: u32,
}

/// What begins the answer, then the count and the number of outcomes in four bytes each.
pub fn outcomes(file: &[u8], budget: u32, table: &mut [u8], answer: &mut [u8]) -> u32 {
    if answer.len() < OUTCOMES_ANSWER {
        return 1;
    }
    let listed = answered(file, budget.into(), table, OUTCOME_ENTRY, |program| list(program, budget.into()));
    // No count is above its budget, so four bytes hold it.
    let count = listed.count as u32;
    let numbers = [count, listed.outcomes].map(u32::to_le_bytes);
    write(answer, &[&listed.begin()[..], &numbers.concat()].concat())
}

/// What begins the answer, then the number of outcomes in four bytes, four bytes 0, and the count in eight.
/// The lent table, of any length and content, is all 0 afterwards; the twin keeps what it knows in memory
/// of its own.
pub fn outcomes_within(
    file: &[u8],
    budget: u64,
    outcomes: &mut [u8],
    table: &mut [u8],
    answer: &mut [u8],
) -> u32 {
    if answer.len() < OUTCOMES_WITHIN_ANSWER {
        return 1;
    }
    let listed = answered(file, budget, outcomes, OUTCOME_WITHIN_ENTRY, |program| {
        // Not before: a refused file leaves lent memory unwritten.
        table.fill(0);
        list_known(program, budget)
    });
    let numbers = [u64::from(listed.outcomes), listed.count].map(u64::to_le_bytes);
    write(answer, &[&listed.begin()[..], &numbers.concat()].concat())
}

impl Answer {
    /// The verdict, 0 where refused, the refusal number or 0, two bytes 0, and four of the place.
    fn begin(&self) -> [u8; 8] {
        let [a, b, c, d] = self.place.to_le_bytes();
        [self.verdict, self.refusal, 0, 0, a, b, c, d]
    }
}

/// The answer of a listing, and what it leaves in the lent entries of so many bytes each.
fn answered(
    file: &[u8],
    budget: u64,
    lent: &mut [u8],
    entry: usize,
    list: impl FnOnce(&Program) -> Listed,
) -> Answer {
    let program = match program::read(file) {
        Ok(program) => program,
        Err(refused) => {
            return Answer { refusal: refused.number, place: refused.place as u32, ..Answer::default() }
        }
    };
    // Bytes behind the last whole entry are in none of these.
    let entries = lent.chunks_exact_mut(entry);
    let (answer, places) = answer_of(list(&program), budget, entries.len());
    let mut shown = places.into_iter();
    entries.for_each(|entry| write_entry(entry, shown.next()));
    answer
}

/// What is said of a listing where there is room for so many outcomes, and what is shown of it: all or nothing.
fn answer_of(listed: Listed, budget: u64, room: usize) -> (Answer, BTreeMap<Outcome, u64>) {
    match listed {
        Listed::Finished { sequences: count, places } if places.len() <= room => {
            let outcomes = places.len() as u32;
            (Answer { verdict: 1, count, outcomes, ..Answer::default() }, places)
        }
        Listed::Finished { sequences: count, .. } => {
            (Answer { refusal: 40, count, ..Answer::default() }, BTreeMap::new())
        }
        Listed::NotFinished => (Answer { verdict: 3, count: budget, ..Answer::default() }, BTreeMap::new()),
    }
}

/// The outcome and its place, in as many bytes as there are; 0 where there is no outcome.
fn write_entry(entry: &mut [u8], shown: Option<(Outcome, u64)>) {
    let (outcome, place) = shown.unwrap_or(([0; OUTCOME], 0));
    let (front, back) = entry.split_at_mut(OUTCOME);
    front.copy_from_slice(&outcome);
    back.copy_from_slice(&place.to_le_bytes()[..back.len()]);
}

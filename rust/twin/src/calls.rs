//! The eight calls on byte slices, as the C library has them: each gives 0, 1 where the answer area
//! is shorter than the answer, or 2 where a value has another length than stated (1 before 2). On 1
//! and 2 nothing is written; otherwise exactly the answer's bytes. Numbers are little endian.

mod outcomes;

pub use outcomes::{
    outcomes, outcomes_within, OUTCOMES_ANSWER, OUTCOMES_WITHIN_ANSWER, OUTCOME_ENTRY, OUTCOME_WITHIN_ENTRY,
};

use crate::bytes::{
    machine_bytes, machine_from, program_bytes, program_from, run_step_bytes, step_bytes, MACHINE, PROGRAM,
};
use crate::machine::Machine;
use crate::program::{self, Program};
use crate::replay::{self, In};
use crate::search::{self, Found, Verdict};
use crate::step::{self, Step};

pub const READ_ANSWER: usize = 8 + PROGRAM;
pub const STEP_ANSWER: usize = 1 + MACHINE;
pub const CERTIFY_ANSWER: usize = 4 + 2 * LONGEST_RUN;
pub const REPLAY_ANSWER: usize = 16 + MACHINE;
pub const SEARCH_ANSWER: usize = 12;
pub const SEARCH_WITHIN_ANSWER: usize = 16;
/// A run has no more steps than the thread has instructions left, which are at most 16.
const LONGEST_RUN: usize = 16;
/// A search is refused by 30 where it is lent less for the trace.
pub const TRACE_AREA: usize = 480;

/// Writes the answer where the area has room for it.
fn write(area: &mut [u8], answer: &[u8]) -> u32 {
    match area.get_mut(..answer.len()) {
        Some(room) => {
            room.copy_from_slice(answer);
            0
        }
        None => 1,
    }
}

/// The values that the bytes are, or what the call gives instead.
fn values(program: &[u8], machine: &[u8], area: &[u8], answer: usize) -> Result<(Program, Machine), u32> {
    if area.len() < answer {
        return Err(1);
    }
    let program = program.try_into().map_err(|_| 2_u32)?;
    let machine = machine.try_into().map_err(|_| 2_u32)?;
    Ok((program_from(program), machine_from(machine)))
}

/// The refusal number or 0, three bytes 0, four of the place, the program value.
pub fn read(file: &[u8], answer: &mut [u8]) -> u32 {
    // The program of a refused file is all 0.
    let (number, place, program) = match program::read(file) {
        Ok(program) => (0, 0, program),
        Err(refused) => (refused.number, refused.place as u32, Program::default()),
    };
    let mut bytes = vec![number, 0, 0, 0];
    bytes.extend(place.to_le_bytes());
    bytes.extend(program_bytes(&program));
    write(answer, &bytes)
}

/// The refusal number or 0, the machine value: as it was, where the step is refused.
pub fn step(program: &[u8], machine: &[u8], step: Step, answer: &mut [u8]) -> u32 {
    let (program, machine) = match values(program, machine, answer, STEP_ANSWER) {
        Ok(values) => values,
        Err(code) => return code,
    };
    let (number, machine) = match step::step(&program, &machine, step) {
        Ok(next) => (0, next),
        Err(number) => (number, machine),
    };
    let mut bytes = vec![number];
    bytes.extend(machine_bytes(&machine));
    write(answer, &bytes)
}

/// The refusal number or 0, whether the thread is certified, the length of its run, a byte 0, and two bytes
/// for each of 16 steps: those of the run, then 0. What is not certified has no run.
pub fn certify(program: &[u8], machine: &[u8], thread: u8, answer: &mut [u8]) -> u32 {
    let (program, machine) = match values(program, machine, answer, CERTIFY_ANSWER) {
        Ok(values) => values,
        Err(code) => return code,
    };
    let (number, run) = match step::certify(&program, &machine, thread) {
        Ok(run) => (0, run),
        Err(number) => (number, None),
    };
    let (certified, run) = (run.is_some(), run.unwrap_or_default());
    let mut bytes = vec![number, u8::from(certified), run.len() as u8, 0];
    bytes.extend(run.iter().flat_map(run_step_bytes));
    bytes.resize(CERTIFY_ANSWER, 0);
    write(answer, &bytes)
}

/// The refusal number or 0 and its file (1 program, 2 trace), whether complete and whether it holds, four
/// bytes each of the steps, the index and the place, the machine value.
pub fn replay(file: &[u8], trace: &[u8], answer: &mut [u8]) -> u32 {
    if answer.len() < REPLAY_ANSWER {
        return 1;
    }
    let replayed = replay::replay(file, trace);
    let (number, within, index, place) = match replayed.refusal {
        None => (0, 0, 0, 0),
        Some(refusal) => {
            let within = if refusal.file == In::Program { 1 } else { 2 };
            (refusal.number, within, refusal.index, refusal.place)
        }
    };
    let mut bytes = vec![number, within, u8::from(replayed.complete), u8::from(replayed.holds)];
    bytes.extend([replayed.steps, index, place].iter().flat_map(|number| number.to_le_bytes()));
    bytes.extend(machine_bytes(&replayed.machine));
    write(answer, &bytes)
}

/// What `searched` gives, with the count in four bytes.
pub fn search(file: &[u8], budget: u32, area: &mut [u8], answer: &mut [u8]) -> u32 {
    if answer.len() < SEARCH_ANSWER {
        return 1;
    }
    let (bytes, count) = searched(file, area, |program| search::search(program, budget.into()));
    // No count is above its budget, so four bytes hold it.
    write(answer, &[&bytes[..], &(count as u32).to_le_bytes()].concat())
}

/// What `searched` gives, with the count in eight bytes. The lent table, of any length and content, is
/// all 0 afterwards; the twin keeps what it knows in memory of its own.
pub fn search_within(file: &[u8], budget: u64, area: &mut [u8], table: &mut [u8], answer: &mut [u8]) -> u32 {
    if answer.len() < SEARCH_WITHIN_ANSWER {
        return 1;
    }
    let (bytes, count) = searched(file, area, |program| {
        // Not before: a refused search leaves lent memory unwritten.
        table.fill(0);
        search::search_known(program, budget)
    });
    write(answer, &[&bytes[..], &count.to_le_bytes()].concat())
}

/// The verdict, 0 where refused, the refusal number or 0, the steps, a byte 0 and four of the place; and
/// the count, which the two searches write in different widths. A trace is left at the front of the area.
fn searched(file: &[u8], area: &mut [u8], search: impl FnOnce(&Program) -> Found) -> ([u8; 8], u64) {
    let program = match program::read(file) {
        Ok(program) => program,
        Err(refused) => return (search_bytes(0, refused.number, 0, refused.place as u32), 0),
    };
    if area.len() < TRACE_AREA {
        return (search_bytes(0, 30, 0, 0), 0);
    }
    let found = search(&program);
    for (index, step) in found.trace.iter().enumerate() {
        area[index * 6..index * 6 + 6].copy_from_slice(&step_bytes(step));
    }
    (search_bytes(verdict_byte(found.verdict), 0, found.trace.len() as u8, 0), found.count)
}

/// The byte that stands for a verdict; 0 is left for refused files.
pub fn verdict_byte(verdict: Verdict) -> u8 {
    match verdict {
        Verdict::Allowed => 1,
        Verdict::Forbidden => 2,
        Verdict::NotFinished => 3,
    }
}

fn search_bytes(verdict: u8, refusal: u8, steps: u8, place: u32) -> [u8; 8] {
    let [a, b, c, d] = place.to_le_bytes();
    [verdict, refusal, steps, 0, a, b, c, d]
}

//! The two sides, and what is asked of them.

use twin::calls as twin_calls;
use twin::step::Step;

/// Something that answers the eight calls.
pub trait Side {
    fn read(&self, file: &[u8], answer: &mut [u8]) -> u32;
    fn step(&self, program: &[u8], machine: &[u8], step: Step, answer: &mut [u8]) -> u32;
    fn certify(&self, program: &[u8], machine: &[u8], thread: u8, answer: &mut [u8]) -> u32;
    fn replay(&self, file: &[u8], trace: &[u8], answer: &mut [u8]) -> u32;
    fn search(&self, file: &[u8], budget: u32, area: &mut [u8], answer: &mut [u8]) -> u32;
    fn search_within(
        &self,
        file: &[u8],
        budget: u64,
        area: &mut [u8],
        table: &mut [u8],
        answer: &mut [u8],
    ) -> u32;
    fn outcomes(&self, file: &[u8], budget: u32, table: &mut [u8], answer: &mut [u8]) -> u32;
    fn outcomes_within(
        &self,
        file: &[u8],
        budget: u64,
        outcomes: &mut [u8],
        table: &mut [u8],
        answer: &mut [u8],
    ) -> u32;
}

/// The rules in Rust.
pub struct Twin;

impl Side for Twin {
    fn read(&self, file: &[u8], answer: &mut [u8]) -> u32 {
        twin_calls::read(file, answer)
    }

    fn step(&self, program: &[u8], machine: &[u8], step: Step, answer: &mut [u8]) -> u32 {
        twin_calls::step(program, machine, step, answer)
    }

    fn certify(&self, program: &[u8], machine: &[u8], thread: u8, answer: &mut [u8]) -> u32 {
        twin_calls::certify(program, machine, thread, answer)
    }

    fn replay(&self, file: &[u8], trace: &[u8], answer: &mut [u8]) -> u32 {
        twin_calls::replay(file, trace, answer)
    }

    fn search(&self, file: &[u8], budget: u32, area: &mut [u8], answer: &mut [u8]) -> u32 {
        twin_calls::search(file, budget, area, answer)
    }

    fn search_within(
        &self,
        file: &[u8],
        budget: u64,
        area: &mut [u8],
        table: &mut [u8],
        answer: &mut [u8],
    ) -> u32 {
        twin_calls::search_within(file, budget, area, table, answer)
    }

    fn outcomes(&self, file: &[u8], budget: u32, table: &mut [u8], answer: &mut [u8]) -> u32 {
        twin_calls::outcomes(file, budget, table, answer)
    }

    fn outcomes_within(
        &self,
        file: &[u8],
        budget: u64,
        outcomes: &mut [u8],
        table: &mut [u8],
        answer: &mut [u8],
    ) -> u32 {
        twin_calls::outcomes_within(file, budget, outcomes, table, answer)
    }
}

/// The proved code behind the C calls.
pub struct Library;

impl Side for Library {
    fn read(&self, file: &[u8], answer: &mut [u8]) -> u32 {
        blyskota::calls::read(file, answer)
    }

    fn step(&self, program: &[u8], machine: &[u8], step: Step, answer: &mut [u8]) -> u32 {
        blyskota::calls::step(program, machine, [step.kind, step.thread, step.a, step.b], answer)
    }

    fn certify(&self, program: &[u8], machine: &[u8], thread: u8, answer: &mut [u8]) -> u32 {
        blyskota::calls::certify(program, machine, thread, answer)
    }

    fn replay(&self, file: &[u8], trace: &[u8], answer: &mut [u8]) -> u32 {
        blyskota::calls::replay(file, trace, answer)
    }

    fn search(&self, file: &[u8], budget: u32, area: &mut [u8], answer: &mut [u8]) -> u32 {
        blyskota::calls::search(file, budget, area, answer)
    }

    fn search_within(
        &self,
        file: &[u8],
        budget: u64,
        area: &mut [u8],
        table: &mut [u8],
        answer: &mut [u8],
    ) -> u32 {
        blyskota::calls::search_within(file, budget, area, table, answer)
    }

    fn outcomes(&self, file: &[u8], budget: u32, table: &mut [u8], answer: &mut [u8]) -> u32 {
        blyskota::calls::outcomes(file, budget, table, answer)
    }

    fn outcomes_within(
        &self,
        file: &[u8],
        budget: u64,
        outcomes: &mut [u8],
        table: &mut [u8],
        answer: &mut [u8],
    ) -> u32 {
        blyskota::calls::outcomes_within(file, budget, outcomes, table, answer)
    }
}

//! The eight C calls on slices. Each gives 0, 1 where the answer area is shorter than the answer, or
//! 2 where a program or machine value has another length than stated; on 1 and 2 nothing is written.
//! This is the only unsafe code: a slice passes as its pointer and its length.

mod c {
    extern "C" {
        pub fn blyskota_read(
            file: *const u8,
            file_length: usize,
            answer: *mut u8,
            answer_length: usize,
        ) -> u32;
        pub fn blyskota_step(
            program: *const u8,
            program_length: usize,
            machine: *const u8,
            machine_length: usize,
            kind: u8,
            thread: u8,
            a: u8,
            b: u8,
            answer: *mut u8,
            answer_length: usize,
        ) -> u32;
        pub fn blyskota_certify(
            program: *const u8,
            program_length: usize,
            machine: *const u8,
            machine_length: usize,
            thread: u8,
            answer: *mut u8,
            answer_length: usize,
        ) -> u32;
        pub fn blyskota_replay(
            file: *const u8,
            file_length: usize,
            trace: *const u8,
            trace_length: usize,
            answer: *mut u8,
            answer_length: usize,
        ) -> u32;
        pub fn blyskota_search(
            file: *const u8,
            file_length: usize,
            budget: u32,
            area: *mut u8,
            area_length: usize,
            answer: *mut u8,
            answer_length: usize,
        ) -> u32;
        pub fn blyskota_search_within(
            file: *const u8,
            file_length: usize,
            budget: u64,
            area: *mut u8,
            area_length: usize,
            table: *mut u8,
            table_length: usize,
            answer: *mut u8,
            answer_length: usize,
        ) -> u32;
        pub fn blyskota_outcomes(
            file: *const u8,
            file_length: usize,
            budget: u32,
            table: *mut u8,
            table_length: usize,
            answer: *mut u8,
            answer_length: usize,
        ) -> u32;
        pub fn blyskota_outcomes_within(
            file: *const u8,
            file_length: usize,
            budget: u64,
            outcomes: *mut u8,
            outcomes_length: usize,
            table: *mut u8,
            table_length: usize,
            answer: *mut u8,
            answer_length: usize,
        ) -> u32;
    }
}

pub fn read(file: &[u8], answer: &mut [u8]) -> u32 {
    // SAFETY: both pointers are of live slices with these lengths, the second one's lent mutably.
    unsafe { c::blyskota_read(file.as_ptr(), file.len(), answer.as_mut_ptr(), answer.len()) }
}

/// `step` is kind, thread, a, b.
pub fn step(program: &[u8], machine: &[u8], step: [u8; 4], answer: &mut [u8]) -> u32 {
    let [kind, thread, a, b] = step;
    // SAFETY: the pointers are of live slices with these lengths, the answer's lent mutably.
    unsafe {
        c::blyskota_step(
            program.as_ptr(),
            program.len(),
            machine.as_ptr(),
            machine.len(),
            kind,
            thread,
            a,
            b,
            answer.as_mut_ptr(),
            answer.len(),
        )
    }
}

pub fn certify(program: &[u8], machine: &[u8], thread: u8, answer: &mut [u8]) -> u32 {
    // SAFETY: the pointers are of live slices with these lengths, the answer's lent mutably.
    unsafe {
        c::blyskota_certify(
            program.as_ptr(),
            program.len(),
            machine.as_ptr(),
            machine.len(),
            thread,
            answer.as_mut_ptr(),
            answer.len(),
        )
    }
}

pub fn replay(file: &[u8], trace: &[u8], answer: &mut [u8]) -> u32 {
    // SAFETY: the pointers are of live slices with these lengths, the answer's lent mutably.
    unsafe {
        c::blyskota_replay(
            file.as_ptr(),
            file.len(),
            trace.as_ptr(),
            trace.len(),
            answer.as_mut_ptr(),
            answer.len(),
        )
    }
}

pub fn search(file: &[u8], budget: u32, area: &mut [u8], answer: &mut [u8]) -> u32 {
    // SAFETY: the pointers are of live slices with these lengths, two of them lent mutably and apart.
    unsafe {
        c::blyskota_search(
            file.as_ptr(),
            file.len(),
            budget,
            area.as_mut_ptr(),
            area.len(),
            answer.as_mut_ptr(),
            answer.len(),
        )
    }
}

pub fn search_within(file: &[u8], budget: u64, area: &mut [u8], table: &mut [u8], answer: &mut [u8]) -> u32 {
    // SAFETY: the pointers are of live slices with these lengths, three of them lent mutably and apart.
    unsafe {
        c::blyskota_search_within(
            file.as_ptr(),
            file.len(),
            budget,
            area.as_mut_ptr(),
            area.len(),
            table.as_mut_ptr(),
            table.len(),
            answer.as_mut_ptr(),
            answer.len(),
        )
    }
}

pub fn outcomes(file: &[u8], budget: u32, table: &mut [u8], answer: &mut [u8]) -> u32 {
    // SAFETY: the pointers are of live slices with these lengths, two of them lent mutably and apart.
    unsafe {
        c::blyskota_outcomes(
            file.as_ptr(),
            file.len(),
            budget,
            table.as_mut_ptr(),
            table.len(),
            answer.as_mut_ptr(),
            answer.len(),
        )
    }
}

pub fn outcomes_within(
    file: &[u8],
    budget: u64,
    outcomes: &mut [u8],
    table: &mut [u8],
    answer: &mut [u8],
) -> u32 {
    // SAFETY: the pointers are of live slices with these lengths, three of them lent mutably and apart.
    unsafe {
        c::blyskota_outcomes_within(
            file.as_ptr(),
            file.len(),
            budget,
            outcomes.as_mut_ptr(),
            outcomes.len(),
            table.as_mut_ptr(),
            table.len(),
            answer.as_mut_ptr(),
            answer.len(),
        )
    }
}

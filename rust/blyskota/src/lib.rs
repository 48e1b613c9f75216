//! The proved judge of Armv8 litmus programs, for Rust programs.
//!
//! ```text
//! match blyskota::search(&file, u64::MAX)? {
//!     Answer::Allowed { trace, .. } => ..,
//!     Answer::Forbidden { count } => ..,
//!     Answer::NotFinished { .. } => ..,
//! }
//! ```
//!
//! `examples/search.rs` is a whole program of this kind. Beside the search there are:
//!
//! - [`outcomes`], which lists all the ways in which a program can end; `examples/outcomes.rs` prints them;
//! - [`Program::read`], which reads a program file, and [`Program::instructions`] and
//!   [`Program::conditions`], which say what is in it; printed, they look as in a listing;
//! - [`Machine::step`], one step, [`Machine::certify`], which shows how a thread can keep its promises,
//!   and [`replay`], a whole trace; `examples/certify.rs` uses the first two;
//! - [`Why`], [`Refused`] and [`ReplayRefused`], which say in words what is refused, and where.
//!
//! The answers come from the archive `target/staticlib/libcapi.a`, whose calls are proved; this
//! crate passes slices in and takes answers apart.

pub mod calls;
mod instruction;
mod machine;
mod outcomes;
mod program;
mod refusal;
mod replay;
mod run;
mod search;

pub use instruction::{Fence, Instruction, LoadMode, Operand, Operation, StoreMode};
pub use machine::{Machine, Message, Thread};
pub use outcomes::{outcomes, outcomes_within, Outcome, Outcomes};
pub use program::{Condition, Program};
pub use refusal::{Refused, Why};
pub use replay::{replay, File, ReplayRefused, Replayed};
pub use run::RunStep;
pub use search::{search, search_within, Answer, TABLE};

/// Bytes of a program value.
pub const PROGRAM: usize = 487;
/// Bytes of a machine value.
pub const MACHINE: usize = 341;

/// A step of the machine.
#[derive(Clone, Copy, PartialEq, Eq, Debug)]
pub enum Step {
    /// The thread executes its next instruction at a time, 0 where it is neither load nor store.
    Execute { thread: u8, time: u8 },
    /// The thread promises a store.
    Promise { thread: u8, location: u8, value: u8 },
}

impl Step {
    /// Kind, thread, a, b.
    pub fn bytes(self) -> [u8; 4] {
        match self {
            Step::Execute { thread, time } => [0, thread, time, 0],
            Step::Promise { thread, location, value } => [1, thread, location, value],
        }
    }

    /// The step of four bytes that the library wrote.
    fn from_bytes([kind, thread, a, b]: [u8; 4]) -> Step {
        match kind {
            0 => Step::Execute { thread, time: a },
            _ => Step::Promise { thread, location: a, value: b },
        }
    }
}

/// A trace file of the steps.
pub fn trace_file(steps: &[Step]) -> Vec<u8> {
    let record = |step: &Step| {
        let [kind, thread, a, b] = step.bytes();
        [0x53, 0x54, kind, thread, a, b]
    };
    steps.iter().flat_map(record).collect()
}

/// Areas and values have their full lengths here, so every call is served.
fn served(code: u32) {
    assert_eq!(code, 0, "the library serves calls with full areas");
}

/// The little endian number at a place of an answer.
fn number_at(answer: &[u8], at: usize) -> u32 {
    u32::from_le_bytes(array(answer, at))
}

/// N bytes from a place of an answer.
fn array<const N: usize>(answer: &[u8], at: usize) -> [u8; N] {
    std::array::from_fn(|index| answer[at + index])
}

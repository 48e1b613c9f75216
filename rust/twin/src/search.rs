//! The search for a sequence that ends as asked. It comes in two forms with the same answers: the
//! plain one visits every sequence, the other none from a machine that it has left before.

use crate::known::{Known, Nothing, Table};
use crate::machine::holds;
use crate::program::Program;
use crate::sequences::{walk, End};
use crate::step::Step;

/// What a search can say of a question.
#[derive(Clone, Copy, PartialEq, Eq, Debug)]
pub enum Verdict {
    Allowed,
    Forbidden,
    NotFinished,
}

/// The answer of a search: the verdict, the sequences that were visited for it, and the trace.
#[derive(Clone, PartialEq, Eq, Debug)]
pub struct Found {
    pub verdict: Verdict,
    pub count: u64,
    pub trace: Vec<Step>,
}

/// The answer of the search on a program, with its trace if allowed; every sequence is visited.
pub fn search(program: &Program, budget: u64) -> Found {
    search_with(Nothing, program, budget)
}

/// The same answer, also where the sequences are too many to visit: those from a machine that was
/// left before are counted at once.
pub fn search_known(program: &Program, budget: u64) -> Found {
    search_with(Table::default(), program, budget)
}

fn search_with<K: Known>(known: K, program: &Program, budget: u64) -> Found {
    let walked = walk(program, budget, known, |machine, _| holds(program, machine));
    let (verdict, trace) = match walked.end {
        End::Enough => (Verdict::Allowed, walked.trace),
        End::Visited => (Verdict::Forbidden, Vec::new()),
        End::Spent => (Verdict::NotFinished, Vec::new()),
    };
    Found { verdict, count: walked.count, trace }
}

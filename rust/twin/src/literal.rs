//! The accepted sequences as the rules say them: every execution time and all 16 times 256 promises are
//! tried. It is slow, and it is what the quick walk is held to.

use std::ops::ControlFlow;

use crate::machine::{complete, holds, Machine};
use crate::program::Program;
use crate::search::{Found, Verdict};
use crate::step::{accepted, Step};

/// Is given the machine after each sequence and the sequence itself, and may end the walk.
type Visited<'a> = dyn FnMut(&Machine, &[Step]) -> ControlFlow<Verdict> + 'a;

struct Literal<'a> {
    program: &'a Program,
    budget: u64,
    count: u64,
    trace: Vec<Step>,
}

/// The answer of the search on a program, with its trace if allowed.
pub fn search(program: &Program, budget: u64) -> Found {
    let mut found = Vec::new();
    let (end, count) = visit_all(program, budget, &mut |machine, trace| {
        if complete(program, machine) && holds(program, machine) {
            found = trace.to_vec();
            return ControlFlow::Break(Verdict::Allowed);
        }
        ControlFlow::Continue(())
    });
    Found { verdict: end.unwrap_or(Verdict::Forbidden), count, trace: found }
}

/// The machines that all sequences lead to, in the order of the sequences; none where there are more than
/// the budget.
pub fn machines(program: &Program, budget: u64) -> Option<Vec<Machine>> {
    let mut machines = Vec::new();
    let (end, _) = visit_all(program, budget, &mut |machine, _| {
        machines.push(*machine);
        ControlFlow::Continue(())
    });
    end.is_none().then_some(machines)
}

/// What has ended the walk before the last sequence, and how many it has visited.
fn visit_all(program: &Program, budget: u64, visited: &mut Visited) -> (Option<Verdict>, u64) {
    let mut literal = Literal { program, budget, count: 0, trace: Vec::new() };
    match literal.visit(&Machine::default(), visited) {
        ControlFlow::Continue(()) => (None, literal.count),
        ControlFlow::Break(end) => (Some(end), literal.count),
    }
}

impl Literal<'_> {
    /// Visits the sequence that leads to this machine, then all that go on from it.
    fn visit(&mut self, machine: &Machine, visited: &mut Visited) -> ControlFlow<Verdict> {
        // Each takes one off the budget, the empty one too.
        if self.count == self.budget {
            return ControlFlow::Break(Verdict::NotFinished);
        }
        self.count += 1;
        visited(machine, &self.trace)?;
        // Thread after thread: all its executions, then all its promises.
        for thread in 0..self.program.threads {
            for time in 0..=16 {
                self.go_on(machine, Step { kind: 0, thread, a: time, b: 0 }, visited)?;
            }
            for location in 0..16 {
                for value in 0..=255 {
                    self.go_on(machine, Step { kind: 1, thread, a: location, b: value }, visited)?;
                }
            }
        }
        ControlFlow::Continue(())
    }

    fn go_on(&mut self, machine: &Machine, step: Step, visited: &mut Visited) -> ControlFlow<Verdict> {
        if let Ok(next) = accepted(self.program, machine, step) {
            self.trace.push(step);
            self.visit(&next, visited)?;
            self.trace.pop();
        }
        ControlFlow::Continue(())
    }
}

//! Two sides answer the same calls, and every byte is compared: the library, whose calls are proved,
//! and the twin, which was written from a description in words without a look at the proved code.

pub mod batches;
pub mod listings;
mod sides;
mod table;

pub use sides::{Library, Side, Twin};
pub use table::Table;

use twin::calls as twin_calls;
use twin::step::Step;

/// One call with all its arguments; areas are given by their lengths, a table by what it holds.
#[derive(Clone, Debug)]
pub enum Call {
    Read { file: Vec<u8> },
    Step { program: Vec<u8>, machine: Vec<u8>, step: Step },
    Certify { program: Vec<u8>, machine: Vec<u8>, thread: u8 },
    Replay { file: Vec<u8>, trace: Vec<u8> },
    Search { file: Vec<u8>, budget: u32, area: usize },
    SearchWithin { file: Vec<u8>, budget: u64, area: usize, table: Table },
    Outcomes { file: Vec<u8>, budget: u32, area: usize },
    OutcomesWithin { file: Vec<u8>, budget: u64, area: usize, table: Table },
}

/// All that a call leaves: its code, the answer area, the area lent for a trace or for outcomes, and the
/// lent table of known machines.
#[derive(Clone, PartialEq, Eq, Debug)]
pub struct Left {
    pub code: u32,
    pub answer: Vec<u8>,
    pub area: Vec<u8>,
    pub table: Table,
}

/// What areas hold before a call, so that a byte written out of turn shows.
const BEFORE: u8 = 0xA5;

impl Call {
    /// The length of this call's answer.
    pub fn answer_length(&self) -> usize {
        match self {
            Call::Read { .. } => twin_calls::READ_ANSWER,
            Call::Step { .. } => twin_calls::STEP_ANSWER,
            Call::Certify { .. } => twin_calls::CERTIFY_ANSWER,
            Call::Replay { .. } => twin_calls::REPLAY_ANSWER,
            Call::Search { .. } => twin_calls::SEARCH_ANSWER,
            Call::SearchWithin { .. } => twin_calls::SEARCH_WITHIN_ANSWER,
            Call::Outcomes { .. } => twin_calls::OUTCOMES_ANSWER,
            Call::OutcomesWithin { .. } => twin_calls::OUTCOMES_WITHIN_ANSWER,
        }
    }

    /// Asks a side, with an answer area of this length.
    pub fn ask(&self, side: &dyn Side, room: usize) -> Left {
        let (mut answer, mut area, mut table) = (vec![BEFORE; room], self.area(), self.table());
        let code = match self {
            Call::Read { file } => side.read(file, &mut answer),
            Call::Step { program, machine, step } => side.step(program, machine, *step, &mut answer),
            Call::Certify { program, machine, thread } => {
                side.certify(program, machine, *thread, &mut answer)
            }
            Call::Replay { file, trace } => side.replay(file, trace, &mut answer),
            Call::Search { file, budget, .. } => side.search(file, *budget, &mut area, &mut answer),
            Call::SearchWithin { file, budget, .. } => {
                side.search_within(file, *budget, &mut area, &mut table.0, &mut answer)
            }
            Call::Outcomes { file, budget, .. } => side.outcomes(file, *budget, &mut area, &mut answer),
            Call::OutcomesWithin { file, budget, .. } => {
                side.outcomes_within(file, *budget, &mut area, &mut table.0, &mut answer)
            }
        };
        Left { code, answer, area, table }
    }

    /// The lent area for a trace or for outcomes, before the call.
    fn area(&self) -> Vec<u8> {
        match self {
            Call::Search { area, .. }
            | Call::SearchWithin { area, .. }
            | Call::Outcomes { area, .. }
            | Call::OutcomesWithin { area, .. } => vec![BEFORE; *area],
            _ => Vec::new(),
        }
    }

    /// The lent table of known machines, before the call.
    fn table(&self) -> Table {
        match self {
            Call::SearchWithin { table, .. } | Call::OutcomesWithin { table, .. } => table.clone(),
            _ => Table::default(),
        }
    }

    /// The refusal number in the answer of a served call.
    pub fn refusal(&self, left: &Left) -> Option<u8> {
        (left.code == 0).then(|| left.answer[usize::from(self.says_verdict())])
    }

    /// The verdict in the answer of a served search or listing.
    pub fn verdict(&self, left: &Left) -> Option<u8> {
        (left.code == 0 && self.says_verdict()).then(|| left.answer[0])
    }

    /// The number of outcomes in the answer of a served listing.
    pub fn outcomes(&self, left: &Left) -> Option<u32> {
        let at = match self {
            Call::Outcomes { .. } => 12,
            Call::OutcomesWithin { .. } => 8,
            _ => return None,
        };
        let bytes = left.answer.get(at..at + 4)?.try_into().expect("four bytes");
        (left.code == 0).then_some(u32::from_le_bytes(bytes))
    }

    /// The run in the answer of a served certification that says yes: kind and time of each step.
    pub fn run(&self, left: &Left) -> Option<Vec<[u8; 2]>> {
        let yes = left.code == 0 && matches!(self, Call::Certify { .. }) && left.answer[1] == 1;
        let step = |index: usize| [left.answer[4 + 2 * index], left.answer[5 + 2 * index]];
        yes.then(|| (0..left.answer[2].into()).map(step).collect())
    }

    /// The answer of a search or listing begins with the verdict, any other with the refusal number.
    fn says_verdict(&self) -> bool {
        matches!(
            self,
            Call::Search { .. }
                | Call::SearchWithin { .. }
                | Call::Outcomes { .. }
                | Call::OutcomesWithin { .. }
        )
    }
}

//! The search with a budget.

use crate::{array, calls, number_at, served, Refused, Step, Why};

/// The proved answer to the program's question.
#[derive(Clone, PartialEq, Eq, Debug)]
pub enum Answer {
    /// The outcome can happen: a run that ends with it, the `count`th sequence in order.
    Allowed { count: u64, trace: Vec<Step> },
    /// No run ends with it; `count` sequences are all there are.
    Forbidden { count: u64 },
    /// The budget ended before the search did.
    NotFinished { count: u64 },
}

/// Bytes of the table that `search` lends.
pub const TABLE: usize = 64 << 20;

/// Searches the program file's runs, at most `budget` sequences of steps, with a table of `TABLE`
/// bytes.
pub fn search(file: &[u8], budget: u64) -> Result<Answer, Refused> {
    search_within(file, budget, &mut vec![0; TABLE])
}

/// The same search with the caller's own table, of any length and content. What the search has left
/// behind is noted there, so as not to be walked again: a larger table saves time and changes no
/// answer. Afterwards the table is all 0, unless the file is refused, which leaves it as it was.
pub fn search_within(file: &[u8], budget: u64, table: &mut [u8]) -> Result<Answer, Refused> {
    let (mut area, mut answer) = ([0; 480], [0; 16]);
    served(calls::search_within(file, budget, &mut area, table, &mut answer));
    let [verdict, refusal, steps, _] = array(&answer, 0);
    let count = u64::from_le_bytes(array(&answer, 8));
    match verdict {
        0 => Err(Refused { why: Why(refusal), place: number_at(&answer, 4) }),
        1 => {
            let step = |index: usize| Step::from_bytes(array(&area, 6 * index + 2));
            Ok(Answer::Allowed { count, trace: (0..steps as usize).map(step).collect() })
        }
        2 => Ok(Answer::Forbidden { count }),
        _ => Ok(Answer::NotFinished { count }),
    }
}

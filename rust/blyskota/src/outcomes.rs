//! The listing of all outcomes.

use crate::{array, calls, number_at, served, Condition, Refused, Why, TABLE};

/// One way in which a program ends. Outcomes are ordered by their registers, thread by thread, and then by
/// their locations.
#[derive(Clone, PartialEq, Eq, Debug)]
pub struct Outcome {
    /// Registers 0 to 7 of threads 0 to 3; all 0 where there is no such thread.
    pub registers: [[u8; 8]; 4],
    /// The last values of locations 0 to 15.
    pub locations: [u8; 16],
    /// The place of the first sequence that ends like this, the empty one being 1.
    pub place: u64,
}

/// The proved answer to how a program can end.
#[derive(Clone, PartialEq, Eq, Debug)]
pub enum Outcomes {
    /// All outcomes that there are, each once and the smallest first; `sequences` are all there are.
    Finished { sequences: u64, outcomes: Vec<Outcome> },
    /// The budget ended before the sequences did.
    NotFinished { budget: u64 },
    /// There are more outcomes than the caller has asked for, in `sequences`, which are all there are.
    TooMany { sequences: u64 },
}

/// Bytes of an entry: four threads, 16 locations and a place.
const ENTRY: usize = 4 * 8 + 16 + 8;
/// The refusal where there are more outcomes than entries.
const MORE_THAN_ENTRIES: u8 = 40;

/// Lists how the program file's runs end, at most `budget` sequences of steps and at most `most` outcomes,
/// for each of which 56 bytes are lent; and a table of `TABLE` bytes.
pub fn outcomes(file: &[u8], budget: u64, most: usize) -> Result<Outcomes, Refused> {
    outcomes_within(file, budget, most, &mut vec![0; TABLE])
}

/// The same listing with the caller's own table, of any length and content, as in `search_within`: a larger
/// one saves time and changes no answer. Afterwards the table is all 0, unless the file is refused, which
/// leaves it as it was.
pub fn outcomes_within(file: &[u8], budget: u64, most: usize, table: &mut [u8]) -> Result<Outcomes, Refused> {
    let (mut lent, mut answer) = (vec![0; most.saturating_mul(ENTRY)], [0; 24]);
    served(calls::outcomes_within(file, budget, &mut lent, table, &mut answer));
    let [verdict, refusal, ..] = answer;
    let sequences = u64::from_le_bytes(array(&answer, 16));
    match verdict {
        0 if refusal == MORE_THAN_ENTRIES => Ok(Outcomes::TooMany { sequences }),
        0 => Err(Refused { why: Why(refusal), place: number_at(&answer, 4) }),
        1 => {
            let entries = lent.chunks_exact(ENTRY).take(number_at(&answer, 8) as usize);
            Ok(Outcomes::Finished { sequences, outcomes: entries.map(Outcome::from_bytes).collect() })
        }
        _ => Ok(Outcomes::NotFinished { budget }),
    }
}

impl Outcome {
    /// The outcome of an entry that the library wrote.
    fn from_bytes(entry: &[u8]) -> Outcome {
        Outcome {
            registers: std::array::from_fn(|thread| array(entry, 8 * thread)),
            locations: array(entry, 32),
            place: u64::from_le_bytes(array(entry, 48)),
        }
    }

    /// Whether it meets a condition of a question.
    pub fn meets(&self, condition: &Condition) -> bool {
        let (end, asked) = match *condition {
            Condition::Register { thread, register, value } => {
                let registers = self.registers.get(usize::from(thread));
                (registers.and_then(|registers| registers.get(usize::from(register))), value)
            }
            Condition::Location { location, value } => (self.locations.get(usize::from(location)), value),
        };
        end == Some(&asked)
    }
}

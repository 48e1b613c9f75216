//! Listings of outcomes: many calls on each of many programs, and their comparison.

use twin::arbitrary::{file, program, Random, Size, MIDDLE, SMALL};
use twin::calls::{OUTCOME_ENTRY, OUTCOME_WITHIN_ENTRY};
use twin::outcomes::{list_known, Listed};
use twin::program::{read, Program};

use crate::batches::{any_file, any_table, left_by_both, say_progress};
use crate::{Call, Left, Side};

/// The most sequences of a program that is listed to its end: few enough without any table.
const MOST: u64 = 10_000;

/// Sizes of programs that end in several ways more often than others: one in a hundred with more than three
/// outcomes.
const WIDE: [Size; 3] = [
    Size { threads: 4, instructions: 2, loads: 2 },
    Size { threads: 4, instructions: 3, loads: 2 },
    Size { threads: 3, instructions: 3, loads: 3 },
];

/// How often each answer was given.
#[derive(Default, Debug)]
pub struct Answers {
    pub finished: u32,
    /// Finished with more than three outcomes.
    pub of_several: u32,
    pub not_finished: u32,
    /// Refused with 40.
    pub too_many: u32,
    /// Refused with 1 to 10.
    pub bad_file: u32,
    /// The answer area was too short.
    pub not_served: u32,
}

impl Answers {
    fn add(&mut self, call: &Call, left: &Left) {
        let counted = match (call.verdict(left), call.refusal(left)) {
            (Some(1), _) => &mut self.finished,
            (Some(3), _) => &mut self.not_finished,
            (_, Some(40)) => &mut self.too_many,
            (_, Some(_)) => &mut self.bad_file,
            (_, None) => &mut self.not_served,
        };
        *counted += 1;
        self.of_several += u32::from(call.outcomes(left).is_some_and(|outcomes| outcomes > 3));
    }
}

/// Asks both sides every call on each of so many programs and compares all they leave.
pub fn compare_listings(sides: [&dyn Side; 2], programs: u32, seed: u64) -> Result<Answers, String> {
    let mut random = Random::new(seed);
    let mut answers = Answers::default();
    for number in 0..programs {
        for call in calls(&mut random) {
            let left = left_by_both(sides, &call, &mut random)
                .map_err(|other| format!("outcomes of program {number}: {other}"))?;
            answers.add(&call, &left);
        }
        say_progress("programs with their outcomes", number + 1, programs);
    }
    Ok(answers)
}

/// How many sequences and outcomes a program has, as far as they are looked at.
struct Extent {
    finished: bool,
    sequences: u64,
    outcomes: usize,
}

impl Extent {
    fn of(file: &[u8]) -> Extent {
        let listed = read(file).map(|program| list_known(&program, MOST));
        match listed {
            Ok(Listed::Finished { sequences, places }) => {
                Extent { finished: true, sequences, outcomes: places.len() }
            }
            _ => Extent { finished: false, sequences: MOST, outcomes: 3 },
        }
    }

    /// None or few sequences, some, and all, if that is known to be possible.
    fn budgets(&self, random: &mut Random) -> [u64; 3] {
        let small = random.pick(&[0, 1, 20]);
        let some = random.number() % self.sequences;
        let enough = random.pick(&[self.sequences, self.sequences + 1, u64::MAX]);
        [small, some, if self.finished { enough } else { self.sequences }]
    }

    /// Room for no outcome, for one, for about as many as there are, and for many.
    fn entries(&self, random: &mut Random) -> [usize; 4] {
        let about = random.pick(&[self.outcomes.saturating_sub(1), self.outcomes, self.outcomes + 1]);
        [0, 1, about, self.outcomes + 2 + random.index(40)]
    }
}

/// Any program, or of forty the one with most outcomes.
fn any_program(random: &mut Random) -> Program {
    if random.one_in(2) {
        let size = random.pick(&[SMALL, MIDDLE, MIDDLE]);
        return program(random, size);
    }
    let wide = |_| {
        let size = random.pick(&WIDE);
        program(random, size)
    };
    let outcomes = |program: &Program| {
        let extent = Extent::of(&file(program));
        if extent.finished {
            extent.outcomes
        } else {
            0
        }
    };
    (0..40).map(wide).max_by_key(outcomes).expect("one of forty")
}

/// Both calls on one program with every pair of budget and room. Now and then the file is another one or
/// damaged.
fn calls(random: &mut Random) -> Vec<Call> {
    let program = any_program(random);
    let file = if random.one_in(20) { any_file(random) } else { file(&program) };
    let extent = Extent::of(&file);
    let mut calls = Vec::new();
    for budget in extent.budgets(random) {
        for entries in extent.entries(random) {
            let area = length(random, entries, OUTCOME_ENTRY);
            let narrow = budget.min(u32::MAX.into()) as u32;
            calls.push(Call::Outcomes { file: file.clone(), budget: narrow, area });
            let area = length(random, entries, OUTCOME_WITHIN_ENTRY);
            let table = any_table(random, &program);
            calls.push(Call::OutcomesWithin { file: file.clone(), budget, area, table });
        }
    }
    calls
}

/// The length of so many entries, and often some bytes that make no whole one.
fn length(random: &mut Random, entries: usize, entry: usize) -> usize {
    entries * entry + if random.one_in(2) { random.index(entry) } else { 0 }
}

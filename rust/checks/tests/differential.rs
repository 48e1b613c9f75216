//! The library against the twin. `cargo test --offline --release -p checks`

use checks::batches::{self, compare, Tally};
use checks::listings::compare_listings;
use checks::{Call, Library, Side, Table, Twin};
use twin::arbitrary::{computations, file, Random};
use twin::bytes::{machine_bytes, program_bytes};
use twin::calls::verdict_byte;
use twin::litmus::{examples, vectors, Vector};
use twin::search::{search_known, Found, Verdict};
use twin::step::Step;
use twin::worst;

/// Compares a batch and wants each of these refusal numbers among the answers.
fn same(name: &str, calls: u32, seed: u64, make: fn(&mut Random) -> Call, reached: &[u8]) -> Tally {
    let tally = compare(name, [&Library, &Twin], calls, seed, make).unwrap_or_else(|other| panic!("{other}"));
    for &number in reached {
        assert!(tally.refusals[number as usize] > 0, "{name}: no answer {number} among {calls}: {tally:?}");
    }
    tally
}

/// The same for searches, with each verdict among the answers too.
fn same_searches(name: &str, calls: u32, seed: u64, make: fn(&mut Random) -> Call, reached: &[u8]) {
    let tally = same(name, calls, seed, make, reached);
    assert!(tally.verdicts.iter().all(|&often| often > 0), "{name}: a verdict is missing: {tally:?}");
}

#[test]
fn files() {
    same("read", 60_000, 101, batches::read, &[0, 1, 2, 3, 4, 5, 6, 7, 8, 9, 10]);
}

#[test]
fn traces() {
    let reached = [0, 1, 2, 6, 21, 22, 23, 25, 26, 27, 29];
    same("replay", 40_000, 102, batches::replay, &reached);
}

#[test]
fn steps() {
    let reached = [0, 20, 21, 22, 23, 24, 25, 26, 27, 28, 29];
    same("step", 100_000, 103, batches::step, &reached);
}

#[test]
fn certifications() {
    let tally = same("certify", 100_000, 104, batches::certify, &[0, 20, 21]);
    let runs = &tally.runs;
    let of_at_least = |steps: usize| runs.of_length[steps..].iter().sum::<u32>();
    let enough = [
        ("no run", tally.refusals[0] - of_at_least(0), 10_000),
        ("an empty run", runs.of_length[0], 10_000),
        ("a run", of_at_least(1), 10_000),
        ("a run of 3 steps or more", of_at_least(3), 4_000),
        ("a run of 8 steps or more", of_at_least(8), 400),
        ("an own message", runs.with_own_message, 1_500),
        ("several own messages", runs.with_several_own_messages, 400),
        ("several promises", runs.with_several_promises, 2_000),
        ("a message read", runs.with_message_read, 1_000),
    ];
    for (what, often, least) in enough {
        assert!(often >= least, "certify: {what} only {often} times: {tally:?}");
    }
}

#[test]
fn searches() {
    same_searches("search", 10_000, 105, batches::search, &[0, 1, 6, 30]);
}

#[test]
fn searches_within() {
    same_searches("search within", 10_000, 106, batches::search_within, &[0, 1, 6, 30]);
}

/// Every litmus test, to its end and one short of it, or as far as this goes.
#[test]
fn litmus() {
    const MOST: u64 = 50_000;
    for vector in vectors() {
        let [short, whole] = [vector.count - 1, vector.count].map(|budget| budget.min(MOST) as u32);
        for budget in [0, 1, 100, short, whole] {
            let call = Call::Search { file: vector.file.clone(), budget, area: 500 };
            assert_eq!(call.ask(&Library, 12), call.ask(&Twin, 12), "{} {budget}", vector.name);
        }
    }
}

/// Both sides end with the vector's verdict and count, and one short of it they do not.
fn exactly(vector: &Vector, table: usize) {
    for budget in [vector.count - 1, vector.count, u64::MAX] {
        let table = Table(vec![0; table]);
        let call = Call::SearchWithin { file: vector.file.clone(), budget, area: 500, table };
        let left = call.ask(&Library, 16);
        assert_eq!(left, call.ask(&Twin, 16), "{} {budget}", vector.name);
        let verdict = if budget < vector.count { Verdict::NotFinished } else { vector.verdict };
        assert_eq!(call.verdict(&left), Some(verdict_byte(verdict)), "{} {budget}", vector.name);
        assert_eq!(left.answer[8..], budget.min(vector.count).to_le_bytes(), "{} {budget}", vector.name);
    }
}

/// Every litmus test to its end, in a table of one MiB.
#[test]
fn litmus_to_the_end() {
    vectors().iter().for_each(|vector| exactly(vector, 1 << 20));
}

/// The examples to their end: one has more sequences than four bytes can count.
#[test]
fn examples_to_the_end() {
    examples().iter().for_each(|example| exactly(example, blyskota::TABLE));
}

/// The files that take longest: with the budget of their benchmark as the twin's recorded answer says, and
/// with 40 of it, which most of the long explorations need, as the twin itself: for the whole it would take
/// minutes in an emulator.
#[test]
fn worst_files() {
    for vector in worst::files() {
        let search = |budget| Call::Search { file: vector.file.clone(), budget, area: 500 };
        for budget in [1, 40] {
            let call = search(budget);
            assert_eq!(call.ask(&Library, 12), call.ask(&Twin, 12), "{} {budget}", vector.name);
        }
        let whole = search(worst::BUDGET);
        let left = whole.ask(&Library, 12);
        assert_eq!(whole.verdict(&left), Some(verdict_byte(vector.verdict)), "{}", vector.name);
        assert_eq!(left.answer[8..], (vector.count as u32).to_le_bytes(), "{}", vector.name);
    }
}

/// Certifications that have to look at every run: none keeps the promise, or only the last one.
#[test]
fn worst_certifications() {
    let added = (1..=8).map(|loads| worst::unkept(loads, 0));
    let others = [worst::unkept(7, 1), worst::unkept(7, 2), worst::compared()];
    let kept = [1, 4, 8].map(worst::kept_last);
    for (number, (program, machine)) in added.chain(others).chain(kept).enumerate() {
        let (program, machine) = (program_bytes(&program).to_vec(), machine_bytes(&machine).to_vec());
        let call = Call::Certify { program, machine, thread: 1 };
        let room = call.answer_length() + 2;
        assert_eq!(call.ask(&Library, room), call.ask(&Twin, room), "{number}");
    }
}

/// A count of almost 64 bits, and one of more.
#[test]
fn large_counts() {
    let program = computations(8);
    let Found { verdict, count, .. } = search_known(&program, u64::MAX);
    assert!(count > 1 << 57, "{count}");
    exactly(&Vector { name: "computations", verdict, count, file: file(&program) }, blyskota::TABLE);
    for budget in [1 << 63, u64::MAX] {
        let table = Table(vec![0; blyskota::TABLE]);
        let call = Call::SearchWithin { file: file(&computations(9)), budget, area: 500, table };
        let left = call.ask(&Library, 16);
        assert_eq!(left, call.ask(&Twin, 16), "{budget}");
        assert_eq!(call.verdict(&left), Some(verdict_byte(Verdict::NotFinished)), "{budget}");
    }
}

/// A side with one wrong byte in an answer, an area or a table: the comparison must see it.
struct Wrong;

impl Side for Wrong {
    fn read(&self, file: &[u8], answer: &mut [u8]) -> u32 {
        let code = Twin.read(file, answer);
        if file.len() == 100 && code == 0 {
            answer[300] ^= 1;
        }
        code
    }

    fn step(&self, program: &[u8], machine: &[u8], step: Step, answer: &mut [u8]) -> u32 {
        let code = Twin.step(program, machine, step, answer);
        if step.a == 3 && answer.len() > 342 {
            answer[342] = 0;
        }
        code
    }

    fn certify(&self, program: &[u8], machine: &[u8], thread: u8, answer: &mut [u8]) -> u32 {
        let code = Twin.certify(program, machine, thread, answer);
        if code == 0 && answer[2] == 1 {
            answer[35] = 1;
        }
        code
    }

    fn replay(&self, file: &[u8], trace: &[u8], answer: &mut [u8]) -> u32 {
        Twin.replay(file, trace, answer)
    }

    fn search(&self, file: &[u8], budget: u32, area: &mut [u8], answer: &mut [u8]) -> u32 {
        let code = Twin.search(file, budget, area, answer);
        if let Some(last) = area.last_mut() {
            *last = 0;
        }
        code
    }

    fn search_within(
        &self,
        file: &[u8],
        budget: u64,
        area: &mut [u8],
        table: &mut [u8],
        answer: &mut [u8],
    ) -> u32 {
        let before = table.last().copied();
        let code = Twin.search_within(file, budget, area, table, answer);
        if let (Some(last), Some(before)) = (table.last_mut(), before) {
            *last = before;
        }
        code
    }

    fn outcomes(&self, file: &[u8], budget: u32, table: &mut [u8], answer: &mut [u8]) -> u32 {
        let code = Twin.outcomes(file, budget, table, answer);
        if let (0, [.., last]) = (code, table) {
            *last = 0;
        }
        code
    }

    fn outcomes_within(
        &self,
        file: &[u8],
        budget: u64,
        outcomes: &mut [u8],
        table: &mut [u8],
        answer: &mut [u8],
    ) -> u32 {
        Twin.outcomes_within(file, budget, outcomes, table, answer)
    }
}

#[test]
fn a_wrong_byte_is_noticed() {
    assert!(compare("wrong read", [&Wrong, &Twin], 25_000, 101, batches::read).is_err());
    assert!(compare("wrong step", [&Wrong, &Twin], 1_000, 103, batches::step).is_err());
    assert!(compare("wrong search", [&Wrong, &Twin], 100, 105, batches::search).is_err());
    assert!(compare("wrong table", [&Wrong, &Twin], 100, 106, batches::search_within).is_err());
    assert!(compare("wrong certify", [&Wrong, &Twin], 1_000, 104, batches::certify).is_err());
    assert!(compare_listings([&Wrong, &Twin], 20, 107).is_err());
    assert!(compare("right replay", [&Wrong, &Twin], 100, 102, batches::replay).is_ok());
}

//! The listing of outcomes is what the literal list of all sequences gives, and what the searches find.

use std::collections::BTreeMap;

use twin::arbitrary::{program, Random, MIDDLE, SMALL};
use twin::literal;
use twin::litmus::{examples, vectors};
use twin::machine::{complete, Machine};
use twin::outcomes::{list, list_known, Listed, Outcome};
use twin::program::{read, Program};
use twin::search::{search_known, Verdict};

/// The most sequences of a program whose list is made literally, which takes a third of a millisecond for each.
const MOST: u64 = 400;

/// The outcome by its definition: each register, and for each location the value of its newest message.
fn literal_outcome(machine: &Machine) -> Outcome {
    let register = |at: usize| machine.thread[at / 8].register[at % 8].value;
    let last = |location: usize| machine.memory.last_value(location as u8);
    std::array::from_fn(|at| if at < 32 { register(at) } else { last(at - 32) })
}

/// Of the list of all sequences the complete ones by their outcomes and then by their places; each outcome is
/// kept where it comes first.
fn literal_places(program: &Program, machines: &[Machine]) -> BTreeMap<Outcome, u64> {
    let numbered = machines.iter().zip(1_u64..).filter(|(machine, _)| complete(program, machine));
    let mut ends: Vec<(Outcome, u64)> =
        numbered.map(|(machine, place)| (literal_outcome(machine), place)).collect();
    ends.sort();
    ends.dedup_by_key(|(outcome, _)| *outcome);
    ends.into_iter().collect()
}

/// Both forms give the literal listing where the budget is enough for all sequences, and none where it is not.
fn same(random: &mut Random, program: &Program) {
    let machines = literal::machines(program, MOST).expect("a short list");
    let sequences = machines.len() as u64;
    let finished = Listed::Finished { sequences, places: literal_places(program, &machines) };
    for budget in [0, random.number() % sequences, sequences - 1, sequences, sequences + 1, u64::MAX] {
        let listed = if budget < sequences { &Listed::NotFinished } else { &finished };
        assert_eq!(list(program, budget), *listed, "{budget} {program:?}");
        assert_eq!(list_known(program, budget), *listed, "{budget} {program:?}");
    }
}

/// How many outcomes a program has whose sequences are few.
fn outcomes_of_few(program: &Program) -> Option<usize> {
    match list_known(program, MOST) {
        Listed::Finished { places, .. } => Some(places.len()),
        Listed::NotFinished => None,
    }
}

/// Those with three outcomes or more, which are rare among programs as small as that, and some of the others.
#[test]
fn literal_listings_of_small_programs() {
    let mut random = Random::new(21);
    let mut compared = [0; 4];
    for round in 0..9_000 {
        let program = program(&mut random, if round % 4 == 0 { MIDDLE } else { SMALL });
        let Some(outcomes) = outcomes_of_few(&program) else { continue };
        let one_in = [1, 150, 6, 1][outcomes.min(3)];
        if random.one_in(one_in) {
            same(&mut random, &program);
            compared[outcomes.min(3)] += 1;
        }
    }
    let [_, one, two, more] = compared;
    assert!(one > 20 && two > 20 && more > 20, "{compared:?}");
}

#[test]
fn literal_listings_of_litmus_tests() {
    let mut random = Random::new(23);
    let mut listed = 0;
    for vector in vectors() {
        let program = read(&vector.file).expect(vector.name);
        if outcomes_of_few(&program).is_some() {
            same(&mut random, &program);
            listed += 1;
        }
    }
    assert!(listed > 3, "{listed}");
}

/// Larger programs: the two forms give one listing.
#[test]
fn both_forms() {
    let mut random = Random::new(22);
    for _ in 0..1_000 {
        let program = program(&mut random, MIDDLE);
        let budget = random.number() % 100_000;
        assert_eq!(list_known(&program, budget), list(&program, budget), "{budget} {program:?}");
    }
}

/// The places of the outcomes that meet the program's question.
fn asked_places(program: &Program, places: &BTreeMap<Outcome, u64>) -> Vec<u64> {
    let conditions = &program.condition[..program.conditions as usize];
    let asked = |outcome: &Outcome| {
        conditions.iter().all(|condition| {
            let at = match condition.kind {
                0 => 8 * condition.thread + condition.index,
                _ => 32 + condition.index,
            };
            outcome[at as usize] == condition.value
        })
    };
    places.iter().filter(|(outcome, _)| asked(outcome)).map(|(_, &place)| place).collect()
}

/// A search finds the earliest of the outcomes that it asks for, or there is none.
#[test]
fn listings_and_searches_of_all_litmus_tests() {
    for vector in vectors().into_iter().chain(examples()) {
        let program = read(&vector.file).expect(vector.name);
        let Listed::Finished { sequences, places } = list_known(&program, u64::MAX) else {
            panic!("{}: the largest budget is enough", vector.name)
        };
        let found = search_known(&program, u64::MAX);
        match asked_places(&program, &places).iter().min() {
            Some(&place) => assert_eq!((found.verdict, found.count), (Verdict::Allowed, place)),
            None => assert_eq!((found.verdict, found.count), (Verdict::Forbidden, sequences)),
        }
    }
}

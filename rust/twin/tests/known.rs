//! The search that knows machines again answers as the plain one does, whatever the budget.

use twin::arbitrary::{computations, program, Random, MIDDLE, SMALL};
use twin::program::Program;
use twin::search::{search, search_known, Found, Verdict};

/// The most sequences of a program that is compared to its end.
const MOST: u64 = 100_000;

/// The plain answer with so large a budget that it ends, if there is one.
fn ended(program: &Program) -> Option<Found> {
    let found = search(program, MOST);
    (found.verdict != Verdict::NotFinished).then_some(found)
}

/// Budgets about a count, and some below and above it.
fn budgets(random: &mut Random, count: u64) -> [u64; 9] {
    let below = random.number() % count;
    let above = count + random.number() % MOST;
    [0, 1, count / 2, below, count - 1, count, count + 1, above, u64::MAX]
}

fn same(program: &Program, budget: u64) {
    assert_eq!(search_known(program, budget), search(program, budget), "{budget} {program:?}");
}

#[test]
fn small_programs() {
    let mut random = Random::new(6);
    let mut ends = [0, 0];
    for round in 0..2_000 {
        let program = program(&mut random, if round % 4 == 0 { MIDDLE } else { SMALL });
        match ended(&program) {
            Some(found) => {
                budgets(&mut random, found.count).iter().for_each(|&budget| same(&program, budget));
                ends[usize::from(found.verdict == Verdict::Allowed)] += 1;
            }
            None => same(&program, random.number() % MOST),
        }
    }
    let [forbidden, allowed] = ends;
    assert!(forbidden > 100 && allowed > 100, "{ends:?}");
}

/// In how many orders four threads can have done some of so many computations each.
fn orders(each: usize) -> u128 {
    let side = each + 1;
    let strides = [1, side, side * side, side * side * side];
    let mut ways = vec![0_u128; side.pow(4)];
    ways[0] = 1;
    for at in 1..ways.len() {
        let moved = strides.iter().filter(|&stride| at / stride % side > 0);
        ways[at] = moved.map(|stride| ways[at - stride]).sum();
    }
    ways.iter().sum()
}

#[test]
fn counts_up_to_the_largest() {
    for each in 0..=8 {
        let count = u64::try_from(orders(each)).expect("a count of 64 bits");
        let program = computations(each as u8);
        let forbidden = Found { verdict: Verdict::Forbidden, count, trace: Vec::new() };
        assert_eq!(search_known(&program, u64::MAX), forbidden, "{each}");
        assert_eq!(search_known(&program, count), forbidden, "{each}");
        let short = Found { verdict: Verdict::NotFinished, count: count - 1, trace: Vec::new() };
        assert_eq!(search_known(&program, count - 1), short, "{each}");
    }
    assert!(orders(9) > u64::MAX.into());
    let short = Found { verdict: Verdict::NotFinished, count: u64::MAX, trace: Vec::new() };
    assert_eq!(search_known(&computations(9), u64::MAX), short);
}

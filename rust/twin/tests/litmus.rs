//! Every litmus test has its published verdict and its recorded count, and so has every example.

use twin::litmus::{examples, vectors};
use twin::program::read;
use twin::search::{search, search_known, Found, Verdict};

/// The most sequences that the plain search is asked to visit.
const PLAIN: u64 = 10_000_000;

/// The programs that have more.
const LONGER: [&str; 7] =
    ["Peterson+po-turn+flags", "Peterson+po-turn", "Peterson", "Ring1+rel-missing", "Ring1", "lb4", "sb4"];

#[test]
fn published_verdicts_and_counts() {
    let mut noticed = Vec::new();
    for vector in vectors() {
        let found = search_known(&read(&vector.file).expect(vector.name), u64::MAX);
        if found.count != vector.count {
            noticed.push(format!("{} count", vector.name));
        }
        if found.verdict != vector.verdict {
            noticed.push(format!("{} verdict", vector.name));
        }
    }
    assert!(noticed.is_empty(), "noticed by {}: {}", noticed.len(), noticed.join(", "));
}

#[test]
fn examples_and_counts() {
    for example in examples() {
        let found = search_known(&read(&example.file).expect(example.name), u64::MAX);
        assert_eq!((found.verdict, found.count), (example.verdict, example.count), "{}", example.name);
    }
}

/// The count is exact: the plain search needs so many and not one fewer.
#[test]
fn plain_searches() {
    let (vectors, examples) = (vectors(), examples());
    let (asked, longer): (Vec<_>, Vec<_>) =
        vectors.iter().chain(&examples).partition(|vector| vector.count <= PLAIN);
    assert_eq!(longer.iter().map(|vector| vector.name).collect::<Vec<_>>(), LONGER);
    for vector in asked {
        let program = read(&vector.file).expect(vector.name);
        let all = search_known(&program, u64::MAX);
        assert_eq!(search(&program, vector.count), all, "{}", vector.name);
        let count = vector.count - 1;
        let short = Found { verdict: Verdict::NotFinished, count, trace: Vec::new() };
        assert_eq!(search(&program, count), short, "{}", vector.name);
        assert_eq!(search_known(&program, count), short, "{}", vector.name);
    }
}

#[test]
fn enough_of_them() {
    assert!(vectors().len() >= 70);
}

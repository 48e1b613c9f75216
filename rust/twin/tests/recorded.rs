//! Recorded answers: a digest of many arbitrary calls of each kind. `TWIN_RECORD=1 cargo test` writes
//! them anew. They notice what no run from the fresh machine can show.

use twin::arbitrary::{
    damage, file, likely_step, machine, program, trace, values, walk, Random, LARGE, MIDDLE,
};
use twin::bytes::{machine_bytes, program_bytes};
use twin::calls;
use twin::step::Step;

/// FNV-1a over the answers.
struct Digest(u64);

impl Digest {
    fn add(&mut self, code: u32, answer: &[u8]) {
        for byte in code.to_le_bytes().iter().chain(answer) {
            self.0 = (self.0 ^ u64::from(*byte)).wrapping_mul(0x0000_0100_0000_01B3);
        }
    }
}

/// Names of the instructions and of the promise, by which steps are told apart.
const STEPS: [&str; 6] =
    ["step-compute", "step-load", "step-store", "step-branch", "step-fence", "step-promise"];

/// Steps and certifications on well-formed machines, one digest for each instruction.
fn steps(digests: &mut [Digest; 7]) {
    let mut random = Random::new(11);
    for round in 0..40_000 {
        let program = program(&mut random, if round % 3 == 0 { LARGE } else { MIDDLE });
        let state = machine(&mut random, &program);
        let step = likely_step(&mut random, &program, &state);
        let number = step.thread as usize;
        let position = state.thread[number].position;
        let kind = match step.kind {
            1 => 5,
            _ if position == program.code[number].count => continue,
            _ => program.code[number].instructions[position as usize][0] as usize,
        };
        let (code, bytes) = (program_bytes(&program), machine_bytes(&state));
        let mut answer = [0; calls::STEP_ANSWER];
        let served = calls::step(&code, &bytes, step, &mut answer);
        digests[kind].add(served, &answer);
        let mut answer = [0; calls::CERTIFY_ANSWER];
        let served = calls::certify(&code, &bytes, step.thread, &mut answer);
        digests[6].add(served, &answer);
    }
}

fn reads() -> Digest {
    let (mut random, mut digest) = (Random::new(12), Digest(0));
    for _ in 0..5_000 {
        let mut file = file(&program(&mut random, LARGE));
        damage(&mut random, &mut file);
        let mut answer = [0; calls::READ_ANSWER];
        let served = calls::read(&file, &mut answer);
        digest.add(served, &answer);
    }
    digest
}

fn replays() -> Digest {
    let (mut random, mut digest) = (Random::new(13), Digest(0));
    for _ in 0..5_000 {
        let program = program(&mut random, MIDDLE);
        let mut trace = trace(&walk(&mut random, &program, 40).0);
        if random.one_in(2) {
            damage(&mut random, &mut trace);
        }
        let mut answer = [0; calls::REPLAY_ANSWER];
        let served = calls::replay(&file(&program), &trace, &mut answer);
        digest.add(served, &answer);
    }
    digest
}

fn searches() -> Digest {
    let (mut random, mut digest) = (Random::new(14), Digest(0));
    for _ in 0..5_000 {
        let file = file(&program(&mut random, MIDDLE));
        let (mut area, mut answer) = ([0; calls::TRACE_AREA], [0; calls::SEARCH_ANSWER]);
        let served = calls::search(&file, 500, &mut area, &mut answer);
        digest.add(served, &answer);
        digest.add(0, &area);
    }
    digest
}

fn searches_within() -> Digest {
    let (mut random, mut digest) = (Random::new(16), Digest(0));
    for _ in 0..1_000 {
        let file = file(&program(&mut random, MIDDLE));
        let (mut area, mut table) = ([0; calls::TRACE_AREA], [0xFF; 100]);
        let mut answer = [0; calls::SEARCH_WITHIN_ANSWER];
        let served = calls::search_within(&file, 1_000_000, &mut area, &mut table, &mut answer);
        digest.add(served, &answer);
        digest.add(0, &area);
        digest.add(0, &table);
    }
    digest
}

/// Lent memory before a listing, so that what is left of it shows.
const UNWRITTEN: u8 = 0xA5;

/// Listings with room for a few outcomes and for part of one more, and budgets of all sizes.
fn listings() -> Digest {
    let (mut random, mut digest) = (Random::new(17), Digest(0));
    for _ in 0..3_000 {
        let file = file(&program(&mut random, MIDDLE));
        let budget = random.pick(&[0, 50, 2_000, 20_000]);
        let mut table = [UNWRITTEN; 3 * calls::OUTCOME_ENTRY + 1];
        let mut answer = [0; calls::OUTCOMES_ANSWER];
        let served = calls::outcomes(&file, budget, &mut table, &mut answer);
        digest.add(served, &answer);
        digest.add(0, &table);
    }
    digest
}

fn listings_within() -> Digest {
    let (mut random, mut digest) = (Random::new(18), Digest(0));
    for _ in 0..1_000 {
        let file = file(&program(&mut random, MIDDLE));
        let budget = random.pick(&[100, 10_000, 1_000_000]);
        let (mut lent, mut table) = ([UNWRITTEN; 6 * calls::OUTCOME_WITHIN_ENTRY + 1], [UNWRITTEN; 100]);
        let mut answer = [0; calls::OUTCOMES_WITHIN_ANSWER];
        let served = calls::outcomes_within(&file, budget, &mut lent, &mut table, &mut answer);
        digest.add(served, &answer);
        digest.add(0, &lent);
        digest.add(0, &table);
    }
    digest
}

/// Values that are often not well formed.
fn any_values() -> Digest {
    let (mut random, mut digest) = (Random::new(15), Digest(0));
    for _ in 0..5_000 {
        let (code, state) = values(&mut random);
        let step =
            Step { kind: random.below(3), thread: random.below(5), a: random.below(17), b: random.below(2) };
        let mut answer = [0; calls::STEP_ANSWER];
        let served = calls::step(&code, &state, step, &mut answer);
        digest.add(served, &answer);
    }
    digest
}

#[test]
fn recorded_answers() {
    let mut stepped = [0; 7].map(Digest);
    steps(&mut stepped);
    let mut lines: Vec<String> = Vec::new();
    for (name, digest) in STEPS.iter().chain(&["certify"]).zip(&stepped) {
        lines.push(format!("{name} {:016x}", digest.0));
    }
    let whole = [
        ("read", reads()),
        ("replay", replays()),
        ("search", searches()),
        ("search-within", searches_within()),
        ("outcomes", listings()),
        ("outcomes-within", listings_within()),
        ("values", any_values()),
    ];
    lines.extend(whole.iter().map(|(name, digest)| format!("{name} {:016x}", digest.0)));
    if std::env::var_os("TWIN_RECORD").is_some() {
        std::fs::write("tests/recorded.txt", lines.join("\n") + "\n").expect("the record is written");
    }
    let recorded = std::fs::read_to_string("tests/recorded.txt").expect("the record");
    let other: Vec<&str> = lines
        .iter()
        .filter(|line| !recorded.lines().any(|known| known == line.as_str()))
        .filter_map(|line| line.split(' ').next())
        .collect();
    assert!(other.is_empty(), "noticed by {}: {}", other.len(), other.join(", "));
}

//! Batches of calls from a seed, and their comparison.

use std::io::Write;

use twin::arbitrary::{
    any_step, damage, file, likely_step, program, promising, trace, values, walk, Random, LARGE, MIDDLE,
    SMALL,
};
use twin::bytes::{machine_bytes, machine_from, program_bytes, program_from};
use twin::program::Program;
use twin::search::{search_known, Found, Verdict};
use twin::step::well_formed;

use crate::{Call, Left, Side, Table};

/// How often each refusal number was the answer, 0 being none, and each verdict of a search; and the runs of
/// certifications.
#[derive(Debug)]
pub struct Tally {
    pub refusals: [u32; 41],
    pub verdicts: [u32; 4],
    pub runs: Runs,
}

impl Default for Tally {
    fn default() -> Tally {
        Tally { refusals: [0; 41], verdicts: [0; 4], runs: Runs::default() }
    }
}

impl Tally {
    fn add(&mut self, call: &Call, left: &Left) {
        if let Some(refusal) = call.refusal(left) {
            self.refusals[refusal as usize] += 1;
        }
        if let Some(verdict) = call.verdict(left) {
            self.verdicts[verdict as usize] += 1;
        }
        if let (Some(run), Call::Certify { machine, thread, .. }) = (call.run(left), call) {
            let machine = machine_from(machine[..].try_into().expect("a served value has its length"));
            self.runs.add(&run, machine.thread[*thread as usize].promises.count_ones());
        }
    }
}

/// How many runs had each length, and how many had what makes the first one hard to find.
#[derive(Default, Debug)]
pub struct Runs {
    pub of_length: [u32; 17],
    pub with_own_message: u32,
    pub with_several_own_messages: u32,
    pub with_several_promises: u32,
    /// A load was executed at a time above 0.
    pub with_message_read: u32,
}

impl Runs {
    /// Takes in a run that keeps so many promises.
    fn add(&mut self, run: &[[u8; 2]], promises: u32) {
        let own_messages = run.iter().filter(|[kind, _]| *kind == 1).count();
        let above_0 = run.iter().filter(|[kind, time]| *kind == 0 && *time > 0).count() as u32;
        self.of_length[run.len()] += 1;
        self.with_own_message += u32::from(own_messages > 0);
        self.with_several_own_messages += u32::from(own_messages > 1);
        self.with_several_promises += u32::from(promises > 1);
        // Each promise is kept once; any other execution above 0 is a load's.
        self.with_message_read += u32::from(above_0 > promises);
    }
}

/// Asks both sides every call and compares all they leave; a progress line on standard error.
pub fn compare(
    name: &str,
    sides: [&dyn Side; 2],
    calls: u32,
    seed: u64,
    make: fn(&mut Random) -> Call,
) -> Result<Tally, String> {
    let mut random = Random::new(seed);
    let mut tally = Tally::default();
    for number in 0..calls {
        let call = make(&mut random);
        let left =
            left_by_both(sides, &call, &mut random).map_err(|other| format!("{name} {number}: {other}"))?;
        tally.add(&call, &left);
        say_progress(name, number + 1, calls);
    }
    Ok(tally)
}

/// What both sides leave, or how they differ; the answer area is now and then too short.
pub(crate) fn left_by_both(sides: [&dyn Side; 2], call: &Call, random: &mut Random) -> Result<Left, String> {
    let room = room(random, call.answer_length());
    let [left, other] = sides.map(|side| call.ask(side, room));
    if left != other {
        return Err(format!("{call:?}\nroom {room}\n{left:?}\n{other:?}"));
    }
    Ok(left)
}

/// A line for each tenth of what is compared.
pub(crate) fn say_progress(name: &str, done: u32, all: u32) {
    if done % (all / 10).max(1) == 0 {
        // Written past the test harness, which would hold a print back to the end.
        let _ = writeln!(std::io::stderr(), "{name}: {done} of {all} the same");
    }
}

/// Mostly room and a little more, now and then too little.
fn room(random: &mut Random, answer: usize) -> usize {
    match random.below(20) {
        0 => random.index(answer),
        1 => answer,
        _ => answer + random.index(9),
    }
}

/// A program file: good, damaged once or more, or nothing but bytes.
pub fn any_file(random: &mut Random) -> Vec<u8> {
    let size = random.pick(&[SMALL, MIDDLE, LARGE, LARGE]);
    let mut bytes = file(&program(random, size));
    match random.below(10) {
        0 | 1 => {}
        2 => bytes = (0..random.index(700)).map(|_| random.byte()).collect(),
        3 => (0..random.below(6)).for_each(|_| damage(random, &mut bytes)),
        4 => bytes = seventeen_stores(random),
        _ => damage(random, &mut bytes),
    }
    bytes
}

/// A file with stores only, up to 18 of them in two threads.
fn seventeen_stores(random: &mut Random) -> Vec<u8> {
    let counts = [16 - random.below(4), 1 + random.below(5)];
    let mut bytes = vec![0x50, 0x47, 1, 2];
    for (number, count) in counts.into_iter().enumerate() {
        bytes.extend([0x54, 0x48, number as u8, count]);
        for _ in 0..count {
            bytes.extend([0x49, 0x4E, 2, random.below(2), 0, 0, random.below(3), 0, random.byte()]);
        }
    }
    bytes.extend([0x51, 0x55, 0]);
    bytes
}

pub fn read(random: &mut Random) -> Call {
    Call::Read { file: any_file(random) }
}

/// A trace of accepted steps, often with a step that may be refused, or damaged.
pub fn replay(random: &mut Random) -> Call {
    let size = random.pick(&[SMALL, SMALL, MIDDLE, MIDDLE, LARGE]);
    let program = program(random, size);
    let tries = random.pick(&[0, 5, 20, 60, 120]);
    let (mut steps, machine) = walk(random, &program, tries);
    match random.below(4) {
        0 => steps.push(any_step(random, &program, &machine)),
        1 => steps.push(likely_step(random, &program, &machine)),
        _ => {}
    }
    let mut trace = trace(&steps);
    if random.one_in(3) {
        damage(random, &mut trace);
    }
    let file = if random.one_in(20) { any_file(random) } else { file(&program) };
    Call::Replay { file, trace }
}

/// Values of the right lengths, but for a few.
fn any_values(random: &mut Random) -> (Vec<u8>, Vec<u8>) {
    let (mut program, mut machine) = values(random);
    match random.below(200) {
        0 => drop(program.pop()),
        1 => program.push(0),
        2 => drop(machine.pop()),
        3 => machine.push(0),
        4 => program.clear(),
        5 => machine.clear(),
        _ => {}
    }
    (program, machine)
}

pub fn step(random: &mut Random) -> Call {
    let (program, machine) = any_values(random);
    let step = match (program[..].try_into(), machine[..].try_into()) {
        (Ok(code), Ok(state)) => {
            let (code, state) = (program_from(code), machine_from(state));
            if well_formed(&code, &state) && !random.one_in(4) {
                likely_step(random, &code, &state)
            } else {
                any_step(random, &code, &state)
            }
        }
        _ => Default::default(),
    };
    Call::Step { program, machine, step }
}

/// Any thread of any values, or one that has promised something.
pub fn certify(random: &mut Random) -> Call {
    if random.one_in(2) {
        let (program, machine, thread) = promising(random);
        let (program, machine) = (program_bytes(&program).to_vec(), machine_bytes(&machine).to_vec());
        return Call::Certify { program, machine, thread };
    }
    let (program, machine) = any_values(random);
    let threads = program.get(1).copied().unwrap_or(1);
    let thread = if random.one_in(20) { random.byte() } else { random.below(threads.clamp(1, 4)) };
    Call::Certify { program, machine, thread }
}

/// Searches with small budgets and a few larger ones; the lent area is now and then too short.
pub fn search(random: &mut Random) -> Call {
    let size = random.pick(&[SMALL, MIDDLE, MIDDLE, LARGE]);
    let file = if random.one_in(10) { any_file(random) } else { file(&program(random, size)) };
    let area = random.pick(&[480, 480, 480, 481, 600, 479, 0]);
    let budget = match random.below(20) {
        0 => 0,
        1 => (random.number() % 20_000) as u32,
        _ => u32::from(random.byte()),
    };
    Call::Search { file, budget, area }
}

/// The most sequences that a search of the next batch goes through: few enough without any table.
const MOST: u64 = 20_000;

/// Searches with a lent table and budgets about the count, which the twin finds first; now and then
/// the file is another or damaged, or the trace area too short.
pub fn search_within(random: &mut Random) -> Call {
    let program = program(random, MIDDLE);
    let table = any_table(random, &program);
    let (file, budget) = if random.one_in(10) {
        (any_file(random), random.number() % MOST)
    } else {
        (file(&program), budget_about(random, &search_known(&program, MOST)))
    };
    let area = if random.one_in(20) { random.pick(&[0, 479]) } else { random.pick(&[480, 481, 600]) };
    Call::SearchWithin { file, budget, area, table }
}

/// A budget about the count of what is found, or any at all where the search has ended.
fn budget_about(random: &mut Random, found: &Found) -> u64 {
    let count = found.count;
    let below = random.number() % count;
    let [any, largest] = match found.verdict {
        Verdict::NotFinished => [below, count],
        _ => [random.number(), u64::MAX],
    };
    random.pick(&[0, below, count / 2, count - 1, count, count + 1, any, largest])
}

/// A table of any length and content.
pub(crate) fn any_table(random: &mut Random, program: &Program) -> Table {
    let length = match random.below(8) {
        0 => random.pick(&[0, 1]),
        1 => random.index(340),
        2 => 340 + random.index(21),
        3 | 4 => random.index(4_000),
        5 | 6 => random.index(40_000),
        _ => random.index(400_000),
    };
    Table(match random.below(4) {
        0 => vec![0; length],
        1 => vec![0xFF; length],
        2 => (0..length).map(|_| random.byte()).collect(),
        _ => entries(random, program, length),
    })
}

/// Again and again one machine, fresh or a few steps on, and a few small bytes before or behind it: as
/// if a search had noted it with a wrong count.
fn entries(random: &mut Random, program: &Program, length: usize) -> Vec<u8> {
    let tries = random.pick(&[0, 0, 1, 2, 4]);
    let machine = machine_bytes(&walk(random, program, tries).1);
    let count: Vec<u8> = (0..random.below(20)).map(|_| random.below(3)).collect();
    let entry = if random.one_in(2) { [&machine, &count[..]] } else { [&count[..], &machine] };
    entry.concat().into_iter().cycle().take(length).collect()
}

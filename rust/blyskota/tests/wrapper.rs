//! The wrapper's calls on an empty program and on one of two threads, and its errors in words.

use blyskota::{
    outcomes, outcomes_within, replay, search, search_within, trace_file, Answer, Condition, File, Machine,
    Message, Outcome, Outcomes, Program, Refused, ReplayRefused, RunStep, Step, Why,
};

const EMPTY: &[u8] = &[0x50, 0x47, 1, 1, 0x54, 0x48, 0, 0, 0x51, 0x55, 0];

/// Thread 0 stores 1 at location 0, thread 1 loads r0 from there; asked for a value of r0.
fn e(value: u8) -> Vec<u8> {
    let mut file = vec![0x50, 0x47, 1, 2];
    file.extend([0x54, 0x48, 0, 1, 0x49, 0x4E, 2, 0, 0, 0, 0, 0, 1]);
    file.extend([0x54, 0x48, 1, 1, 0x49, 0x4E, 1, 0, 0, 0, 0, 0, 0]);
    file.extend([0x51, 0x55, 1, 0x43, 0x4E, 0, 1, 0, value]);
    file
}

const RUN: [Step; 3] = [
    Step::Promise { thread: 0, location: 0, value: 1 },
    Step::Execute { thread: 0, time: 1 },
    Step::Execute { thread: 1, time: 1 },
];

#[test]
fn searches() {
    assert_eq!(search(EMPTY, 1), Ok(Answer::Allowed { count: 1, trace: vec![] }));
    assert_eq!(search(EMPTY, 0), Ok(Answer::NotFinished { count: 0 }));
    assert_eq!(search(&e(1), 5), Ok(Answer::Allowed { count: 5, trace: RUN.to_vec() }));
    assert_eq!(search(&e(2), 12), Ok(Answer::Forbidden { count: 12 }));
    assert_eq!(search(&e(2), u64::MAX), Ok(Answer::Forbidden { count: 12 }));
    assert_eq!(search(&e(2), 11), Ok(Answer::NotFinished { count: 11 }));
    assert_eq!(search(&[], 1), Err(Refused { why: Why(1), place: 0 }));
    assert_eq!(Program::read(&EMPTY[..4]), Err(Refused { why: Why(1), place: 4 }));
}

/// Tables of any length and content are all 0 afterwards.
#[test]
fn searches_within_a_table() {
    for length in [0, 1, 1_000, 100_000] {
        for content in [0, 0xFF] {
            let mut table = vec![content; length];
            let mut answers = |value, budget| {
                table.fill(content);
                let answer = search_within(&e(value), budget, &mut table);
                assert_eq!(table, vec![0; length], "a table of {length} bytes {content}");
                answer
            };
            assert_eq!(answers(1, 5), Ok(Answer::Allowed { count: 5, trace: RUN.to_vec() }));
            assert_eq!(answers(2, u64::MAX), Ok(Answer::Forbidden { count: 12 }));
            assert_eq!(answers(2, 11), Ok(Answer::NotFinished { count: 11 }));
        }
    }
}

#[test]
fn a_refused_search_leaves_the_table() {
    let mut table = vec![0xFF; 1_000];
    let refused = Err(Refused { why: Why(1), place: 4 });
    assert_eq!(search_within(&EMPTY[..4], u64::MAX, &mut table), refused);
    assert_eq!(table, vec![0xFF; 1_000]);
}

/// The outcome of the example with this value read, and the place of its first sequence.
fn read(value: u8, place: u64) -> Outcome {
    let (mut registers, mut locations) = ([[0; 8]; 4], [0; 16]);
    (registers[1][0], locations[0]) = (value, 1);
    Outcome { registers, locations, place }
}

fn both() -> Outcomes {
    Outcomes::Finished { sequences: 12, outcomes: vec![read(0, 4), read(1, 5)] }
}

#[test]
fn listings() {
    let nothing = Outcome { registers: [[0; 8]; 4], locations: [0; 16], place: 1 };
    assert_eq!(outcomes(EMPTY, 1, 1), Ok(Outcomes::Finished { sequences: 1, outcomes: vec![nothing] }));
    assert_eq!(outcomes(EMPTY, 0, 1), Ok(Outcomes::NotFinished { budget: 0 }));
    assert_eq!(outcomes(EMPTY, 1, 0), Ok(Outcomes::TooMany { sequences: 1 }));
    for most in [2, 3, 1_000] {
        assert_eq!(outcomes(&e(1), 12, most), Ok(both()), "{most}");
        assert_eq!(outcomes(&e(1), u64::MAX, most), Ok(both()), "{most}");
        assert_eq!(outcomes(&e(1), 11, most), Ok(Outcomes::NotFinished { budget: 11 }), "{most}");
    }
    assert_eq!(outcomes(&e(1), 12, 1), Ok(Outcomes::TooMany { sequences: 12 }));
    assert_eq!(outcomes(&e(1), 11, 1), Ok(Outcomes::NotFinished { budget: 11 }));
    assert_eq!(outcomes(&EMPTY[..4], 0, 0), Err(Refused { why: Why(1), place: 4 }));
}

/// Tables of any length and content are all 0 afterwards, but for a refused file.
#[test]
fn listings_within_a_table() {
    for length in [0, 1, 1_000, 100_000] {
        let mut table = vec![0xFF; length];
        let mut left = |file: &[u8], budget, most| {
            table.fill(0xFF);
            (outcomes_within(file, budget, most, &mut table), table.clone())
        };
        assert_eq!(left(&e(1), u64::MAX, 2), (Ok(both()), vec![0; length]));
        assert_eq!(left(&e(1), 11, 2), (Ok(Outcomes::NotFinished { budget: 11 }), vec![0; length]));
        assert_eq!(left(&e(1), 12, 1), (Ok(Outcomes::TooMany { sequences: 12 }), vec![0; length]));
        assert_eq!(left(&[], 12, 1), (Err(Refused { why: Why(1), place: 0 }), vec![0xFF; length]));
    }
}

/// A search finds the first of the outcomes that meet its question.
#[test]
fn outcomes_that_meet_a_question() {
    let [zero, one] = [read(0, 4), read(1, 5)];
    for value in [0, 1, 2] {
        let program = Program::read(&e(value)).expect("a good file");
        let conditions = program.conditions().expect("a question");
        let asked = |outcome: &Outcome| conditions.iter().all(|condition| outcome.meets(condition));
        assert_eq!([asked(&zero), asked(&one)], [value == 0, value == 1]);
    }
    assert!(one.meets(&Condition::Location { location: 0, value: 1 }));
    assert!(!one.meets(&Condition::Location { location: 16, value: 0 }));
    assert!(!one.meets(&Condition::Register { thread: 4, register: 0, value: 0 }));
    assert!(!one.meets(&Condition::Register { thread: 0, register: 8, value: 0 }));
}

#[test]
fn steps() {
    let program = Program::read(&e(1)).expect("a good file");
    assert_eq!(program.threads(), 2);
    let mut machine = Machine::fresh();
    assert_eq!(machine.step(&program, RUN[1]), Err(Why(26)));
    for (step, kept) in RUN.into_iter().zip([vec![], vec![RunStep::Executed { time: 1 }], vec![]]) {
        assert_eq!(machine.certify(&program, 0), Ok(Some(kept)));
        machine = machine.step(&program, step).expect("an accepted step");
    }
    assert_eq!(machine.messages(), [Message { location: 0, value: 1, thread: 0 }]);
    let reader = machine.thread(1).expect("thread 1");
    assert_eq!((reader.position, reader.registers[0], reader.r_old), (1, (1, 1), 1));
    assert_eq!(machine.step(&program, RUN[2]), Err(Why(25)));
    assert_eq!(machine.certify(&program, 2), Err(Why(21)));
    assert_eq!(Machine::from_bytes([17; 341]).certify(&program, 0), Err(Why(20)));
}

/// The counting core of `programs/readback.litmus` promises the count first, and can keep that by its
/// own message of the row. Had it promised another value, which no step allows, it could not.
#[test]
fn runs() {
    let store = |location, kind, value| [0x49, 0x4E, 2, 0, 0, 0, location, kind, value];
    let mut file = vec![0x50, 0x47, 1, 1, 0x54, 0x48, 0, 3];
    file.extend(store(0, 0, 1));
    file.extend([0x49, 0x4E, 1, 0, 0, 0, 0, 0, 0]);
    file.extend(store(1, 1, 0));
    file.extend([0x51, 0x55, 0]);
    let program = Program::read(&file).expect("a good file");
    let promise = Step::Promise { thread: 0, location: 1, value: 1 };
    let machine = Machine::fresh().step(&program, promise).expect("an accepted step");
    let run = machine.certify(&program, 0).expect("a good machine").expect("a certified thread");
    let said: Vec<String> = run.iter().map(RunStep::to_string).collect();
    assert_eq!(
        said,
        ["executed with its own message, at time 2", "executed at time 2", "executed at time 1"]
    );
    let mut bytes = *machine.as_bytes();
    bytes[1..3].copy_from_slice(&[1, 2]);
    assert_eq!(Machine::from_bytes(bytes).certify(&program, 0), Ok(None), "no store of 2");
}

#[test]
fn replays() {
    let replayed = replay(&e(1), &trace_file(&RUN)).expect("the run of the example");
    assert_eq!((replayed.steps, replayed.complete, replayed.holds), (3, true, true));
    let ReplayRefused { why, file, index, place, steps, machine } =
        replay(&e(1), &trace_file(&[RUN[0], RUN[0]])).expect_err("one store, two promises");
    assert_eq!((why, file, index, place, steps), (Why(29), File::Trace, 1, 6, 1));
    assert_eq!(machine.messages().len(), 1);
}

/// What an error says, which is the same as what it says when `main` returns it.
fn words(error: impl std::error::Error) -> String {
    assert_eq!(format!("{error:?}"), error.to_string());
    error.to_string()
}

#[test]
fn refusals_in_words() {
    let machine = Machine::fresh();
    let program = Program::read(&e(1)).expect("a good file");
    assert_eq!(
        words(
            machine.step(&program, Step::Promise { thread: 1, location: 0, value: 1 }).expect_err("a load")
        ),
        "refused 29: alone, the thread could not keep its promises after the step"
    );
    assert_eq!(
        words(machine.certify(&program, 2).expect_err("two threads")),
        "refused 21: there is no such thread"
    );
    assert_eq!(
        words(search(&EMPTY[..4], 1).expect_err("half a file")),
        "the program file is refused with 1 at byte 4: the input ends before or inside a record that is needed"
    );
}

#[test]
fn refused_replays_in_words() {
    let said = |file: &[u8], trace: &[u8]| words(replay(file, trace).expect_err("a refused replay"));
    assert_eq!(
        said(&[EMPTY, &[0]].concat(), &trace_file(&RUN)),
        "the program file is refused with 9 at byte 11, before any step: bytes follow the last condition"
    );
    assert_eq!(
        said(&e(1), b"SP"),
        "the trace file is refused with 1 at byte 0 (record 0, counted from 0), before any step: \
         the input ends before or inside a record that is needed"
    );
    assert_eq!(
        said(&e(1), &trace_file(&[RUN[0], RUN[0]])),
        "the trace file is refused with 29 at byte 6 (record 1, counted from 0), after 1 step: \
         alone, the thread could not keep its promises after the step"
    );
    assert_eq!(
        said(&e(1), &[&trace_file(&RUN[..2])[..], b"ST\x02\x00\x00\x00"].concat()),
        "the trace file is refused with 22 at byte 12 (record 2, counted from 0), after 2 steps: \
         the kind of the step is above 1, or b is not 0 in an execution"
    );
}

#[test]
fn every_refusal_has_a_meaning() {
    for number in 0..=255 {
        let known = matches!(number, 1..=10 | 20..=30 | 40);
        assert_eq!(Why(number).meaning() != "no refusal has this number", known, "{number}");
    }
}

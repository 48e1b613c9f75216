//! The printing program, `target/bin/judge`, which `./judge` at the repository's root has proved and linked: what it
//! prints for an input and arguments.

use std::io::Write;
use std::process::{Command, Stdio};

use twin::litmus::{examples, vectors};

const JUDGE: &str = concat!(env!("CARGO_MANIFEST_DIR"), "/../../target/bin/judge");
const BAD_BUDGET: &str = "judge: the budget is a decimal number from 0 to 18446744073709551615, or all\n";

/// A store of 1 to location 0 in one thread, a load of it in the other; the question is whether that gives 1.
fn e() -> Vec<u8> {
    b"PG\x01\x02TH\x00\x01IN\x02\x00\x00\x00\x00\x00\x01TH\x01\x01IN\x01\x00\x00\x00\x00\x00\x00QU\x01CN\x00\x01\x00\x01".to_vec()
}

/// The program, which is for x86-64: elsewhere `on-x86-64` names an emulator.
fn judge() -> Command {
    match std::env::var_os("EMULATOR") {
        None => Command::new(JUDGE),
        Some(emulator) => {
            let mut command = Command::new(emulator);
            command.arg(JUDGE);
            command
        }
    }
}

/// What the program writes on standard output and on standard error.
fn judged(input: &[u8], arguments: &[&str]) -> (String, String) {
    let mut program = judge()
        .args(arguments)
        .stdin(Stdio::piped())
        .stdout(Stdio::piped())
        .stderr(Stdio::piped())
        .spawn()
        .unwrap_or_else(|why| panic!("{JUDGE}: {why}; `./judge FILE` at the repository's root builds it"));
    // The program reads 4,096 bytes at most, and none where an argument is bad: the rest of the input meets a closed pipe.
    let _ = program.stdin.take().expect("a pipe").write_all(input);
    let wrote = program.wait_with_output().expect("the program ends");
    let text = |bytes| String::from_utf8(bytes).expect("the program prints text");
    (text(wrote.stdout), text(wrote.stderr))
}

fn prints(input: &[u8], arguments: &[&str], expected: &str) {
    assert_eq!(judged(input, arguments), (expected.to_string(), String::new()), "arguments {arguments:?}");
}

fn complains(arguments: &[&str], expected: &str) {
    assert_eq!(judged(&e(), arguments), (String::new(), expected.to_string()), "arguments {arguments:?}");
}

#[test]
fn the_printed_example() {
    prints(&e(), &[], "verdict allowed\ncount 5\npromise 0 0 1\nexecute 0 1\nexecute 1 1\n");
}

#[test]
fn input_that_is_refused() {
    prints(b"", &[], "refused 1 at 0\n");
    prints(b"PG\x02\x01", &[], "refused 3 at 2\n");
}

/// A good file and then more bytes than the program reads: refused where the file should end, at whatever length.
#[test]
fn input_longer_than_any_good_file() {
    let ends = e().len();
    for longer in [1, 4_096 - ends, 100_000] {
        let mut input = e();
        input.resize(ends + longer, 0);
        prints(&input, &[], &format!("refused 9 at {ends}\n"));
    }
}

#[test]
fn budgets() {
    prints(&e(), &["0"], "verdict not finished\ncount 0\n");
    prints(&e(), &["4"], "verdict not finished\ncount 4\n");
    for enough in ["5", "000000000005", "4294967296", "18446744073709551615", "all"] {
        prints(&e(), &[enough], "verdict allowed\ncount 5\npromise 0 0 1\nexecute 0 1\nexecute 1 1\n");
    }
}

#[test]
fn arguments_that_are_no_budget() {
    for bad in
        ["18446744073709551616", "99999999999999999999", "-1", "+1", "1 ", "0x10", "ten", "al", "ALL", ""]
    {
        complains(&[bad], BAD_BUDGET);
    }
    complains(&["4", "4"], "judge: one budget at most\n");
}

/// The scanner's two programs, as the README has them.
#[test]
fn the_scanner() {
    for (name, verdict) in [
        ("scanner", "verdict allowed\ncount 832\n"),
        ("scanner-acquire", "verdict forbidden\ncount 2072030\n"),
    ] {
        let example =
            examples().into_iter().find(|example| example.name == name).expect("an example of that name");
        let (wrote, said) = judged(&example.file, &["all"]);
        assert!(wrote.starts_with(verdict), "{name}: {wrote}");
        assert_eq!(said, "", "{name}");
    }
}

/// The README's proof over more runs than could be looked at one by one.
#[test]
fn the_lock() {
    for (name, verdict) in [
        ("Peterson", "verdict forbidden\ncount 111655300725\n"),
        ("Peterson+po-turn+flags", "verdict forbidden\ncount 973723106749\n"),
    ] {
        let lock =
            vectors().into_iter().find(|vector| vector.name == name).expect("a litmus test of that name");
        prints(&lock.file, &["all"], verdict);
    }
}

//! The named litmus tests of `programs/litmus` with their published verdicts, the examples of
//! `programs`, and the recorded counts of both.

use crate::search::Verdict;

/// One line of a vectors file.
pub struct Vector {
    pub name: &'static str,
    /// The verdict of the literature, or the expected one of an example.
    pub verdict: Verdict,
    /// The count of the whole search, which the largest budget is enough for.
    pub count: u64,
    /// The program file.
    pub file: Vec<u8>,
}

/// All litmus tests.
pub fn vectors() -> Vec<Vector> {
    include_str!("../../../programs/litmus/vectors.txt").lines().map(vector).collect()
}

/// The examples: the scanner and the programs that are timed.
pub fn examples() -> Vec<Vector> {
    include_str!("../../../programs/examples.txt").lines().map(vector).collect()
}

/// Reads a line: name, verdict, count and the program file in hex.
pub fn vector(line: &'static str) -> Vector {
    let fields: Vec<&str> = line.split(' ').collect();
    let [name, verdict, count, hex] = fields[..] else { panic!("four fields: {line}") };
    let verdict = match verdict {
        "allowed" => Verdict::Allowed,
        "forbidden" => Verdict::Forbidden,
        "not-finished" => Verdict::NotFinished,
        other => panic!("no verdict: {other}"),
    };
    Vector { name, verdict, count: count.parse().expect("a number"), file: from_hex(hex) }
}

pub fn from_hex(hex: &str) -> Vec<u8> {
    let byte = |at| u8::from_str_radix(&hex[at..at + 2], 16).expect("hex digits");
    (0..hex.len()).step_by(2).map(byte).collect()
}

//! Why something is refused: the refusal numbers with their meanings. What is refused is an error
//! of Rust, in words wherever it is printed.

use std::fmt;

/// A refusal number.
#[derive(Clone, Copy, PartialEq, Eq)]
pub struct Why(pub u8);

impl Why {
    /// What the number means: 1 to 10 of a program file, 1 and 2 also of a trace file, 20 to 29 of a
    /// step, 30 of a search, 40 of a listing of outcomes.
    pub fn meaning(self) -> &'static str {
        match self.0 {
            1 => "the input ends before or inside a record that is needed",
            2 => "a record begins with another mark than the one due here",
            3 => "the version is not 1",
            4 => "the number of threads is not 1 to 4",
            5 => "a thread has more than 16 instructions",
            6 => "a byte of an instruction is out of range, or is not 0 though it is not used",
            7 => "a 17th store",
            8 => "the number of conditions is above 8, or a byte of a condition is out of range",
            9 => "bytes follow the last condition",
            10 => "the thread's number is not the next one",
            20 => "the program value or the machine value is not well formed",
            21 => "there is no such thread",
            22 => "the kind of the step is above 1, or b is not 0 in an execution",
            23 => "the promised location is above 15",
            24 => "16 messages stand in memory already",
            25 => "the thread is at its end",
            26 => "a load finds no message to its location at that time, a store has not promised its message at that time, any other instruction executes at time 0 only",
            27 => "a load would pass over a newer message to its location that the thread must see",
            28 => "a view that the store has to come after is not below its time",
            29 => "alone, the thread could not keep its promises after the step",
            30 => "the lent trace area is shorter than 480 bytes",
            40 => "there are more outcomes than the lent table has entries",
            _ => "no refusal has this number",
        }
    }
}

impl fmt::Display for Why {
    fn fmt(&self, out: &mut fmt::Formatter) -> fmt::Result {
        write!(out, "refused {}: {}", self.0, self.meaning())
    }
}

/// In words too: an error that `main` returns is printed by `Debug`.
impl fmt::Debug for Why {
    fn fmt(&self, out: &mut fmt::Formatter) -> fmt::Result {
        fmt::Display::fmt(self, out)
    }
}

/// A refused program file.
#[derive(Clone, Copy, PartialEq, Eq)]
pub struct Refused {
    pub why: Why,
    /// The place in the file.
    pub place: u32,
}

impl fmt::Display for Refused {
    fn fmt(&self, out: &mut fmt::Formatter) -> fmt::Result {
        let Refused { why, place } = self;
        write!(out, "the program file is refused with {} at byte {place}: {}", why.0, why.meaning())
    }
}

/// In words too: an error that `main` returns is printed by `Debug`.
impl fmt::Debug for Refused {
    fn fmt(&self, out: &mut fmt::Formatter) -> fmt::Result {
        fmt::Display::fmt(self, out)
    }
}

impl std::error::Error for Why {}
impl std::error::Error for Refused {}

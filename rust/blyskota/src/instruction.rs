//! The instructions of a program, and how a listing writes them.

use std::fmt;

/// One instruction of a thread. Values are bytes, and a sum or difference is taken modulo 256; an
/// address is a location, modulo 16.
#[derive(Clone, Copy, PartialEq, Eq, Debug)]
pub enum Instruction {
    /// Register `into` gets the result of the operation.
    Compute { operation: Operation, into: u8, left: Operand, right: Operand },
    /// Register `into` gets a value of the location `base` + `offset`.
    Load { mode: LoadMode, into: u8, base: Operand, offset: Operand },
    /// The location `address` gets the value `data`.
    Store { mode: StoreMode, address: Operand, data: Operand },
    /// Where both operands are equal, the next `skip` instructions are passed over.
    Branch { left: Operand, right: Operand, skip: u8 },
    /// Orders what comes before it and what follows it.
    Fence(Fence),
}

/// What an instruction works on.
#[derive(Clone, Copy, PartialEq, Eq, Debug)]
pub enum Operand {
    /// The value itself.
    Constant(u8),
    /// The value of register 0 to 7 of the thread.
    Register(u8),
}

/// What is computed of two operands.
#[derive(Clone, Copy, PartialEq, Eq, Debug)]
pub enum Operation {
    Add,
    Subtract,
    ExclusiveOr,
    /// 1 where they are equal, 0 otherwise.
    Equal,
}

/// How a load is ordered.
#[derive(Clone, Copy, PartialEq, Eq, Debug)]
pub enum LoadMode {
    /// LDR.
    Plain,
    /// LDAR: before all that follows it, and after the release stores before it.
    Acquire,
    /// LDAPR: before all that follows it.
    WeakAcquire,
}

/// How a store is ordered.
#[derive(Clone, Copy, PartialEq, Eq, Debug)]
pub enum StoreMode {
    /// STR.
    Plain,
    /// STLR: after all that comes before it.
    Release,
}

/// What a fence orders.
#[derive(Clone, Copy, PartialEq, Eq, Debug)]
pub enum Fence {
    /// Loads and stores before it, then loads and stores that follow it.
    DmbSy,
    /// Loads before it, then loads and stores that follow it.
    DmbLd,
    /// Stores before it, then stores that follow it.
    DmbSt,
    /// The loads that branches and addresses before it depend on, then loads that follow it.
    Isb,
}

const OPERATIONS: [Operation; 4] =
    [Operation::Add, Operation::Subtract, Operation::ExclusiveOr, Operation::Equal];
const LOAD_MODES: [LoadMode; 3] = [LoadMode::Plain, LoadMode::Acquire, LoadMode::WeakAcquire];
const STORE_MODES: [StoreMode; 2] = [StoreMode::Plain, StoreMode::Release];
const FENCES: [Fence; 4] = [Fence::DmbSy, Fence::DmbLd, Fence::DmbSt, Fence::Isb];

/// What the byte m of an instruction chooses.
fn chosen<T: Copy>(from: &[T], m: u8) -> Option<T> {
    from.get(usize::from(m)).copied()
}

impl Instruction {
    /// The instruction of the bytes op, m, r, k1, n1, k2, n2, unless the reader would refuse them
    /// where `after` instructions follow: a branch may reach the thread's end, but not pass it.
    pub(crate) fn from_bytes(bytes: [u8; 7], after: u8) -> Option<Instruction> {
        let [_, m, into, k1, n1, k2, n2] = bytes;
        let (first, second) = (Operand::from_bytes(k1, n1)?, Operand::from_bytes(k2, n2)?);
        match bytes {
            [0, _, 0..=7, ..] => {
                let operation = chosen(&OPERATIONS, m)?;
                Some(Instruction::Compute { operation, into, left: first, right: second })
            }
            [1, _, 0..=7, ..] => {
                let mode = chosen(&LOAD_MODES, m)?;
                Some(Instruction::Load { mode, into, base: first, offset: second })
            }
            [2, _, 0, ..] => {
                let mode = chosen(&STORE_MODES, m)?;
                Some(Instruction::Store { mode, address: first, data: second })
            }
            [3, skip, 0, ..] if skip <= after => {
                Some(Instruction::Branch { left: first, right: second, skip })
            }
            [4, _, 0, 0, 0, 0, 0] => Some(Instruction::Fence(chosen(&FENCES, m)?)),
            _ => None,
        }
    }
}

impl Operand {
    fn from_bytes(kind: u8, number: u8) -> Option<Operand> {
        match (kind, number) {
            (0, _) => Some(Operand::Constant(number)),
            (1, 0..=7) => Some(Operand::Register(number)),
            _ => None,
        }
    }
}

/// As a listing has it, with the numbers of locations. Where a constant 0 is added, the sum is not
/// written: `r1 = 5` and `[1]` stand for 5 + 0 and 1 + 0.
impl fmt::Display for Instruction {
    fn fmt(&self, out: &mut fmt::Formatter) -> fmt::Result {
        use Instruction::*;
        const ZERO: Operand = Operand::Constant(0);
        match self {
            Compute { operation: Operation::Add, into, left, right: ZERO } => {
                write!(out, "r{into} = {left}")
            }
            Compute { operation, into, left, right } => write!(out, "r{into} = {left} {operation} {right}"),
            Load { mode, into, base, offset: ZERO } => write!(out, "r{into} = {mode} [{base}]"),
            Load { mode, into, base, offset } => write!(out, "r{into} = {mode} [{base} + {offset}]"),
            Store { mode, address, data } => write!(out, "{mode} [{address}], {data}"),
            Branch { left, right, skip } => write!(out, "beq {left}, {right}, +{skip}"),
            Fence(fence) => write!(out, "{fence}"),
        }
    }
}

impl fmt::Display for Operand {
    fn fmt(&self, out: &mut fmt::Formatter) -> fmt::Result {
        match self {
            Operand::Constant(value) => write!(out, "{value}"),
            Operand::Register(number) => write!(out, "r{number}"),
        }
    }
}

impl fmt::Display for Operation {
    fn fmt(&self, out: &mut fmt::Formatter) -> fmt::Result {
        out.write_str(match self {
            Operation::Add => "+",
            Operation::Subtract => "-",
            Operation::ExclusiveOr => "xor",
            Operation::Equal => "==",
        })
    }
}

impl fmt::Display for LoadMode {
    fn fmt(&self, out: &mut fmt::Formatter) -> fmt::Result {
        out.write_str(match self {
            LoadMode::Plain => "load",
            LoadMode::Acquire => "load.acq",
            LoadMode::WeakAcquire => "load.acqpc",
        })
    }
}

impl fmt::Display for StoreMode {
    fn fmt(&self, out: &mut fmt::Formatter) -> fmt::Result {
        out.write_str(match self {
            StoreMode::Plain => "store",
            StoreMode::Release => "store.rel",
        })
    }
}

impl fmt::Display for Fence {
    fn fmt(&self, out: &mut fmt::Formatter) -> fmt::Result {
        out.write_str(match self {
            Fence::DmbSy => "dmb sy",
            Fence::DmbLd => "dmb ld",
            Fence::DmbSt => "dmb st",
            Fence::Isb => "isb",
        })
    }
}

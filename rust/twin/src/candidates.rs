//! The promises worth trying. A certified promise is a store of a run that ignores views, so only
//! what such a run could store is tried: a superset, found in one pass over the code with a set of
//! possible values for each register. Branches go forward only, so one pass sees every run.

use crate::machine::{Memory, Register, Thread};
use crate::program::Code;
use crate::rules::{computed, decode, Fence, Instr, Operand};

/// A set of byte values.
#[derive(Clone, Copy, PartialEq, Eq, Debug, Default)]
pub struct Values([u64; 4]);

impl Values {
    pub const NONE: Values = Values([0; 4]);

    #[inline]
    pub fn one(value: u8) -> Values {
        let mut values = Values::NONE;
        values.insert(value);
        values
    }

    #[inline]
    pub fn insert(&mut self, value: u8) {
        self.0[value as usize / 64] |= 1 << (value % 64);
    }

    #[inline]
    pub fn contains(&self, value: u8) -> bool {
        self.0[value as usize / 64] >> (value % 64) & 1 == 1
    }

    #[inline]
    pub fn join(&mut self, other: &Values) {
        for word in 0..4 {
            self.0[word] |= other.0[word];
        }
    }

    #[inline]
    pub fn count(&self) -> u32 {
        self.0.iter().map(|word| word.count_ones()).sum()
    }

    /// The only value, if there is one only.
    #[inline]
    fn only(&self) -> Option<u8> {
        if self.count() == 1 {
            self.next(0)
        } else {
            None
        }
    }

    /// The least value at or above `from`.
    #[inline]
    pub fn next(&self, from: usize) -> Option<u8> {
        let mut word = from / 64;
        if word >= 4 {
            return None;
        }
        let mut bits = self.0[word] >> (from % 64) << (from % 64);
        while bits == 0 {
            word += 1;
            if word == 4 {
                return None;
            }
            bits = self.0[word];
        }
        Some((word * 64) as u8 + bits.trailing_zeros() as u8)
    }

    /// The members, ascending.
    pub fn iter(&self) -> impl Iterator<Item = u8> + '_ {
        let mut from = 0;
        std::iter::from_fn(move || {
            let value = self.next(from)?;
            from = value as usize + 1;
            Some(value)
        })
    }
}

/// What each location may be given.
#[derive(Clone, Copy, Default)]
pub struct Stores {
    pub values: [Values; 16],
}

impl Stores {
    pub fn count(&self) -> u32 {
        self.values.iter().map(Values::count).sum()
    }
}

/// A thread's code made ready for searching: decoded, with what can be known from the code alone.
pub struct Plan {
    count: u8,
    instrs: [Instr; 16],
    stores_left: [u8; 17],
    /// The registers that may be read from each position on before they are written: bit r for r.
    read_later: [u8; 17],
    /// From each position on, the stores there if all have constant operands: (location, value).
    constant: [Option<Vec<(u8, u8)>>; 17],
}

impl Plan {
    pub fn new(code: &Code) -> Plan {
        let count = code.count as usize;
        let mut instrs = [Instr::Fence(Fence::Isb); 16];
        for (instr, instruction) in instrs.iter_mut().zip(&code.instructions[..count]) {
            *instr = decode(instruction);
        }
        let mut stores_left = [0; 17];
        let mut read_later = [0; 17];
        for index in (0..count).rev() {
            let target = match instrs[index] {
                Instr::Branch { skip, .. } => index + 1 + skip as usize,
                _ => index + 1,
            };
            let store = u8::from(matches!(instrs[index], Instr::Store { .. }));
            stores_left[index] = store + stores_left[index + 1].max(stores_left[target]);
            let (read, written) = registers(&instrs[index]);
            read_later[index] = read | (read_later[index + 1] | read_later[target]) & !written;
        }
        let constant = std::array::from_fn(|from| constant_stores(instrs.get(from..count).unwrap_or(&[])));
        Plan { count: code.count, instrs, stores_left, read_later, constant }
    }

    #[inline]
    pub fn count(&self) -> u8 {
        self.count
    }

    #[inline]
    pub fn instr(&self, position: u8) -> Instr {
        self.instrs[position as usize & 15]
    }

    /// The most stores that a run from the position can make; 0 at the end.
    #[inline]
    pub fn stores_left(&self, position: u8) -> u8 {
        self.stores_left[position as usize]
    }

    /// The thread with all registers 0 that it does not read again.
    #[inline]
    pub fn without_unread(&self, thread: &Thread) -> Thread {
        let mut next = *thread;
        for (number, register) in next.register.iter_mut().enumerate() {
            if self.read_later[thread.position as usize] >> number & 1 == 0 {
                *register = Register::default();
            }
        }
        next
    }

    /// The stores from the position on, if they are known from the code alone.
    #[inline]
    pub fn constant(&self, position: u8) -> Option<&[(u8, u8)]> {
        self.constant[position as usize].as_deref()
    }
}

/// The registers that an instruction reads and writes: bit r for r.
fn registers(instr: &Instr) -> (u8, u8) {
    let bit = |operand: Operand| match operand {
        Operand::Constant(_) => 0,
        Operand::Register(number) => 1 << number,
    };
    match *instr {
        Instr::Compute { into, left, right, .. } | Instr::Load { into, left, right, .. } => {
            (bit(left) | bit(right), 1 << into)
        }
        Instr::Store { address: left, data: right, .. } | Instr::Branch { left, right, .. } => {
            (bit(left) | bit(right), 0)
        }
        Instr::Fence(_) => (0, 0),
    }
}

/// The stores of the instructions, sorted, if all have constant operands.
fn constant_stores(instrs: &[Instr]) -> Option<Vec<(u8, u8)>> {
    let mut stores = Vec::new();
    for instr in instrs {
        match *instr {
            Instr::Store { address: Operand::Constant(location), data: Operand::Constant(value), .. } => {
                stores.push((location % 16, value));
            }
            Instr::Store { .. } => return None,
            _ => {}
        }
    }
    stores.sort();
    stores.dedup();
    Some(stores)
}

/// What is known of a thread on its way through the code.
struct Pass<'a> {
    memory: &'a Memory,
    register: [Values; 8],
    stores: Stores,
    /// Below this position the code may have been skipped, so old register values stay possible.
    doubtful_until: u8,
}

/// What the thread could store from its position on, views ignored.
pub fn possible_stores(plan: &Plan, thread: &Thread, memory: &Memory) -> Stores {
    let register = thread.register.map(|register| Values::one(register.value));
    let mut pass = Pass { memory, register, stores: Stores::default(), doubtful_until: 0 };
    let mut position = thread.position;
    while position < plan.count {
        position = pass.instruction(&plan.instr(position), position);
    }
    pass.stores
}

impl Pass<'_> {
    /// Takes one instruction in and gives the next position.
    fn instruction(&mut self, instr: &Instr, position: u8) -> u8 {
        match *instr {
            Instr::Compute { how, into, left, right } => {
                let values = self.computed(how, left, right);
                self.set(into, values, position);
            }
            Instr::Load { into, left, right, .. } => {
                let address = self.computed(0, left, right);
                let values = self.loaded(&address);
                self.set(into, values, position);
            }
            Instr::Store { address, data, .. } => {
                let values = self.operand(data);
                for address in self.operand(address).iter() {
                    self.stores.values[address as usize % 16].join(&values);
                }
            }
            Instr::Branch { skip, left, right } => return self.branch(skip, left, right, position),
            Instr::Fence(_) => {}
        }
        position + 1
    }

    #[inline]
    fn operand(&self, operand: Operand) -> Values {
        match operand {
            Operand::Constant(value) => Values::one(value),
            Operand::Register(number) => self.register[number as usize & 7],
        }
    }

    #[inline]
    fn set(&mut self, into: u8, values: Values, position: u8) {
        let register = &mut self.register[into as usize & 7];
        if position < self.doubtful_until {
            register.join(&values);
        } else {
            *register = values;
        }
    }

    /// All results; one register with itself gives one result but for sums.
    fn computed(&self, how: u8, left: Operand, right: Operand) -> Values {
        if left == right && how != 0 {
            return Values::one(computed(how, 0, 0));
        }
        let (lefts, rights) = (self.operand(left), self.operand(right));
        let mut values = Values::NONE;
        if left == right {
            lefts.iter().for_each(|value| values.insert(value.wrapping_add(value)));
            return values;
        }
        for left in lefts.iter() {
            rights.iter().for_each(|right| values.insert(computed(how, left, right)));
        }
        values
    }

    /// 0, what memory has at the addresses, and what the thread itself may have stored there.
    fn loaded(&self, addresses: &Values) -> Values {
        let mut locations = 0_u32;
        addresses.iter().for_each(|address| locations |= 1 << (address % 16));
        let mut values = Values::one(0);
        for index in 0..self.memory.count as usize {
            if locations >> self.memory.location[index] & 1 == 1 {
                values.insert(self.memory.value[index]);
            }
        }
        while locations != 0 {
            values.join(&self.stores.values[locations.trailing_zeros() as usize]);
            locations &= locations - 1;
        }
        values
    }

    /// A branch surely taken skips; one that may go either way leaves the skipped part doubtful.
    fn branch(&mut self, skip: u8, left: Operand, right: Operand, position: u8) -> u8 {
        let (lefts, rights) = (self.operand(left), self.operand(right));
        let surely = left == right || lefts.only().is_some() && lefts == rights;
        let meet = lefts.iter().any(|value| rights.next(value as usize) == Some(value));
        if surely && position >= self.doubtful_until {
            return position + 1 + skip;
        }
        if meet {
            self.doubtful_until = self.doubtful_until.max(position + 1 + skip);
        }
        position + 1
    }
}

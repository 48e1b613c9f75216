//! Program files: the program value, its reader (refusals 1 to 10) and its well-formedness.

pub const COMPUTE: u8 = 0;
pub const LOAD: u8 = 1;
pub const STORE: u8 = 2;
pub const BRANCH: u8 = 3;
pub const FENCE: u8 = 4;

/// The bytes op, m, r, k1, n1, k2 and n2, as the file has them.
pub type Instruction = [u8; 7];

/// One thread's instructions; unused entries are 0.
#[derive(Clone, Copy, PartialEq, Eq, Debug, Default)]
pub struct Code {
    pub count: u8,
    pub instructions: [Instruction; 16],
}

/// One condition of the question, as the file has it.
#[derive(Clone, Copy, PartialEq, Eq, Debug, Default)]
pub struct Condition {
    pub kind: u8,
    pub thread: u8,
    pub index: u8,
    pub value: u8,
}

#[derive(Clone, Copy, PartialEq, Eq, Debug, Default)]
pub struct Program {
    pub version: u8,
    pub threads: u8,
    pub code: [Code; 4],
    pub conditions: u8,
    pub condition: [Condition; 8],
}

/// A refused file: the number of the refusal and the place in the file.
#[derive(Clone, Copy, PartialEq, Eq, Debug)]
pub struct Refused {
    pub number: u8,
    pub place: usize,
}

fn refuse<T>(number: u8, place: usize) -> Result<T, Refused> {
    Err(Refused { number, place })
}

/// The file and how far it is read; nothing is read twice.
struct Reader<'a> {
    file: &'a [u8],
    at: usize,
}

impl Reader<'_> {
    /// The next record's body and its place. The record is refused at its mark: by 1 if the file is too
    /// short for it, else by 2 if the mark is another.
    fn record<const N: usize>(&mut self, mark: [u8; 2]) -> Result<([u8; N], usize), Refused> {
        let start = self.at;
        let end = start + 2 + N;
        if self.file.len() < end {
            return refuse(1, start);
        }
        if self.file[start..start + 2] != mark {
            return refuse(2, start);
        }
        self.at = end;
        let mut body = [0; N];
        body.copy_from_slice(&self.file[start + 2..end]);
        Ok((body, start + 2))
    }
}

/// The reader: first the header, then the threads, the question and nothing behind it.
pub fn read(file: &[u8]) -> Result<Program, Refused> {
    let mut reader = Reader { file, at: 0 };
    let mut program = Program::default();
    let ([version, threads], place) = reader.record([0x50, 0x47])?;
    if version != 1 {
        return refuse(3, place);
    }
    if !(1..=4).contains(&threads) {
        return refuse(4, place + 1);
    }
    program.version = version;
    program.threads = threads;
    let mut stores = 0;
    for number in 0..threads {
        program.code[number as usize] = read_thread(&mut reader, number, &mut stores)?;
    }
    read_question(&mut reader, &mut program)?;
    if reader.at < file.len() {
        return refuse(9, reader.at);
    }
    Ok(program)
}

/// A thread, which must be the next, with its instructions; `stores` counts those of the whole file.
fn read_thread(reader: &mut Reader, next: u8, stores: &mut u8) -> Result<Code, Refused> {
    let ([number, count], place) = reader.record([0x54, 0x48])?;
    if number != next {
        return refuse(10, place);
    }
    if count > 16 {
        return refuse(5, place + 1);
    }
    let mut code = Code { count, ..Code::default() };
    for index in 0..count {
        let (instruction, place) = reader.record([0x49, 0x4E])?;
        if let Some(byte) = offending_byte(&instruction, count - 1 - index) {
            return refuse(6, place + byte);
        }
        *stores += u8::from(instruction[0] == STORE);
        if *stores > 16 {
            return refuse(7, place);
        }
        code.instructions[index as usize] = instruction;
    }
    Ok(code)
}

/// The question: the number of its conditions, then each of them.
fn read_question(reader: &mut Reader, program: &mut Program) -> Result<(), Refused> {
    let ([count], place) = reader.record([0x51, 0x55])?;
    if count > 8 {
        return refuse(8, place);
    }
    program.conditions = count;
    for index in 0..count {
        let (body, place) = reader.record([0x43, 0x4E])?;
        if let Some(byte) = offending_condition_byte(&body, program.threads) {
            return refuse(8, place + byte);
        }
        let [kind, thread, index_in, value] = body;
        program.condition[index as usize] = Condition { kind, thread, index: index_in, value };
    }
    Ok(())
}

/// The first byte that is larger than it may be, if one is; `after` instructions follow, and a branch
/// can pass over no more than these.
fn offending_byte(instruction: &Instruction, after: u8) -> Option<usize> {
    let [op, _, _, k1, _, k2, _] = *instruction;
    let most_m = match op {
        COMPUTE | FENCE => 3,
        LOAD => 2,
        STORE => 1,
        BRANCH => after.min(15),
        _ => return Some(0),
    };
    let most_r = if op == COMPUTE || op == LOAD { 7 } else { 0 };
    let (most_k, constant) = if op == FENCE { (0, 0) } else { (1, 255) };
    let most_n = |k: u8| if k == 1 { 7 } else { constant };
    let most = [4, most_m, most_r, most_k, most_n(k1), most_k, most_n(k2)];
    (0..7).find(|&byte| instruction[byte] > most[byte])
}

/// The same of a condition: kind 0 is about a register of a thread, kind 1 about a location.
fn offending_condition_byte(condition: &[u8; 4], threads: u8) -> Option<usize> {
    let most = match condition[0] {
        0 => [1, threads - 1, 7, 255],
        _ => [1, 0, 15, 255],
    };
    (0..4).find(|&byte| condition[byte] > most[byte])
}

/// Whether a file can be read as this program, of which all that is not used is 0.
pub fn well_formed(program: &Program) -> bool {
    program.version == 1
        && (1..=4).contains(&program.threads)
        && (0..4).all(|number| code_well_formed(&program.code[number], number < program.threads as usize))
        && program.code.iter().map(stores).sum::<usize>() <= 16
        && program.conditions <= 8
        && (0..8).all(|index| condition_well_formed(program, index))
}

fn code_well_formed(code: &Code, used: bool) -> bool {
    let formed = |index: u8| {
        let instruction = &code.instructions[index as usize];
        if index < code.count {
            offending_byte(instruction, code.count - 1 - index).is_none()
        } else {
            *instruction == [0; 7]
        }
    };
    code.count <= if used { 16 } else { 0 } && (0..16).all(formed)
}

fn stores(code: &Code) -> usize {
    code.instructions.iter().filter(|instruction| instruction[0] == STORE).count()
}

fn condition_well_formed(program: &Program, index: usize) -> bool {
    let Condition { kind, thread, index: place, value } = program.condition[index];
    if index < program.conditions as usize {
        offending_condition_byte(&[kind, thread, place, value], program.threads).is_none()
    } else {
        program.condition[index] == Condition::default()
    }
}

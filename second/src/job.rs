//! The job file: what it holds, and how it is refused.

use std::ops::RangeInclusive;

/// Why a job is not accepted, and where.
#[derive(Clone, Copy, Debug, PartialEq, Eq)]
pub struct Refusal {
    pub number: u8,
    pub offset: usize,
}

impl Refusal {
    /// The four answer words that all public jobs share for a refusal.
    pub fn words(self) -> [u64; 4] {
        [0, u64::from(self.number), self.offset as u64, 0]
    }
}

#[derive(Clone, Copy, Debug, PartialEq, Eq)]
pub enum Model {
    Sc,
    Tso,
    Pso,
}

/// Of a register, a variable or a pending store; how many there are, the version's width says.
pub type Value = u16;

/// Registers, variables and places are kept as indices.
#[derive(Clone, Copy, Debug, PartialEq, Eq)]
pub enum Instruction {
    Set {
        register: usize,
        value: Value,
    },
    Add {
        register: usize,
        value: Value,
    },
    Load {
        register: usize,
        variable: usize,
    },
    StoreRegister {
        register: usize,
        variable: usize,
    },
    StoreConstant {
        variable: usize,
        value: Value,
    },
    Fence,
    Exchange {
        register: usize,
        variable: usize,
    },
    /// CMPX.
    CompareExchange {
        register: usize,
        variable: usize,
        value: Value,
    },
    /// WFENCE, which keeps stores apart from later stores.
    StoreFence,
    JumpIfEqual {
        register: usize,
        target: usize,
        value: Value,
    },
    Jump {
        target: usize,
    },
}

#[derive(Clone, Copy, Debug, PartialEq, Eq)]
pub enum Clause {
    Place {
        thread: usize,
        place: usize,
    },
    Register {
        thread: usize,
        register: usize,
        value: Value,
    },
    Memory {
        variable: usize,
        value: Value,
    },
}

#[derive(Clone, Debug, PartialEq, Eq)]
pub struct Goal {
    pub buffers_empty: bool,
    pub clauses: Vec<Clause>,
}

#[derive(Clone, Debug, PartialEq, Eq)]
pub struct Job {
    /// It decides which operations a file may have and how wide its values are, and nothing else.
    pub version: u8,
    pub model: Model,
    pub capacity: usize,
    /// One entry a variable, so its length is V.
    pub initial: Vec<Value>,
    /// One entry a thread, so its length is T.
    pub programs: Vec<Vec<Instruction>>,
    pub goal: Goal,
}

impl Job {
    pub fn width(&self) -> Width {
        width(self.version)
    }
}

/// Of job files. This is the only place that says it: any other version is refused.
pub const VERSIONS: RangeInclusive<u8> = 1..=3;

/// The operation numbers that have a meaning in a file of this version.
pub fn operations(version: u8) -> RangeInclusive<u8> {
    match version {
        1 => 1..=9,
        // Request 7 brought CMPX and WFENCE.
        _ => 1..=11,
    }
}

/// How wide the values of a version are. This is the only place that says it: a byte that is no version has the width of version 1.
pub const fn width(version: u8) -> Width {
    match version {
        // Request 10 brought flag words of sixteen bits.
        3 => Width { bytes: 2 },
        _ => Width { bytes: 1 },
    }
}

/// What hangs on how many bytes a value has in a file.
#[derive(Clone, Copy, Debug, PartialEq, Eq)]
pub struct Width {
    bytes: usize,
}

impl Width {
    /// Of a value.
    pub const fn bytes(self) -> usize {
        self.bytes
    }

    /// How many values there are: 256 or 65,536.
    pub const fn values(self) -> u32 {
        1 << (8 * self.bytes)
    }

    /// Of an instruction, and of a clause: op or kind, two operands and a value.
    pub const fn item_bytes(self) -> usize {
        3 + self.bytes
    }

    /// All counts at their most: head, initial values, n and instructions of each thread, flag and K, clauses.
    pub const fn longest_file(self) -> usize {
        HEAD_BYTES
            + MOST_VARIABLES * self.bytes
            + MOST_THREADS * (1 + self.item_bytes() * MOST_INSTRUCTIONS)
            + 2
            + self.item_bytes() * MOST_CLAUSES
    }

    /// What ADD leaves.
    pub fn sum(self, augend: Value, addend: Value) -> Value {
        ((u32::from(augend) + u32::from(addend)) % self.values()) as Value
    }

    /// A value as it stands in a file, the high byte first.
    pub fn in_file(self, value: Value) -> Vec<u8> {
        let bytes = value.to_be_bytes();
        bytes[bytes.len() - self.bytes..].to_vec()
    }

    /// The value that stands there.
    pub fn from_file(self, bytes: &[u8]) -> Value {
        let digits = bytes.iter();
        digits.fold(0, |value, &byte| value << 8 | Value::from(byte))
    }
}

/// An instruction or a clause before it is judged: op or kind, two operands, and k.
#[derive(Clone, Copy, Debug, PartialEq, Eq)]
pub struct Item {
    pub first: u8,
    pub a: u8,
    pub b: u8,
    pub k: Value,
}

pub const fn item(first: u8, a: u8, b: u8, k: Value) -> Item {
    Item { first, a, b, k }
}

impl Item {
    pub fn in_file(self, width: Width) -> Vec<u8> {
        [&[self.first, self.a, self.b][..], &width.in_file(self.k)].concat()
    }

    pub fn from_file(bytes: &[u8], width: Width) -> Item {
        item(bytes[0], bytes[1], bytes[2], width.from_file(&bytes[3..]))
    }
}

/// Where a value has one byte.
impl From<[u8; 4]> for Item {
    fn from([first, a, b, k]: [u8; 4]) -> Item {
        item(first, a, b, k.into())
    }
}

/// Of one thread. This is the only place that says it: the longest file, the cases and the random jobs follow.
pub const MOST_INSTRUCTIONS: usize = 64;
const MOST_THREADS: usize = 4;
const MOST_VARIABLES: usize = 8;
/// A goal of no clause names no state that must not happen.
const LEAST_CLAUSES: usize = 1;
const MOST_CLAUSES: usize = 16;
const REGISTERS: usize = 4;

/// Length, version, model, C, T and V.
const HEAD_BYTES: usize = 7;

/// Of any version: the last has the widest values.
pub const LONGEST_FILE: usize = longest_file(*VERSIONS.end());

/// With this version byte.
pub const fn longest_file(version: u8) -> usize {
    width(version).longest_file()
}

/// Reads a job file from the front; the first fault wins.
pub fn decode(job: &[u8]) -> Result<Job, Refusal> {
    check_length(job)?;
    let mut reader = Reader { bytes: job, at: 2 };
    let version = reader.ranged_byte(2, |version| VERSIONS.contains(&version))?;
    let model = read_model(&mut reader)?;
    // The allowed capacities depend on the model, so the model is read before.
    let capacity = reader.ranged_byte(3, |c| capacity_fits(model, c))?;
    let threads = reader.ranged_count(3, 1..=MOST_THREADS)?;
    let variables = reader.ranged_count(3, 1..=MOST_VARIABLES)?;
    let mut initial = Vec::new();
    for _ in 0..variables {
        // Each value is a field of its own, so one that is not wholly there is refused where it begins.
        initial.push(reader.value(width(version))?);
    }
    let mut programs = Vec::new();
    for _ in 0..threads {
        programs.push(read_program(&mut reader, version, variables)?);
    }
    let goal = read_goal(&mut reader, version, &programs, variables)?;
    reader.finish()?;
    Ok(Job {
        version,
        model,
        capacity: usize::from(capacity),
        initial,
        programs,
        goal,
    })
}

fn check_length(job: &[u8]) -> Result<(), Refusal> {
    // How long a file may be hangs on its version byte, whether or not that is a version.
    let size_fits = (job.get(2)).map_or(false, |&version| job.len() <= longest_file(version));
    // The size is judged before the length field is looked at, so indexing is safe.
    if size_fits && usize::from(u16::from_be_bytes([job[0], job[1]])) == job.len() - 2 {
        Ok(())
    } else {
        Err(Refusal {
            number: 1,
            offset: 0,
        })
    }
}

fn read_model(reader: &mut Reader) -> Result<Model, Refusal> {
    let (offset, bytes) = reader.item(1)?;
    match bytes[0] {
        0 => Ok(Model::Sc),
        1 => Ok(Model::Tso),
        2 => Ok(Model::Pso),
        3..=255 => Err(Refusal { number: 3, offset }),
    }
}

fn capacity_fits(model: Model, capacity: u8) -> bool {
    match model {
        Model::Sc => capacity == 0,
        Model::Tso | Model::Pso => (1..=8).contains(&capacity),
    }
}

fn read_program(
    reader: &mut Reader,
    version: u8,
    variables: usize,
) -> Result<Vec<Instruction>, Refusal> {
    let length = reader.ranged_count(4, 0..=MOST_INSTRUCTIONS)?;
    let mut program = Vec::new();
    for _ in 0..length {
        let (offset, item) = reader.instruction_or_clause(width(version))?;
        let has_meaning = operations(version).contains(&item.first);
        let instruction = instruction_from(item, variables, length).filter(|_| has_meaning);
        program.push(instruction.ok_or(Refusal { number: 4, offset })?);
    }
    Ok(program)
}

/// The instruction that this means in some version, or nothing if it means none in any.
fn instruction_from(item: Item, variables: usize, length: usize) -> Option<Instruction> {
    let Item { first, a, b, k } = item;
    let register = || index_below(a, REGISTERS);
    let variable = || index_below(b, variables);
    // A jump may go to the end, which is one past the last instruction.
    let target = || index_below(b, length + 1);
    match first {
        1 => zero(b)
            .and(register())
            .map(|register| Instruction::Set { register, value: k }),
        2 => zero(b)
            .and(register())
            .map(|register| Instruction::Add { register, value: k }),
        3 => {
            zero(k)?;
            Some(Instruction::Load {
                register: register()?,
                variable: variable()?,
            })
        }
        4 => {
            zero(k)?;
            Some(Instruction::StoreRegister {
                register: register()?,
                variable: variable()?,
            })
        }
        5 => zero(a)
            .and(variable())
            .map(|variable| Instruction::StoreConstant { variable, value: k }),
        6 => zero(a)
            .and(zero(b))
            .and(zero(k))
            .map(|()| Instruction::Fence),
        7 => {
            zero(k)?;
            Some(Instruction::Exchange {
                register: register()?,
                variable: variable()?,
            })
        }
        8 => Some(Instruction::JumpIfEqual {
            register: register()?,
            target: target()?,
            value: k,
        }),
        9 => zero(a)
            .and(zero(k))
            .and(target())
            .map(|target| Instruction::Jump { target }),
        10 => Some(Instruction::CompareExchange {
            register: register()?,
            variable: variable()?,
            value: k,
        }),
        11 => zero(a)
            .and(zero(b))
            .and(zero(k))
            .map(|()| Instruction::StoreFence),
        0 | 12..=255 => None,
    }
}

fn read_goal(
    reader: &mut Reader,
    version: u8,
    programs: &[Vec<Instruction>],
    variables: usize,
) -> Result<Goal, Refusal> {
    let flag = reader.ranged_byte(5, |flag| flag <= 1)?;
    let count = reader.ranged_count(5, LEAST_CLAUSES..=MOST_CLAUSES)?;
    let mut clauses = Vec::new();
    for _ in 0..count {
        let (offset, item) = reader.instruction_or_clause(width(version))?;
        let clause = clause_from(item, programs, variables);
        clauses.push(clause.ok_or(Refusal { number: 5, offset })?);
    }
    Ok(Goal {
        buffers_empty: flag == 1,
        clauses,
    })
}

/// The clause that this means, or nothing if it means none.
fn clause_from(item: Item, programs: &[Vec<Instruction>], variables: usize) -> Option<Clause> {
    let Item { first, a, b, k } = item;
    match first {
        1 => {
            zero(b)?;
            let thread = index_below(a, programs.len())?;
            // The end of a program is a place too.
            let place = index_below(k, programs[thread].len() + 1)?;
            Some(Clause::Place { thread, place })
        }
        2 => {
            let thread = index_below(a, programs.len())?;
            let register = index_below(b, REGISTERS)?;
            Some(Clause::Register {
                thread,
                register,
                value: k,
            })
        }
        3 => {
            zero(b)?;
            let variable = index_below(a, variables)?;
            Some(Clause::Memory { variable, value: k })
        }
        0 | 4..=255 => None,
    }
}

fn zero(operand: impl Into<Value>) -> Option<()> {
    (operand.into() == 0).then_some(())
}

fn index_below(operand: impl Into<usize>, bound: usize) -> Option<usize> {
    let index = operand.into();
    (index < bound).then_some(index)
}

/// Hands out the items of a file in order and remembers where each one begins.
struct Reader<'a> {
    bytes: &'a [u8],
    at: usize,
}

impl Reader<'_> {
    /// The next item of `count` bytes with its offset, or refusal 6 if it isn't wholly there.
    fn item(&mut self, count: usize) -> Result<(usize, &[u8]), Refusal> {
        let offset = self.at;
        let bytes = self.bytes.get(offset..offset + count);
        let bytes = bytes.ok_or(Refusal { number: 6, offset })?;
        self.at += count;
        Ok((offset, bytes))
    }

    /// The next one-byte field, or refusal `number` at it when its value is not allowed.
    fn ranged_byte(&mut self, number: u8, allowed: impl Fn(u8) -> bool) -> Result<u8, Refusal> {
        let (offset, bytes) = self.item(1)?;
        let byte = bytes[0];
        if allowed(byte) {
            Ok(byte)
        } else {
            Err(Refusal { number, offset })
        }
    }

    /// The next one-byte field as a count of something.
    fn ranged_count(
        &mut self,
        number: u8,
        allowed: RangeInclusive<usize>,
    ) -> Result<usize, Refusal> {
        let count = self.ranged_byte(number, |byte| allowed.contains(&usize::from(byte)))?;
        Ok(usize::from(count))
    }

    /// The next field that holds a value; every value is allowed.
    fn value(&mut self, width: Width) -> Result<Value, Refusal> {
        let (_, bytes) = self.item(width.bytes())?;
        Ok(width.from_file(bytes))
    }

    /// The next instruction or clause with its offset.
    fn instruction_or_clause(&mut self, width: Width) -> Result<(usize, Item), Refusal> {
        let (offset, bytes) = self.item(width.item_bytes())?;
        Ok((offset, Item::from_file(bytes, width)))
    }

    /// Bytes after the last item are a fault of their own.
    fn finish(&self) -> Result<(), Refusal> {
        if self.at == self.bytes.len() {
            Ok(())
        } else {
            Err(Refusal {
                number: 6,
                offset: self.at,
            })
        }
    }
}

//! The jobs of the bench list, and what job files are put together with.

use crate::job::{width, Item, Value, LONGEST_FILE, MOST_INSTRUCTIONS};
use std::slice;

/// P1 of the bench list, store buffering.
pub const P1: [u8; 45] = [
    0x00, 0x2B, 0x01, 0x01, 0x01, 0x02, 0x02, 0x00, 0x00, 0x02, 0x05, 0x00, 0x00, 0x01, 0x03, 0x00,
    0x01, 0x00, 0x02, 0x05, 0x00, 0x01, 0x01, 0x03, 0x00, 0x00, 0x00, 0x00, 0x04, 0x01, 0x00, 0x00,
    0x02, 0x01, 0x01, 0x00, 0x02, 0x02, 0x00, 0x00, 0x00, 0x02, 0x01, 0x00, 0x00,
];

/// The room for a job in the programs under test; a longer one would end their run.
pub const ROOM_FOR_JOB: usize = 2 * LONGEST_FILE;

/// Where a thread of the most instructions has ended, as jumps and clauses name it.
pub const FURTHEST_PLACE: u8 = MOST_INSTRUCTIONS as u8;

/// Model and C.
pub type Memory = [u8; 2];
pub type Program = Vec<[u8; 4]>;

pub const SC: Memory = [0, 0];
pub const TSO: u8 = 1;
pub const PSO: u8 = 2;

/// Each model, with capacities at both ends of their range and between.
pub const MEMORIES: [Memory; 6] = [SC, [TSO, 1], [TSO, 2], [PSO, 1], [PSO, 2], [PSO, 8]];

/// Each model, with each capacity where there are buffers.
pub fn every_memory() -> Vec<Memory> {
    let buffered = [TSO, PSO].into_iter();
    let buffered = buffered.flat_map(|model| (1..=8).map(move |capacity| [model, capacity]));
    [SC].into_iter().chain(buffered).collect()
}

/// The clause that thread 0 is at place 0: every job may ask for it, and it holds at the start.
pub const AT_THE_START: [u8; 4] = [1, 0, 0, 0];

/// A step of long threads: counts in a register that they use for nothing else.
pub const COUNT: [u8; 4] = [2, 1, 0, 1];

/// A job file of version 1 whose counts and length field are right.
pub fn file(
    memory: Memory,
    initial: &[u8],
    programs: &[Program],
    flag: u8,
    clauses: &[[u8; 4]],
) -> Vec<u8> {
    let items = |quads: &[[u8; 4]]| quads.iter().map(|&quad| quad.into()).collect();
    let parts = Parts {
        version: 1,
        memory,
        initial: initial.iter().map(|&value| value.into()).collect(),
        programs: programs.iter().map(|program| items(program)).collect(),
        flag,
        clauses: items(clauses),
    };
    parts.file()
}

/// A job file taken apart, so that a part can be exchanged.
#[derive(Clone, Debug, PartialEq, Eq)]
pub struct Parts {
    pub version: u8,
    pub memory: Memory,
    pub initial: Vec<Value>,
    pub programs: Vec<Vec<Item>>,
    pub flag: u8,
    pub clauses: Vec<Item>,
}

impl Parts {
    /// Of a file that is accepted.
    pub fn of(job: &[u8]) -> Parts {
        let width = width(job[2]);
        let mut rest = &job[7..];
        let initial = pieces(&mut rest, job[6], width.bytes());
        let items = |rest: &mut &[u8]| -> Vec<Item> {
            let count = pieces(rest, 1, 1)[0][0];
            let items = pieces(rest, count, width.item_bytes()).into_iter();
            items.map(|item| Item::from_file(item, width)).collect()
        };
        let programs = (0..job[5]).map(|_| items(&mut rest)).collect();
        let flag = pieces(&mut rest, 1, 1)[0][0];
        let initial = initial.into_iter();
        Parts {
            version: job[2],
            memory: [job[3], job[4]],
            initial: initial.map(|value| width.from_file(value)).collect(),
            programs,
            flag,
            clauses: items(&mut rest),
        }
    }

    /// Counts and length field are right.
    pub fn file(&self) -> Vec<u8> {
        let width = width(self.version);
        let in_file = |items: &[Item]| -> Vec<u8> {
            let bytes = items.iter().flat_map(|item| item.in_file(width));
            bytes.collect()
        };
        let mut bytes = vec![0, 0, self.version];
        bytes.extend(self.memory);
        bytes.extend([self.programs.len() as u8, self.initial.len() as u8]);
        bytes.extend(self.initial.iter().flat_map(|&value| width.in_file(value)));
        for program in &self.programs {
            bytes.push(program.len() as u8);
            bytes.extend(in_file(program));
        }
        bytes.extend([self.flag, self.clauses.len() as u8]);
        bytes.extend(in_file(&self.clauses));
        settled(bytes)
    }
}

/// Takes so many pieces of so many bytes from the front.
fn pieces<'a>(rest: &mut &'a [u8], count: u8, bytes: usize) -> Vec<&'a [u8]> {
    let (front, behind) = rest.split_at(usize::from(count) * bytes);
    *rest = behind;
    front.chunks_exact(bytes).collect()
}

/// The same bytes with a right length field, if there is room for one.
pub fn settled(mut bytes: Vec<u8>) -> Vec<u8> {
    if let Some(follow) = bytes.len().checked_sub(2) {
        bytes[..2].copy_from_slice(&(follow as u16).to_be_bytes());
    }
    bytes
}

/// The same bytes with one of them set.
pub fn with_byte(bytes: &[u8], at: usize, value: u8) -> Vec<u8> {
    let mut changed = bytes.to_vec();
    changed[at] = value;
    changed
}

/// The same bytes with another version byte; where values are as wide, the numbers that say how long things are stay right.
pub fn in_version(job: &[u8], version: u8) -> Vec<u8> {
    with_byte(job, 2, version)
}

/// A job that is accepted, written in a version of another width.
pub fn rewritten(job: &[u8], version: u8) -> Vec<u8> {
    let parts = Parts {
        version,
        ..Parts::of(job)
    };
    parts.file()
}

/// The same job under another model and capacity.
pub fn under(job: &[u8], memory: Memory) -> Vec<u8> {
    [&job[..3], &memory, &job[5..]].concat()
}

/// P1's threads under this model, with these bytes for a goal: its flag stands at 27 and K at 28.
fn p1_with_goal(memory: Memory, goal: &[u8]) -> Vec<u8> {
    settled([&P1[..3], &memory, &P1[5..27], goal].concat())
}

/// The jobs of P1 to P12, in that order: those that are accepted, and P12 with either flag.
pub fn bench_list() -> Vec<Vec<u8>> {
    let mut jobs = accepted_list();
    jobs.extend(p12());
    jobs
}

/// P12 with flag 0 and with flag 1: its goal is blank, and so it is refused.
pub fn p12() -> [Vec<u8>; 2] {
    [0, 1].map(|flag| p1_with_goal([TSO, 1], &[flag, 0]))
}

/// Number and offset of P12's refusal.
pub const P12_REFUSAL: [u64; 2] = [5, 28];

/// The jobs of P1 to P11, in that order; P11 speaks of no job of its own and takes P10's.
pub fn accepted_list() -> Vec<Vec<u8>> {
    let p2 = under(&P1, SC);
    let p3 = with_byte(&P1, 27, 1);
    vec![
        P1.to_vec(),
        p2,
        p3,
        own_store(),
        wrapping_add(),
        message_passing([PSO, 2]),
        message_passing([PSO, 1]),
        message_passing([TSO, 2]),
        fenced_store_buffering(),
        two_stores(),
        two_stores(),
    ]
}

fn own_store() -> Vec<u8> {
    let program = vec![[5, 0, 0, 1], [3, 0, 0, 0]];
    let goal = [[1, 0, 0, 2], [2, 0, 0, 0]];
    file([TSO, 1], &[0], &[program], 0, &goal)
}

fn wrapping_add() -> Vec<u8> {
    let program = vec![[1, 0, 0, 255], [2, 0, 0, 1]];
    file(SC, &[0], &[program], 0, &[[1, 0, 0, 2], [2, 0, 0, 0]])
}

/// P6 to P8, which differ in model and C.
fn message_passing(memory: Memory) -> Vec<u8> {
    let writer = vec![[5, 0, 0, 1], [5, 0, 1, 1]];
    let reader = vec![[3, 0, 1, 0], [3, 1, 0, 0]];
    let goal = [[1, 1, 0, 2], [2, 1, 0, 1], [2, 1, 1, 0]];
    file(memory, &[0, 0], &[writer, reader], 0, &goal)
}

fn fenced_store_buffering() -> Vec<u8> {
    let first = vec![[5, 0, 0, 1], [6, 0, 0, 0], [3, 0, 1, 0]];
    let second = vec![[5, 0, 1, 1], [6, 0, 0, 0], [3, 0, 0, 0]];
    let goal = [[1, 0, 0, 3], [1, 1, 0, 3], [2, 0, 0, 0], [2, 1, 0, 0]];
    file([TSO, 1], &[0, 0], &[first, second], 0, &goal)
}

fn two_stores() -> Vec<u8> {
    let program = vec![[5, 0, 0, 1], [5, 0, 0, 2]];
    file([TSO, 1], &[0], &[program], 0, &[AT_THE_START])
}

/// Jobs of few states whose goals lie some steps away, where they can be reached.
pub fn classics(memory: Memory) -> [Vec<u8>; 5] {
    [
        message_passing(memory),
        load_buffering(memory),
        exchanges(memory),
        own_loads(memory),
        seen_by_two_readers(memory),
    ]
}

/// Each thread loads what the other stores later: no model here lets both see it.
fn load_buffering(memory: Memory) -> Vec<u8> {
    let first = vec![[3, 0, 0, 0], [5, 0, 1, 1]];
    let second = vec![[3, 0, 1, 0], [5, 0, 0, 1]];
    let goal = [[2, 0, 0, 1], [2, 1, 0, 1]];
    file(memory, &[0, 0], &[first, second], 0, &goal)
}

/// Two threads that take turns by an exchange in a loop, and count in registers that wrap.
fn exchanges(memory: Memory) -> Vec<u8> {
    let thread = vec![
        [1, 0, 0, 1],
        [7, 0, 0, 0],
        [8, 0, 1, 1],
        [2, 1, 0, 255],
        [5, 0, 0, 0],
    ];
    let goal = [[1, 0, 0, 5], [1, 1, 0, 5], [3, 0, 0, 0]];
    file(memory, &[0], &[thread.clone(), thread], 1, &goal)
}

/// Three stores of one thread to two variables, and loads that have to take the newest of them.
fn own_loads(memory: Memory) -> Vec<u8> {
    let writer = vec![
        [5, 0, 0, 1],
        [5, 0, 1, 2],
        [1, 2, 0, 3],
        [4, 2, 0, 0],
        [3, 0, 0, 0],
        [3, 1, 1, 0],
        [6, 0, 0, 0],
    ];
    let goal = [[2, 0, 0, 3], [2, 0, 1, 2], [3, 0, 0, 1]];
    file(memory, &[0, 0], &[writer], 0, &goal)
}

/// Two writers and two readers: four threads at work at once make wide levels.
fn seen_by_two_readers(memory: Memory) -> Vec<u8> {
    let programs = [
        vec![[5, 0, 0, 1]],
        vec![[5, 0, 1, 1]],
        vec![[3, 0, 0, 0], [3, 1, 1, 0]],
        vec![[3, 0, 1, 0], [3, 1, 0, 0]],
    ];
    let goal = [[2, 2, 0, 1], [2, 2, 1, 0], [2, 3, 0, 1], [1, 3, 0, 2]];
    file(memory, &[0, 0], &programs, 0, &goal)
}

/// A job, and the number and offset that it is refused by.
pub type Refused = (Vec<u8>, [u64; 2]);

/// A job for each way to be refused by a number from 1 to 6, but for blank goals.
pub fn refused_jobs() -> Vec<Refused> {
    let longer = [&at_the_limit()[..], &[0]].concat();
    vec![
        (vec![], [1, 0]),
        // No version, and none that a later request brings.
        (vec![0, 1, 0], [2, 2]),
        (vec![0, 1, 1], [6, 3]),
        (with_byte(&P1, 3, 3), [3, 3]),
        (with_byte(&P1, 10, 10), [4, 10]),
        (with_byte(&P1, 27, 2), [5, 27]),
        // A clause more than there is, and one less.
        (with_byte(&P1, 28, 5), [6, 45]),
        (with_byte(&P1, 28, 3), [6, 41]),
        (with_byte(&P1, 41, 4), [5, 41]),
        (with_clauses([TSO, 1], 17), [5, 28]),
        (longer, [1, 0]),
    ]
}

/// A thread one instruction too long as the first, second and fourth, in a whole file and in files that end early.
pub fn too_long_threads() -> Vec<Refused> {
    let fence = [6, 0, 0, 0];
    let long = vec![fence; MOST_INSTRUCTIONS];
    let too_long = vec![fence; MOST_INSTRUCTIONS + 1];
    let middle = vec![fence; 51];
    let job = |programs: &[Program]| file([TSO, 1], &[0], programs, 0, &[AT_THE_START]);
    let first = job(slice::from_ref(&too_long));
    // Head and value take 8 bytes, so the first n stands there; a thread has its n, and four bytes an instruction.
    let size = |program: &Program| 1 + 4 * program.len() as u64;
    let cut = |count: usize| settled(first[..count].to_vec());
    vec![
        (first.clone(), [4, 8]),
        (job(&[long.clone(), too_long.clone()]), [4, 8 + size(&long)]),
        (
            job(&[vec![], long.clone(), middle.clone(), too_long]),
            [4, 8 + 1 + size(&long) + size(&middle)],
        ),
        // What n holds is judged before what is missing behind it.
        (cut(9), [4, 8]),
        (cut(first.len() - 9), [4, 8]),
        (cut(8), [6, 8]),
    ]
}

/// Each model once.
const MODELS: [Memory; 3] = [SC, [TSO, 1], [PSO, 2]];

/// K = 0 under each model, alone and with faults before it and behind it: the first one wins.
pub fn blank_goals() -> Vec<Refused> {
    let mut jobs = Vec::new();
    for memory in MODELS {
        let goal = |bytes: &[u8]| p1_with_goal(memory, bytes);
        let blank = goal(&[0, 0]);
        jobs.extend([
            (blank.clone(), [5, 28]),
            (goal(&[1, 0]), [5, 28]),
            // The flag is judged before K.
            (goal(&[2, 0]), [5, 27]),
            (goal(&[255, 0]), [5, 27]),
            // Whether K is there comes before what it holds.
            (goal(&[]), [6, 27]),
            (goal(&[0]), [6, 28]),
            (goal(&[1]), [6, 28]),
            (goal(&[2]), [5, 27]),
            // Clauses that K doesn't count would be left over, which comes last.
            (goal(&[0, 0, 1, 0, 0, 0]), [5, 28]),
            (goal(&[1, 0, 1, 0, 0, 0]), [5, 28]),
            (goal(&[0, 0, 0]), [5, 28]),
            // Faults further in front.
            (with_byte(&blank, 1, 26), [1, 0]),
            (with_byte(&blank, 2, 4), [2, 2]),
            (with_byte(&blank, 5, 0), [3, 5]),
            (with_byte(&blank, 10, 10), [4, 10]),
            (with_byte(&blank, 23, 0), [4, 23]),
        ]);
    }
    jobs
}

/// K at both ends of its range, under each model.
pub fn fewest_and_most_clauses() -> Vec<Vec<u8>> {
    let jobs = MODELS
        .iter()
        .flat_map(|&memory| [1, 16].map(|count| with_clauses(memory, count)));
    jobs.collect()
}

/// P1's threads with so many clauses, which all hold at the start.
fn with_clauses(memory: Memory, count: u8) -> Vec<u8> {
    let clauses = AT_THE_START.repeat(usize::from(count));
    p1_with_goal(memory, &[&[0, count][..], &clauses].concat())
}

/// A job at every limit: 4 threads of the most instructions, 8 variables and 16 clauses.
pub fn at_the_limit() -> Vec<u8> {
    let programs: Vec<Program> = (0..4).map(long_program).collect();
    let clauses: Vec<[u8; 4]> = (0..16).map(limit_clause).collect();
    file(
        [PSO, 8],
        &[0, 1, 2, 3, 4, 5, 6, 255],
        &programs,
        1,
        &clauses,
    )
}

/// The most instructions, of all nine operations of version 1, with operands at their last values.
fn long_program(thread: u8) -> Program {
    (0..FURTHEST_PLACE)
        .map(|place| limit_instruction(thread + place))
        .collect()
}

pub(crate) fn limit_instruction(turn: u8) -> [u8; 4] {
    match turn % 9 {
        0 => [1, 3, 0, 255],
        1 => [2, 3, 0, 255],
        2 => [3, 3, 7, 0],
        3 => [4, 3, 7, 0],
        4 => [5, 0, 7, 255],
        5 => [6, 0, 0, 0],
        6 => [7, 3, 7, 0],
        7 => [8, 3, FURTHEST_PLACE, 255],
        8 => [9, 0, FURTHEST_PLACE, 0],
        9..=255 => unreachable!("a remainder by 9 is below 9"),
    }
}

pub(crate) fn limit_clause(turn: u8) -> [u8; 4] {
    match turn % 3 {
        0 => [1, 3, 0, FURTHEST_PLACE],
        1 => [2, 3, 3, 255],
        2 => [3, 7, 0, 255],
        3..=255 => unreachable!("a remainder by 3 is below 3"),
    }
}

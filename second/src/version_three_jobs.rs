//! Jobs of version 3, which request 10 brought: those that hang on values of two bytes, and those that are refused.

use crate::job::{item, longest_file, Item, Value, MOST_INSTRUCTIONS};
use crate::listed::{
    in_version, rewritten, settled, with_byte, Memory, Parts, Refused, P1, PSO, SC, TSO,
};
use crate::version_two_jobs::at_the_limit_of_two;
use std::slice;

pub const VERSION: u8 = 3;

// ---- instructions and clauses ----

pub const fn set(register: u8, k: Value) -> Item {
    item(1, register, 0, k)
}

pub const fn add(register: u8, k: Value) -> Item {
    item(2, register, 0, k)
}

pub const fn load(register: u8, variable: u8) -> Item {
    item(3, register, variable, 0)
}

pub const fn store(register: u8, variable: u8) -> Item {
    item(4, register, variable, 0)
}

/// STOREK.
pub const fn put(variable: u8, k: Value) -> Item {
    item(5, 0, variable, k)
}

pub const FENCE: Item = item(6, 0, 0, 0);

pub const fn exchange(register: u8, variable: u8) -> Item {
    item(7, register, variable, 0)
}

pub const fn jump_if(register: u8, place: u8, k: Value) -> Item {
    item(8, register, place, k)
}

pub const fn jump(place: u8) -> Item {
    item(9, 0, place, 0)
}

pub const fn compare_exchange(register: u8, variable: u8, k: Value) -> Item {
    item(10, register, variable, k)
}

pub const WFENCE: Item = item(11, 0, 0, 0);

pub const fn is_at(thread: u8, place: Value) -> Item {
    item(1, thread, 0, place)
}

pub const fn register_is(thread: u8, register: u8, k: Value) -> Item {
    item(2, thread, register, k)
}

pub const fn memory_is(variable: u8, k: Value) -> Item {
    item(3, variable, 0, k)
}

/// Every job may ask for it, and it holds at the start.
pub const AT_THE_START: Item = is_at(0, 0);

/// A job file of version 3 whose counts and length field are right.
pub fn file_of_three(
    memory: Memory,
    initial: &[Value],
    programs: &[Vec<Item>],
    flag: u8,
    clauses: &[Item],
) -> Vec<u8> {
    let parts = Parts {
        version: VERSION,
        memory,
        initial: initial.to_vec(),
        programs: programs.to_vec(),
        flag,
        clauses: clauses.to_vec(),
    };
    parts.file()
}

// ---- jobs of the other versions in this one ----

/// The same job: it has the same answers as long as no sum passes 255.
pub fn in_three(job: &[u8]) -> Vec<u8> {
    rewritten(job, VERSION)
}

/// Each value of it times 256. A sum modulo 65,536 is then 256 times the sum modulo 256, so it has the same answers, whatever is added.
pub fn raised(job: &[u8]) -> Vec<u8> {
    let mut parts = Parts::of(job);
    parts.version = VERSION;
    let instructions = parts.programs.iter_mut().flatten();
    // In a clause of kind 1 k is a place.
    let clauses = parts.clauses.iter_mut().filter(|clause| clause.first != 1);
    let values = instructions.chain(clauses).map(|item| &mut item.k);
    for value in values.chain(&mut parts.initial) {
        *value <<= 8;
    }
    parts.file()
}

// ---- jobs that hang on both bytes ----

/// Jobs of few states, whose answers are others if a byte of a value is lost.
pub fn classics_of_three(memory: Memory) -> [Vec<u8>; 10] {
    [
        message_passing(memory),
        torn(memory),
        carried(memory),
        wrapped(memory),
        owners(memory),
        sequence(memory, &[]),
        sequence(memory, &[FENCE]),
        wide_groups(memory),
        own_loads(memory),
        exchanged(memory),
    ]
}

/// P6 to P8 with words of which one byte alone tells old from new.
pub fn message_passing(memory: Memory) -> Vec<u8> {
    let writer = vec![put(0, 0x0101), put(1, 0x0200)];
    let reader = vec![load(0, 1), load(1, 0)];
    let goal = [
        is_at(1, 2),
        register_is(1, 0, 0x0200),
        register_is(1, 1, 0x0001),
    ];
    file_of_three(memory, &[0x0001, 0], &[writer, reader], 0, &goal)
}

/// A word is stored in one piece: nobody sees the new high byte beside the old low one.
fn torn(memory: Memory) -> Vec<u8> {
    let writer = vec![put(0, 0x0102), put(0, 0x0304)];
    let reader = vec![load(0, 0), load(1, 0)];
    let goal = [register_is(1, 0, 0x0102), register_is(1, 1, 0x0302)];
    file_of_three(memory, &[0x0304], &[writer, reader], 0, &goal)
}

/// 255 plus 1 is 256 here, and another thread sees that.
fn carried(memory: Memory) -> Vec<u8> {
    let counter = vec![load(0, 0), add(0, 1), store(0, 0), jump_if(0, 0, 255)];
    let reader = vec![load(0, 0)];
    let goal = [register_is(1, 0, 256), is_at(0, 4), memory_is(0, 256)];
    file_of_three(memory, &[254], &[counter, reader], 1, &goal)
}

/// 65,535 plus 1 is 0, which ends the loop.
fn wrapped(memory: Memory) -> Vec<u8> {
    let counter = vec![
        load(0, 0),
        add(0, 1),
        store(0, 0),
        jump_if(0, 5, 0),
        jump(0),
    ];
    let goal = [is_at(0, 5), memory_is(0, 0)];
    file_of_three(memory, &[65_534], &[counter], 1, &goal)
}

/// Two threads take a word by CMPX, each with a value of its own that is 0 in its low byte, as the free word is in both.
pub fn owners(memory: Memory) -> Vec<u8> {
    let thread = |own: Value| {
        vec![
            set(0, 0),
            compare_exchange(0, 0, own),
            jump_if(0, 4, 0),
            jump(0),
        ]
    };
    let goal = [is_at(0, 4), is_at(1, 4)];
    file_of_three(memory, &[0], &[thread(0x0100), thread(0x0200)], 0, &goal)
}

/// Each thread counts its own word on from 255, and looks at the other's: both may still find it at 255.
pub fn sequence(memory: Memory, between: &[Item]) -> Vec<u8> {
    let thread = |own, other| {
        let mut program = vec![load(1, own), add(1, 1), store(1, own)];
        program.extend(between);
        program.push(load(0, other));
        program
    };
    let end = 4 + between.len() as Value;
    let goal = [
        is_at(0, end),
        is_at(1, end),
        register_is(0, 0, 255),
        register_is(1, 0, 255),
        register_is(1, 1, 256),
    ];
    file_of_three(memory, &[255, 255], &[thread(0, 1), thread(1, 0)], 0, &goal)
}

/// Stores in three groups whose values differ in one byte alone, two of them to one variable.
pub fn wide_groups(memory: Memory) -> Vec<u8> {
    let writer = vec![
        put(0, 0x0100),
        WFENCE,
        put(1, 0x0001),
        WFENCE,
        put(0, 0xFF00),
        load(0, 0),
    ];
    let reader = vec![load(0, 0), load(1, 1)];
    let goal = [register_is(1, 0, 0xFF00), is_at(1, 2), register_is(1, 1, 0)];
    file_of_three(memory, &[0, 0], &[writer, reader], 0, &goal)
}

/// Loads that have to take the newest of stores that differ in one byte alone.
fn own_loads(memory: Memory) -> Vec<u8> {
    let thread = vec![
        put(0, 0x1234),
        put(0, 0x5634),
        load(0, 0),
        put(0, 0x5678),
        load(1, 0),
        FENCE,
    ];
    let goal = [
        register_is(0, 0, 0x5634),
        register_is(0, 1, 0x5678),
        memory_is(0, 0x1234),
    ];
    file_of_three(memory, &[0], &[thread], 0, &goal)
}

/// Two threads change places with one word, and count what they got on.
fn exchanged(memory: Memory) -> Vec<u8> {
    let thread = |own| vec![set(2, own), exchange(2, 0), add(2, 0x0101), store(2, 1)];
    let goal = [
        memory_is(0, 0x8000),
        memory_is(1, 0x8100),
        register_is(0, 2, 0x0000),
    ];
    let threads = [thread(0x7FFF), thread(0x8000)];
    file_of_three(memory, &[0xFEFF, 0], &threads, 1, &goal)
}

/// A job of version 3 at every limit, with all eleven operations.
pub fn at_the_limit_of_three() -> Vec<u8> {
    let mut parts = Parts::of(&at_the_limit_of_two());
    parts.version = VERSION;
    let items = parts.programs.iter_mut().flatten();
    for item in items.chain(&mut parts.clauses).filter(|item| item.k == 255) {
        item.k = Value::MAX;
    }
    parts.initial = vec![0, 1, 255, 256, 257, 32_768, 65_534, 65_535];
    parts.file()
}

// ---- what is refused ----

/// What is refused of version 3 and because of it, with offsets counted from the front of each file.
pub fn refused_of_three() -> Vec<Refused> {
    [
        too_long(),
        cut_short(),
        bad_instructions(),
        bad_clauses(),
        bad_heads_and_counts(),
        in_the_wrong_version(),
    ]
    .concat()
}

/// So many bytes with this version byte, a right length field and a good front as far as there is one.
pub fn of_length(version: u8, count: usize) -> Vec<u8> {
    let mut bytes = in_version(&at_the_limit_of_three(), version);
    bytes.resize(count, 0);
    settled(bytes)
}

/// Refusal 1 looks at the version byte before that is judged, so a byte that is no version has the limit of version 1.
fn too_long() -> Vec<Refused> {
    let mut jobs = Vec::new();
    let [narrow, wide] = [1, VERSION].map(longest_file);
    for version in [0, 1, 2, 4, 255] {
        let no_version = [0, 4, 255].contains(&version);
        if no_version {
            jobs.push((of_length(version, narrow), [2, 2]));
        }
        for count in [narrow + 1, narrow + 2, 1_200, wide - 1, wide, wide + 1] {
            jobs.push((of_length(version, count), [1, 0]));
        }
    }
    jobs.push((of_length(VERSION, wide + 1), [1, 0]));
    jobs.push((of_length(VERSION, 2 * wide), [1, 0]));
    // A length field that counts one byte too few or too many.
    for (at, wrong) in [(1, 0x6A), (1, 0x6C), (0, 0x04), (0, 0x06)] {
        let longest = at_the_limit_of_three();
        assert_eq!(longest[..2], [0x05, 0x6B]);
        jobs.push((with_byte(&longest, at, wrong), [1, 0]));
    }
    // Without the last byte its last clause is not wholly there.
    jobs.push((of_length(VERSION, wide - 1), [6, wide as u64 - 5]));
    jobs
}

/// P1's threads in version 3: values at 7 and 9, n at 11, instructions at 12 and 17, n at 22, instructions at 23 and 28, flag at 33, K at 34, clauses from 35.
fn p1() -> Vec<u8> {
    in_three(&P1)
}

/// Whether an item is wholly there is judged before what it holds, and a value is an item.
fn cut_short() -> Vec<Refused> {
    let begins = [
        3, 4, 5, 6, 7, 9, 11, 12, 17, 22, 23, 28, 33, 34, 35, 40, 45, 50,
    ];
    let whole = p1();
    assert_eq!(whole.len(), 55);
    let cuts = (3..whole.len()).map(|count| {
        let begun = begins.iter().rev().find(|&&begin| begin <= count);
        let offset = *begun.expect("an item begins at 3");
        (settled(whole[..count].to_vec()), [6, offset as u64])
    });
    let mut jobs: Vec<Refused> = cuts.collect();
    jobs.extend((1..=5).map(|more| {
        let longer = [&whole[..], &vec![0; more]].concat();
        (settled(longer), [6, 55])
    }));
    // Also if what is there is bad.
    for there in 1..=4 {
        let cut = |job: Vec<u8>, begin: usize| {
            let rest = settled(job[..begin + there].to_vec());
            (rest, [6, begin as u64])
        };
        for bad in [item(0, 0, 0, 0), item(1, 4, 1, 0), item(6, 1, 1, 0x0100)] {
            jobs.push(cut(with_instruction(bad), 12));
        }
        for bad in [item(0, 0, 0, 0), item(1, 2, 1, 0x0100), is_at(0, 0xFFFF)] {
            jobs.push(cut(with_clause(bad), 20));
        }
    }
    jobs
}

/// Head and two values take 11 bytes and n one, so the only instruction begins at 12.
fn with_instruction(instruction: Item) -> Vec<u8> {
    let programs = [vec![instruction]];
    file_of_three([TSO, 1], &[0x0100, 0], &programs, 0, &[AT_THE_START])
}

/// Where 01 marks a byte 0, it must be 0, and where that byte stood at k's place, both must.
fn bad_instructions() -> Vec<Refused> {
    let mut bad = vec![
        item(0, 0, 0, 0),
        item(12, 0, 0, 0),
        item(255, 0, 0, 0),
        // The target stays in b, and n is 1.
        jump(2),
        jump(255),
        jump_if(0, 2, 0),
        jump_if(4, 0, 0),
        put(2, 0),
        item(5, 1, 0, 0x0100),
        item(9, 1, 0, 0),
    ];
    for op in [1, 2] {
        bad.extend([item(op, 4, 0, 0x0100), item(op, 0, 1, 0x0100)]);
    }
    for op in [3, 4, 7, 10] {
        bad.extend([item(op, 4, 0, 0), item(op, 0, 2, 0), item(op, 255, 255, 0)]);
    }
    for op in [6, 11] {
        bad.extend([item(op, 1, 0, 0), item(op, 0, 1, 0)]);
    }
    for op in [3, 4, 6, 7, 9, 11] {
        bad.extend([0x0100, 0x0001, 0xFF00, 0x00FF, 0xFFFF].map(|k| item(op, 0, 0, k)));
    }
    let jobs = bad.into_iter();
    jobs.map(|instruction| (with_instruction(instruction), [4, 12]))
        .collect()
}

/// Two threads of one instruction and of none: the first n stands at 11, the second at 17, the flag at 18, K at 19 and the clause at 20.
fn with_clause(clause: Item) -> Vec<u8> {
    file_of_three(SC, &[0, 0x0100], &[vec![FENCE], vec![]], 0, &[clause])
}

/// A place has two bytes in a clause, so 256 plus a good one is a bad one.
fn bad_clauses() -> Vec<Refused> {
    let bad = [
        is_at(0, 2),
        is_at(0, 0x00FF),
        is_at(0, 0x0100),
        is_at(0, 0x0101),
        is_at(0, 0xFF01),
        is_at(0, 0xFFFF),
        is_at(1, 1),
        is_at(1, 0x0100),
        is_at(2, 0),
        item(1, 0, 1, 0),
        register_is(2, 0, 0),
        register_is(0, 4, 0),
        memory_is(2, 0),
        item(3, 0, 1, 0),
        item(0, 0, 0, 0),
        item(4, 0, 0, 0),
        item(255, 0, 0, 0),
    ];
    let jobs = bad.into_iter();
    jobs.map(|clause| (with_clause(clause), [5, 20])).collect()
}

fn bad_heads_and_counts() -> Vec<Refused> {
    let good = p1();
    let too_long = vec![FENCE; MOST_INSTRUCTIONS + 1];
    let of = |programs: &[Vec<Item>]| file_of_three([PSO, 1], &[0], programs, 0, &[AT_THE_START]);
    let clauses = |count| file_of_three(SC, &[0], &[vec![]], 1, &vec![AT_THE_START; count]);
    vec![
        (vec![0, 1, 3], [6, 3]),
        (with_byte(&good, 3, 3), [3, 3]),
        (with_byte(&good, 4, 9), [3, 4]),
        (with_byte(&good, 5, 5), [3, 5]),
        (with_byte(&good, 6, 9), [3, 6]),
        (with_byte(&good, 33, 2), [5, 33]),
        (with_byte(&good, 34, 0), [5, 34]),
        (with_byte(&good, 34, 17), [5, 34]),
        (with_byte(&good, 34, 3), [6, 50]),
        (with_byte(&good, 34, 5), [6, 55]),
        // Head and value take 9 bytes, a thread of 64 has 321.
        (of(slice::from_ref(&too_long)), [4, 9]),
        (of(&[too_long[1..].to_vec(), too_long]), [4, 9 + 321]),
        // Flag and K stand at 10 and 11.
        (clauses(0), [5, 11]),
        (clauses(17), [5, 11]),
    ]
}

/// The bytes of one version under the number of another, whose items are longer or shorter.
fn in_the_wrong_version() -> Vec<Refused> {
    vec![
        // Two threads of none and a flag of 2, which was the first n.
        (in_version(&p1(), 1), [5, 11]),
        (in_version(&p1(), 2), [5, 11]),
        // Two values of which the second is 0205, two threads of none, flag 1, three clauses: the first is of kind 0.
        (in_version(&P1, VERSION), [5, 15]),
    ]
}

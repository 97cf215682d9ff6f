//! Helpers that the tests share.
#![allow(dead_code)]

use second::hex::from_hex;
use second::machine::SLOT_BYTES;

pub const P1: &str = "00 2B 01 01 01 02 02 00 00 02 05 00 00 01 03 00 01 00 02 05 00 01 01 \
    03 00 00 00 00 04 01 00 00 02 01 01 00 02 02 00 00 00 02 01 00 00";

pub const SC: [u8; 2] = [0, 0];

/// Thread 0 is at place 0: a goal for jobs whose goal makes no difference.
pub const ANY_GOAL: [[u8; 4]; 1] = [[1, 0, 0, 0]];

pub fn tso(capacity: u8) -> [u8; 2] {
    [1, capacity]
}

pub fn pso(capacity: u8) -> [u8; 2] {
    [2, capacity]
}

pub fn p1() -> Vec<u8> {
    from_hex(P1).unwrap()
}

/// A job file with a right length field.
pub fn job(
    model_and_capacity: [u8; 2],
    initial: &[u8],
    programs: &[&[[u8; 4]]],
    flag: u8,
    clauses: &[[u8; 4]],
) -> Vec<u8> {
    let mut body = vec![1];
    body.extend(model_and_capacity);
    body.extend([programs.len() as u8, initial.len() as u8]);
    body.extend(initial);
    for program in programs {
        body.push(program.len() as u8);
        body.extend(program.concat());
    }
    body.extend([flag, clauses.len() as u8]);
    body.extend(clauses.concat());
    with_length(&body)
}

pub fn with_length(body: &[u8]) -> Vec<u8> {
    let mut file = (body.len() as u16).to_be_bytes().to_vec();
    file.extend(body);
    file
}

/// What a search leaves behind, with buffers that were full of marks before.
pub struct Run {
    pub answer: [u64; 4],
    pub table: Vec<u8>,
    pub links: Vec<u32>,
    pub schedule: Vec<u8>,
}

pub const TABLE_MARK: u8 = 0xA5;
pub const LINK_MARK: u32 = 0xDEAD_BEEF;
pub const SCHEDULE_MARK: u8 = 0x5A;

pub fn run_sized(job: &[u8], table: usize, links: usize, schedule: usize) -> Run {
    let mut run = Run {
        answer: [9; 4],
        table: vec![TABLE_MARK; table],
        links: vec![LINK_MARK; links],
        schedule: vec![SCHEDULE_MARK; schedule],
    };
    run.answer = second::search(job, &mut run.table, &mut run.links, &mut run.schedule);
    run
}

pub fn run(job: &[u8], slots: usize) -> Run {
    run_sized(job, slots * SLOT_BYTES, slots, slots)
}

impl Run {
    pub fn slot(&self, index: usize) -> &[u8] {
        &self.table[index * SLOT_BYTES..(index + 1) * SLOT_BYTES]
    }

    /// True when nothing from these counts on was written.
    pub fn untouched_from(&self, slots: usize, steps: usize) -> bool {
        self.table[slots * SLOT_BYTES..]
            .iter()
            .all(|&byte| byte == TABLE_MARK)
            && self.links[slots..].iter().all(|&link| link == LINK_MARK)
            && self.schedule[steps..]
                .iter()
                .all(|&byte| byte == SCHEDULE_MARK)
    }
}

/// A slot in words: places, registers of each thread, memory, and of each thread the pending stores, each a variable with 16 times its group and a value.
pub fn slot(
    places: &[u8],
    registers: &[[u16; 4]],
    memory: &[u16],
    buffers: &[&[[u16; 2]]],
) -> Vec<u8> {
    let mut bytes = vec![0; 152];
    let mut put = |at: usize, value: u16| {
        bytes[at] = (value / 256) as u8;
        bytes[at + 1] = (value % 256) as u8;
    };
    for (thread, values) in registers.iter().enumerate() {
        for (register, &value) in values.iter().enumerate() {
            put(4 + 8 * thread + 2 * register, value);
        }
    }
    for (variable, &value) in memory.iter().enumerate() {
        put(36 + 2 * variable, value);
    }
    for (thread, stores) in buffers.iter().enumerate() {
        for (index, &[_, value]) in stores.iter().enumerate() {
            put(52 + 25 * thread + 1 + 3 * index + 1, value);
        }
    }
    bytes[..places.len()].copy_from_slice(places);
    for (thread, stores) in buffers.iter().enumerate() {
        let first = 52 + 25 * thread;
        bytes[first] = stores.len() as u8;
        for (index, &[variable, _]) in stores.iter().enumerate() {
            bytes[first + 1 + 3 * index] = variable as u8;
        }
    }
    bytes
}

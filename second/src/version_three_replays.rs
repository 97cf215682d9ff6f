//! Cases for replay about values of two bytes, each with the line that a person says for it from request 10.

use crate::job::{decode, Item, Value};
use crate::listed::{every_memory, Memory, Parts, MEMORIES, PSO, ROOM_FOR_JOB, SC, TSO};
use crate::random::{damaged_job_of, replay_schedule, sound_job_of, stuck_schedule, Random};
use crate::replay_cases::{
    basics, known, stuck_at, Case, Known, FALLS_SHORT, MOST_STEPS, REACHES, THREAD_ENDED,
};
use crate::version_three_jobs::{
    add, compare_exchange, exchange, file_of_three, in_three, is_at, jump, jump_if, load,
    memory_is, owners, put, raised, register_is, sequence, set, store, wide_groups, FENCE, VERSION,
    WFENCE,
};
use crate::version_two_replays::{self, grouped_job};
use std::slice;

pub fn all_known() -> Vec<Known> {
    [as_in_the_others(), pinned()].concat()
}

/// What request 10 names, a group each.
pub fn pinned() -> Vec<Known> {
    [
        sums(),
        initial_values(),
        through_the_machine(),
        jumps(),
        compare_exchanges(),
        clauses(),
        own_stores(),
        flushes_of_groups(),
        long_schedules(),
        stories(),
    ]
    .concat()
}

/// What is said of versions 1 and 2 holds when each value is taken times 256, and of most as it stands.
fn as_in_the_others() -> Vec<Known> {
    let mut known = [
        basics(),
        version_two_replays::pinned(),
        version_two_replays::a_group_gone(),
    ]
    .concat();
    known.retain(|(case, _)| decode(&case.job).is_ok());
    let with = |case: &Case, job: Vec<u8>| Case {
        job,
        schedule: case.schedule.clone(),
    };
    let times_256 = known.iter();
    let times_256 = times_256.map(|(case, line)| (with(case, raised(&case.job)), line.clone()));
    // By turns, since these have nothing new but the file.
    let as_it_stands = known.iter().filter(|(case, _)| !adds_much(&case.job));
    let as_it_stands = as_it_stands
        .step_by(4)
        .map(|(case, line)| (with(case, in_three(&case.job)), line.clone()));
    times_256.chain(as_it_stands).collect()
}

/// Whether a sum may pass 255.
fn adds_much(job: &[u8]) -> bool {
    let parts = Parts::of(job);
    let mut instructions = parts.programs.iter().flatten();
    instructions.any(|instruction| instruction.first == 2 && instruction.k > 1)
}

// ---- values ----

/// Both ends, and about each place where a byte is full or empty.
const ENDS: [Value; 16] = [
    0, 1, 127, 128, 254, 255, 256, 257, 511, 512, 32_767, 32_768, 65_279, 65_280, 65_534, 65_535,
];

/// Others that a byte or the order of the bytes alone tells from this one.
fn like(value: Value) -> Vec<Value> {
    let mut others = vec![
        value ^ 0x0100,
        value ^ 0x0001,
        value ^ 0x8000,
        value ^ 0x0080,
        value & 0x00FF,
        value & 0xFF00,
        value.swap_bytes(),
    ];
    others.retain(|&other| other != value);
    others
}

/// A schedule that ends with this value where the clause looks, and with no other.
fn ends_with(
    cases: &mut Vec<Known>,
    schedule: &[u8],
    value: Value,
    job: impl Fn(Value) -> Vec<u8>,
) {
    cases.push(known(&job(value), schedule, REACHES));
    let others = like(value).into_iter();
    cases.extend(others.map(|other| known(&job(other), schedule, FALLS_SHORT)));
}

/// Register, k, and the sum: modulo 65,536, with a carry between the bytes and none out of the high one.
const SUMS: [[Value; 3]; 22] = [
    [65_535, 1, 0],
    [1, 65_535, 0],
    [255, 1, 256],
    [1, 255, 256],
    [254, 1, 255],
    [256, 65_535, 255],
    [65_534, 1, 65_535],
    [65_535, 0, 65_535],
    [0, 65_535, 65_535],
    [65_535, 65_535, 65_534],
    [65_280, 256, 0],
    [65_280, 255, 65_535],
    [65_279, 1, 65_280],
    [255, 255, 510],
    [256, 256, 512],
    [32_767, 1, 32_768],
    [32_768, 32_768, 0],
    [0x1234, 0xEDCC, 0],
    [0x1234, 0xEDCD, 1],
    [0x0180, 0x0180, 0x0300],
    [0xFF80, 0x0080, 0],
    [0xABCD, 0x4321, 0xEEEE],
];

fn sums() -> Vec<Known> {
    let mut cases = Vec::new();
    for (turn, [before, k, sum]) in SUMS.into_iter().enumerate() {
        let memory = MEMORIES[turn % MEMORIES.len()];
        let r = (turn % 4) as u8;
        let programs = [vec![set(r, before), add(r, k)]];
        ends_with(&mut cases, &[0, 0], sum, |asked| {
            let goal = [is_at(0, 2), register_is(0, r, asked)];
            file_of_three(memory, &[0], &programs, 0, &goal)
        });
    }
    cases
}

/// Each of the eight, all of them different, and with the other bytes around it.
fn initial_values() -> Vec<Known> {
    let mut cases = Vec::new();
    for first in [0, 8] {
        let initial = &ENDS[first..first + 8];
        for (variable, &value) in (0..).zip(initial) {
            ends_with(&mut cases, &[], value, |asked| {
                file_of_three(
                    [PSO, 8],
                    initial,
                    &[vec![]],
                    1,
                    &[memory_is(variable, asked)],
                )
            });
        }
    }
    cases
}

/// A value on its way by SET and STORE through the buffer to memory, by loads from both, and by XCHG back.
fn through_the_machine() -> Vec<Known> {
    let mut cases = Vec::new();
    for (turn, value) in ENDS.into_iter().enumerate() {
        let program = vec![
            set(0, value),
            store(0, 1),
            load(1, 1),
            FENCE,
            load(2, 1),
            exchange(3, 1),
            put(0, !value),
            load(0, 0),
        ];
        let memory = [SC, [TSO, 2], [PSO, 2]][turn % 3];
        let to_memory: &[u8] = if memory == SC { &[] } else { &[5] };
        let stage = |before: &[u8], after: usize| [before, to_memory, &vec![0; after]].concat();
        let job = |clause: Item| {
            file_of_three(
                memory,
                &[7, 0x0107],
                slice::from_ref(&program),
                0,
                &[clause],
            )
        };
        for (schedule, r, held) in [
            (vec![0], 0, value),
            (vec![0, 0, 0], 1, value),
            (stage(&[0, 0, 0], 2), 2, value),
            (stage(&[0, 0, 0], 3), 3, value),
            (stage(&[0, 0, 0], 5), 0, !value),
        ] {
            ends_with(&mut cases, &schedule, held, |k| job(register_is(0, r, k)));
        }
        ends_with(&mut cases, &stage(&[0, 0, 0], 0), value, |k| {
            job(memory_is(1, k))
        });
        // XCHG has put the 0 of the register into memory, and a flush then the last store.
        ends_with(&mut cases, &stage(&[0, 0, 0], 3), 0, |k| {
            job(memory_is(1, k))
        });
        let last: &[u8] = if memory == SC { &[] } else { &[4] };
        let flushed = [stage(&[0, 0, 0], 4), last.to_vec()].concat();
        ends_with(&mut cases, &flushed, !value, |k| job(memory_is(0, k)));
    }
    cases
}

/// Two values to be compared: each with itself, and with those that it could be taken for.
fn pairs() -> Vec<[Value; 2]> {
    let values = ENDS.into_iter().chain([0x1234, 0x0101, 0xA5A5]);
    let pairs = values.flat_map(|value| {
        let others = like(value).into_iter().chain([value]);
        others.map(move |other| [value, other])
    });
    pairs.collect()
}

fn by_turns(turn: usize) -> Memory {
    MEMORIES[turn % MEMORIES.len()]
}

/// JEQ compares both bytes.
fn jumps() -> Vec<Known> {
    let mut cases = Vec::new();
    for (turn, [held, k]) in pairs().into_iter().enumerate() {
        let r = (turn % 4) as u8;
        let programs = [vec![set(r, held), jump_if(r, 3, k), FENCE]];
        let job = |place| file_of_three(by_turns(turn), &[0], &programs, 0, &[is_at(0, place)]);
        let [there, elsewhere] = if held == k { [3, 2] } else { [2, 3] };
        cases.push(known(&job(there), &[0, 0], REACHES));
        cases.push(known(&job(elsewhere), &[0, 0], FALLS_SHORT));
        if held == k {
            let line = stuck_at(2, THREAD_ENDED);
            cases.push(known(&job(3), &[0, 0, 0], &line));
        }
    }
    cases
}

/// CMPX compares both bytes, and writes and takes both.
fn compare_exchanges() -> Vec<Known> {
    let mut cases = Vec::new();
    for (turn, [held, before]) in pairs().into_iter().enumerate() {
        let r = (turn % 4) as u8;
        let new = !before ^ 0x00F0;
        let programs = [vec![set(r, held), compare_exchange(r, 1, new)]];
        let left = if held == before { new } else { before };
        let initial = [0x7777, before];
        let job = |goal: &[Item]| file_of_three(by_turns(turn), &initial, &programs, 0, goal);
        ends_with(&mut cases, &[0, 0], left, |k| job(&[memory_is(1, k)]));
        let rest = [register_is(0, r, before), memory_is(0, 0x7777)];
        cases.push(known(&job(&rest), &[0, 0], REACHES));
        cases.push(known(&job(&[register_is(0, r, new)]), &[0, 0], FALLS_SHORT));
    }
    cases
}

/// Clauses compare both bytes, also where one fails among others that hold.
fn clauses() -> Vec<Known> {
    let mut cases = Vec::new();
    for (turn, [held, asked]) in pairs().into_iter().enumerate() {
        let line = if held == asked { REACHES } else { FALLS_SHORT };
        let programs = [vec![], vec![set(2, held)]];
        let holds = [is_at(1, 1), register_is(1, 2, held), memory_is(1, held)];
        for clause in [register_is(1, 2, asked), memory_is(1, asked)] {
            for goal in [vec![clause], [&holds[..], &[clause]].concat()] {
                let job = file_of_three(by_turns(turn), &[!held, held], &programs, 1, &goal);
                cases.push(known(&job, &[1], line));
            }
        }
    }
    cases
}

/// The newest own store, where stores differ in one byte alone, and what memory holds behind each flush.
fn own_stores() -> Vec<Known> {
    let mut cases = Vec::new();
    let values = [0x0034, 0x1234, 0x1235, 0x3412];
    for memory in every_memory().into_iter().filter(|memory| memory[1] >= 4) {
        let mut program: Vec<Item> = values.map(|value| put(3, value)).to_vec();
        program.push(load(0, 3));
        let job = |clause| {
            file_of_three(
                memory,
                &[0x0102; 4],
                slice::from_ref(&program),
                0,
                &[clause],
            )
        };
        ends_with(&mut cases, &[0; 5], values[3], |k| {
            job(register_is(0, 0, k))
        });
        for flushed in 0..=4 {
            let schedule = [&[0; 4][..], &vec![7; flushed]].concat();
            let left = [0x0102, 0x0034, 0x1234, 0x1235, 0x3412][flushed];
            ends_with(&mut cases, &schedule, left, |k| job(memory_is(3, k)));
            // The load takes the newest from the buffer, and at last from memory.
            let loaded = [&schedule[..], &[0]].concat();
            ends_with(&mut cases, &loaded, values[3], |k| {
                job(register_is(0, 0, k))
            });
        }
    }
    cases
}

/// Wide stores in groups land in their order, and with both bytes.
fn flushes_of_groups() -> Vec<Known> {
    let program = vec![
        put(0, 0x0100),
        put(1, 0x0200),
        WFENCE,
        put(0, 0x0101),
        WFENCE,
        put(1, 0xFF02),
    ];
    let job = |x, y| {
        let goal = [memory_is(0, x), memory_is(1, y)];
        file_of_three([PSO, 4], &[0, 0], slice::from_ref(&program), 0, &goal)
    };
    let behind = |flushes: &[u8]| [&[0; 6][..], flushes].concat();
    let mut cases = Vec::new();
    for (flushes, x, y) in [
        (&[][..], 0, 0),
        (&[4], 0x0100, 0),
        (&[5], 0, 0x0200),
        (&[4, 5], 0x0100, 0x0200),
        (&[5, 4, 4], 0x0101, 0x0200),
        (&[4, 5, 4, 5], 0x0101, 0xFF02),
    ] {
        let schedule = behind(flushes);
        ends_with(&mut cases, &schedule, x, |asked| job(asked, y));
        ends_with(&mut cases, &schedule, y, |asked| job(x, asked));
    }
    for (flushes, line) in [
        (&[4, 4][..], "STUCK 7 6"),
        (&[5, 5], "STUCK 7 6"),
        (&[4, 5, 5], "STUCK 8 6"),
        (&[4, 5, 4, 4], "STUCK 9 5"),
    ] {
        cases.push(known(&job(0, 0), &behind(flushes), line));
    }
    cases
}

/// Counts that go on past 65,536 steps.
fn long_schedules() -> Vec<Known> {
    let steps = vec![0; MOST_STEPS];
    let counting = |k: Value, asked: Value| {
        let programs = [vec![add(0, k), jump(0)]];
        let goal = [is_at(0, 0), register_is(0, 0, asked)];
        file_of_three([TSO, 1], &[0], &programs, 0, &goal)
    };
    // Two steps a turn: 35,000 turns.
    let mut cases = vec![
        known(&counting(1, 35_000), &steps, REACHES),
        // 70,000 less 65,536.
        known(&counting(2, 4_464), &steps, REACHES),
        known(&counting(2, 0), &steps[..65_536], REACHES),
    ];
    // Three steps a turn but the last: 4,096 turns until the register is 0 again.
    let to_zero = vec![add(0, 16), jump_if(0, 3, 0), jump(0)];
    let job = file_of_three(SC, &[0], &[to_zero], 0, &[is_at(0, 3)]);
    cases.extend([
        known(&job, &steps[..12_287], REACHES),
        known(&job, &steps[..12_286], FALLS_SHORT),
        known(&job, &steps[..12_288], "STUCK 12287 2"),
    ]);
    // Four steps a turn, one of them a flush: 17,500 turns.
    let stores = vec![add(0, 1), store(0, 1), jump(0)];
    let goal = [memory_is(1, 17_500), is_at(0, 0)];
    let job = file_of_three([PSO, 1], &[0, 0], &[stores], 1, &goal);
    cases.push(known(&job, &[0, 0, 5, 0].repeat(MOST_STEPS / 4), REACHES));
    cases
}

/// A word that is taken by a CMPX, counters that both miss the other's carry, and groups.
fn stories() -> Vec<Known> {
    let mut cases = Vec::new();
    for memory in every_memory() {
        let [model, capacity] = memory;
        // The second thread goes round, because the first has the word, and its low byte alone looks free.
        let taken = owners(memory);
        cases.push(known(&taken, &[0, 0, 0, 1, 1, 1, 1, 1], FALLS_SHORT));
        cases.push(known(&taken, &[0, 0, 0, 0], "STUCK 3 2"));
        let [plain, fenced] = [&[][..], &[FENCE]].map(|between| sequence(memory, between));
        if model == SC[0] {
            cases.push(known(&plain, &[0, 0, 0, 0, 1, 1, 1, 1], FALLS_SHORT));
            cases.push(known(&fenced, &[0, 0, 0, 0, 0, 1, 1, 1, 1, 1], FALLS_SHORT));
            continue;
        }
        cases.push(known(&plain, &[0, 0, 0, 0, 1, 1, 1, 1], REACHES));
        cases.push(known(&plain, &[0, 0, 0, 4, 0, 1, 1, 1, 1], FALLS_SHORT));
        cases.push(known(&fenced, &[0, 0, 0, 0, 1], "STUCK 3 4"));
        let one_by_one = [0, 0, 0, 4, 0, 0, 1, 1, 1, 13, 1, 1];
        cases.push(known(&fenced, &one_by_one, FALLS_SHORT));
        if capacity >= 3 {
            // Three stores in three groups: the last one's high byte is seen only behind the one between.
            let groups = wide_groups(memory);
            cases.push(known(&groups, &[0, 0, 0, 0, 0, 4, 4, 1, 1], "STUCK 6 6"));
            cases.push(known(&groups, &[0, 0, 0, 0, 0, 4, 5, 4, 1, 1], FALLS_SHORT));
        }
    }
    cases
}

// ---- random ----

const GROUPED_JOBS: usize = 150;
const SOUND_JOBS: usize = 400;
const DAMAGED_JOBS: usize = 100;
const SEED: u64 = 9;

/// The lines of these are the checker's own.
pub fn random_cases() -> Vec<Case> {
    let mut random = Random::new(SEED);
    let mut cases: Vec<Case> = (0..GROUPED_JOBS)
        .map(|_| {
            let job = raised(&grouped_job(&mut random, 4, 10, ALWAYS));
            let schedule = stuck_schedule(&mut random, &job);
            Case { job, schedule }
        })
        .collect();
    let mut jobs: Vec<Vec<u8>> = Vec::new();
    jobs.extend((0..SOUND_JOBS).map(|_| sound_job_of(&mut random, VERSION)));
    jobs.extend((0..DAMAGED_JOBS).map(|_| damaged_job_of(&mut random, VERSION)));
    jobs.retain(|job| job.len() <= ROOM_FOR_JOB);
    cases.extend(jobs.into_iter().map(|job| Case {
        schedule: replay_schedule(&mut random, &job),
        job,
    }));
    cases
}

/// Holds in every state, since no thread there uses that register.
const ALWAYS: [u8; 4] = [2, 0, 3, 0];

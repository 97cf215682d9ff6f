//! Jobs of version 2, which request 7 brought: those that hang on CMPX and WFENCE, and those that are refused.

use crate::listed::{
    blank_goals, file, in_version, limit_clause, limit_instruction, refused_jobs, settled,
    too_long_threads, Memory, Program, Refused, AT_THE_START, FURTHEST_PLACE, P1, PSO, TSO,
};

pub const WFENCE: [u8; 4] = [11, 0, 0, 0];

/// CMPX.
pub const fn compare_exchange(register: u8, variable: u8, value: u8) -> [u8; 4] {
    [10, register, variable, value]
}

/// A job file of version 2 whose counts and length field are right.
pub fn file_of_two(
    memory: Memory,
    initial: &[u8],
    programs: &[Program],
    flag: u8,
    clauses: &[[u8; 4]],
) -> Vec<u8> {
    in_version(&file(memory, initial, programs, flag, clauses), 2)
}

/// Jobs of few states that hang on CMPX and WFENCE.
pub fn classics_of_two(memory: Memory) -> [Vec<u8>; 8] {
    [
        message_passing_by_wfence(memory),
        handover(memory, &[]),
        handover(memory, &[WFENCE]),
        lock(memory),
        three_groups(memory),
        own_loads_of_groups(memory),
        store_buffering_by_cmpx(memory),
        two_histories(memory),
    ]
}

/// P6 to P8 with a WFENCE between the stores of the writer.
pub fn message_passing_by_wfence(memory: Memory) -> Vec<u8> {
    let writer = vec![[5, 0, 0, 1], WFENCE, [5, 0, 1, 1]];
    let reader = vec![[3, 0, 1, 0], [3, 1, 0, 0]];
    let goal = [[1, 1, 0, 2], [2, 1, 0, 1], [2, 1, 1, 0]];
    file_of_two(memory, &[0, 0], &[writer, reader], 0, &goal)
}

/// The first thread has a lock, writes what it guards and gives it up; the second takes it and sees nothing written.
pub fn handover(memory: Memory, between: &[[u8; 4]]) -> Vec<u8> {
    let mut first = vec![[5, 0, 0, 1]];
    first.extend(between);
    first.push([5, 0, 1, 0]);
    let second = vec![
        [1, 0, 0, 0],
        compare_exchange(0, 1, 1),
        [8, 0, 4, 0],
        [9, 0, 0, 0],
        [3, 1, 0, 0],
    ];
    let goal = [[1, 1, 0, 5], [2, 1, 1, 0]];
    file_of_two(memory, &[0, 1], &[first, second], 0, &goal)
}

/// Two threads that get by a CMPX in a loop what only one may have.
pub fn lock(memory: Memory) -> Vec<u8> {
    let thread = vec![
        [1, 0, 0, 0],
        compare_exchange(0, 0, 1),
        [8, 0, 0, 1],
        [5, 0, 0, 0],
    ];
    let goal = [[1, 0, 0, 3], [1, 1, 0, 3]];
    file_of_two(memory, &[0], &[thread.clone(), thread], 0, &goal)
}

/// Stores to x in the first and the last of three groups, which another thread sees out of order nowhere.
fn three_groups(memory: Memory) -> Vec<u8> {
    let writer = vec![
        [5, 0, 0, 1],
        WFENCE,
        [5, 0, 1, 2],
        WFENCE,
        [5, 0, 0, 3],
        [3, 0, 0, 0],
    ];
    let reader = vec![[3, 0, 0, 0], [3, 1, 1, 0]];
    let goal = [[2, 1, 0, 3], [1, 1, 0, 2], [2, 1, 1, 0]];
    file_of_two(memory, &[0, 0], &[writer, reader], 0, &goal)
}

/// Loads that have to take the newest own store, in the first, the second and the third group.
fn own_loads_of_groups(memory: Memory) -> Vec<u8> {
    let thread = vec![
        [5, 0, 0, 1],
        WFENCE,
        [5, 0, 1, 2],
        [3, 0, 0, 0],
        WFENCE,
        [5, 0, 0, 3],
        [3, 1, 0, 0],
        [3, 2, 1, 0],
    ];
    let goal = [[2, 0, 0, 1], [2, 0, 1, 3], [2, 0, 2, 2], [3, 1, 0, 9]];
    file_of_two(memory, &[0, 0], &[thread], 0, &goal)
}

/// P1 with a CMPX in place of each load: it waits, so one of the two sees the other's store.
pub fn store_buffering_by_cmpx(memory: Memory) -> Vec<u8> {
    let first = vec![[5, 0, 0, 1], compare_exchange(0, 1, 5)];
    let second = vec![[5, 0, 1, 1], compare_exchange(0, 0, 5)];
    let goal = [[1, 0, 0, 2], [1, 1, 0, 2], [2, 0, 0, 0], [2, 1, 0, 0]];
    file_of_two(memory, &[0, 0], &[first, second], 0, &goal)
}

/// Either way of the first thread leaves the same groups, though WFENCE and the stores between came otherwise.
fn two_histories(memory: Memory) -> Vec<u8> {
    let first = vec![
        [3, 0, 2, 0],
        [8, 0, 6, 1],
        [5, 0, 0, 1],
        [5, 0, 1, 1],
        WFENCE,
        [9, 0, 10, 0],
        WFENCE,
        [5, 0, 1, 1],
        [5, 0, 0, 1],
        WFENCE,
        [1, 0, 0, 0],
        [5, 0, 2, 2],
    ];
    let second = vec![[1, 0, 0, 1], [7, 0, 2, 0], [1, 0, 0, 0]];
    let goal = [[3, 2, 0, 2], [3, 0, 0, 0]];
    file_of_two(memory, &[0, 0, 0], &[first, second], 0, &goal)
}

/// A job of version 2 at every limit, with all eleven operations.
pub fn at_the_limit_of_two() -> Vec<u8> {
    let program = |thread: u8| -> Program {
        let turns = (0..FURTHEST_PLACE).map(|place| thread + place);
        let instruction = |turn| match turn % 11 {
            9 => compare_exchange(3, 7, 255),
            10 => WFENCE,
            others => limit_instruction(others),
        };
        turns.map(instruction).collect()
    };
    let programs: Vec<Program> = (0..4).map(program).collect();
    let clauses: Vec<[u8; 4]> = (0..16).map(limit_clause).collect();
    file_of_two(
        [PSO, 8],
        &[0, 1, 2, 3, 4, 5, 6, 255],
        &programs,
        1,
        &clauses,
    )
}

/// What is refused otherwise than in version 1 or because of what it has more, but for faults that both have.
pub fn refused_about_versions() -> Vec<Refused> {
    // Head and values take 9 bytes and n one, so the only instruction begins at 10.
    let with = |version, instruction: [u8; 4]| {
        let job = file([TSO, 1], &[0, 0], &[vec![instruction]], 0, &[AT_THE_START]);
        in_version(&job, version)
    };
    let cut = |job: Vec<u8>, count: usize| settled(job[..count].to_vec());
    let mut jobs = vec![(vec![0, 1, 2], [6, 3])];
    for version in [0, 4, 128, 255] {
        jobs.push((vec![0, 1, version], [2, 2]));
        jobs.push((in_version(&P1, version), [2, 2]));
        jobs.push((with(version, WFENCE), [2, 2]));
    }
    for instruction in [
        WFENCE,
        compare_exchange(0, 0, 0),
        compare_exchange(3, 1, 255),
    ] {
        jobs.push((with(1, instruction), [4, 10]));
        // Whether an instruction is wholly there is judged before what it is.
        jobs.push((cut(with(1, instruction), 13), [6, 10]));
        jobs.push((cut(with(2, instruction), 13), [6, 10]));
        jobs.push((cut(with(2, instruction), 14), [6, 14]));
    }
    let bad = [
        compare_exchange(4, 0, 0),
        compare_exchange(255, 0, 0),
        compare_exchange(0, 2, 0),
        compare_exchange(0, 255, 0),
        compare_exchange(4, 2, 0),
        [11, 1, 0, 0],
        [11, 0, 1, 0],
        [11, 0, 0, 1],
        [11, 255, 255, 255],
        [12, 0, 0, 0],
        [0, 0, 0, 0],
    ];
    jobs.extend(bad.map(|instruction| (with(2, instruction), [4, 10])));
    jobs
}

/// Faults that have no part in the version are refused alike in both.
pub fn refused_in_both() -> Vec<Refused> {
    let jobs = [refused_jobs(), blank_goals(), too_long_threads()].concat();
    // A byte 10 of 10 is the operation of CMPX, which version 2 takes.
    let in_both = jobs
        .into_iter()
        .filter(|(job, _)| job.get(2) == Some(&1) && job.get(10) != Some(&10));
    in_both
        .map(|(job, refusal)| (in_version(&job, 2), refusal))
        .collect()
}

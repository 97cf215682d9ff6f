//! Cases for the decoder, and the line that each is answered with.

use crate::classes::Counts;
use crate::job::{self, decode, longest_file, width, Item, MOST_INSTRUCTIONS};
use crate::listed::{
    accepted_list, at_the_limit, bench_list, blank_goals, every_memory, fewest_and_most_clauses,
    file, in_version, settled, too_long_threads, with_byte, Parts, Program, AT_THE_START,
    FURTHEST_PLACE, P1, PSO, ROOM_FOR_JOB, SC, TSO,
};
use crate::long_threads::{of_job, MOST_BEFORE, OF_JOBS};
use crate::random::{damaged_job_of, random_bytes_of, Random};
use crate::version_three_jobs::{
    at_the_limit_of_three, classics_of_three, file_of_three, in_three, is_at, jump, jump_if,
    message_passing, of_length, raised, refused_of_three, register_is, FENCE, VERSION as THREE,
};
use crate::version_two_jobs::{
    at_the_limit_of_two, classics_of_two, message_passing_by_wfence, refused_about_versions,
    refused_in_both,
};
use crate::{version_three, version_two};
use std::ops::RangeInclusive;

/// What the program under test prints for a case.
pub fn line(job: &[u8]) -> String {
    match decode(job) {
        Ok(_) => "ACCEPTED\n".to_string(),
        Err(refusal) => format!("REFUSED {} {}\n", refusal.number, refusal.offset),
    }
}

pub fn all() -> Vec<Vec<u8>> {
    let groups = [
        short_and_long(),
        damaged_listed(),
        heads(),
        counts(),
        operations(),
        clauses(),
        at_limits(),
        bench_list(),
        blank_goals().into_iter().map(|(job, _)| job).collect(),
        fewest_and_most_clauses(),
        too_long_threads().into_iter().map(|(job, _)| job).collect(),
        long_threads(),
        of_version_two(),
        of_version_three(),
    ];
    groups.concat()
}

/// These come behind the others, which stay where they were.
fn of_version_two() -> Vec<Vec<u8>> {
    let refused = [refused_about_versions(), refused_in_both()].concat();
    let accepted = every_memory().into_iter().flat_map(classics_of_two);
    let groups = [
        versions(),
        refused.into_iter().map(|(job, _)| job).collect(),
        accepted.collect(),
        damaged(&message_passing_by_wfence([PSO, 2])),
        operations_of_two(),
        about_the_longest(&at_the_limit_of_two()),
        in_version_two(&at_limits()),
        in_version_two(&bench_list()),
        in_version_two(&fewest_and_most_clauses()),
    ];
    groups.concat()
}

/// These come behind those of version 2.
fn of_version_three() -> Vec<Vec<u8>> {
    let refused = refused_of_three().into_iter().map(|(job, _)| job);
    let accepted = every_memory().into_iter().flat_map(classics_of_three);
    let others = [accepted_list(), fewest_and_most_clauses()].concat();
    let others = others.iter().flat_map(|job| [in_three(job), raised(job)]);
    let of_two = every_memory().into_iter().flat_map(classics_of_two);
    let groups = [
        about_each_longest(),
        versions_of_three(),
        refused.collect(),
        accepted.collect(),
        others.collect(),
        of_two.map(|job| in_three(&job)).collect(),
        damaged(&message_passing([PSO, 2])),
        heads_of_three(),
        counts_of_three(),
        with_each_operand(THREE, job::operations(THREE)),
        with_each_clause(THREE),
        about_the_longest(&at_the_limit_of_three()),
        long_threads_of_three(),
        random_jobs_of_three(),
    ];
    groups.concat()
}

fn in_version_two(jobs: &[Vec<u8>]) -> Vec<Vec<u8>> {
    jobs.iter().map(|job| in_version(job, 2)).collect()
}

/// How many cases have long threads, by class.
pub fn counts_of_long_threads() -> Counts {
    let met: Vec<_> = all().iter().map(|job| of_job(job)).collect();
    Counts::new(&OF_JOBS, &met)
}

/// How many cases are of version 2, by class.
pub fn counts_of_version_two() -> Counts {
    let met: Vec<_> = all().iter().map(|job| version_two::of_job(job)).collect();
    Counts::new(&version_two::of_jobs(), &met)
}

/// How many cases are of version 3, by class.
pub fn counts_of_version_three() -> Counts {
    let met: Vec<_> = all().iter().map(|job| version_three::of_job(job)).collect();
    Counts::new(&version_three::of_jobs(), &met)
}

/// Few zeros, sizes about the longest of version 1, and twice that.
fn short_and_long() -> Vec<Vec<u8>> {
    let mut cases: Vec<Vec<u8>> = (0..=8).map(|count| vec![0; count]).collect();
    cases.extend([vec![0, 1, 1], vec![0, 1, 2], vec![0, 1, 0]]);
    let longest = longest_file(1);
    for count in (longest - 1..=longest + 2).chain([2 * longest]) {
        let right = settled(vec![0; count]);
        cases.extend(lengths_about(&right));
        // A good front leaves only the size to judge.
        cases.push(settled(padded(&P1, count)));
        cases.push(settled(padded(&at_the_limit(), count)));
    }
    cases
}

/// Cut or filled up with zeros to this size.
fn padded(bytes: &[u8], count: usize) -> Vec<u8> {
    let mut padded = bytes.to_vec();
    padded.resize(count, 0);
    padded
}

/// The same with the length field right, one less and one more.
fn lengths_about(bytes: &[u8]) -> Vec<Vec<u8>> {
    let right = bytes.len() as u16 - 2;
    let set = |field: u16| [&field.to_be_bytes()[..], &bytes[2..]].concat();
    vec![set(right), set(right - 1), set(right + 1)]
}

fn damaged_listed() -> Vec<Vec<u8>> {
    damaged(&P1)
}

/// A job of two variables cut anywhere, grown, with each operation at its first place, and with each bit flipped.
fn damaged(job: &[u8]) -> Vec<Vec<u8>> {
    // The head, two values and n stand before it.
    let first_place = 7 + 2 * width(job[2]).bytes() + 1;
    let mut cases = lengths_about(job);
    for count in 0..job.len() {
        cases.push(job[..count].to_vec());
        cases.push(settled(job[..count].to_vec()));
    }
    for count in job.len() + 1..job.len() + 6 {
        cases.push(padded(job, count));
        cases.push(settled(padded(job, count)));
    }
    cases.extend((0..=255).map(|op| with_byte(job, first_place, op)));
    for (at, byte) in job.iter().enumerate() {
        cases.extend((0..8).map(|bit| with_byte(job, at, byte ^ (1 << bit))));
    }
    cases
}

/// Every version byte in the shortest file that has one, before operations that both versions have and before those of version 2.
fn versions() -> Vec<Vec<u8>> {
    let passing = message_passing_by_wfence([PSO, 2]);
    let cases = (0..=255).flat_map(|version| {
        let [both, one] = [&P1[..], &passing].map(|job| in_version(job, version));
        [vec![0, 1, version], both, one]
    });
    cases.collect()
}

/// Every version byte before threads whose items have five bytes.
fn versions_of_three() -> Vec<Vec<u8>> {
    let wide = message_passing([PSO, 2]);
    (0..=255)
        .map(|version| in_version(&wide, version))
        .collect()
}

/// Sizes about the longest file of each width and between, with version bytes of each kind, and all the room there is.
fn about_each_longest() -> Vec<Vec<u8>> {
    let [narrow, wide] = [1, THREE].map(longest_file);
    let sizes = [
        narrow - 1,
        narrow,
        narrow + 1,
        narrow + 2,
        (narrow + wide) / 2,
        wide - 1,
        wide,
        wide + 1,
        wide + 2,
        ROOM_FOR_JOB,
    ];
    let mut cases = Vec::new();
    for count in sizes {
        for version in [0, 1, 2, THREE, 4, 255] {
            // With a right length field only the size is left to judge.
            cases.extend(lengths_about(&of_length(version, count)));
        }
        cases.push(settled(padded(&in_version(&P1, THREE), count)));
    }
    cases
}

/// Version, model, C, T and V about their ranges; the first fault wins over later ones.
fn heads() -> Vec<Vec<u8>> {
    let mut cases = Vec::new();
    for value in NEAR {
        for at in 2..=6 {
            cases.push(with_byte(&P1, at, value));
        }
        for memory in [SC, [TSO, 1], [PSO, 1]] {
            let job = file(memory, &[0], &[vec![]], 0, &[AT_THE_START]);
            cases.push(with_byte(&job, 4, value));
            // A later fault, and one that only shows when all before is right.
            cases.push(with_byte(&with_byte(&job, 4, value), 5, 0));
            cases.push(settled(with_byte(&job, 4, value)[..5].to_vec()));
        }
    }
    cases
}

/// The same in version 3.
fn heads_of_three() -> Vec<Vec<u8>> {
    let job = message_passing([PSO, 2]);
    let bytes = NEAR.into_iter();
    let cases = bytes.flat_map(|value| (2..=6).map(move |at| (at, value)));
    cases
        .map(|(at, value)| with_byte(&job, at, value))
        .collect()
}

/// Each count about its range, with so many items behind it and with one too few and too many.
fn counts() -> Vec<Vec<u8>> {
    let mut cases = Vec::new();
    for count in 0..=10 {
        // With one too few the goal is read from a byte earlier, which flag 1 allows, and a byte is left over.
        let goal = [AT_THE_START];
        cases.extend(lying(
            &file([TSO, 1], &vec![0; count], &[vec![], vec![]], 1, &goal),
            6,
        ));
        cases.extend(lying(
            &file([PSO, 8], &[0], &vec![vec![]; count], 1, &goal),
            5,
        ));
        cases.extend(lying(
            &file(SC, &[0], &[vec![]], 0, &vec![[3, 0, 0, 0]; count]),
            10,
        ));
    }
    let about_most_instructions = MOST_INSTRUCTIONS - 1..=MOST_INSTRUCTIONS + 2;
    for count in (15..=18).chain(about_most_instructions) {
        let program: Program = vec![[6, 0, 0, 0]; count];
        let clauses = vec![[3, 0, 0, 9]; count];
        cases.extend(lying(
            &file(SC, &[0], &[vec![], program.clone()], 0, &[AT_THE_START]),
            9,
        ));
        let at_the_end = [1, 0, 0, FURTHEST_PLACE];
        cases.extend(lying(&file(SC, &[0], &[program], 0, &[at_the_end]), 8));
        cases.extend(lying(&file(SC, &[0], &[vec![]], 1, &clauses), 10));
    }
    for flag in NEAR {
        let job = file(SC, &[0], &[vec![]], flag, &[AT_THE_START]);
        cases.push(job.clone());
        // With a bad flag the number of clauses isn't judged any more.
        cases.push(with_byte(&job, 10, 17));
    }
    cases
}

/// V, T, n and K about their ranges, where values have two bytes and items five.
fn counts_of_three() -> Vec<Vec<u8>> {
    let mut cases = Vec::new();
    let goal = [is_at(0, 0)];
    for count in 0..=10 {
        let initial = vec![0x0100; count];
        let job = file_of_three([TSO, 1], &initial, &[vec![], vec![]], 1, &goal);
        cases.extend(lying(&job, 6));
        // Where half of its last value is there, and where nothing is.
        let values_end = 7 + 2 * count;
        cases.push(settled(job[..values_end - count.min(1)].to_vec()));
        cases.push(settled(job[..values_end].to_vec()));
        let threads = vec![vec![]; count];
        cases.extend(lying(&file_of_three([PSO, 8], &[1], &threads, 1, &goal), 5));
    }
    let about_most = MOST_INSTRUCTIONS - 1..=MOST_INSTRUCTIONS + 2;
    for count in (0..=2).chain(15..=18).chain(about_most) {
        let program = vec![FENCE; count];
        let clauses = vec![is_at(0, 0); count];
        // One value, so that the first n stands at 9, and with no instructions K at 11.
        cases.extend(lying(&file_of_three(SC, &[0], &[program], 0, &goal), 9));
        cases.extend(lying(&file_of_three(SC, &[0], &[vec![]], 1, &clauses), 11));
    }
    cases
}

/// Each length that request 2 brought: jumps and place clauses to the end and one beyond, and a file that ends early.
fn long_threads() -> Vec<Vec<u8>> {
    let mut cases = Vec::new();
    for count in MOST_BEFORE + 1..=MOST_INSTRUCTIONS {
        let n = count as u8;
        let barrier = [[6, 0, 0, 0], [7, 0, 0, 0]][count % 2];
        for place in [n, n + 1] {
            for last in [barrier, [8, 3, place, 1], [9, 0, place, 0]] {
                let mut program = vec![barrier; count];
                program[count - 1] = last;
                let programs = [vec![barrier], program];
                let clause = [1, 1, 0, place];
                cases.push(file([TSO, 8], &[0], &programs, 0, &[clause]));
            }
        }
        let alone = file(SC, &[0], &[vec![barrier; count]], 1, &[AT_THE_START]);
        cases.push(settled(alone[..8 + 4 * count].to_vec()));
        cases.extend(lying(&alone, 8));
    }
    cases
}

/// The same in version 3, where a place clause has two bytes for the place, and a jump one.
fn long_threads_of_three() -> Vec<Vec<u8>> {
    let mut cases = Vec::new();
    for count in MOST_BEFORE + 1..=MOST_INSTRUCTIONS {
        let n = count as u8;
        for place in [n, n + 1] {
            for last in [FENCE, jump_if(3, place, 0x0100), jump(place)] {
                let mut program = vec![FENCE; count];
                program[count - 1] = last;
                let clause = is_at(1, place.into());
                let programs = [vec![FENCE], program];
                cases.push(file_of_three([TSO, 8], &[0], &programs, 0, &[clause]));
            }
            let clause = is_at(0, 0x0100 + u16::from(place));
            let program = vec![FENCE; count];
            cases.push(file_of_three(SC, &[0], &[program], 1, &[clause]));
        }
    }
    cases
}

/// The job, and the same with one less and one more at this byte.
fn lying(job: &[u8], at: usize) -> Vec<Vec<u8>> {
    let count = job[at];
    [count, count.wrapping_sub(1), count + 1]
        .map(|value| with_byte(job, at, value))
        .to_vec()
}

/// Operands are tried at these values, among which are the edges of every range in the jobs here.
const NEAR: [u8; 12] = [0, 1, 2, 3, 4, 5, 6, 7, 8, 9, 128, 255];

/// Each operand of each operation of version 1.
fn operations() -> Vec<Vec<u8>> {
    with_each_operand(1, job::operations(1))
}

/// The same of version 2, and of those operations that version 1 does not have in a file of it.
fn operations_of_two() -> Vec<Vec<u8>> {
    let of_two = with_each_operand(2, job::operations(2));
    let only_of_two = job::operations(1).end() + 1..=*job::operations(2).end();
    [of_two, with_each_operand(1, only_of_two)].concat()
}

/// An item that begins with this byte and has one other byte about its range, for each of them.
fn with_each_byte(version: u8, first: u8) -> Vec<Item> {
    let width = width(version);
    let mut items = Vec::new();
    for operand in 1..width.item_bytes() {
        for value in NEAR {
            let mut bytes = vec![0; width.item_bytes()];
            bytes[0] = first;
            bytes[operand] = value;
            items.push(Item::from_file(&bytes, width));
        }
    }
    items
}

/// Each operand of these operations, among three variables and six places, in the second of two threads.
fn with_each_operand(version: u8, operations: RangeInclusive<u8>) -> Vec<Vec<u8>> {
    let instructions = operations.flat_map(|op| with_each_byte(version, op));
    let jobs = instructions.map(|instruction| among_others(version, instruction));
    jobs.collect()
}

fn among_others(version: u8, instruction: Item) -> Vec<u8> {
    let other = vec![FENCE; 3];
    let tried = vec![FENCE, FENCE, instruction, FENCE, FENCE, FENCE];
    let parts = Parts {
        version,
        memory: [TSO, 2],
        initial: vec![0; 3],
        programs: vec![other, tried],
        flag: 0,
        clauses: vec![AT_THE_START.into()],
    };
    parts.file()
}

fn clauses() -> Vec<Vec<u8>> {
    with_each_clause(1)
}

/// Each kind of clause and each of its operands, among three threads of 1, 3 and 6 places.
fn with_each_clause(version: u8) -> Vec<Vec<u8>> {
    let mut clauses = Vec::new();
    for kind in [0, 1, 2, 3, 4, 255] {
        clauses.extend(with_each_byte(version, kind));
    }
    // The last place is that of the thread named.
    for thread in 0..=3 {
        clauses.extend(NEAR.map(|place| is_at(thread, place.into())));
    }
    let jobs = clauses.into_iter();
    jobs.map(|clause| behind_another(version, clause)).collect()
}

fn behind_another(version: u8, clause: Item) -> Vec<u8> {
    let most = (width(version).values() - 1) as u16;
    let parts = Parts {
        version,
        memory: SC,
        initial: vec![0; 5],
        programs: [1, 3, 6].map(|count| vec![FENCE; count]).to_vec(),
        flag: 0,
        clauses: vec![register_is(2, 3, most), clause],
    };
    parts.file()
}

fn at_limits() -> Vec<Vec<u8>> {
    about_the_longest(&at_the_limit())
}

/// A longest file, and it with a fault in its last instruction and in its last clause.
fn about_the_longest(longest: &[u8]) -> Vec<Vec<u8>> {
    let item = width(longest[2]).item_bytes();
    let last_clause = longest.len() - item;
    // Sixteen clauses, K and the flag stand behind it.
    let last_instruction = longest.len() - item * 16 - 2 - item;
    let mut cases = lengths_about(longest);
    for begin in [last_instruction, last_clause] {
        for at in begin..begin + item {
            let values = [0, 4, 8, FURTHEST_PLACE + 1, 255];
            cases.extend(values.map(|value| with_byte(longest, at, value)));
        }
    }
    for count in longest.len() - 5..longest.len() {
        cases.push(settled(longest[..count].to_vec()));
    }
    cases
}

const DAMAGED_JOBS: usize = 200;
const RANDOM_BYTES: usize = 100;
const SEED: u64 = 11;

/// The lines of these are the checker's own.
fn random_jobs_of_three() -> Vec<Vec<u8>> {
    let mut random = Random::new(SEED);
    let mut jobs: Vec<Vec<u8>> = Vec::new();
    jobs.extend((0..DAMAGED_JOBS).map(|_| damaged_job_of(&mut random, THREE)));
    jobs.extend((0..RANDOM_BYTES).map(|_| random_bytes_of(&mut random, THREE)));
    jobs.retain(|job| job.len() <= ROOM_FOR_JOB);
    jobs
}

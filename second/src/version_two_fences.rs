//! Cases for the fence check about CMPX and WFENCE, each with the line that a person says for it from request 7.

use crate::dead_code_cases;
use crate::fence_cases::{
    self, among_adds, by_turns, fenced, job, jump, jump_if, line_of, opened, walk_job, Known,
    Thread, ADD, EXCHANGE, FENCE, LAST, LOAD, LOAD_OTHER, SET, STORE, STORE_REGISTER,
};
use crate::job::MOST_INSTRUCTIONS;
use crate::listed::{every_memory, in_version, under, Program, ROOM_FOR_JOB, SC};
use crate::random::{damaged_job_of, random_bytes_of, sound_job_of, Random};
use crate::version_two::instructions_at;
use crate::version_two_jobs::{compare_exchange, WFENCE};

const COMPARE: [u8; 4] = compare_exchange(0, 0, 1);

pub fn all_known() -> Vec<Known> {
    let threads = [shapes(), as_others_count(), at_each_place_between()].concat();
    let threads = (0..).zip(threads);
    let by_turns = threads.map(|(turn, thread)| by_turns(turn, thread));
    let memories = every_memory().into_iter().cycle();
    let cases = memories.zip(by_turns.chain(among_threads()));
    let of_two = cases.map(|(memory, (job, line))| (under(&in_version(&job, 2), memory), line));
    of_two.collect()
}

/// What request 7 names, a group each.
pub fn shapes() -> Vec<Thread> {
    [
        neither_store_nor_load(),
        between(),
        in_loops_and_branches(),
        about_dead_code(),
    ]
    .concat()
}

/// Neither of them makes a pair.
fn neither_store_nor_load() -> Vec<Thread> {
    let mut threads = Vec::new();
    for own in [COMPARE, compare_exchange(3, 1, 0), WFENCE] {
        threads.extend([
            fenced(&[own]),
            fenced(&[own, own]),
            fenced(&[own, LOAD]),
            fenced(&[STORE, own]),
            fenced(&[LOAD, own, STORE]),
            fenced(&[own, LOAD, own]),
            fenced(&[own, STORE_REGISTER, own]),
            opened(&[own, STORE, LOAD], 1, 2),
            opened(&[STORE, LOAD, own], 0, 1),
            opened(&[STORE, LOAD, own, LOAD], 0, 1),
        ]);
    }
    threads
}

/// CMPX closes a pair, and WFENCE does not, however many there are.
fn between() -> Vec<Thread> {
    vec![
        fenced(&[STORE, COMPARE, LOAD]),
        fenced(&[STORE_REGISTER, COMPARE, LOAD_OTHER]),
        opened(&[STORE, WFENCE, LOAD], 0, 2),
        opened(&[STORE_REGISTER, WFENCE, LOAD_OTHER], 0, 2),
        opened(&[STORE, WFENCE, WFENCE, LOAD], 0, 3),
        fenced(&[STORE, WFENCE, COMPARE, LOAD]),
        fenced(&[STORE, COMPARE, WFENCE, LOAD]),
        fenced(&[STORE, WFENCE, FENCE, WFENCE, LOAD]),
        fenced(&[STORE, WFENCE, EXCHANGE, WFENCE, LOAD]),
        fenced(&[STORE, FENCE, COMPARE, LOAD]),
        opened(&[STORE, COMPARE, STORE, LOAD], 2, 3),
        opened(&[STORE, COMPARE, STORE, WFENCE, LOAD], 2, 4),
        opened(&[STORE, COMPARE, LOAD, STORE, LOAD], 3, 4),
        opened(&[STORE, WFENCE, STORE, LOAD], 0, 3),
        opened(&[STORE, WFENCE, LOAD, STORE, LOAD], 0, 2),
        opened(&[WFENCE, STORE, WFENCE, LOAD, WFENCE], 1, 3),
    ]
}

fn in_loops_and_branches() -> Vec<Thread> {
    vec![
        opened(&[LOAD, STORE, WFENCE, jump(0)], 1, 0),
        fenced(&[LOAD, STORE, COMPARE, jump(0)]),
        fenced(&[COMPARE, LOAD, STORE, jump(0)]),
        opened(&[WFENCE, LOAD, STORE, jump(0)], 2, 1),
        opened(&[COMPARE, LOAD, STORE, jump(1)], 2, 1),
        opened(&[LOAD, COMPARE, STORE, jump(0)], 2, 0),
        opened(&[LOAD, jump_if(3), COMPARE, STORE, jump(0)], 3, 0),
        fenced(&[STORE, jump(2), COMPARE, LOAD]),
        opened(&[STORE, jump(2), WFENCE, LOAD], 0, 3),
        opened(&[STORE, jump(3), COMPARE, LOAD], 0, 3),
        fenced(&[STORE, jump(3), LOAD, COMPARE, jump(2)]),
        opened(&[STORE, jump(3), LOAD, WFENCE, jump(2)], 0, 2),
        opened(&[STORE, jump_if(3), COMPARE, LOAD], 0, 3),
        fenced(&[STORE, jump_if(3), COMPARE, COMPARE, LOAD]),
        opened(&[STORE, jump_if(3), COMPARE, WFENCE, LOAD], 0, 4),
        opened(&[STORE, jump_if(4), WFENCE, jump(5), COMPARE, LOAD], 0, 5),
        fenced(&[STORE, jump_if(4), FENCE, jump(5), COMPARE, LOAD]),
    ]
}

/// Walks that make a store live pass both.
fn about_dead_code() -> Vec<Thread> {
    vec![
        fenced(&[jump(4), STORE, WFENCE, LOAD]),
        fenced(&[jump(3), STORE, LOAD, COMPARE]),
        fenced(&[jump(3), STORE, LOAD, WFENCE]),
        fenced(&[COMPARE, jump(4), STORE, LOAD]),
        fenced(&[WFENCE, jump(4), STORE, LOAD]),
        fenced(&[COMPARE, jump(0), STORE, LOAD]),
        opened(&[COMPARE, jump(4), STORE, LOAD, jump(2)], 2, 3),
        opened(&[WFENCE, jump(4), STORE, LOAD, jump(2)], 2, 3),
        opened(&[jump(3), STORE, LOAD, COMPARE, jump(1)], 1, 2),
        opened(&[jump(3), STORE, LOAD, WFENCE, jump(1)], 1, 2),
        opened(&[jump(4), STORE, WFENCE, LOAD, COMPARE, jump(1)], 1, 3),
        fenced(&[jump(4), STORE, COMPARE, LOAD, WFENCE, jump(1)]),
    ]
}

/// CMPX counts as XCHG and as FENCE does, WFENCE as ADD and as SET: so what is said of these holds of them.
fn as_others_count() -> Vec<Thread> {
    let known = [fence_cases::shapes(), dead_code_cases::shapes()].concat();
    let with = |compared: [u8; 4], passed: [u8; 4]| {
        let threads = known.iter().map(move |(program, pair)| {
            let instructions = program.iter().map(|&instruction| match instruction {
                other if other == compared => COMPARE,
                other if other == passed => WFENCE,
                other => other,
            });
            (instructions.collect(), *pair)
        });
        threads.collect::<Vec<Thread>>()
    };
    [with(EXCHANGE, ADD), with(FENCE, SET)].concat()
}

/// At each place between a store and a load far apart, among ADDs and among WFENCEs.
fn at_each_place_between() -> Vec<Thread> {
    let last = LAST as u64;
    let mut wfences: Program = vec![WFENCE; MOST_INSTRUCTIONS];
    wfences[0] = STORE;
    wfences[LAST] = LOAD;
    let mut threads = vec![opened(&wfences, 0, last)];
    for place in 1..LAST {
        let among_adds =
            |own| among_adds(MOST_INSTRUCTIONS, &[(0, STORE), (LAST, LOAD), (place, own)]);
        let mut among_wfences = wfences.clone();
        among_wfences[place] = COMPARE;
        threads.extend([
            fenced(&among_adds(COMPARE)),
            opened(&among_adds(WFENCE), 0, last),
            fenced(&among_wfences),
        ]);
    }
    threads
}

/// All ways to put three threads together of which each is closed by a CMPX, open over a WFENCE or of no instructions.
fn among_threads() -> Vec<Known> {
    let kinds = [
        fenced(&[]),
        fenced(&[STORE, COMPARE, LOAD]),
        opened(&[LOAD, STORE, WFENCE, LOAD], 1, 3),
    ];
    let mut cases = Vec::new();
    for turn in 0..kinds.len().pow(3) {
        let threads: Vec<&Thread> = (0..3)
            .map(|at| &kinds[turn / 3_usize.pow(at) % 3])
            .collect();
        let programs: Vec<Program> = threads.iter().map(|(program, _)| program.clone()).collect();
        let first_open = threads.iter().position(|(_, pair)| pair.is_some());
        let line = first_open.map_or(line_of(0, None), |thread| {
            line_of(thread, threads[thread].1)
        });
        cases.push((job(SC, &programs), line));
    }
    cases
}

/// Every thread of one, two and three instructions that has a CMPX or a WFENCE; the lines of these are the checker's own.
pub fn every_small_program() -> Vec<Vec<u8>> {
    let mut cases = Vec::new();
    for count in 1..=3 {
        let mut choices = vec![STORE, LOAD, COMPARE, WFENCE];
        choices.extend((0..=count).flat_map(|place| [jump(place), jump_if(place)]));
        let mut programs: Vec<Program> = vec![vec![]];
        for _ in 0..count {
            programs = programs
                .iter()
                .flat_map(|front| choices.iter().map(|&next| [&front[..], &[next]].concat()))
                .collect();
        }
        programs.retain(|program| program.iter().any(|quad| [COMPARE, WFENCE].contains(quad)));
        let jobs = programs.into_iter().map(|program| job(SC, &[program]));
        cases.extend(jobs.map(|job| in_version(&job, 2)));
    }
    cases
}

const WALK_JOBS: usize = 300;
const SOUND_JOBS: usize = 150;
const DAMAGED_JOBS: usize = 60;
const SEED: u64 = 8;

/// The lines of these are the checker's own.
pub fn random_jobs() -> Vec<Vec<u8>> {
    let mut random = Random::new(SEED);
    let mut jobs: Vec<Vec<u8>> = Vec::new();
    jobs.extend((0..WALK_JOBS).map(|_| walk_job_of_two(&mut random)));
    jobs.extend((0..SOUND_JOBS).map(|_| sound_job_of(&mut random, 2)));
    jobs.extend((0..DAMAGED_JOBS).map(|_| damaged_job_of(&mut random, 2)));
    jobs.extend((0..DAMAGED_JOBS).map(|_| random_bytes_of(&mut random, 2)));
    jobs.retain(|job| job.len() <= ROOM_FOR_JOB);
    jobs
}

/// Few stores and loads among many jumps, with CMPX for many a fence and WFENCE for many another.
pub(crate) fn walk_job_of_two(random: &mut Random) -> Vec<u8> {
    let mut bytes = in_version(&walk_job(random), 2);
    for at in instructions_at(&bytes) {
        let other = match bytes[at] {
            6 | 7 if random.percent(60) => COMPARE,
            1 | 2 if random.percent(60) => WFENCE,
            _ => continue,
        };
        bytes[at..at + 4].copy_from_slice(&other);
    }
    bytes
}

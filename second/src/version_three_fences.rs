//! Cases for the fence check of version 3: nothing of it hangs on values, so what is said of versions 1 and 2 holds.

use crate::dead_code_cases;
use crate::fence_cases::{self, by_turns, line_of, walk_job, Known};
use crate::job::{Item, Value};
use crate::listed::{every_memory, under, ROOM_FOR_JOB};
use crate::random::{damaged_job_of, random_bytes_of, sound_job_of, Random};
use crate::version_three_jobs::{
    compare_exchange, exchange, file_of_three, in_three, is_at, jump, jump_if, load, put, raised,
    store, FENCE, VERSION, WFENCE,
};
use crate::version_two_fences;

pub fn all_known() -> Vec<Known> {
    [as_in_the_others(), whatever_is_stored()].concat()
}

/// The shapes of versions 1 and 2, as they stand and with values times 256, under each model and capacity by turns.
fn as_in_the_others() -> Vec<Known> {
    let threads = [
        fence_cases::shapes(),
        dead_code_cases::shapes(),
        version_two_fences::shapes(),
    ]
    .concat();
    let threads = (0..).zip(threads);
    let by_turns = threads.map(|(turn, thread)| by_turns(turn, thread));
    let memories = every_memory().into_iter().cycle();
    let cases = memories.zip(by_turns).enumerate();
    let of_three = cases.map(|(turn, (memory, (job, line)))| {
        let written = [in_three, raised][turn % 2](&job);
        (under(&written, memory), line)
    });
    of_three.collect()
}

/// Values whose bytes are operation numbers, and places that could be read from k.
fn whatever_is_stored() -> Vec<Known> {
    let mut cases = Vec::new();
    let values: [Value; 6] = [0, 0x0600, 0x0006, 0x0706, 0x0A0B, 0xFFFF];
    for (turn, k) in values.into_iter().enumerate() {
        let threads: [(Vec<Item>, Option<[u64; 2]>); 8] = [
            (vec![put(0, k), load(0, 1)], Some([0, 1])),
            (vec![put(0, k), FENCE, load(0, 1)], None),
            (vec![put(0, k), compare_exchange(0, 0, k), load(0, 1)], None),
            (vec![store(0, 0), exchange(0, 0), load(0, 1)], None),
            (vec![put(0, k), WFENCE, load(0, 1)], Some([0, 2])),
            // JEQ has both moves whatever it compares with, and its target in b.
            (
                vec![put(0, k), jump_if(0, 3, k), FENCE, load(0, 1)],
                Some([0, 3]),
            ),
            (vec![put(0, k), jump_if(0, 2, k), FENCE, load(0, 1)], None),
            (vec![jump(3), put(0, k), load(0, 1)], None),
        ];
        for (program, pair) in threads {
            let memory = every_memory()[turn];
            let end = is_at(1, program.len() as Value);
            let job = file_of_three(memory, &[k, !k], &[vec![], program], 0, &[end]);
            cases.push((job, line_of(1, pair)));
        }
    }
    cases
}

const WALK_JOBS: usize = 100;
const SOUND_JOBS: usize = 150;
const DAMAGED_JOBS: usize = 60;
const SEED: u64 = 10;

/// The lines of these are the checker's own.
pub fn random_jobs() -> Vec<Vec<u8>> {
    let mut random = Random::new(SEED);
    let mut jobs: Vec<Vec<u8>> = Vec::new();
    jobs.extend((0..WALK_JOBS).map(|_| in_three(&walk_job(&mut random))));
    jobs.extend((0..WALK_JOBS).map(|_| raised(&version_two_fences::walk_job_of_two(&mut random))));
    jobs.extend((0..SOUND_JOBS).map(|_| sound_job_of(&mut random, VERSION)));
    jobs.extend((0..DAMAGED_JOBS).map(|_| damaged_job_of(&mut random, VERSION)));
    jobs.extend((0..DAMAGED_JOBS).map(|_| random_bytes_of(&mut random, VERSION)));
    jobs.retain(|job| job.len() <= ROOM_FOR_JOB);
    jobs
}

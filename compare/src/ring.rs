//! The jobs of the speed table.

pub use second::bench::BENCH_SLOTS;
use second::job::item;
use second::listed::{file, Memory, Parts, Program, AT_THE_START, PSO, SC, TSO};

pub const MODELS: [(&str, Memory); 3] = [("SC", SC), ("TSO", [TSO, 2]), ("PSO", [PSO, 2])];

/// The rows of the table; the first has the bench program's slots.
pub const SLOTS: [usize; 3] = [BENCH_SLOTS, 4096, 16_384];

/// Those with an index; the first has the bench program's slots, the last the most that a search takes.
pub const INDEXED_SLOTS: [usize; 4] = [BENCH_SLOTS, 4096, 16_384, 65_536];

/// Those of how cost grows, each twice the one before.
pub const GROWTH_SLOTS: [usize; 7] = [1024, 2048, 4096, 8192, 16_384, 32_768, 65_536];

pub const THREADS: u8 = 4;

/// The variable behind the threads' flags, which all of them write.
const TURN: u8 = THREADS;

/// Each thread raises its flag, names itself, looks at the next flag, counts and begins again.
pub fn ring(memory: Memory) -> Vec<u8> {
    let programs: Vec<Program> = (0..THREADS).map(ring_program).collect();
    file(memory, &[0; TURN as usize + 1], &programs, 0, &NEVER)
}

fn ring_program(thread: u8) -> Program {
    let next = (thread + 1) % THREADS;
    vec![
        [5, 0, thread, 1],
        [5, 0, TURN, thread],
        [3, 0, next, 0],
        [8, 0, 2, 1],
        [2, 1, 0, 1],
        [5, 0, thread, 0],
        [9, 0, 0, 0],
    ]
}

/// The same ring with an end: as many threads as there are numbers, each of which ends after so many rounds.
pub fn ring_with_end(memory: Memory, rounds: &[u8]) -> Vec<u8> {
    let threads = rounds.len() as u8;
    let programs: Vec<Program> = (0..threads)
        .zip(rounds)
        .map(|(thread, &rounds)| {
            vec![
                [5, 0, thread, 1],
                [5, 0, threads, thread],
                [3, 0, (thread + 1) % threads, 0],
                [8, 0, 2, 1],
                [2, 1, 0, 1],
                [5, 0, thread, 0],
                [8, 1, 8, rounds],
                [9, 0, 0, 0],
            ]
        })
        .collect();
    file(memory, &vec![0; rounds.len() + 1], &programs, 0, &NEVER)
}

/// An accepted job with a goal that is never met in place of its own.
pub fn never_met(job: &[u8]) -> Vec<u8> {
    let mut parts = Parts::of(job);
    parts.flag = 0;
    // Thread 0 at its end and at place 0, or where it has no other place a register of two values.
    let end = parts.programs[0].len() as u16;
    parts.clauses = match end {
        0 => vec![item(2, 0, 0, 0), item(2, 0, 0, 1)],
        _ => vec![item(1, 0, 0, 0), item(1, 0, 0, end)],
    };
    parts.file()
}

/// Two threads that end: each raises its flag and looks at the other's.
pub fn ending(memory: Memory) -> Vec<u8> {
    let programs: Vec<Program> = vec![
        vec![[5, 0, 0, 1], [3, 0, 1, 0]],
        vec![[5, 0, 1, 1], [3, 0, 0, 0]],
    ];
    file(memory, &[0; 2], &programs, 0, &NEVER)
}

/// A goal that contradicts itself is never met.
const NEVER: [[u8; 4]; 2] = [AT_THE_START, [1, 0, 0, 1]];

#[cfg(test)]
mod tests {
    use super::*;
    use second::listed::accepted_list;
    use second::machine::SLOT_BYTES;
    use second::{decode, search};

    fn answer(job: &[u8], slots: usize) -> [u64; 4] {
        let mut table = vec![0; slots * SLOT_BYTES];
        search(job, &mut table, &mut vec![0; slots], &mut vec![0; slots])
    }

    #[test]
    fn a_ring_with_an_end_is_searched_to_its_end() {
        assert_eq!(answer(&ring_with_end(SC, &[2, 2]), 500), [2, 428, 0, 0]);
        // One more round is more states.
        let [kind, states, ..] = answer(&ring_with_end(SC, &[3, 2]), 1000);
        assert!(kind == 2 && states > 428);
    }

    #[test]
    fn a_goal_that_is_never_met_takes_the_place_of_the_job_s_own() {
        for job in accepted_list() {
            let never = never_met(&job);
            let [own, other] = [&job, &never].map(|job| decode(job).expect("both are accepted"));
            assert_eq!(own.programs, other.programs);
            assert_eq!(own.initial, other.initial);
            assert_ne!(answer(&never, 200)[0], 1);
        }
    }
}

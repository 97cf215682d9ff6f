//! Long threads, those that request 2 brought: what is new about a job and its calls, told once for the run cases and for the comparison.

use crate::classes::those_met;
use crate::fences::{is_barrier, open_pairs};
use crate::job::{decode, Clause, Instruction, Job, MOST_INSTRUCTIONS};
use crate::listed::with_byte;
use crate::replay::follow;

/// The most instructions before request 2, and so the last place that a thread could be at.
pub const MOST_BEFORE: usize = 32;

pub const LONG_THREAD: &str = "a thread of 33 to 64";
pub const FULL_SIZE: &str = "4 threads of 64";
pub const HIGH_FENCE: &str = "a FENCE above place 32";
pub const HIGH_EXCHANGE: &str = "an XCHG above place 32";
pub const HIGH_TARGET: &str = "a jump to a place above 32";
pub const HIGH_CLAUSE: &str = "a place clause above 32";
pub const ONE_TOO_MANY: &str = "refused for n = 65";

pub const HIGH_STORE: &str = "OPEN with the store above 32";
pub const HIGH_LOAD: &str = "OPEN with the load above 32";
pub const HELD_HIGH: &str = "FENCED only above place 32";

pub const HIGH_GOAL: &str = "a search to a goal above place 32";
pub const HIGH_END: &str = "a replay to above place 32";

/// What the file alone shows.
pub const OF_JOBS: [&str; 7] = [
    LONG_THREAD,
    FULL_SIZE,
    HIGH_FENCE,
    HIGH_EXCHANGE,
    HIGH_TARGET,
    HIGH_CLAUSE,
    ONE_TOO_MANY,
];

/// What the answer of the fence check shows, or shows together with the job.
pub const OF_FENCE_CHECKS: [&str; 3] = [HIGH_STORE, HIGH_LOAD, HELD_HIGH];

/// The classes of `OF_JOBS` that a job is in.
pub fn of_job(job: &[u8]) -> Vec<&'static str> {
    let shapes = match decode(job) {
        Ok(accepted) => shapes(&accepted),
        Err(_) => vec![(ONE_TOO_MANY, is_one_too_many(job))],
    };
    those_met(&shapes)
}

fn shapes(job: &Job) -> Vec<(&'static str, bool)> {
    let has_long = job.programs.iter().any(|program| is_long(program));
    let is_full = |program: &Vec<Instruction>| program.len() == MOST_INSTRUCTIONS;
    let any_high = |wanted: fn(Instruction) -> bool| {
        let mut high = job.programs.iter().flat_map(|program| high_part(program));
        high.any(|&instruction| wanted(instruction))
    };
    let mut instructions = job.programs.iter().flatten();
    vec![
        (LONG_THREAD, has_long),
        (
            FULL_SIZE,
            job.programs.len() == 4 && job.programs.iter().all(is_full),
        ),
        (
            HIGH_FENCE,
            any_high(|instruction| instruction == Instruction::Fence),
        ),
        (
            HIGH_EXCHANGE,
            any_high(|instruction| matches!(instruction, Instruction::Exchange { .. })),
        ),
        (HIGH_TARGET, instructions.any(jumps_high)),
        (HIGH_CLAUSE, job.goal.clauses.iter().any(asks_high)),
    ]
}

fn is_long(program: &[Instruction]) -> bool {
    program.len() > MOST_BEFORE
}

fn is_high(place: usize) -> bool {
    place > MOST_BEFORE
}

/// The instructions above place 32.
fn high_part(program: &[Instruction]) -> &[Instruction] {
    program.get(MOST_BEFORE + 1..).unwrap_or(&[])
}

fn jumps_high(instruction: &Instruction) -> bool {
    matches!(
        *instruction,
        Instruction::Jump { target } | Instruction::JumpIfEqual { target, .. } if is_high(target)
    )
}

fn asks_high(clause: &Clause) -> bool {
    matches!(*clause, Clause::Place { place, .. } if is_high(place))
}

/// Whether a job is refused because an n is one more than it may be.
fn is_one_too_many(job: &[u8]) -> bool {
    match decode(job) {
        Err(refusal) if refusal.number == 4 => {
            // An operation 0 would be refused just so, an n of 0 never is.
            let is_count = decode(&with_byte(job, refusal.offset, 0)).err() != Some(refusal);
            is_count && usize::from(job[refusal.offset]) == MOST_INSTRUCTIONS + 1
        }
        _ => false,
    }
}

/// The classes of `OF_FENCE_CHECKS` that a job is in.
pub fn of_fence_check(job: &[u8]) -> Vec<&'static str> {
    let job = match decode(job) {
        Ok(job) if job.programs.iter().any(|program| is_long(program)) => job,
        _ => return Vec::new(),
    };
    match open_pairs(&job).iter().next() {
        Some(least) => those_met(&[
            (HIGH_STORE, is_high(least.store)),
            (HIGH_LOAD, is_high(least.load)),
        ]),
        None => those_met(&[(
            HELD_HIGH,
            !open_pairs(&without_high_barriers(job)).is_empty(),
        )]),
    }
}

/// The same job with ADD in place of each FENCE, XCHG and CMPX above place 32.
fn without_high_barriers(mut job: Job) -> Job {
    for program in job.programs.iter_mut() {
        for instruction in program.iter_mut().skip(MOST_BEFORE + 1) {
            if is_barrier(*instruction) {
                *instruction = Instruction::Add {
                    register: 0,
                    value: 0,
                };
            }
        }
    }
    job
}

/// Whether a thread is above place 32 where the schedule ends or is stuck.
pub fn ends_high(job: &[u8], schedule: &[u8]) -> bool {
    match decode(job) {
        Ok(job) if job.programs.iter().any(|program| is_long(program)) => {
            let (state, _) = follow(&job, schedule);
            state.threads.iter().any(|thread| is_high(thread.place))
        }
        _ => false,
    }
}

#[cfg(test)]
mod tests {
    use super::*;
    use crate::listed::{at_the_limit, file, P1, SC};

    const ADD: [u8; 4] = [2, 0, 0, 1];
    const STORE: [u8; 4] = [5, 0, 0, 1];
    const LOAD: [u8; 4] = [3, 0, 0, 0];
    const FENCE: [u8; 4] = [6, 0, 0, 0];

    /// A thread of ADDs with these instructions from a place on, and a goal at the start.
    fn job(count: usize, first: usize, others: &[[u8; 4]]) -> Vec<u8> {
        let mut program = vec![ADD; count];
        program[first..first + others.len()].copy_from_slice(others);
        file(SC, &[0], &[program], 0, &[[1, 0, 0, 0]])
    }

    #[test]
    fn the_names_say_the_numbers() {
        let [before, most] = [MOST_BEFORE, MOST_INSTRUCTIONS];
        assert_eq!(LONG_THREAD, format!("a thread of {} to {most}", before + 1));
        assert_eq!(FULL_SIZE, format!("4 threads of {most}"));
        assert_eq!(ONE_TOO_MANY, format!("refused for n = {}", most + 1));
        let high = [HIGH_FENCE, HIGH_EXCHANGE, HIGH_TARGET, HIGH_CLAUSE];
        let high = [&high[..], &OF_FENCE_CHECKS, &[HIGH_GOAL, HIGH_END]].concat();
        for name in high {
            assert!(name.contains("above"), "{name}");
            assert!(name.ends_with(&before.to_string()), "{name}");
        }
    }

    #[test]
    fn jobs_at_both_sides_of_the_old_end() {
        assert_eq!(of_job(&P1), [""; 0]);
        assert_eq!(of_job(&job(32, 0, &[])), [""; 0]);
        assert_eq!(of_job(&job(33, 0, &[])), [LONG_THREAD]);
        assert_eq!(of_job(&job(40, 32, &[FENCE])), [LONG_THREAD]);
        assert_eq!(of_job(&job(40, 33, &[FENCE])), [LONG_THREAD, HIGH_FENCE]);
        let exchange = [7, 0, 0, 0];
        assert_eq!(
            of_job(&job(64, 63, &[exchange])),
            [LONG_THREAD, HIGH_EXCHANGE]
        );
        assert_eq!(of_job(&job(40, 0, &[[9, 0, 32, 0]])), [LONG_THREAD]);
        for jump in [[9, 0, 33, 0], [8, 0, 40, 0]] {
            assert_eq!(of_job(&job(40, 0, &[jump])), [LONG_THREAD, HIGH_TARGET]);
        }
        let asked = |place| file(SC, &[0], &[vec![ADD; 64]], 0, &[[1, 0, 0, place]]);
        assert_eq!(of_job(&asked(32)), [LONG_THREAD]);
        assert_eq!(of_job(&asked(33)), [LONG_THREAD, HIGH_CLAUSE]);
        let full = of_job(&at_the_limit());
        assert_eq!(full, OF_JOBS[..6]);
    }

    #[test]
    fn one_too_many_is_told_from_other_refusals_by_4() {
        let sound = job(64, 0, &[]);
        let of_65 = file(SC, &[0], &[vec![], vec![ADD; 65]], 0, &[[1, 0, 0, 0]]);
        assert_eq!(of_job(&of_65), [ONE_TOO_MANY]);
        assert_eq!(of_job(&with_byte(&sound, 8, 65)), [ONE_TOO_MANY]);
        assert_eq!(of_job(&with_byte(&sound, 8, 66)), [""; 0]);
        // Operations 65 and 0, and an n that is not there.
        assert_eq!(of_job(&with_byte(&sound, 9, 65)), [""; 0]);
        assert_eq!(of_job(&with_byte(&sound, 9, 0)), [""; 0]);
        assert_eq!(of_job(&[0, 1, 1]), [""; 0]);
    }

    #[test]
    fn fence_checks_at_both_sides_of_the_old_end() {
        let check = |first, others: &[[u8; 4]]| of_fence_check(&job(64, first, others));
        assert_eq!(check(31, &[STORE, LOAD]), [""; 0]);
        assert_eq!(check(32, &[STORE, LOAD]), [HIGH_LOAD]);
        assert_eq!(check(33, &[STORE, LOAD]), [HIGH_STORE, HIGH_LOAD]);
        assert_eq!(check(61, &[LOAD, STORE, [9, 0, 64, 0]]), [""; 0]);
        assert_eq!(
            check(61, &[LOAD, STORE, [9, 0, 61, 0]]),
            [HIGH_STORE, HIGH_LOAD]
        );
        assert_eq!(check(31, &[STORE, FENCE, LOAD]), [""; 0]);
        assert_eq!(check(32, &[STORE, FENCE, LOAD]), [HELD_HIGH]);
        assert_eq!(check(31, &[STORE, FENCE, FENCE, LOAD]), [""; 0]);
        assert_eq!(check(40, &[FENCE, LOAD]), [""; 0]);
    }

    #[test]
    fn ends_at_both_sides_of_the_old_end() {
        let long = job(64, 0, &[]);
        assert!(!ends_high(&long, &[0; 32]));
        assert!(ends_high(&long, &[0; 33]));
        // Stuck behind its end.
        assert!(ends_high(&long, &[0; 65]));
        assert!(!ends_high(&P1, &[0, 0, 1, 1]));
    }
}

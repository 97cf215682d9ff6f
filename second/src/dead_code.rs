//! Dead code, whose stores count no more since request 4: what is new about a job and its fence check, told once for the run cases and for the comparison.

use crate::classes::those_met;
use crate::fences::{
    is_barrier, live_in_threads, live_places, open_pairs, open_run_or_not, places_after, stores,
    OpenPair,
};
use crate::job::{decode, Instruction};
use std::collections::BTreeSet;

pub const DEAD_STORE: &str = "a dead store";
/// By thread.
pub const DEAD_STORE_IN: [&str; 4] = ["in thread 0", "in thread 1", "in thread 2", "in thread 3"];
pub const OPEN_TO_DEAD_LOAD: &str = "a dead store open to a dead load";
pub const OPEN_TO_LIVE_LOAD: &str = "a dead store open to a live load";
pub const LIVE_THROUGH_FENCE: &str = "a store live only through a fence";

pub const ALARM_GONE: &str = "FENCED, was OPEN";
pub const LATER_PAIR: &str = "OPEN by a later pair than before";
pub const BY_THE_START: &str = "OPEN by a store at place 0 that no live place leads to";
pub const BY_A_FENCE: &str = "OPEN by a store live only through a fence";
pub const BY_A_JUMP_BACK: &str = "OPEN by a store live only by a jump back";
pub const BY_JUMPING: &str = "OPEN by a store live only if a JEQ jumps";
pub const BY_NOT_JUMPING: &str = "OPEN by a store live only if a JEQ does not jump";

/// What the file alone shows.
pub const OF_JOBS: [&str; 8] = [
    DEAD_STORE,
    DEAD_STORE_IN[0],
    DEAD_STORE_IN[1],
    DEAD_STORE_IN[2],
    DEAD_STORE_IN[3],
    OPEN_TO_DEAD_LOAD,
    OPEN_TO_LIVE_LOAD,
    LIVE_THROUGH_FENCE,
];

/// What the answer of the fence check shows together with the job.
pub const OF_FENCE_CHECKS: [&str; 7] = [
    ALARM_GONE,
    LATER_PAIR,
    BY_THE_START,
    BY_A_FENCE,
    BY_A_JUMP_BACK,
    BY_JUMPING,
    BY_NOT_JUMPING,
];

/// The classes of `OF_JOBS` that a job is in.
pub fn of_job(job: &[u8]) -> Vec<&'static str> {
    let job = match decode(job) {
        Ok(job) => job,
        Err(_) => return Vec::new(),
    };
    let live = live_in_threads(&job);
    let mut dead_pairs = open_run_or_not(&job);
    dead_pairs.retain(|pair| !live[pair.thread].contains(&pair.store));
    let to_live_load: Vec<bool> = dead_pairs
        .iter()
        .map(|pair| live[pair.thread].contains(&pair.load))
        .collect();
    let threads = || job.programs.iter().zip(&live);
    let in_threads: Vec<bool> = threads()
        .map(|(program, live)| has_dead_store(program, live))
        .collect();
    let mut classes = vec![(DEAD_STORE, in_threads.contains(&true))];
    classes.extend(DEAD_STORE_IN.into_iter().zip(in_threads));
    classes.extend([
        (OPEN_TO_DEAD_LOAD, to_live_load.contains(&false)),
        (OPEN_TO_LIVE_LOAD, to_live_load.contains(&true)),
        (
            LIVE_THROUGH_FENCE,
            threads().any(|(program, live)| has_store_behind_fences(program, live)),
        ),
    ]);
    those_met(&classes)
}

fn has_dead_store(program: &[Instruction], live: &BTreeSet<usize>) -> bool {
    stores(program).any(|store| !live.contains(&store))
}

fn has_store_behind_fences(program: &[Instruction], live: &BTreeSet<usize>) -> bool {
    let before_fences = live_if(program, fences_shut);
    stores(program).any(|store| live.contains(&store) && !before_fences.contains(&store))
}

/// The classes of `OF_FENCE_CHECKS` that a job is in.
pub fn of_fence_check(job: &[u8]) -> Vec<&'static str> {
    let job = match decode(job) {
        Ok(job) => job,
        Err(_) => return Vec::new(),
    };
    let before = open_run_or_not(&job).into_iter().next();
    match open_pairs(&job).into_iter().next() {
        None => those_met(&[(ALARM_GONE, before.is_some())]),
        Some(least) => {
            let OpenPair { thread, store, .. } = least;
            let program = &job.programs[thread];
            let hangs_on = |change| !live_if(program, change).contains(&store);
            those_met(&[
                (LATER_PAIR, before != Some(least)),
                (BY_THE_START, store == 0 && !leads_back_to_place_0(program)),
                (BY_A_FENCE, hangs_on(fences_shut)),
                (BY_A_JUMP_BACK, hangs_on(never_back)),
                (BY_JUMPING, hangs_on(jeq_never_jumps)),
                (BY_NOT_JUMPING, hangs_on(jeq_always_jumps)),
            ])
        }
    }
}

/// Whether a move leads from a live place to place 0.
fn leads_back_to_place_0(program: &[Instruction]) -> bool {
    let mut live = live_places(program).into_iter();
    live.any(|place| places_after(program, place).contains(&0))
}

/// Another instruction for the one at a place, which takes moves away.
pub type Change = fn(usize, Instruction) -> Instruction;

/// The places that stay live when every instruction is changed so.
pub fn live_if(program: &[Instruction], change: Change) -> BTreeSet<usize> {
    let changed = program.iter().enumerate();
    let changed: Vec<_> = changed.map(|(place, &old)| change(place, old)).collect();
    live_places(&changed)
}

/// Goes nowhere else.
fn stay_at(place: usize) -> Instruction {
    Instruction::Jump { target: place }
}

const GO_ON: Instruction = Instruction::Add {
    register: 0,
    value: 0,
};

pub fn fences_shut(place: usize, instruction: Instruction) -> Instruction {
    if is_barrier(instruction) {
        stay_at(place)
    } else {
        instruction
    }
}

pub fn never_back(place: usize, instruction: Instruction) -> Instruction {
    match instruction {
        Instruction::Jump { target } if target < place => stay_at(place),
        Instruction::JumpIfEqual { target, .. } if target < place => GO_ON,
        other => other,
    }
}

pub fn jeq_never_jumps(_: usize, instruction: Instruction) -> Instruction {
    match instruction {
        Instruction::JumpIfEqual { .. } => GO_ON,
        other => other,
    }
}

pub fn jeq_always_jumps(_: usize, instruction: Instruction) -> Instruction {
    match instruction {
        Instruction::JumpIfEqual { target, .. } => Instruction::Jump { target },
        other => other,
    }
}

#[cfg(test)]
mod tests {
    use super::*;
    use crate::fence_cases::{jump, jump_if, ADD, EXCHANGE, FENCE, LOAD, STORE};
    use crate::listed::{file, with_byte, Program, P1, SC};

    fn job(programs: &[Program]) -> Vec<u8> {
        file(SC, &[0], programs, 0, &[[1, 0, 0, 0]])
    }

    fn shapes(program: &[[u8; 4]]) -> Vec<&'static str> {
        of_job(&job(&[program.to_vec()]))
    }

    fn checks(program: &[[u8; 4]]) -> Vec<&'static str> {
        of_fence_check(&job(&[program.to_vec()]))
    }

    #[test]
    fn dead_stores_are_told_by_thread() {
        let dead = vec![jump(2), STORE];
        let live = vec![jump(1), STORE];
        assert_eq!(of_job(&job(&[live.clone(), live.clone()])), [""; 0]);
        assert_eq!(
            of_job(&job(&[live.clone(), dead.clone(), live, dead])),
            [DEAD_STORE, DEAD_STORE_IN[1], DEAD_STORE_IN[3]]
        );
        for (thread, name) in DEAD_STORE_IN.into_iter().enumerate() {
            assert!(name.ends_with(&thread.to_string()), "{name}");
        }
    }

    #[test]
    fn dead_pairs_are_told_by_their_load() {
        let dead = [DEAD_STORE, DEAD_STORE_IN[0]];
        assert_eq!(shapes(&[jump(4), STORE, FENCE, LOAD]), dead);
        let open_to = |load| [&dead[..], &[load]].concat();
        assert_eq!(shapes(&[jump(3), STORE, LOAD]), open_to(OPEN_TO_DEAD_LOAD));
        assert_eq!(shapes(&[jump(2), STORE, LOAD]), open_to(OPEN_TO_LIVE_LOAD));
    }

    #[test]
    fn stores_behind_fences_are_live_only_through_them() {
        for barrier in [FENCE, EXCHANGE] {
            assert_eq!(shapes(&[barrier, STORE]), [LIVE_THROUGH_FENCE]);
            assert_eq!(shapes(&[STORE, barrier]), [""; 0]);
            // One way leads round the fence.
            assert_eq!(shapes(&[jump_if(2), barrier, STORE]), [""; 0]);
        }
    }

    #[test]
    fn answers_that_moved() {
        assert_eq!(checks(&[jump(3), STORE, LOAD]), [ALARM_GONE]);
        assert_eq!(checks(&[jump(4), STORE, FENCE, LOAD]), [""; 0]);
        assert_eq!(checks(&[jump(3), STORE, LOAD, STORE, LOAD]), [LATER_PAIR]);
        // The dead pair is not the least.
        assert_eq!(checks(&[ADD, STORE, LOAD, jump(6), STORE, LOAD]), [""; 0]);
    }

    #[test]
    fn answers_that_hang_on_one_kind_of_move() {
        assert_eq!(checks(&[STORE, LOAD]), [BY_THE_START]);
        assert_eq!(checks(&[STORE, LOAD, jump(4), jump(0)]), [BY_THE_START]);
        assert_eq!(checks(&[STORE, LOAD, jump(0)]), [""; 0]);
        assert_eq!(checks(&[FENCE, STORE, LOAD]), [BY_A_FENCE]);
        assert_eq!(checks(&[EXCHANGE, STORE, LOAD]), [BY_A_FENCE]);
        assert_eq!(checks(&[jump(3), STORE, LOAD, jump(1)]), [BY_A_JUMP_BACK]);
        assert_eq!(
            checks(&[jump(3), STORE, LOAD, jump_if(1)]),
            [BY_A_JUMP_BACK, BY_JUMPING]
        );
        assert_eq!(checks(&[jump_if(2), jump(4), STORE, LOAD]), [BY_JUMPING]);
        assert_eq!(checks(&[jump_if(3), STORE, LOAD]), [BY_NOT_JUMPING]);
        assert_eq!(checks(&[jump_if(1), STORE, LOAD]), [""; 0]);
    }

    #[test]
    fn refused_jobs_are_in_no_class() {
        let refused = with_byte(&P1, 10, 10);
        assert_eq!(of_job(&refused), [""; 0]);
        assert_eq!(of_fence_check(&refused), [""; 0]);
    }
}

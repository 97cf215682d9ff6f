//! Fence check: looks for a store, not in dead code, that a later load may overtake.

use crate::job::{decode, Instruction, Job};
use std::collections::BTreeSet;

/// A store place and a load place of one thread with an unfenced walk between them.
#[derive(Clone, Copy, Debug, PartialEq, Eq, PartialOrd, Ord)]
pub struct OpenPair {
    pub thread: usize,
    pub store: usize,
    pub load: usize,
}

/// Answers 0,number,offset,0 | 1,0,0,0 FENCED | 2,thread,store,load OPEN.
pub fn fences(job: &[u8]) -> [u64; 4] {
    match decode(job) {
        Err(refusal) => refusal.words(),
        Ok(job) => match open_pairs(&job).iter().next() {
            None => [1, 0, 0, 0],
            Some(pair) => [2, pair.thread as u64, pair.store as u64, pair.load as u64],
        },
    }
}

/// All open pairs that count; the set's order makes the least one the first.
pub fn open_pairs(job: &Job) -> BTreeSet<OpenPair> {
    let live = live_in_threads(job);
    let mut pairs = open_run_or_not(job);
    pairs.retain(|pair| live[pair.thread].contains(&pair.store));
    pairs
}

/// The open pairs as 01 has them, before request 4 took out those whose store is in dead code.
pub fn open_run_or_not(job: &Job) -> BTreeSet<OpenPair> {
    let mut pairs = BTreeSet::new();
    for (thread, program) in job.programs.iter().enumerate() {
        for store in stores(program) {
            let exposed = ends_of_walks(program, places_after(program, store), Barriers::Stop);
            for load in exposed {
                if program.get(load).copied().map_or(false, is_load) {
                    pairs.insert(OpenPair {
                        thread,
                        store,
                        load,
                    });
                }
            }
        }
    }
    pairs
}

/// The places that moves lead to from place 0, itself included; moves decide, not runs.
pub fn live_places(program: &[Instruction]) -> BTreeSet<usize> {
    ends_of_walks(program, vec![0], Barriers::LetPass)
}

/// The live places of each thread.
pub fn live_in_threads(job: &Job) -> Vec<BTreeSet<usize>> {
    let programs = job.programs.iter();
    programs.map(|program| live_places(program)).collect()
}

/// What FENCE, XCHG and CMPX are to a walk that comes to them.
#[derive(Clone, Copy, PartialEq, Eq)]
enum Barriers {
    /// They may be the end of a walk, but no walk goes on through one.
    Stop,
    LetPass,
}

/// Every place at which a walk of zero or more moves from one of these places can end.
fn ends_of_walks(program: &[Instruction], from: Vec<usize>, barriers: Barriers) -> BTreeSet<usize> {
    let stops = |place: usize| {
        let barrier = program.get(place).copied().map_or(false, is_barrier);
        barrier && barriers == Barriers::Stop
    };
    let mut ends = BTreeSet::new();
    let mut edge = from;
    while let Some(place) = edge.pop() {
        if ends.insert(place) && !stops(place) {
            edge.extend(places_after(program, place));
        }
    }
    ends
}

/// The end of a program has no place after it.
pub fn places_after(program: &[Instruction], place: usize) -> Vec<usize> {
    let instruction = match program.get(place) {
        Some(instruction) => instruction,
        _ => return vec![],
    };
    match *instruction {
        Instruction::Jump { target } => vec![target],
        Instruction::JumpIfEqual { target, .. } => vec![place + 1, target],
        Instruction::Set { .. }
        | Instruction::Add { .. }
        | Instruction::Load { .. }
        | Instruction::StoreRegister { .. }
        | Instruction::StoreConstant { .. }
        | Instruction::Fence
        | Instruction::Exchange { .. }
        | Instruction::CompareExchange { .. }
        | Instruction::StoreFence => vec![place + 1],
    }
}

/// The places of a program's stores.
pub fn stores(program: &[Instruction]) -> impl Iterator<Item = usize> + '_ {
    (0..program.len()).filter(move |&place| is_store(program[place]))
}

fn is_store(instruction: Instruction) -> bool {
    matches!(
        instruction,
        Instruction::StoreRegister { .. } | Instruction::StoreConstant { .. }
    )
}

fn is_load(instruction: Instruction) -> bool {
    matches!(instruction, Instruction::Load { .. })
}

/// WFENCE is none: a load may overtake the stores before it.
pub fn is_barrier(instruction: Instruction) -> bool {
    matches!(
        instruction,
        Instruction::Fence | Instruction::Exchange { .. } | Instruction::CompareExchange { .. }
    )
}

#[cfg(test)]
mod tests {
    use super::*;
    use crate::fence_cases::{jump, EXCHANGE, FENCE, LOAD, STORE};
    use crate::listed::{file, SC};

    fn job(program: &[[u8; 4]]) -> Job {
        let bytes = file(SC, &[0], &[program.to_vec()], 0, &[[1, 0, 0, 0]]);
        decode(&bytes).unwrap()
    }

    fn live(program: &[[u8; 4]]) -> Vec<usize> {
        let places = live_places(&job(program).programs[0]);
        places.into_iter().collect()
    }

    fn pairs(open: BTreeSet<OpenPair>) -> Vec<[usize; 2]> {
        open.iter().map(|pair| [pair.store, pair.load]).collect()
    }

    #[test]
    fn place_0_is_live_whatever_stands_there() {
        assert_eq!(live(&[]), [0]);
        assert_eq!(live(&[jump(0)]), [0]);
        assert_eq!(live(&[jump(1)]), [0, 1]);
        assert_eq!(live(&[STORE, jump(1), LOAD]), [0, 1]);
    }

    #[test]
    fn a_walk_for_liveness_passes_fences_and_a_walk_to_a_load_does_not() {
        for barrier in [FENCE, EXCHANGE] {
            assert_eq!(live(&[barrier, jump(3), LOAD, STORE]), [0, 1, 3, 4]);
            assert_eq!(
                pairs(open_pairs(&job(&[barrier, STORE, LOAD, barrier, LOAD]))),
                [[1, 2]]
            );
        }
    }

    #[test]
    fn both_ways_of_a_jeq_are_live_even_if_runs_take_one() {
        let always = [8, 0, 3, 0];
        assert_eq!(live(&[always, STORE, LOAD]), [0, 1, 2, 3]);
    }

    #[test]
    fn a_walk_ends_where_every_instruction_is_a_jump() {
        assert_eq!(live(&[jump(2), jump(0), jump(1)]), [0, 1, 2]);
        assert_eq!(live(&[jump(2), jump(1), jump(0)]), [0, 2]);
    }

    #[test]
    fn pairs_of_dead_stores_are_open_only_run_or_not() {
        let parked = job(&[jump(3), STORE, LOAD, STORE, LOAD]);
        assert_eq!(pairs(open_run_or_not(&parked)), [[1, 2], [1, 4], [3, 4]]);
        assert_eq!(pairs(open_pairs(&parked)), [[3, 4]]);
        // The last place leads back to the parked store.
        let revived = job(&[jump(3), STORE, LOAD, jump(1)]);
        assert_eq!(open_pairs(&revived), open_run_or_not(&revived));
        assert_eq!(pairs(open_pairs(&revived)), [[1, 2]]);
    }
}

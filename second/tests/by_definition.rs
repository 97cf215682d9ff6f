//! Random jobs against the definitions themselves: all schedules, all walks, nothing shared.

mod common;
use common::*;
use second::job::{Instruction, Job};
use second::machine::{step, successors, State};
use second::random::{sound_job, Random};
use second::{decode, fences};
use std::collections::HashMap;

const MOST_STEPS: usize = 8;
const MOST_SCHEDULES: usize = 5_000;
const SLOTS: usize = 400;
/// No greater number is a step.
const LAST_STEP: u8 = 35;

/// All schedules of 0, 1, 2, ... steps, each length in order, as far as is affordable.
fn all_schedules(job: &Job) -> Vec<Vec<(Vec<u8>, State)>> {
    let mut lengths = vec![vec![(Vec::new(), State::start(job))]];
    while lengths.len() <= MOST_STEPS && lengths[lengths.len() - 1].len() <= MOST_SCHEDULES {
        let mut longer = Vec::new();
        for (schedule, state) in &lengths[lengths.len() - 1] {
            for number in 0..=LAST_STEP {
                if let Ok(next) = step(job, state, number) {
                    longer.push(([&schedule[..], &[number]].concat(), next));
                }
            }
        }
        lengths.push(longer);
    }
    lengths
}

/// Each state's first shortest schedule, states in order of these.
fn first_schedules(lengths: &[Vec<(Vec<u8>, State)>]) -> Vec<(Vec<u8>, State)> {
    let mut seen = HashMap::new();
    let mut firsts = Vec::new();
    for (schedule, state) in lengths.iter().flatten() {
        if seen.insert(state.clone(), ()).is_none() {
            firsts.push((schedule.clone(), state.clone()));
        }
    }
    firsts
}

/// True when no step leads out of these states, and they fit.
fn is_closed(job: &Job, firsts: &[(Vec<u8>, State)]) -> bool {
    let known = |next: &State| firsts.iter().any(|(_, state)| state == next);
    firsts.len() <= SLOTS
        && firsts
            .iter()
            .all(|(_, state)| successors(job, state).values().all(known))
}

fn check_search(bytes: &[u8]) -> [u64; 4] {
    let job = decode(bytes).unwrap();
    let lengths = all_schedules(&job);
    let firsts = first_schedules(&lengths);
    let run = run(bytes, SLOTS);
    let goal = lengths
        .iter()
        .flatten()
        .find(|(_, state)| state.is_goal(&job));
    let counted = match goal {
        Some((schedule, _)) => {
            let distance = schedule.len();
            let states = firsts
                .iter()
                .filter(|(first, _)| first.len() <= distance)
                .count();
            // Without room for them all the first are still the same.
            if states <= SLOTS {
                assert_eq!(run.answer, [1, distance as u64, states as u64, 0]);
                assert_eq!(run.schedule[..distance], schedule[..]);
                assert!(run.untouched_from(states, distance));
            } else {
                assert_eq!(run.answer, [3, SLOTS as u64, 0, 0]);
            }
            states.min(SLOTS)
        }
        None => {
            // Beyond the affordable lengths nothing is known but the slots so far.
            if is_closed(&job, &firsts) {
                assert_eq!(run.answer, [2, firsts.len() as u64, 0, 0]);
                assert!(run.untouched_from(firsts.len(), 0));
            }
            firsts.len().min(SLOTS)
        }
    };
    for (index, (first, state)) in firsts.iter().take(counted).enumerate() {
        assert_eq!(run.slot(index), state.slot());
        let link = match first.split_last() {
            None => u32::MAX,
            Some((&step, before)) => {
                let parent = firsts
                    .iter()
                    .position(|(schedule, _)| schedule == before)
                    .unwrap();
                64 * parent as u32 + u32::from(step)
            }
        };
        assert_eq!(run.links[index], link);
    }
    run.answer
}

#[test]
fn searches_agree_with_all_schedules() {
    let mut random = Random::new(11);
    let (mut reached, mut shut_out) = (0, 0);
    for _ in 0..400 {
        let bytes = sound_job(&mut random);
        let [kind, distance, ..] = check_search(&bytes);
        reached += usize::from(kind == 1 && distance >= 3);
        shut_out += usize::from(kind == 2);
    }
    assert!(
        reached > 40,
        "only {reached} goals lay three steps away or more"
    );
    assert!(shut_out > 20, "only {shut_out} goals were unreachable");
}

#[test]
fn the_listed_jobs_agree_with_all_schedules() {
    assert_eq!(check_search(&p1()), [1, 4, 22, 0]);
    let mut with_flag = p1();
    with_flag[27] = 1;
    assert_eq!(check_search(&with_flag), [1, 6, 34, 0]);
}

/// Places where walks of exactly 1, 2, 3, ... moves can end, with or without barriers strictly between.
fn walk_ends(program: &[Instruction], from: usize, barriers_between: bool) -> Vec<usize> {
    let mut ends = Vec::new();
    let mut current = vec![from];
    current.retain(|&place| place < program.len());
    for moves in 0..=program.len() {
        let mut next = Vec::new();
        for &place in &current {
            let inner_barrier = moves > 0
                && !barriers_between
                && matches!(
                    program[place],
                    Instruction::Fence
                        | Instruction::Exchange { .. }
                        | Instruction::CompareExchange { .. }
                );
            if !inner_barrier {
                match program[place] {
                    Instruction::Jump { target } => next.push(target),
                    Instruction::JumpIfEqual { target, .. } => next.extend([target, place + 1]),
                    Instruction::Set { .. }
                    | Instruction::Add { .. }
                    | Instruction::Load { .. }
                    | Instruction::StoreRegister { .. }
                    | Instruction::StoreConstant { .. }
                    | Instruction::Fence
                    | Instruction::Exchange { .. }
                    | Instruction::CompareExchange { .. }
                    | Instruction::StoreFence => next.push(place + 1),
                }
            }
        }
        next.retain(|&place| place < program.len());
        next.sort();
        next.dedup();
        ends.extend(&next);
        current = next;
    }
    ends
}

fn expected_fences(job: &Job) -> [u64; 4] {
    for (thread, program) in job.programs.iter().enumerate() {
        let led_to = walk_ends(program, 0, true);
        for store in 0..program.len() {
            let ends = match program[store] {
                // A walk of no move is at place 0 already.
                _ if store > 0 && !led_to.contains(&store) => Vec::new(),
                Instruction::StoreRegister { .. } | Instruction::StoreConstant { .. } => {
                    walk_ends(program, store, false)
                }
                Instruction::Set { .. }
                | Instruction::Add { .. }
                | Instruction::Load { .. }
                | Instruction::Fence
                | Instruction::Exchange { .. }
                | Instruction::CompareExchange { .. }
                | Instruction::StoreFence
                | Instruction::JumpIfEqual { .. }
                | Instruction::Jump { .. } => Vec::new(),
            };
            let is_load = |&place: &usize| matches!(program[place], Instruction::Load { .. });
            if let Some(load) = ends.into_iter().filter(is_load).min() {
                return [2, thread as u64, store as u64, load as u64];
            }
        }
    }
    [1, 0, 0, 0]
}

#[test]
fn fence_checks_agree_with_all_walks() {
    let mut random = Random::new(12);
    let mut open = 0;
    for _ in 0..5_000 {
        let bytes = sound_job(&mut random);
        let answer = fences(&bytes);
        assert_eq!(answer, expected_fences(&decode(&bytes).unwrap()));
        open += usize::from(answer[0] == 2);
    }
    assert!((1_000..4_000).contains(&open), "{open} of 5000 open");
}

#[test]
fn fence_run_cases_agree_with_all_walks() {
    for bytes in second::fence_cases::all() {
        if let Ok(job) = decode(&bytes) {
            assert_eq!(fences(&bytes), expected_fences(&job), "{bytes:?}");
        }
    }
}

#[test]
fn small_fence_cases() {
    let store = [5, 0, 0, 1];
    let load = [3, 0, 0, 0];
    let answer = |program: &[[u8; 4]]| fences(&job(SC, &[0], &[&[], program], 0, &ANY_GOAL));
    assert_eq!(answer(&[load, store]), [1, 0, 0, 0]);
    assert_eq!(answer(&[load, store, [9, 0, 0, 0]]), [2, 1, 1, 0]);
    assert_eq!(answer(&[store, [7, 0, 0, 0], load]), [1, 0, 0, 0]);
    assert_eq!(
        answer(&[store, [8, 0, 3, 9], [6, 0, 0, 0], load]),
        [2, 1, 0, 3]
    );
    assert_eq!(
        answer(&[store, [9, 0, 3, 0], load, [6, 0, 0, 0]]),
        [1, 0, 0, 0]
    );
    // A store counts if moves lead to it from place 0, whatever runs do.
    assert_eq!(answer(&[[9, 0, 3, 0], store, load]), [1, 0, 0, 0]);
    assert_eq!(answer(&[[8, 0, 3, 0], store, load]), [2, 1, 1, 2]);
    assert_eq!(
        answer(&[[9, 0, 3, 0], store, load, [9, 0, 1, 0]]),
        [2, 1, 1, 2]
    );
    assert_eq!(
        answer(&[[4, 0, 0, 0], [1, 0, 0, 0], load, load]),
        [2, 1, 0, 2]
    );
}

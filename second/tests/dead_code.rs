//! The cases about dead code tell wrong fence checks from right ones, each by a named shape and by a random program.

use second::fences::{open_pairs, open_run_or_not, places_after, OpenPair};
use second::job::{Instruction, Job};
use second::listed::{file, AT_THE_START, SC};
use second::{dead_code_cases, decode};
use std::collections::{BTreeSet, VecDeque};

type Answer = Option<OpenPair>;
type Live = Vec<BTreeSet<usize>>;

fn right(job: &Job) -> Answer {
    open_pairs(job).into_iter().next()
}

/// The least pair that is open by 01 and whose store is among these places of its thread.
fn least(job: &Job, live: &[BTreeSet<usize>]) -> Answer {
    let mut pairs = open_run_or_not(job).into_iter();
    pairs.find(|pair| live[pair.thread].contains(&pair.store))
}

fn in_each(job: &Job, live: impl Fn(&[Instruction]) -> BTreeSet<usize>) -> Live {
    job.programs.iter().map(|program| live(program)).collect()
}

/// The places that these moves lead to from place 0, nearest first, in at most so many rounds.
fn spread(
    program: &[Instruction],
    rounds: usize,
    moves: impl Fn(usize) -> Vec<usize>,
) -> BTreeSet<usize> {
    let mut live = BTreeSet::from([0]);
    let mut edge = VecDeque::from([(0, 0)]);
    while let Some((place, round)) = edge.pop_front() {
        if place < program.len() && round < rounds {
            for next in moves(place) {
                if live.insert(next) {
                    edge.push_back((next, round + 1));
                }
            }
        }
    }
    live
}

const ANY: usize = usize::MAX;

/// The places that are live when the walk does not go on from instructions of this kind.
fn stopping_at(job: &Job, stops: impl Fn(Instruction) -> bool) -> Live {
    in_each(job, |program| {
        spread(program, ANY, |place| match program[place] {
            stop if stops(stop) => vec![],
            _ => places_after(program, place),
        })
    })
}

/// The places that are live when JEQ has only this one of its two moves.
fn with_one_way_of_jeq(job: &Job, jumps: bool) -> Live {
    in_each(job, |program| {
        spread(program, ANY, |place| match program[place] {
            Instruction::JumpIfEqual { target, .. } if jumps => vec![target],
            Instruction::JumpIfEqual { .. } => vec![place + 1],
            _ => places_after(program, place),
        })
    })
}

fn live_in_rounds(job: &Job, rounds: usize) -> Live {
    in_each(job, |program| {
        spread(program, rounds, |place| places_after(program, place))
    })
}

fn truly_live(job: &Job) -> Live {
    live_in_rounds(job, ANY)
}

fn never_back(job: &Job) -> Live {
    in_each(job, |program| {
        spread(program, ANY, |place| {
            let mut next = places_after(program, place);
            next.retain(|&to| to > place);
            next
        })
    })
}

/// A place is taken for live when anything leads to it, dead or not.
fn led_to_by_anything(job: &Job) -> Live {
    in_each(job, |program| {
        let led_to = (0..program.len()).flat_map(|place| places_after(program, place));
        led_to.chain([0]).collect()
    })
}

/// One pass over the places from the front: a jump back comes too late.
fn in_one_pass(job: &Job) -> Live {
    in_each(job, |program| {
        let mut live = BTreeSet::from([0]);
        for place in 0..program.len() {
            if live.contains(&place) {
                live.extend(places_after(program, place));
            }
        }
        live
    })
}

/// A walk of no move is forgotten.
fn led_to_by_a_move(job: &Job) -> Live {
    let truly = truly_live(job).into_iter().zip(&job.programs);
    let moved = truly.map(|(live, program)| {
        let next = live.iter().flat_map(|&place| places_after(program, place));
        next.collect()
    });
    moved.collect()
}

fn with_loads_for_stores(job: &Job) -> Answer {
    let live = truly_live(job);
    let mut pairs = open_run_or_not(job).into_iter();
    pairs.find(|pair| live[pair.thread].contains(&pair.load))
}

/// Only the pair that was the least is looked at.
fn the_least_or_none(job: &Job) -> Answer {
    let least = open_run_or_not(job).into_iter().next()?;
    truly_live(job)[least.thread]
        .contains(&least.store)
        .then_some(least)
}

/// Only the least pair of each thread is looked at.
fn the_least_of_each_thread(job: &Job) -> Answer {
    let live = truly_live(job);
    let pairs = open_run_or_not(job);
    let mut firsts = (0..4).filter_map(|thread| pairs.iter().find(|pair| pair.thread == thread));
    firsts
        .find(|pair| live[pair.thread].contains(&pair.store))
        .copied()
}

/// The last store of the thread, where the least is asked for.
fn the_last_store(job: &Job) -> Answer {
    let live = truly_live(job);
    let pairs = open_run_or_not(job).into_iter();
    let counting: Vec<OpenPair> = pairs
        .filter(|pair| live[pair.thread].contains(&pair.store))
        .collect();
    let thread = counting.first()?.thread;
    let own = counting.into_iter().filter(|pair| pair.thread == thread);
    let store = own.clone().map(|pair| pair.store).max()?;
    own.into_iter().find(|pair| pair.store == store)
}

fn is_fence(instruction: Instruction) -> bool {
    instruction == Instruction::Fence
}

fn is_exchange(instruction: Instruction) -> bool {
    matches!(instruction, Instruction::Exchange { .. })
}

fn is_load(instruction: Instruction) -> bool {
    matches!(instruction, Instruction::Load { .. })
}

fn is_store(instruction: Instruction) -> bool {
    matches!(
        instruction,
        Instruction::StoreRegister { .. } | Instruction::StoreConstant { .. }
    )
}

/// Thread 0's live places stand for those of every thread, or the other threads have no dead place.
fn of_one_thread(job: &Job, every_thread_is_the_first: bool) -> Live {
    let truly = truly_live(job);
    let all: BTreeSet<usize> = (0..=64).collect();
    (0..job.programs.len())
        .map(|thread| match thread {
            0 => truly[0].clone(),
            _ if every_thread_is_the_first => truly[0].clone(),
            _ => all.clone(),
        })
        .collect()
}

fn above_32_is(job: &Job, live: bool) -> Live {
    let mut truly = truly_live(job);
    for places in &mut truly {
        if live {
            places.extend(33..=64);
        } else {
            places.retain(|&place| place <= 32);
        }
    }
    truly
}

type Wrong = (&'static str, fn(&Job) -> Answer);

const WRONG_CHECKS: [Wrong; 21] = [
    ("run or not", |job| open_run_or_not(job).into_iter().next()),
    ("FENCE stops liveness", |job| {
        least(job, &stopping_at(job, is_fence))
    }),
    ("XCHG stops liveness", |job| {
        least(job, &stopping_at(job, is_exchange))
    }),
    ("a load stops liveness", |job| {
        least(job, &stopping_at(job, is_load))
    }),
    ("a store stops liveness", |job| {
        least(job, &stopping_at(job, is_store))
    }),
    ("JEQ always jumps", |job| {
        least(job, &with_one_way_of_jeq(job, true))
    }),
    ("JEQ never jumps", |job| {
        least(job, &with_one_way_of_jeq(job, false))
    }),
    ("no walk back", |job| least(job, &never_back(job))),
    ("dead code makes live", |job| {
        least(job, &led_to_by_anything(job))
    }),
    ("one pass", |job| least(job, &in_one_pass(job))),
    ("one move or more", |job| least(job, &led_to_by_a_move(job))),
    ("at most 62 moves", |job| {
        least(job, &live_in_rounds(job, 62))
    }),
    ("at most 31 moves", |job| {
        least(job, &live_in_rounds(job, 31))
    }),
    ("live loads", with_loads_for_stores),
    ("the least or none", the_least_or_none),
    ("the least of each thread", the_least_of_each_thread),
    ("the last store", the_last_store),
    ("thread 0 for all", |job| {
        least(job, &of_one_thread(job, true))
    }),
    ("thread 0 alone", |job| {
        least(job, &of_one_thread(job, false))
    }),
    ("all live above 32", |job| {
        least(job, &above_32_is(job, true))
    }),
    ("all dead above 32", |job| {
        least(job, &above_32_is(job, false))
    }),
];

/// How many of these jobs a wrong check answers wrongly.
fn errors(check: fn(&Job) -> Answer, jobs: &[Vec<u8>]) -> usize {
    let decoded = jobs.iter().map(|job| decode(job).unwrap());
    decoded.filter(|job| check(job) != right(job)).count()
}

#[test]
fn named_cases_tell_every_wrong_check() {
    let named = dead_code_cases::all_known();
    let named: Vec<Vec<u8>> = named.into_iter().map(|(job, _)| job).collect();
    for (name, check) in WRONG_CHECKS {
        assert!(errors(check, &named) > 0, "{name}");
    }
}

#[test]
fn random_cases_tell_every_wrong_check_but_by_the_longest_walks() {
    let random = dead_code_cases::random_jobs();
    for (name, check) in WRONG_CHECKS {
        // No random program is one long chain.
        if !name.ends_with("moves") {
            assert!(errors(check, &random) >= 3, "{name}");
        }
    }
}

#[test]
fn a_right_check_written_otherwise_has_no_error() {
    let named = dead_code_cases::all_known();
    let named: Vec<Vec<u8>> = named.into_iter().map(|(job, _)| job).collect();
    for jobs in [named, dead_code_cases::random_jobs()] {
        assert_eq!(errors(|job| least(job, &truly_live(job)), &jobs), 0);
    }
}

#[test]
fn every_named_shape_stands_in_each_thread_and_in_front_of_a_thread_of_64() {
    let jobs = dead_code_cases::all_known();
    let jobs: Vec<Job> = jobs.iter().map(|(job, _)| decode(job).unwrap()).collect();
    for (quads, _) in dead_code_cases::shapes() {
        let alone = file(SC, &[0, 0], &[quads], 0, &[AT_THE_START]);
        let shape = &decode(&alone).unwrap().programs[0];
        for thread in 0..4 {
            let mut programs = jobs.iter().filter_map(|job| job.programs.get(thread));
            assert!(programs.any(|program| program == shape), "{shape:?}");
        }
        let mut programs = jobs.iter().flat_map(|job| &job.programs);
        let in_front = |program: &Vec<_>| program.len() == 64 && program.starts_with(shape);
        assert!(programs.any(in_front), "{shape:?}");
    }
}

#[test]
fn every_length_is_among_the_named_cases() {
    let mut lengths = BTreeSet::new();
    for (job, _) in dead_code_cases::all_known() {
        let programs = decode(&job).unwrap().programs;
        lengths.extend(programs.iter().map(Vec::len));
    }
    assert_eq!(lengths, (0..=64).collect());
}

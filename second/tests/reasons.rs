//! The reasons: the machine gives them by the rules, and the cases tell wrong ones from right ones.

use second::fences::is_barrier;
use second::job::{Instruction, Job, Model};
use second::listed::{file, AT_THE_START, TSO};
use second::machine::{enabled, reason, step, successors, Reason, State, Step, REASONS};
use second::random::{sound_job, stuck_schedule, Random};
use second::replay::{follow, follow_until_stuck, Stuck};
use second::replay_cases::{Case, Known};
use second::{decode, reason_cases, replay, replay_cases, version_two_replays};
use std::collections::{BTreeMap, BTreeSet};

// ---- the machine ----

#[test]
fn the_numbers_are_those_of_the_request() {
    assert_eq!(REASONS.map(Reason::number), [1, 2, 3, 4, 5, 6]);
    assert_eq!(Reason::NoSuchStep.number(), 1);
    assert_eq!(Reason::ThreadEnded.number(), 2);
    assert_eq!(Reason::BufferFull.number(), 3);
    assert_eq!(Reason::BufferNotEmpty.number(), 4);
    assert_eq!(Reason::NothingToFlush.number(), 5);
    assert_eq!(Reason::NotTheOldest.number(), 6);
}

#[test]
fn step_numbers_stand_for_what_the_paper_says() {
    for thread in 0..4 {
        assert_eq!(
            Step::from_number(thread as u8),
            Some(Step::Execute { thread })
        );
        for variable in 0..8 {
            let number = (4 + 8 * thread + variable) as u8;
            assert_eq!(
                Step::from_number(number),
                Some(Step::Flush { thread, variable })
            );
        }
    }
    assert!((36..=255).all(|number| Step::from_number(number).is_none()));
}

/// Threads 0, 1 and 2 wait for room, wait for an empty buffer and have ended; there is no thread 3 and no variable 2.
#[test]
fn replay_gives_the_reason_as_its_third_word() {
    let programs = [
        vec![[5, 0, 0, 1], [5, 0, 1, 1], [5, 0, 0, 2]],
        vec![[5, 0, 0, 1], [6, 0, 0, 0]],
        vec![],
    ];
    let bytes = file([TSO, 2], &[0, 0], &programs, 0, &[AT_THE_START]);
    let words = |number| replay(&bytes, &[0, 0, 1, number]);
    for absent in [3, 6, 28, 30, 36, 255] {
        assert_eq!(words(absent), [3, 3, 1, 0]);
    }
    assert_eq!(words(2), [3, 3, 2, 0]);
    assert_eq!(words(0), [3, 3, 3, 0]);
    assert_eq!(words(1), [3, 3, 4, 0]);
    assert_eq!(words(20), [3, 3, 5, 0]);
    assert_eq!(words(5), [3, 3, 6, 0]);
    // Its bits are those of the flushes of the oldest stores: 4 of thread 0 and 12 of thread 1.
    let job = decode(&bytes).unwrap();
    let (state, _) = follow(&job, &[0, 0, 1]);
    assert_eq!(enabled(&job, &state), 1 << 4 | 1 << 12);
}

/// Jobs of all kinds, and some states of each: the nearest to the start, and where a busy walk ends.
fn many_states() -> Vec<(Job, Vec<State>)> {
    let mut random = Random::new(51);
    let jobs: Vec<Vec<u8>> = (0..900)
        .map(|turn| match turn % 3 {
            0 => sound_job(&mut random),
            1 => reason_cases::random_job(&mut random),
            _ => version_two_replays::random_job(&mut random),
        })
        .collect();
    let with_states = jobs.into_iter().map(|bytes| {
        let job = decode(&bytes).unwrap();
        let mut states = vec![State::start(&job)];
        let mut next = 0;
        while next < states.len() && states.len() < 40 {
            for (_, after) in successors(&job, &states[next]) {
                if !states.contains(&after) {
                    states.push(after);
                }
            }
            next += 1;
        }
        for _ in 0..4 {
            let schedule = stuck_schedule(&mut random, &bytes);
            states.push(follow(&job, &schedule).0);
        }
        (job, states)
    });
    with_states.collect()
}

/// The reason read off the bytes of the slot, nested as a person would ask.
fn reason_from_slot(job: &Job, slot: &[u8], number: u8) -> Option<u8> {
    let [threads, variables] = [job.programs.len(), job.initial.len()];
    // Variable and group of each store; the count has 128 more while a WFENCE stands after the newest.
    let buffer = |thread: usize| {
        let first = 52 + 25 * thread;
        let count = usize::from(slot[first] % 128);
        let entries = slot[first + 1..first + 25].chunks(3).take(count);
        let stores = entries.map(|entry| (usize::from(entry[0] % 16), entry[0] / 16));
        stores.collect::<Vec<_>>()
    };
    if number < 4 {
        let thread = usize::from(number);
        if thread >= threads {
            return Some(1);
        }
        let place = usize::from(slot[thread]);
        if place == job.programs[thread].len() {
            return Some(2);
        }
        let count = buffer(thread).len();
        match job.programs[thread][place] {
            Instruction::StoreRegister { .. } | Instruction::StoreConstant { .. } => {
                let waits = match job.model {
                    Model::Sc => false,
                    Model::Tso | Model::Pso => count == job.capacity,
                };
                waits.then_some(3)
            }
            Instruction::Fence
            | Instruction::Exchange { .. }
            | Instruction::CompareExchange { .. } => (count > 0).then_some(4),
            Instruction::Set { .. }
            | Instruction::Add { .. }
            | Instruction::Load { .. }
            | Instruction::StoreFence
            | Instruction::JumpIfEqual { .. }
            | Instruction::Jump { .. } => None,
        }
    } else if number < 36 {
        let [thread, variable] = [(number - 4) / 8, (number - 4) % 8].map(usize::from);
        if thread >= threads || variable >= variables {
            return Some(1);
        }
        let buffer = buffer(thread);
        let is_behind = match job.model {
            Model::Sc => false,
            Model::Tso => buffer.first().map_or(false, |oldest| oldest.0 != variable),
            Model::Pso => !buffer.contains(&(variable, 0)),
        };
        if buffer.iter().all(|store| store.0 != variable) {
            Some(5)
        } else {
            is_behind.then_some(6)
        }
    } else {
        Some(1)
    }
}

#[test]
fn reasons_are_those_of_the_slot() {
    for (job, states) in many_states() {
        for state in states {
            let slot = state.slot();
            for number in 0..=255 {
                let given = reason(&job, &state, number).map(Reason::number);
                let read = reason_from_slot(&job, &slot, number);
                assert_eq!(given, read, "{number} in {state:?} of {job:?}");
            }
        }
    }
}

#[test]
fn the_first_that_applies_is_given() {
    for (job, states) in many_states() {
        for state in states {
            for number in 0..=255 {
                let given = reason(&job, &state, number);
                for reason in REASONS {
                    let applies = reason.applies(&job, &state, number);
                    match given {
                        Some(given) if reason < given => assert!(!applies),
                        Some(given) if reason == given => assert!(applies),
                        Some(_) => {}
                        None => assert!(!applies),
                    }
                }
            }
        }
    }
}

#[test]
fn successors_are_the_steps_without_a_reason() {
    let (mut states_seen, mut steps_seen) = (0, BTreeSet::new());
    for (job, states) in many_states() {
        for state in states {
            let mut moves = successors(&job, &state);
            steps_seen.extend(moves.keys().copied());
            for number in 0..=255 {
                let after = step(&job, &state, number);
                assert_eq!(after.err(), reason(&job, &state, number));
                let after = step(&job, &state, number).ok();
                assert_eq!(after, moves.remove(&number), "{number} in {state:?}");
            }
            assert!(moves.is_empty());
            states_seen += 1;
        }
    }
    assert!(states_seen > 15_000, "only {states_seen} states");
    assert_eq!(steps_seen, (0..36).collect());
}

#[test]
fn a_bit_is_0_exactly_when_the_step_has_a_reason() {
    for (job, states) in many_states() {
        for state in states {
            let bits = enabled(&job, &state);
            for number in 0..64 {
                let is_set = bits >> number & 1 == 1;
                let has_reason = reason_from_slot(&job, &state.slot(), number).is_some();
                assert_eq!(is_set, !has_reason, "{number} in {state:?}");
            }
            assert_eq!(bits.count_ones() as usize, successors(&job, &state).len());
        }
    }
}

#[test]
fn reasons_come_up_under_these_models_and_apply_together_in_these_pairs() {
    let (mut alone, mut pairs) = (BTreeSet::new(), BTreeSet::new());
    for (job, states) in many_states() {
        for state in states {
            for number in 0..=255 {
                let applying = REASONS.map(|reason| reason.applies(&job, &state, number));
                let applying: Vec<u8> = (1..).zip(applying).filter(|p| p.1).map(|p| p.0).collect();
                match applying[..] {
                    [] => {}
                    [only] => {
                        alone.insert((job.model as u8, only));
                    }
                    [first, second] => {
                        pairs.insert((job.model as u8, first, second));
                    }
                    _ => panic!("{applying:?} apply to {number} in {state:?}"),
                }
            }
        }
    }
    let under = |model: u8, reasons: &[u8]| reasons.iter().map(|&r| (model, r)).collect();
    let expected: [Vec<(u8, u8)>; 3] = [
        under(0, &[1, 2, 5]),
        under(1, &[1, 2, 3, 4, 5, 6]),
        under(2, &[1, 2, 3, 4, 5, 6]),
    ];
    assert_eq!(alone, expected.concat().into_iter().collect());
    // An absent thread has no instruction left and nothing to flush, and nothing is pending to an absent variable.
    let expected = (0..3).flat_map(|model| [(model, 1, 2), (model, 1, 5)]);
    assert_eq!(pairs, expected.collect());
}

// ---- the cases ----

/// The numbers that are tried behind each schedule of each job.
fn tried() -> BTreeMap<(Vec<u8>, Vec<u8>), BTreeSet<u8>> {
    let mut tried: BTreeMap<_, BTreeSet<u8>> = BTreeMap::new();
    for mut case in replay_cases::all() {
        if let Some(last) = case.schedule.pop() {
            tried
                .entry((case.job, case.schedule))
                .or_default()
                .insert(last);
        }
    }
    tried
}

/// What a thread is doing, and what its buffer holds.
fn kinds_of_thread(job: &Job, state: &State, thread: usize) -> Vec<&'static str> {
    let own = &state.threads[thread];
    let doing = match job.programs[thread].get(own.place) {
        None => "ended",
        Some(&next) if is_barrier(next) && own.pending() > 0 => "waits for an empty buffer",
        Some(Instruction::StoreRegister { .. } | Instruction::StoreConstant { .. })
            if job.model != Model::Sc && own.pending() == job.capacity =>
        {
            "waits for room"
        }
        Some(_) => "runs",
    };
    let stores = own.buffer.stores();
    let variables: BTreeSet<u8> = stores.map(|store| store.variable).collect();
    let mut kinds = vec![doing];
    match own.pending() {
        0 => kinds.push("empty buffer"),
        1 => kinds.push("one store"),
        _ => {}
    }
    if variables.len() > 1 {
        kinds.push("one behind another");
    }
    if own.pending() == job.capacity && job.model != Model::Sc {
        kinds.push("full buffer");
    }
    kinds
}

#[test]
fn every_number_is_tried_in_states_of_each_kind() {
    let mut kinds = BTreeSet::new();
    for ((bytes, schedule), numbers) in tried() {
        if numbers.len() < 256 {
            continue;
        }
        let job = decode(&bytes).unwrap();
        let (state, taken) = follow(&job, &schedule);
        assert_eq!(taken, schedule.len());
        let model = format!("{:?}", job.model);
        let mut add = |kind: &str| kinds.insert(format!("{model}: {kind}"));
        add(match job.programs.len() {
            4 => "4 threads",
            _ => "fewer threads",
        });
        add(match job.initial.len() {
            8 => "8 variables",
            _ => "fewer variables",
        });
        for thread in 0..job.programs.len() {
            for kind in kinds_of_thread(&job, &state, thread) {
                add(kind);
            }
        }
    }
    let sizes = [
        "4 threads",
        "fewer threads",
        "8 variables",
        "fewer variables",
    ];
    let of_all = ["ended", "runs", "empty buffer"];
    let of_buffers = [
        "waits for room",
        "waits for an empty buffer",
        "one store",
        "one behind another",
        "full buffer",
    ];
    let mut expected = BTreeSet::new();
    for model in ["Sc", "Tso", "Pso"] {
        let named = |kind: &&str| format!("{model}: {kind}");
        expected.extend(sizes.iter().chain(&of_all).map(named));
        if model != "Sc" {
            expected.extend(of_buffers.iter().map(named));
        }
    }
    assert_eq!(kinds, expected);
}

/// Answers for the machine's reason, and is wrong somewhere.
type Wrong = Box<dyn Fn(&Job, &State, u8) -> Option<Reason>>;

/// Says something else where this holds of the right reason, the job, the state and the step.
fn where_else(
    holds: impl Fn(Option<Reason>, &Job, &State, u8) -> bool + 'static,
    says: Option<Reason>,
) -> Wrong {
    Box::new(move |job, state, number| {
        let right = reason(job, state, number);
        if holds(right, job, state, number) {
            says
        } else {
            right
        }
    })
}

fn pending(state: &State, thread: usize) -> usize {
    state.threads.get(thread).map_or(0, |own| own.pending())
}

fn is_full(job: &Job, state: &State, thread: usize) -> bool {
    job.model != Model::Sc && pending(state, thread) == job.capacity
}

fn executes(number: u8) -> Option<usize> {
    match Step::from_number(number) {
        Some(Step::Execute { thread }) => Some(thread),
        Some(Step::Flush { .. }) | None => None,
    }
}

fn flushes(number: u8) -> Option<(usize, usize)> {
    match Step::from_number(number) {
        Some(Step::Flush { thread, variable }) => Some((thread, variable)),
        Some(Step::Execute { .. }) | None => None,
    }
}

fn instruction(job: &Job, state: &State, thread: usize) -> Option<Instruction> {
    let place = state.threads.get(thread)?.place;
    job.programs[thread].get(place).copied()
}

fn is_store(instruction: Option<Instruction>) -> bool {
    matches!(
        instruction,
        Some(Instruction::StoreRegister { .. } | Instruction::StoreConstant { .. })
    )
}

/// One reason said where another is right, and two exchanged.
fn mixed_up() -> Vec<(String, Wrong)> {
    let mut wrong: Vec<(String, Wrong)> = Vec::new();
    for said in REASONS {
        for right in REASONS {
            if said != right {
                let name = format!("{said:?} for {right:?}");
                let holds = move |given, _: &Job, _: &State, _| given == Some(right);
                wrong.push((name, where_else(holds, Some(said))));
            }
            if said < right {
                let exchanged = move |given| match given {
                    given if given == said => right,
                    given if given == right => said,
                    given => given,
                };
                let name = format!("{said:?} and {right:?} exchanged");
                let wrong_one = move |job: &Job, state: &State, number| {
                    reason(job, state, number).map(exchanged)
                };
                wrong.push((name, Box::new(wrong_one)));
            }
        }
    }
    wrong
}

/// One reason for all, one forgotten, and other orders.
fn out_of_order() -> Vec<(String, Wrong)> {
    let mut wrong: Vec<(String, Wrong)> = Vec::new();
    let first_of = |reasons: Vec<Reason>| -> Wrong {
        Box::new(move |job, state, number| {
            let mut reasons = reasons.iter().copied();
            reasons.find(|reason| reason.applies(job, state, number))
        })
    };
    for only in REASONS {
        let holds = |given: Option<Reason>, _: &Job, _: &State, _| given.is_some();
        wrong.push((format!("always {only:?}"), where_else(holds, Some(only))));
        let others: Vec<Reason> = REASONS.into_iter().filter(|&other| other != only).collect();
        wrong.push((format!("never {only:?}"), first_of(others)));
    }
    let mut ended_first = REASONS.to_vec();
    ended_first.swap(0, 1);
    wrong.push(("ended before absent".to_string(), first_of(ended_first)));
    let mut absent_last = REASONS.to_vec();
    absent_last.rotate_left(1);
    wrong.push(("absent last".to_string(), first_of(absent_last)));
    let backward = REASONS.into_iter().rev().collect();
    wrong.push(("the last that applies".to_string(), first_of(backward)));
    wrong
}

/// About steps that there aren't.
fn wrong_about_absence() -> Vec<(&'static str, Wrong)> {
    let nothing = Some(Reason::NothingToFlush);
    vec![
        (
            "an absent thread is ended",
            where_else(
                |_, job, _, number| executes(number).map_or(false, |t| t >= job.programs.len()),
                Some(Reason::ThreadEnded),
            ),
        ),
        (
            "an absent thread has nothing to flush",
            where_else(
                |_, job, _, number| {
                    flushes(number).map_or(false, |(t, v)| {
                        t >= job.programs.len() && v < job.initial.len()
                    })
                },
                nothing,
            ),
        ),
        (
            "nothing to flush to an absent variable",
            where_else(
                |_, job, _, number| {
                    flushes(number).map_or(false, |(t, v)| {
                        t < job.programs.len() && v >= job.initial.len()
                    })
                },
                nothing,
            ),
        ),
        (
            "nothing to flush to an absent variable of an absent thread",
            where_else(
                |_, job, _, number| {
                    flushes(number).map_or(false, |(t, v)| {
                        t >= job.programs.len() && v >= job.initial.len()
                    })
                },
                nothing,
            ),
        ),
        (
            "nothing to flush by a number above 35",
            where_else(|_, _, _, number| number > 35, nothing),
        ),
        (
            "six bits of the number count",
            Box::new(|job, state, number| reason(job, state, number & 63)),
        ),
        (
            "five bits of the number count",
            Box::new(|job, state, number| match number {
                0..=35 => reason(job, state, number),
                _ => reason(job, state, number & 31),
            }),
        ),
        (
            "number 36 is a flush of nothing",
            where_else(|_, _, _, number| number == 36, nothing),
        ),
        (
            "number 255 is a flush of nothing",
            where_else(|_, _, _, number| number == 255, nothing),
        ),
        (
            "a flush under SC is no such step",
            where_else(
                |_, job, _, number| job.model == Model::Sc && flushes(number).is_some(),
                Some(Reason::NoSuchStep),
            ),
        ),
        (
            "a flush under SC is a step",
            where_else(
                |given, job, _, _| job.model == Model::Sc && given == Some(Reason::NothingToFlush),
                None,
            ),
        ),
    ]
}

/// About threads that have ended or wait.
fn wrong_about_execution() -> Vec<(&'static str, Wrong)> {
    let ended = Some(Reason::ThreadEnded);
    let full = Some(Reason::BufferFull);
    let not_empty = Some(Reason::BufferNotEmpty);
    vec![
        (
            "ended at the last instruction",
            where_else(
                |_, job, state, number| {
                    let place =
                        executes(number).and_then(|t| Some((t, state.threads.get(t)?.place)));
                    place.map_or(false, |(t, place)| place + 1 == job.programs[t].len())
                },
                ended,
            ),
        ),
        (
            "a thread without instructions is absent",
            where_else(
                |_, job, _, number| {
                    let program = executes(number).and_then(|t| job.programs.get(t));
                    program.map_or(false, Vec::is_empty)
                },
                Some(Reason::NoSuchStep),
            ),
        ),
        (
            "ended with a full buffer is buffer full",
            where_else(
                move |given, job, state, number| {
                    given == ended && is_full(job, state, usize::from(number))
                },
                full,
            ),
        ),
        (
            "ended with pending stores is buffer not empty",
            where_else(
                move |given, _, state, number| {
                    given == ended && pending(state, usize::from(number)) > 0
                },
                not_empty,
            ),
        ),
        (
            "a barrier at a full buffer is buffer full",
            where_else(
                move |given, job, state, number| {
                    given == not_empty && is_full(job, state, usize::from(number))
                },
                full,
            ),
        ),
        (
            "an XCHG that waits is buffer full",
            where_else(
                move |given, job, state, number| {
                    let next = instruction(job, state, usize::from(number));
                    given == not_empty && matches!(next, Some(Instruction::Exchange { .. }))
                },
                full,
            ),
        ),
        (
            "a store of a register that waits is buffer not empty",
            where_else(
                move |given, job, state, number| {
                    let next = instruction(job, state, usize::from(number));
                    given == full && matches!(next, Some(Instruction::StoreRegister { .. }))
                },
                not_empty,
            ),
        ),
        (
            "every instruction waits for room",
            where_else(
                |given, job, state, number| {
                    let full = executes(number).map_or(false, |t| is_full(job, state, t));
                    given.is_none() && full
                },
                full,
            ),
        ),
        (
            "buffer full under SC",
            where_else(
                |_, job, state, number| {
                    let next = executes(number).and_then(|t| instruction(job, state, t));
                    job.model == Model::Sc && is_store(next)
                },
                full,
            ),
        ),
        (
            "buffer not empty under SC",
            where_else(
                |_, job, state, number| {
                    let next = executes(number).and_then(|t| instruction(job, state, t));
                    job.model == Model::Sc && next.map_or(false, is_barrier)
                },
                not_empty,
            ),
        ),
        (
            "full one store early",
            where_else(
                |given, job, state, number| {
                    let thread = executes(number);
                    let next = thread.and_then(|t| instruction(job, state, t));
                    let almost = thread.map_or(false, |t| pending(state, t) + 1 == job.capacity);
                    given.is_none() && is_store(next) && almost
                },
                full,
            ),
        ),
        (
            "full at eight stores only",
            where_else(
                move |given, job, _, _| given == full && job.capacity < 8,
                None,
            ),
        ),
    ]
}

/// About what there is to flush.
fn wrong_about_flushes() -> Vec<(&'static str, Wrong)> {
    let nothing = Some(Reason::NothingToFlush);
    let not_oldest = Some(Reason::NotTheOldest);
    let of_flush = |number: u8| usize::from((number - 4) / 8);
    vec![
        (
            "a flush of an ended thread is thread ended",
            where_else(
                move |given, job, state, number| {
                    given == nothing && instruction(job, state, of_flush(number)).is_none()
                },
                Some(Reason::ThreadEnded),
            ),
        ),
        (
            "an ended thread does not flush",
            where_else(
                |given, job, state, number| {
                    let ended = flushes(number)
                        .map_or(false, |(t, _)| instruction(job, state, t).is_none());
                    given.is_none() && ended
                },
                Some(Reason::ThreadEnded),
            ),
        ),
        (
            "a flush has the reason of its thread",
            Box::new(move |job, state, number| {
                let right = reason(job, state, number);
                if right == nothing {
                    reason(job, state, of_flush(number) as u8).or(right)
                } else {
                    right
                }
            }),
        ),
        (
            "a flush of a waiting thread has the reason of its thread",
            Box::new(move |job, state, number| {
                let right = reason(job, state, number);
                if right == nothing {
                    match reason(job, state, of_flush(number) as u8) {
                        Some(Reason::ThreadEnded) | None => right,
                        waits => waits,
                    }
                } else {
                    right
                }
            }),
        ),
        (
            "nothing to flush behind another",
            where_else(move |given, _, _, _| given == not_oldest, nothing),
        ),
        (
            "not pending beside others is not the oldest under TSO",
            where_else(
                move |given, job, state, number| {
                    let beside = given == nothing && pending(state, of_flush(number)) > 0;
                    beside && job.model == Model::Tso
                },
                not_oldest,
            ),
        ),
        (
            "not pending beside others is not the oldest under PSO",
            where_else(
                move |given, job, state, number| {
                    let beside = given == nothing && pending(state, of_flush(number)) > 0;
                    beside && job.model == Model::Pso
                },
                not_oldest,
            ),
        ),
        (
            "not pending in an empty buffer is not the oldest",
            where_else(
                move |given, job, state, number| {
                    let empty = given == nothing && pending(state, of_flush(number)) == 0;
                    empty && job.model == Model::Tso
                },
                not_oldest,
            ),
        ),
        (
            "PSO has an oldest store, too",
            where_else(
                |given, job, state, number| {
                    let behind = flushes(number).map_or(false, |(t, v)| {
                        let own = state.threads.get(t);
                        let first = own.and_then(|own| own.buffer.stores().next());
                        first.map_or(false, |store| usize::from(store.variable) != v)
                    });
                    given.is_none() && job.model == Model::Pso && behind
                },
                not_oldest,
            ),
        ),
        (
            "the newest store for the oldest",
            where_else(
                |given, job, state, number| {
                    let behind = flushes(number).map_or(false, |(t, v)| {
                        let own = state.threads.get(t);
                        let newest = own.and_then(|own| own.buffer.stores().last());
                        newest.map_or(false, |store| usize::from(store.variable) != v)
                    });
                    given.is_none() && job.model == Model::Tso && behind
                },
                not_oldest,
            ),
        ),
        (
            "the buffer of the next thread",
            Box::new(|job, state, number| match flushes(number) {
                Some((t, v)) if t < job.programs.len() => {
                    let next = (t + 1) % job.programs.len();
                    reason(job, state, (4 + 8 * next + v) as u8)
                }
                _ => reason(job, state, number),
            }),
        ),
    ]
}

fn all_wrong() -> Vec<(String, Wrong)> {
    let named = [
        wrong_about_absence(),
        wrong_about_execution(),
        wrong_about_flushes(),
    ];
    let named = named.into_iter().flatten();
    let mut wrong: Vec<(String, Wrong)> = named
        .map(|(name, wrong)| (name.to_string(), wrong))
        .collect();
    wrong.extend(mixed_up());
    wrong.extend(out_of_order());
    wrong
}

/// The line of a case when another function gives the reasons.
fn line_by(reason: &dyn Fn(&Job, &State, u8) -> Option<Reason>, case: &Case) -> String {
    let job = decode(&case.job).unwrap();
    let mut state = State::start(&job);
    for (at, &number) in case.schedule.iter().enumerate() {
        if let Some(reason) = reason(&job, &state, number) {
            return format!("STUCK {at} {}", reason.number());
        }
        match step(&job, &state, number) {
            Ok(next) => state = next,
            Err(_) => return format!("WENT ON AT {at}"),
        }
    }
    match state.is_goal(&job) {
        true => "REACHES".to_string(),
        false => "FALLS SHORT".to_string(),
    }
}

/// The random cases, with the lines of the right function.
fn random() -> Vec<Known> {
    let cases = reason_cases::random_cases().into_iter();
    let with_lines = cases.map(|case| {
        let line = replay_cases::line(&case);
        (case, line)
    });
    with_lines.collect()
}

/// How many of these cases get another line by this function.
fn errors(reason: &dyn Fn(&Job, &State, u8) -> Option<Reason>, cases: &[Known]) -> usize {
    let lines = cases.iter();
    let lines = lines.map(|(case, line)| line_by(reason, case) == *line);
    lines.filter(|is_right| !is_right).count()
}

#[test]
fn pinned_cases_tell_every_wrong_function() {
    let cases = reason_cases::pinned();
    for (name, wrong) in all_wrong() {
        assert!(errors(&wrong, &cases) >= 3, "{name}");
    }
}

#[test]
fn every_number_tells_every_wrong_function() {
    let cases = reason_cases::every_number();
    for (name, wrong) in all_wrong() {
        assert!(errors(&wrong, &cases) >= 3, "{name}");
    }
}

#[test]
fn random_cases_tell_every_wrong_function_but_of_a_single_number() {
    let cases = random();
    for (name, wrong) in all_wrong() {
        if !name.starts_with("number") {
            assert!(errors(&wrong, &cases) >= 2, "{name}");
        }
    }
}

#[test]
fn a_right_function_written_otherwise_has_no_error() {
    let by_slot = |job: &Job, state: &State, number| {
        let number = reason_from_slot(job, &state.slot(), number)?;
        REASONS.into_iter().find(|reason| reason.number() == number)
    };
    assert_eq!(errors(&by_slot, &reason_cases::all_known()), 0);
    assert_eq!(errors(&by_slot, &random()), 0);
}

/// The reason that a wrong replay finds where it is stuck; if it finds none there, it gives the right one.
type WrongReplay = fn(&Job, &[u8], usize) -> Option<Reason>;

const WRONG_REPLAYS: [(&str, WrongReplay); 5] = [
    ("the state before", |job, schedule, at| {
        let (before, _) = follow(job, &schedule[..at.checked_sub(1)?]);
        reason(job, &before, schedule[at])
    }),
    ("the state at the start", |job, schedule, at| {
        reason(job, &State::start(job), schedule[at])
    }),
    ("the step before", |job, schedule, at| {
        let (state, _) = follow(job, schedule);
        reason(job, &state, schedule[at.checked_sub(1)?])
    }),
    ("the step behind", |job, schedule, at| {
        let (state, _) = follow(job, schedule);
        reason(job, &state, *schedule.get(at + 1)?)
    }),
    ("the last step", |job, schedule, _| {
        let (state, _) = follow(job, schedule);
        reason(job, &state, *schedule.last()?)
    }),
];

fn errors_of_replay(wrong: WrongReplay, cases: &[Known]) -> usize {
    let lines = cases.iter().map(|(case, line)| {
        let job = decode(&case.job).unwrap();
        let given = match follow_until_stuck(&job, &case.schedule).1 {
            Some(Stuck { at, reason }) => {
                let wrong = wrong(&job, &case.schedule, at).unwrap_or(reason);
                format!("STUCK {at} {}", wrong.number())
            }
            None => replay_cases::line(case),
        };
        given == *line
    });
    lines.filter(|is_right| !is_right).count()
}

#[test]
fn cases_tell_replays_that_give_the_reason_of_another_state_or_step() {
    let [pinned, random] = [reason_cases::pinned(), random()];
    for (name, wrong) in WRONG_REPLAYS {
        assert!(errors_of_replay(wrong, &pinned) >= 5, "{name}");
        // No random schedule goes on behind the step that it is stuck at.
        if name.contains("before") {
            assert!(errors_of_replay(wrong, &random) >= 5, "{name}");
        }
    }
    assert_eq!(errors_of_replay(|_, _, _| None, &pinned), 0);
}

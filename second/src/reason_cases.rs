//! Cases for replay about the reasons why a step cannot be taken, each with the line that a person says for it from request 5.

use crate::listed::{file, Memory, Program, PSO, SC, TSO};
use crate::random::{stuck_schedule, Random};
use crate::replay_cases::{
    known, stuck_at, Case, Known, BUFFER_FULL, BUFFER_NOT_EMPTY, NOTHING_TO_FLUSH, NOT_THE_OLDEST,
    NO_SUCH_STEP, REACHES, THREAD_ENDED,
};
use std::collections::BTreeSet;

pub fn all_known() -> Vec<Known> {
    [pinned(), every_number()].concat()
}

/// What request 5 names, a group each.
pub fn pinned() -> Vec<Known> {
    [
        each_reason(),
        absent_threads_and_variables(),
        ended_threads(),
        full_buffers(),
        never_full_under_sc(),
        behind_other_stores(),
        along_a_schedule(),
        two_that_cannot_be_taken(),
    ]
    .concat()
}

/// Stands where a reason could, for a step that is taken.
pub(crate) const TAKEN: u8 = 0;

/// A goal that holds in every state here, since no thread uses that register: a schedule that isn't stuck reaches it.
pub(crate) const ALWAYS: [[u8; 4]; 1] = [[2, 0, 3, 0]];

pub(crate) const FENCE: [u8; 4] = [6, 0, 0, 0];
pub(crate) const EXCHANGE: [u8; 4] = [7, 0, 0, 0];

pub(crate) fn store(variable: u8) -> [u8; 4] {
    [5, 0, variable, 1]
}

fn store_register(variable: u8) -> [u8; 4] {
    [4, 0, variable, 0]
}

fn job(memory: Memory, variables: u8, programs: &[Program]) -> Vec<u8> {
    let initial = vec![0; usize::from(variables)];
    file(memory, &initial, programs, 0, &ALWAYS)
}

pub(crate) fn flush(thread: u8, variable: u8) -> u8 {
    4 + 8 * thread + variable
}

/// These steps, which are all taken, and one more, which is taken or has this reason.
pub(crate) fn then(job: &[u8], before: &[u8], number: u8, reason: u8) -> Known {
    let schedule = [before, &[number]].concat();
    let line = match reason {
        TAKEN => REACHES.to_string(),
        reason => stuck_at(before.len(), reason),
    };
    known(job, &schedule, &line)
}

/// The same steps, and each of these numbers behind them.
pub(crate) fn then_each(job: &[u8], before: &[u8], answers: &[(u8, u8)]) -> Vec<Known> {
    let cases = answers.iter();
    cases
        .map(|&(number, reason)| then(job, before, number, reason))
        .collect()
}

/// A digit is a reason, a dot a step that is taken.
pub(crate) fn reasons(signs: &str) -> Vec<u8> {
    let reason = |sign| match sign {
        '.' => TAKEN,
        '1'..='6' => sign as u8 - b'0',
        _ => panic!("'{sign}' is no sign for a reason or a dot"),
    };
    signs.chars().map(reason).collect()
}

/// Each reason once or more under each model where it can come up.
fn each_reason() -> Vec<Known> {
    let mut cases = Vec::new();
    for barrier in [FENCE, EXCHANGE] {
        let programs = [
            vec![store(0), store(1), store(0)],
            vec![store(0), barrier],
            vec![],
        ];
        let [sc, tso, pso] = [SC, [TSO, 2], [PSO, 2]].map(|memory| job(memory, 2, &programs));
        for job in [&sc, &tso, &pso] {
            // Thread 3 and variable 2 are absent, thread 2 has no instructions.
            cases.extend([
                known(job, &[36], "STUCK 0 1"),
                known(job, &[64], "STUCK 0 1"),
                known(job, &[255], "STUCK 0 1"),
                known(job, &[3], "STUCK 0 1"),
                known(job, &[28], "STUCK 0 1"),
                known(job, &[6], "STUCK 0 1"),
                known(job, &[2], "STUCK 0 2"),
                known(job, &[4], "STUCK 0 5"),
                known(job, &[20], "STUCK 0 5"),
            ]);
        }
        cases.extend([
            known(&sc, &[0, 0, 0], REACHES),
            known(&sc, &[0, 0, 0, 0], "STUCK 3 2"),
            known(&sc, &[1, 1], REACHES),
            known(&sc, &[1, 1, 1], "STUCK 2 2"),
            known(&sc, &[0, 4], "STUCK 1 5"),
            known(&sc, &[0, 0, 5], "STUCK 2 5"),
        ]);
        for job in [&tso, &pso] {
            cases.extend([
                known(job, &[0, 0, 0], "STUCK 2 3"),
                known(job, &[1, 1], "STUCK 1 4"),
                known(job, &[1, 12, 1], REACHES),
                known(job, &[1, 12, 1, 1], "STUCK 3 2"),
                known(job, &[0, 5], "STUCK 1 5"),
                known(job, &[0, 12], "STUCK 1 5"),
                known(job, &[0, 4, 4], "STUCK 2 5"),
            ]);
        }
        cases.extend([
            known(&tso, &[0, 0, 5], "STUCK 2 6"),
            known(&tso, &[0, 0, 4, 5], REACHES),
            known(&pso, &[0, 0, 5], REACHES),
            known(&pso, &[0, 0, 5, 5], "STUCK 3 5"),
        ]);
    }
    cases
}

/// The last threads and variables that a job has and those beyond, while the first thread has ended with a store to the last variable.
fn absent_threads_and_variables() -> Vec<Known> {
    let mut cases = Vec::new();
    for memory in [SC, [TSO, 2], [PSO, 2]] {
        for threads in 1..=4 {
            for variables in [1, 3, 7, 8] {
                let last = variables - 1;
                let programs = vec![vec![store(last)]; usize::from(threads)];
                let job = job(memory, variables, &programs);
                // Not "thread ended", and not "nothing to flush" either.
                for number in absent_steps(threads, variables) {
                    cases.push(then(&job, &[0], number, NO_SUCH_STEP));
                }
                if threads > 1 {
                    let number = flush(threads - 1, last);
                    cases.push(then(&job, &[0], number, NOTHING_TO_FLUSH));
                }
                if variables > 1 {
                    cases.push(then(&job, &[0], flush(0, 0), NOTHING_TO_FLUSH));
                }
                let own = if memory == SC {
                    NOTHING_TO_FLUSH
                } else {
                    TAKEN
                };
                cases.push(then(&job, &[0], flush(0, last), own));
            }
        }
    }
    cases
}

/// Execute steps of absent threads, and flushes of an absent thread, to an absent variable, and both.
fn absent_steps(threads: u8, variables: u8) -> BTreeSet<u8> {
    let mut steps: BTreeSet<u8> = (threads..4).collect();
    let last = threads - 1;
    if threads < 4 {
        steps.extend([(threads, 0), (threads, variables - 1), (3, 0)].map(|(t, v)| flush(t, v)));
    }
    if variables < 8 {
        steps.extend([(0, variables), (last, variables), (last, 7)].map(|(t, v)| flush(t, v)));
    }
    if threads < 4 && variables < 8 {
        steps.extend([(threads, variables), (3, 7)].map(|(t, v)| flush(t, v)));
    }
    steps
}

/// They still flush, so only their execute steps are withheld because they have ended.
fn ended_threads() -> Vec<Known> {
    let mut cases = Vec::new();
    let programs = [vec![store(0), store(1)], vec![]];
    for memory in [SC, [TSO, 2], [TSO, 3], [PSO, 2], [PSO, 3]] {
        let job = job(memory, 3, &programs);
        let [first, second] = match memory[0] {
            TSO => [TAKEN, NOT_THE_OLDEST],
            PSO => [TAKEN, TAKEN],
            _ => [NOTHING_TO_FLUSH, NOTHING_TO_FLUSH],
        };
        let always = [
            (0, THREAD_ENDED),
            (1, THREAD_ENDED),
            (flush(0, 2), NOTHING_TO_FLUSH),
            (flush(0, 3), NO_SUCH_STEP),
            (flush(1, 0), NOTHING_TO_FLUSH),
            (flush(1, 2), NOTHING_TO_FLUSH),
            (flush(1, 3), NO_SUCH_STEP),
            (2, NO_SUCH_STEP),
            (flush(2, 0), NO_SUCH_STEP),
            (flush(2, 3), NO_SUCH_STEP),
        ];
        let own = [(flush(0, 0), first), (flush(0, 1), second)];
        cases.extend(then_each(&job, &[0, 0], &always));
        cases.extend(then_each(&job, &[0, 0], &own));
        if memory != SC {
            let flushed = [flush(0, 0), flush(0, 1)].map(|number| (number, NOTHING_TO_FLUSH));
            cases.extend(then_each(&job, &[0, 0, 4, 5], &always));
            cases.extend(then_each(&job, &[0, 0, 4, 5], &flushed));
        }
    }
    cases
}

/// C stores are pending, and the thread is at each kind of instruction or at its end: only a store waits for room.
fn full_buffers() -> Vec<Known> {
    let at = |instruction| vec![instruction];
    let nexts = [
        (at(store(0)), BUFFER_FULL),
        (at(store(2)), BUFFER_FULL),
        (at(store_register(1)), BUFFER_FULL),
        (at(FENCE), BUFFER_NOT_EMPTY),
        (at(EXCHANGE), BUFFER_NOT_EMPTY),
        (at([7, 0, 2, 0]), BUFFER_NOT_EMPTY),
        (vec![], THREAD_ENDED),
        (at([1, 0, 0, 1]), TAKEN),
        (at([2, 0, 0, 1]), TAKEN),
        (at([3, 0, 0, 0]), TAKEN),
        (at([8, 0, 0, 0]), TAKEN),
        (at([9, 0, 0, 0]), TAKEN),
    ];
    let mut cases = Vec::new();
    for model in [TSO, PSO] {
        for capacity in 1..=8 {
            for (next, reason) in &nexts {
                let mut program: Program = (0..capacity).map(|k| store(k % 2)).collect();
                program.extend(next);
                let job = job([model, capacity], 3, &[program]);
                let fill = vec![0; usize::from(capacity)];
                cases.push(then(&job, &fill, 0, *reason));
                if *reason != TAKEN {
                    // What keeps the thread from executing has no part in its flushes.
                    cases.push(then(&job, &fill, flush(0, 2), NOTHING_TO_FLUSH));
                }
            }
        }
    }
    cases
}

/// C is 0 there and just so many stores are pending, but none waits.
fn never_full_under_sc() -> Vec<Known> {
    let program = vec![store(0), store_register(0), FENCE, EXCHANGE, store(0)];
    let job = job(SC, 1, &[program]);
    along(&job, &[0; 5], 0, ".....2")
}

/// Stores of one thread to some of four variables, flushes to these behind them, and what a flush to each variable then says.
struct Queue {
    stores: &'static [u8],
    flushed: &'static [u8],
    tso: &'static str,
    pso: &'static str,
}

const fn queue(
    stores: &'static [u8],
    flushed: &'static [u8],
    tso: &'static str,
    pso: &'static str,
) -> Queue {
    Queue {
        stores,
        flushed,
        tso,
        pso,
    }
}

/// Under TSO a store behind another is not the oldest, unless the oldest is to the same variable.
const QUEUES: [Queue; 21] = [
    queue(&[], &[], "5555", "5555"),
    queue(&[0], &[], ".555", ".555"),
    queue(&[3], &[], "555.", "555."),
    queue(&[2, 2, 2], &[], "55.5", "55.5"),
    queue(&[0, 1], &[], ".655", "..55"),
    queue(&[1, 0], &[], "6.55", "..55"),
    queue(&[0, 0, 1], &[], ".655", "..55"),
    queue(&[0, 1, 0], &[], ".655", "..55"),
    queue(&[0, 1, 1], &[], ".655", "..55"),
    queue(&[1, 0, 0], &[], "6.55", "..55"),
    queue(&[1, 3, 3], &[], "5.56", "5.5."),
    queue(&[3, 0, 3], &[], "655.", ".55."),
    queue(&[0, 1, 2, 3], &[], ".666", "...."),
    queue(&[3, 2, 1, 0], &[], "666.", "...."),
    queue(&[0], &[0], "5555", "5555"),
    queue(&[0, 1], &[0], "5.55", "5.55"),
    queue(&[0, 0, 1], &[0], ".655", "..55"),
    queue(&[0, 1, 0], &[0], "6.55", "..55"),
    queue(&[3, 0, 3], &[3], ".556", ".55."),
    queue(&[3, 2, 1, 0], &[3], "66.5", "...5"),
    queue(&[3, 2, 1, 0], &[3, 2, 1], ".555", ".555"),
];

fn behind_other_stores() -> Vec<Known> {
    let mut cases = Vec::new();
    for (turn, queue) in QUEUES.iter().enumerate() {
        for (model, signs) in [(TSO, queue.tso), (PSO, queue.pso)] {
            // Each of the threads by turns, beside others that store to the same variables but don't run.
            let thread = (turn % 4) as u8;
            let mut programs = vec![vec![store(0), store(1)]; 4];
            programs[usize::from(thread)] = queue.stores.iter().map(|&v| store(v)).collect();
            let job = job([model, 4], 4, &programs);
            let flushed = queue.flushed.iter().map(|&v| flush(thread, v));
            let before: Vec<u8> = vec![thread; queue.stores.len()]
                .into_iter()
                .chain(flushed)
                .collect();
            for (variable, reason) in (0..).zip(reasons(signs)) {
                cases.push(then(&job, &before, flush(thread, variable), reason));
            }
        }
    }
    cases
}

/// One number before the first step of a schedule, after the first, and so on to its end.
pub(crate) fn along(job: &[u8], schedule: &[u8], number: u8, signs: &str) -> Vec<Known> {
    let reasons = reasons(signs);
    assert_eq!(reasons.len(), schedule.len() + 1, "{signs}");
    let cases = reasons.into_iter().enumerate();
    cases
        .map(|(taken, reason)| then(job, &schedule[..taken], number, reason))
        .collect()
}

/// The reason is that of the state which the step is to be taken in, and of no other.
fn along_a_schedule() -> Vec<Known> {
    let [first, second, absent] = [flush(0, 0), flush(0, 1), flush(0, 2)];
    let mut cases = Vec::new();
    for barrier in [FENCE, EXCHANGE] {
        let programs = [vec![store(0), store(1), barrier]];
        let [sc, tso, pso] = [SC, [TSO, 2], [PSO, 2]].map(|memory| job(memory, 2, &programs));
        let through_the_buffer = [0, 0, first, second, 0];
        cases.extend(along(&sc, &[0, 0, 0], 0, "...2"));
        cases.extend(along(&sc, &[0, 0, 0], first, "5555"));
        cases.extend(along(&sc, &[0, 0, 0], absent, "1111"));
        cases.extend(along(&tso, &through_the_buffer, 0, "..44.2"));
        cases.extend(along(&tso, &through_the_buffer, first, "5..555"));
        cases.extend(along(&tso, &through_the_buffer, second, "556.55"));
        cases.extend(along(&tso, &through_the_buffer, absent, "111111"));
        cases.extend(along(&pso, &through_the_buffer, 0, "..44.2"));
        cases.extend(along(&pso, &through_the_buffer, first, "5..555"));
        cases.extend(along(&pso, &through_the_buffer, second, "55..55"));
        cases.extend(along(&pso, &through_the_buffer, absent, "111111"));
    }
    for model in [TSO, PSO] {
        let one_at_a_time = job([model, 1], 2, &[vec![store(0), store(1), FENCE]]);
        let schedule = [0, first, 0, second, 0];
        cases.extend(along(&one_at_a_time, &schedule, 0, ".3.4.2"));
        cases.extend(along(&one_at_a_time, &schedule, first, "5.5555"));
        cases.extend(along(&one_at_a_time, &schedule, second, "555.55"));
    }
    cases
}

/// Two steps of which neither could be taken: the first counts, and what comes behind it has no part.
fn two_that_cannot_be_taken() -> Vec<Known> {
    let mut cases = Vec::new();
    // The first waits for room, the second for an empty buffer, the third has no instructions, the fourth is absent.
    let programs = [
        vec![store(0), store(1), store(0)],
        vec![store(0), FENCE],
        vec![],
    ];
    let withheld = [
        (3, NO_SUCH_STEP),
        (2, THREAD_ENDED),
        (0, BUFFER_FULL),
        (1, BUFFER_NOT_EMPTY),
        (flush(2, 0), NOTHING_TO_FLUSH),
        (flush(0, 1), NOT_THE_OLDEST),
    ];
    // Under PSO the last of them is taken, and under SC nobody waits.
    let under_sc = [withheld[0], withheld[1], withheld[4]];
    let of_models = [
        (SC, &under_sc[..]),
        ([TSO, 2], &withheld),
        ([PSO, 2], &withheld[..5]),
    ];
    for (memory, withheld) in of_models {
        let job = job(memory, 2, &programs);
        for &(number, reason) in withheld {
            for &(other, _) in withheld {
                let line = stuck_at(3, reason);
                cases.push(known(&job, &[0, 0, 1, number, other], &line));
            }
        }
    }
    cases
}

/// A state, and what each step number says there.
#[derive(Clone)]
struct Situation {
    memory: Memory,
    variables: u8,
    programs: Vec<Program>,
    before: Vec<u8>,
    /// One sign a thread.
    execute: &'static str,
    /// One line a thread, one sign a variable.
    flush: [&'static str; 4],
}

/// Each of the 256 numbers, in states of each kind.
pub fn every_number() -> Vec<Known> {
    let situations = [
        four_threads_and_eight_variables(),
        four_threads_and_five_variables(),
        two_threads_and_eight_variables(),
        one_thread_and_one_variable(),
        three_threads_at_the_start(),
        three_threads_and_seven_variables(),
        one_store_each(),
        stores_to_every_variable(),
    ];
    let cases = situations.concat().into_iter().flat_map(each_number_in);
    cases.collect()
}

fn each_number_in(situation: Situation) -> Vec<Known> {
    let job = job(situation.memory, situation.variables, &situation.programs);
    each_number_behind(&job, &situation.before, situation.execute, situation.flush)
}

/// What each number says behind these steps: one sign a thread for executing, and one line a thread with a sign a variable for flushing.
pub(crate) fn each_number_behind(
    job: &[u8],
    before: &[u8],
    execute: &str,
    flush: [&str; 4],
) -> Vec<Known> {
    let steps = [&[execute], &flush[..]].concat();
    let steps = reasons(&steps.concat());
    assert_eq!(steps.len(), 36, "{flush:?}");
    let above = vec![NO_SUCH_STEP; 220];
    let answers: Vec<(u8, u8)> = (0..=255).zip([steps, above].concat()).collect();
    then_each(job, before, &answers)
}

/// Thread 0 has ended and thread 1 waits for room, each with one store behind another; thread 2 waits for an empty buffer, thread 3 runs.
fn four_threads_and_eight_variables() -> Vec<Situation> {
    let programs = [
        vec![store(0), store(7)],
        vec![store(5), store(2), store(1)],
        vec![store(4), FENCE],
        vec![[1, 0, 0, 1]],
    ];
    let under = |memory, execute, flush| Situation {
        memory,
        variables: 8,
        programs: programs.to_vec(),
        before: vec![0, 0, 1, 1, 2],
        execute,
        flush,
    };
    vec![
        under(SC, "2...", ["55555555"; 4]),
        under(
            [TSO, 2],
            "234.",
            [".5555556", "55655.55", "5555.555", "55555555"],
        ),
        under(
            [PSO, 2],
            "234.",
            [".555555.", "55.55.55", "5555.555", "55555555"],
        ),
    ]
}

/// Full buffers before a FENCE, a JMP and a store; thread 2 has ended and has flushed its store.
fn four_threads_and_five_variables() -> Vec<Situation> {
    let programs = [
        vec![store(1), store(0), store(1), FENCE],
        vec![store(4), [9, 0, 0, 0]],
        vec![store(2)],
        vec![store(2), store(3), store(0), store_register(2)],
    ];
    let under = |memory, flushed: &[u8], execute, flush| Situation {
        memory,
        variables: 5,
        programs: programs.to_vec(),
        before: [&[0, 0, 0, 1, 1, 1, 1, 1, 3, 3, 3, 2], flushed].concat(),
        execute,
        flush,
    };
    let own = [flush(2, 2)];
    vec![
        under(SC, &[], "..2.", ["55555111"; 4]),
        under(
            [TSO, 3],
            &own,
            "4.23",
            ["6.555111", "5555.111", "55555111", "65.65111"],
        ),
        under(
            [PSO, 3],
            &own,
            "4.23",
            ["..555111", "5555.111", "55555111", ".5..5111"],
        ),
    ]
}

/// Thread 0 waits for room and thread 1 at an XCHG, each with the one store that its buffer holds.
fn two_threads_and_eight_variables() -> Vec<Situation> {
    let programs = [
        vec![store_register(7), store_register(7)],
        vec![store(0), EXCHANGE],
    ];
    let under = |memory, execute, flush| Situation {
        memory,
        variables: 8,
        programs: programs.to_vec(),
        before: vec![0, 1],
        execute,
        flush,
    };
    let of_one_store = ["5555555.", ".5555555", "11111111", "11111111"];
    vec![
        under(SC, "..11", ["55555555", "55555555", "11111111", "11111111"]),
        under([TSO, 1], "3411", of_one_store),
        under([PSO, 1], "3411", of_one_store),
    ]
}

/// Three stores to the one variable fill the buffer, and the thread is at a fourth.
fn one_thread_and_one_variable() -> Vec<Situation> {
    let under = |memory, execute, first| Situation {
        memory,
        variables: 1,
        programs: vec![vec![store(0), [9, 0, 0, 0]]],
        before: vec![0; 6],
        execute,
        flush: [first, "11111111", "11111111", "11111111"],
    };
    vec![
        under(SC, ".111", "51111111"),
        under([TSO, 3], "3111", ".1111111"),
        under([PSO, 3], "3111", ".1111111"),
    ]
}

/// No buffer holds a store, so the models agree: a store and an XCHG run, and thread 1 has no instructions.
fn three_threads_at_the_start() -> Vec<Situation> {
    let under = |memory| Situation {
        memory,
        variables: 2,
        programs: vec![vec![store(1)], vec![], vec![EXCHANGE]],
        before: vec![],
        execute: ".2.1",
        flush: ["55111111", "55111111", "55111111", "11111111"],
    };
    [SC, [TSO, 4], [PSO, 4]].map(under).to_vec()
}

/// Thread 0 has room for a store more, thread 1 has ended with one, thread 2 is at an XCHG with two.
fn three_threads_and_seven_variables() -> Vec<Situation> {
    let programs = [
        vec![store(6), store(5), store(6), store(0)],
        vec![store(3)],
        vec![store(1), store(2), EXCHANGE],
    ];
    let under = |memory, execute, flush| Situation {
        memory,
        variables: 7,
        programs: programs.to_vec(),
        before: vec![0, 0, 0, 1, 2, 2],
        execute,
        flush,
    };
    vec![
        under(SC, ".2.1", ["55555551", "55555551", "55555551", "11111111"]),
        under(
            [TSO, 4],
            ".241",
            ["555556.1", "555.5551", "5.655551", "11111111"],
        ),
        under(
            [PSO, 4],
            ".241",
            ["55555..1", "555.5551", "5..55551", "11111111"],
        ),
    ]
}

/// All threads are at their second store: it waits at C = 1, and not at C = 2.
fn one_store_each() -> Vec<Situation> {
    let programs = [[0, 1], [7, 6], [3, 3], [5, 0]]
        .map(|[first, second]| vec![[5, 0, first, 1], [5, 0, second, 2]]);
    let under = |memory, execute, flush| Situation {
        memory,
        variables: 8,
        programs: programs.to_vec(),
        before: vec![0, 1, 2, 3],
        execute,
        flush,
    };
    let own = [".5555555", "5555555.", "555.5555", "55555.55"];
    vec![
        under(SC, "....", ["55555555"; 4]),
        under([TSO, 1], "3333", own),
        under([PSO, 2], "....", own),
    ]
}

/// Thread 0 has ended with a store to each variable, thread 1 is at a FENCE with an empty buffer.
fn stores_to_every_variable() -> Vec<Situation> {
    let all = [3, 0, 7, 1, 6, 2, 5, 4].map(store);
    let under = |memory, first| Situation {
        memory,
        variables: 8,
        programs: vec![all.to_vec(), vec![FENCE]],
        before: vec![0; 8],
        execute: "2.11",
        flush: [first, "55555555", "11111111", "11111111"],
    };
    vec![under([TSO, 8], "666.6666"), under([PSO, 8], "........")]
}

const RANDOM_CASES: usize = 300;
const SEED: u64 = 5;

/// Walks that end in a step which cannot be taken; the lines of these are the checker's own.
pub fn random_cases() -> Vec<Case> {
    let mut random = Random::new(SEED);
    let cases = (0..RANDOM_CASES).map(|_| {
        let job = random_job(&mut random);
        Case {
            schedule: stuck_schedule(&mut random, &job),
            job,
        }
    });
    cases.collect()
}

/// Short programs rich in stores and in what waits for them.
pub fn random_job(random: &mut Random) -> Vec<u8> {
    let model = random.pick(&[0, TSO, TSO, PSO, PSO]);
    let memory = match model {
        0 => SC,
        _ => [model, random.pick(&[1, 2, 2, 3, 3, 4, 8])],
    };
    let variables = random.pick(&[1, 2, 2, 3, 4, 7, 8]);
    let threads = random.between(1, 4);
    let programs: Vec<Program> = (0..threads)
        .map(|_| {
            let count = random.between(0, 6);
            (0..count).map(|_| instruction(random, variables)).collect()
        })
        .collect();
    job(memory, variables, &programs)
}

fn instruction(random: &mut Random, variables: u8) -> [u8; 4] {
    let variable = random.below(usize::from(variables)) as u8;
    match random.below(20) {
        0..=9 => store(variable),
        10..=12 => store_register(variable),
        13 | 14 => FENCE,
        15 | 16 => [7, 0, variable, 0],
        17 => [3, 0, variable, 0],
        18 => [2, 0, 0, 1],
        _ => [9, 0, 0, 0],
    }
}

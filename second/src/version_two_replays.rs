//! Cases for replay about CMPX and WFENCE, each with the line that a person says for it from request 7.

use crate::listed::{every_memory, in_version, Program, PSO, ROOM_FOR_JOB, SC, TSO};
use crate::random::{damaged_job_of, replay_schedule, sound_job_of, stuck_schedule, Random};
use crate::reason_cases::{
    along, each_number_behind, flush, reasons, store, then, ALWAYS, EXCHANGE, FENCE, TAKEN,
};
use crate::replay_cases::{
    basics, known, stuck_at, Case, Known, BUFFER_FULL, BUFFER_NOT_EMPTY, FALLS_SHORT,
    NOTHING_TO_FLUSH, NOT_THE_OLDEST, REACHES, THREAD_ENDED,
};
use crate::version_two_jobs::{
    compare_exchange, file_of_two, handover, lock, message_passing_by_wfence, WFENCE,
};

pub fn all_known() -> Vec<Known> {
    [as_in_version_one(), pinned(), every_number()].concat()
}

/// What request 7 names, a group each.
pub fn pinned() -> Vec<Known> {
    [
        compare_exchanges(),
        races(),
        waiting(),
        flushes_of_groups(),
        values_of_groups(),
        loads_across_groups(),
        along_groups(),
        full_of_groups(),
        nothing_under_sc(),
        stories(),
    ]
    .concat()
}

/// With neither operation the version makes no difference.
fn as_in_version_one() -> Vec<Known> {
    let cases = basics().into_iter().map(|(case, line)| {
        let job = in_version(&case.job, 2);
        (Case { job, ..case }, line)
    });
    cases.collect()
}

// ---- CMPX ----

/// What it leaves in memory and in its register, where it takes and where it does not.
fn compare_exchanges() -> Vec<Known> {
    let mut cases = Vec::new();
    for memory in every_memory() {
        let job = |initial: [u8; 2], program: &[[u8; 4]], goal: &[[u8; 4]]| {
            file_of_two(memory, &initial, &[program.to_vec()], 0, goal)
        };
        let run = |initial, program: &[[u8; 4]], goal: &[[u8; 4]], line| {
            known(&job(initial, program, goal), &vec![0; program.len()], line)
        };
        let [x, y] = [0, 1].map(|variable| move |value| [3, variable, 0, value]);
        let register = |r, value| [2, 0, r, value];
        let takes = [[1, 1, 0, 5], compare_exchange(1, 0, 9)];
        let takes_not = [[1, 1, 0, 4], compare_exchange(1, 0, 9)];
        let both = [x(9), register(1, 5)];
        cases.extend([
            run(
                [5, 8],
                &takes,
                &[x(9), register(1, 5), y(8), [1, 0, 0, 2]],
                REACHES,
            ),
            run([5, 8], &takes, &[x(5)], FALLS_SHORT),
            run([5, 8], &takes, &[register(1, 9)], FALLS_SHORT),
            run(
                [5, 8],
                &takes_not,
                &[x(5), register(1, 5), y(8), [1, 0, 0, 2]],
                REACHES,
            ),
            run([5, 8], &takes_not, &[x(9)], FALLS_SHORT),
            run([5, 8], &takes_not, &[register(1, 4)], FALLS_SHORT),
            known(&job([5, 8], &takes, &both), &[0], FALLS_SHORT),
            known(&job([5, 8], &takes, &both), &[0, 0, 0], "STUCK 2 2"),
            // The other variable, the other registers, and values at the ends of their range.
            run(
                [5, 0],
                &[compare_exchange(3, 1, 255)],
                &[x(5), y(255), register(3, 0)],
                REACHES,
            ),
            run(
                [0, 255],
                &[compare_exchange(3, 1, 0)],
                &[x(0), y(255), register(3, 255)],
                REACHES,
            ),
            run(
                [7, 7],
                &[compare_exchange(2, 0, 1)],
                &[register(2, 7), register(0, 0)],
                REACHES,
            ),
            run(
                [0, 0],
                &[compare_exchange(2, 1, 0)],
                &[register(2, 0), y(0)],
                REACHES,
            ),
        ]);
        // One takes and leaves 9, the next sees the 9, and the last takes that.
        let again = compare_exchange(1, 0, 7);
        let in_turn = [takes[0], takes[1], again, again];
        for (count, value, in_register) in [(2, 9, 5), (3, 9, 9), (4, 7, 9)] {
            let goal = [x(value), register(1, in_register)];
            cases.push(run([5, 0], &in_turn[..count], &goal, REACHES));
        }
    }
    cases
}

/// Two threads for one variable: the first takes it, and the second sees that.
fn races() -> Vec<Known> {
    let mut cases = Vec::new();
    for memory in every_memory() {
        let threads = [
            vec![compare_exchange(0, 0, 1)],
            vec![compare_exchange(0, 0, 2)],
        ];
        let job = |taken| {
            let goal = [[3, 0, 0, taken], [2, 2 - taken, 0, taken]];
            file_of_two(memory, &[0], &threads, 1, &goal)
        };
        cases.extend([
            known(&job(1), &[0, 1], REACHES),
            known(&job(2), &[1, 0], REACHES),
            known(&job(1), &[1, 0], FALLS_SHORT),
            known(&job(2), &[0, 1], FALLS_SHORT),
        ]);
    }
    cases
}

/// CMPX before the own buffer is empty, whether it would take (x is 0) or not.
fn waiting() -> Vec<Known> {
    let mut cases = Vec::new();
    let compare = compare_exchange(0, 0, 7);
    for memory in every_memory() {
        for x in [0, 5] {
            let left = if x == 0 { 7 } else { 5 };
            let goal = [[1, 0, 0, 2], [3, 0, 0, left], [2, 0, 0, x]];
            let programs = [
                vec![store(1), compare],
                vec![[1, 0, 0, 9], compare, store(1)],
            ];
            let job = file_of_two(memory, &[x, 0], &programs, 0, &goal);
            let behind = [vec![store(1), WFENCE, compare], vec![]];
            let behind = file_of_two(memory, &[x, 0], &behind, 0, &ALWAYS);
            if memory == SC {
                cases.push(known(&job, &[0, 0], REACHES));
                cases.push(known(&behind, &[0, 0, 0], REACHES));
                continue;
            }
            cases.extend([
                known(&job, &[0, 0], "STUCK 1 4"),
                known(&job, &[0, 5], FALLS_SHORT),
                known(&job, &[0, 5, 0], REACHES),
                known(&job, &[0, 5, 0, 0], "STUCK 3 2"),
                // Another thread's pending store keeps nobody waiting; its CMPX came with 9, which x is not.
                known(&job, &[1, 1, 1, 0, 0], "STUCK 4 4"),
                known(&job, &[1, 1, 1, 0, 5, 0], REACHES),
                known(&behind, &[0, 0, 0], "STUCK 2 4"),
                known(&behind, &[0, 0, 5, 0], REACHES),
            ]);
        }
    }
    cases
}

// ---- groups ----

/// What one thread does, a letter each: a small one stores to the variable of that name, a bar is a WFENCE, a capital flushes, and a digit loads the variable of that number.
struct Events {
    program: Program,
    schedule: Vec<u8>,
}

/// The stores hold 1, 2, 3 and so on.
fn events(thread: u8, letters: &str) -> Events {
    let mut program: Program = Vec::new();
    let mut schedule = Vec::new();
    let mut stores = 0;
    for letter in letters.bytes() {
        let instruction = match letter {
            b'a'..=b'h' => {
                stores += 1;
                [5, 0, letter - b'a', stores]
            }
            b'|' => WFENCE,
            b'0'..=b'7' => [3, 0, letter - b'0', 0],
            b'A'..=b'H' => {
                schedule.push(flush(thread, letter - b'A'));
                continue;
            }
            _ => panic!("{letter} stands for nothing that a thread does"),
        };
        program.push(instruction);
        schedule.push(thread);
    }
    Events { program, schedule }
}

/// What a flush to each of four variables says behind these events; a TSO buffer cannot do them all.
struct Queue {
    letters: &'static str,
    pso: &'static str,
    tso: Option<&'static str>,
}

const fn alike(letters: &'static str, both: &'static str) -> Queue {
    Queue {
        letters,
        pso: both,
        tso: Some(both),
    }
}

const fn queue(letters: &'static str, pso: &'static str, tso: &'static str) -> Queue {
    Queue {
        letters,
        pso,
        tso: Some(tso),
    }
}

const fn only_pso(letters: &'static str, pso: &'static str) -> Queue {
    Queue {
        letters,
        pso,
        tso: None,
    }
}

const QUEUES: [Queue; 47] = [
    // On an empty buffer WFENCE leaves nothing.
    alike("|", "5555"),
    alike("||", "5555"),
    alike("|a", ".555"),
    queue("|ab", "..55", ".655"),
    queue("||ab", "..55", ".655"),
    // A store behind it is in the next group, and two in a row act as one.
    alike("a|", ".555"),
    alike("a|b", ".655"),
    alike("b|a", "6.55"),
    alike("a||b", ".655"),
    alike("a|||b||c", ".665"),
    alike("a|a", ".555"),
    alike("a|ab", ".655"),
    queue("ab|c", "..65", ".665"),
    queue("dc|ba", "66..", "666."),
    // It ends when a store joins, and the next one joins the same group.
    queue("a|bc", ".665", ".665"),
    queue("a|bcA", "5..5", "5.65"),
    queue("a|baA", "..55", "6.55"),
    queue("ab|cdAB", "55..", "55.6"),
    queue("dc|baDC", "..55", "6.55"),
    // It ends when the buffer empties, and not before.
    alike("a|A", "5555"),
    alike("a|Ab", "5.55"),
    queue("a|Abc", "5..5", "5.65"),
    queue("ab|ABcd", "55..", "55.6"),
    only_pso("ab|BAcd", "55.."),
    queue("a|b|ABcd", "55..", "55.6"),
    alike("ab|A", "5.55"),
    alike("ab|Ac", "5.65"),
    only_pso("ab|Bc", ".565"),
    alike("a|b|Ac", "5.65"),
    alike("aa|Ab", ".655"),
    // The next group becomes the oldest when the last store before it has gone, and not before.
    alike("a|bA", "5.55"),
    only_pso("ab|cB", ".565"),
    alike("ab|cA", "5.65"),
    only_pso("ab|cBA", "55.5"),
    only_pso("dc|baC", "665."),
    alike("a|b|c|d", ".666"),
    alike("d|c|b|a", "666."),
    alike("a|b|c|dA", "5.66"),
    alike("a|b|c|dABC", "555."),
    alike("a|b|cAd", "5.66"),
    queue("a|b|cAdB", "55..", "55.6"),
    alike("a|bA|c", "5.65"),
    // One variable in two of three groups, and several stores to it in one.
    alike("a|b|a", ".655"),
    alike("a|b|aA", "6.55"),
    alike("a|b|aAB", ".555"),
    queue("aa|abAA", "..55", ".655"),
    queue("abc|d|abcA", "6..6", "6.66"),
];

fn flushes_of_groups() -> Vec<Known> {
    let mut cases = Vec::new();
    for (turn, queue) in QUEUES.iter().enumerate() {
        for (model, signs) in [(PSO, Some(queue.pso)), (TSO, queue.tso)] {
            // Each of the threads by turns, beside others that do the same but don't run.
            let thread = (turn % 4) as u8;
            let Events { program, schedule } = events(thread, queue.letters);
            let capacity = 7 + (turn % 2) as u8;
            let memory = [model, capacity];
            let job = file_of_two(memory, &[0; 4], &vec![program; 4], 0, &ALWAYS);
            for (variable, reason) in (0..).zip(signs.map_or(Vec::new(), reasons)) {
                cases.push(then(&job, &schedule, flush(thread, variable), reason));
            }
        }
    }
    cases
}

/// What memory then holds of four variables that were 0.
const VALUES: [(&str, [u8; 4]); 12] = [
    ("a|a", [0, 0, 0, 0]),
    ("a|aA", [1, 0, 0, 0]),
    ("a|aAA", [2, 0, 0, 0]),
    ("aa|aAA", [2, 0, 0, 0]),
    ("aa|aAAA", [3, 0, 0, 0]),
    ("a|b|aA", [1, 0, 0, 0]),
    ("a|b|aAB", [1, 2, 0, 0]),
    ("a|b|aABA", [3, 2, 0, 0]),
    ("a|b|c|dABC", [1, 2, 3, 0]),
    ("ab|baAB", [1, 2, 0, 0]),
    ("ab|baABBA", [4, 3, 0, 0]),
    ("a|Ab|cBdaC", [1, 2, 3, 0]),
];

fn values_of_groups() -> Vec<Known> {
    let mut cases = Vec::new();
    for (turn, (letters, values)) in VALUES.iter().enumerate() {
        let thread = (turn % 4) as u8;
        let Events { program, schedule } = events(thread, letters);
        let goal: Vec<[u8; 4]> = (0..)
            .zip(values)
            .map(|(v, &value)| [3, v, 0, value])
            .collect();
        let stores = program.iter().filter(|quad| quad[0] == 5).count();
        let flushes = schedule.iter().filter(|&&number| number >= 4).count();
        let if_drained = if flushes == stores {
            REACHES
        } else {
            FALLS_SHORT
        };
        for (flag, line) in [(0, REACHES), (1, if_drained)] {
            let job = file_of_two([PSO, 8], &[0; 4], &vec![program.clone(); 4], flag, &goal);
            cases.push(known(&job, &schedule, line));
        }
    }
    cases
}

/// What the last load takes: the newest own store to the variable in any group, else what memory holds (70 and up).
const LOADS: [(&str, u8); 20] = [
    ("|0", 70),
    ("a0", 1),
    ("a|0", 1),
    ("a|1", 71),
    ("a|b0", 1),
    ("a|b1", 2),
    ("a|b2", 72),
    ("a|a0", 2),
    ("aa|b0", 2),
    ("a|b|a0", 3),
    ("a|b|a1", 2),
    ("a|b|c0", 1),
    ("a|b|c1", 2),
    ("ab|ba0", 4),
    ("ab|ba1", 3),
    ("a|bA0", 1),
    ("a|aA0", 2),
    ("a|aAA0", 2),
    ("a|b|aA0", 3),
    ("a|b|aAB1", 2),
];

fn loads_across_groups() -> Vec<Known> {
    let mut cases = Vec::new();
    // No more than four stores are pending here, so more room makes no difference.
    let buffered = every_memory().into_iter().filter(|memory| memory[1] >= 4);
    for (turn, memory) in buffered.enumerate() {
        for (letters, value) in LOADS {
            let thread = (turn % 4) as u8;
            let Events { program, schedule } = events(thread, letters);
            let programs = vec![program; 4];
            for (asked, line) in [(value, REACHES), (value + 1, FALLS_SHORT)] {
                let goal = [[2, thread, 0, asked]];
                let job = file_of_two(memory, &[70, 71, 72, 73], &programs, 0, &goal);
                cases.push(known(&job, &schedule, line));
            }
        }
    }
    cases
}

/// The same number in each state along a schedule.
fn along_groups() -> Vec<Known> {
    let [first, second, absent] = [flush(0, 0), flush(0, 1), flush(0, 2)];
    let mut cases = Vec::new();
    for barrier in [
        FENCE,
        EXCHANGE,
        compare_exchange(0, 0, 1),
        compare_exchange(0, 1, 9),
    ] {
        let programs = [vec![store(0), WFENCE, store(1), barrier]];
        let job = |memory| file_of_two(memory, &[0, 0], &programs, 0, &ALWAYS);
        for model in [TSO, PSO] {
            let roomy = [0, 0, 0, first, second, 0];
            cases.extend(along(&job([model, 2]), &roomy, 0, "...44.2"));
            cases.extend(along(&job([model, 2]), &roomy, first, "5...555"));
            cases.extend(along(&job([model, 2]), &roomy, second, "5556.55"));
            cases.extend(along(&job([model, 2]), &roomy, absent, "1111111"));
            let one_at_a_time = [0, 0, first, 0, second, 0];
            cases.extend(along(&job([model, 1]), &one_at_a_time, 0, "..3.4.2"));
            cases.extend(along(&job([model, 1]), &one_at_a_time, first, "5..5555"));
            cases.extend(along(&job([model, 1]), &one_at_a_time, second, "5555.55"));
        }
    }
    // Later groups of one variable and of two, to the end of each.
    let Events { program, schedule } = events(0, "ab|a|bABAB");
    let job = file_of_two([PSO, 4], &[0, 0], &[program], 0, &ALWAYS);
    cases.extend(along(&job, &schedule, first, "5......6.55"));
    cases.extend(along(&job, &schedule, second, "55......6.5"));
    cases
}

/// As many groups as the buffer holds stores: WFENCE needs no room, and each kind of instruction says what it waits for.
fn full_of_groups() -> Vec<Known> {
    let nexts = [
        (store(0), BUFFER_FULL),
        ([4, 0, 1, 0], BUFFER_FULL),
        (FENCE, BUFFER_NOT_EMPTY),
        (EXCHANGE, BUFFER_NOT_EMPTY),
        // Memory holds 0 and 1 there, so one would take and the other would not.
        (compare_exchange(0, 0, 9), BUFFER_NOT_EMPTY),
        (compare_exchange(0, 2, 9), BUFFER_NOT_EMPTY),
        (WFENCE, TAKEN),
        ([3, 0, 0, 0], TAKEN),
        ([2, 0, 0, 1], TAKEN),
        ([9, 0, 0, 0], TAKEN),
    ];
    let mut cases = Vec::new();
    for model in [TSO, PSO] {
        for capacity in 1..=8 {
            let memory = [model, capacity];
            let groups: Program = (0..capacity).flat_map(|k| [store(k % 2), WFENCE]).collect();
            let fill = vec![0; groups.len()];
            let job = |next: &[[u8; 4]]| {
                let program = [&groups[..], next].concat();
                file_of_two(memory, &[0, 0, 1], &[program], 0, &ALWAYS)
            };
            for (next, reason) in nexts {
                cases.push(then(&job(&[next]), &fill, 0, reason));
            }
            let ended = job(&[]);
            let behind = if capacity > 1 {
                NOT_THE_OLDEST
            } else {
                NOTHING_TO_FLUSH
            };
            cases.extend([
                then(&ended, &fill, 0, THREAD_ENDED),
                then(&ended, &fill, flush(0, 0), TAKEN),
                then(&ended, &fill, flush(0, 1), behind),
                then(&ended, &fill, flush(0, 2), NOTHING_TO_FLUSH),
            ]);
            // A WFENCE on a full buffer keeps apart what there is room for later.
            let full = (0..capacity).map(|k| store(k % 2));
            let program: Program = full.chain([WFENCE, store(2)]).collect();
            let later = file_of_two(memory, &[0; 3], &[program], 0, &ALWAYS);
            let behind = if capacity > 1 { NOT_THE_OLDEST } else { TAKEN };
            let fill_it = vec![0; usize::from(capacity) + 1];
            let before = [&fill_it[..], &[flush(0, 0), 0]].concat();
            cases.push(then(&later, &before, flush(0, 2), behind));
            // The oldest goes, and there is room for one store and no more.
            let room = [&fill[..], &[flush(0, 0)]].concat();
            let two = job(&[store(2), store(2)]);
            cases.push(then(&two, &room, 0, TAKEN));
            cases.push(then(&two, &[&room[..], &[0]].concat(), 0, BUFFER_FULL));
        }
    }
    cases
}

/// There WFENCE keeps nothing apart, since nothing is pending.
fn nothing_under_sc() -> Vec<Known> {
    let program = vec![
        store(0),
        WFENCE,
        WFENCE,
        store(1),
        WFENCE,
        compare_exchange(0, 0, 1),
    ];
    let goal = [[3, 0, 0, 1], [3, 1, 0, 1], [1, 0, 0, 6]];
    let programs = [program];
    let job = file_of_two(SC, &[0, 0], &programs, 1, &goal);
    let always = file_of_two(SC, &[0, 0], &programs, 1, &ALWAYS);
    let mut cases = along(&always, &[0; 6], 0, "......2");
    cases.extend(along(&always, &[0; 6], flush(0, 0), "5555555"));
    cases.push(known(&job, &[0; 6], REACHES));
    cases.push(known(&job, &[0; 5], FALLS_SHORT));
    cases
}

/// Message passing, a lock handed over and a lock taken.
fn stories() -> Vec<Known> {
    let mut cases = Vec::new();
    for memory in every_memory() {
        let passing = message_passing_by_wfence(memory);
        let [given, given_late] = [&[WFENCE][..], &[]].map(|between| handover(memory, between));
        // The second thread goes round, because the first has it.
        cases.push(known(&lock(memory), &[0, 0, 0, 1, 1, 1, 1, 1], FALLS_SHORT));
        let [model, capacity] = memory;
        if capacity >= 2 {
            let late = if model == PSO { REACHES } else { "STUCK 3 6" };
            cases.extend([
                known(&passing, &[0, 0, 0, 5, 1, 1], &stuck_at(3, NOT_THE_OLDEST)),
                known(&passing, &[0, 0, 0, 4, 5, 1, 1], FALLS_SHORT),
                known(&given, &[0, 0, 0, 1, 5], &stuck_at(4, NOT_THE_OLDEST)),
                known(&given_late, &[0, 0, 1, 5, 1, 1, 1], late),
            ]);
        }
        if capacity >= 1 {
            cases.extend([
                known(&passing, &[0, 0, 4, 0, 5, 1, 1], FALLS_SHORT),
                known(&given, &[0, 0, 4, 0, 5, 1, 1, 1, 1], FALLS_SHORT),
            ]);
        }
    }
    cases
}

/// Each of the 256 numbers, in states with groups.
pub fn every_number() -> Vec<Known> {
    [groups_in_three_threads(), eight_groups(), a_group_gone()].concat()
}

/// Thread 0 has ended and thread 1 waits for room, each with one store in a group behind another; thread 2 waits at a CMPX, thread 3 is at a WFENCE.
fn groups_in_three_threads() -> Vec<Known> {
    let programs = [
        vec![store(0), WFENCE, store(7)],
        vec![store(5), WFENCE, store(2), store(1)],
        vec![store(4), WFENCE, compare_exchange(0, 6, 1)],
        vec![WFENCE],
    ];
    let behind = |memory, execute, flush| {
        let job = file_of_two(memory, &[0; 8], &programs, 0, &ALWAYS);
        each_number_behind(&job, &[0, 0, 0, 1, 1, 1, 2, 2], execute, flush)
    };
    let groups = [".5555556", "55655.55", "5555.555", "55555555"];
    [
        behind(SC, "2...", ["55555555"; 4]),
        behind([TSO, 2], "234.", groups),
        behind([PSO, 2], "234.", groups),
    ]
    .concat()
}

/// Thread 0 has ended with eight groups; thread 1 has two groups of two and runs a second WFENCE.
fn eight_groups() -> Vec<Known> {
    let first: Program = [3, 0, 7, 1, 6, 2, 5, 4]
        .into_iter()
        .flat_map(|variable| [store(variable), WFENCE])
        .collect();
    let Events { program, .. } = events(1, "da|hb||");
    let before = [&[0; 16][..], &[1; 6]].concat();
    let behind = |model, second| {
        let programs = [first.clone(), program.clone()];
        let job = file_of_two([model, 8], &[0; 8], &programs, 0, &ALWAYS);
        let flush = ["666.6666", second, "11111111", "11111111"];
        each_number_behind(&job, &before, "2.11", flush)
    };
    [behind(PSO, ".65.5556"), behind(TSO, "665.5556")].concat()
}

/// The oldest group of each has gone, so that the next is the oldest; one buffer has emptied.
pub(crate) fn a_group_gone() -> Vec<Known> {
    let mut programs = Vec::new();
    let mut before = Vec::new();
    for (thread, letters) in (0..).zip(["a|bc|aA", "ab|cBA", "a|A|"]) {
        let Events { program, schedule } = events(thread, letters);
        programs.push(program);
        before.extend(schedule);
    }
    let job = file_of_two([PSO, 4], &[0; 4], &programs, 0, &ALWAYS);
    let flush = ["6..51111", "55.51111", "55551111", "11111111"];
    each_number_behind(&job, &before, "2221", flush)
}

// ---- random ----

const GROUPED_JOBS: usize = 300;
const SOUND_JOBS: usize = 250;
const DAMAGED_JOBS: usize = 60;
const SEED: u64 = 7;

/// The lines of these are the checker's own.
pub fn random_cases() -> Vec<Case> {
    let mut random = Random::new(SEED);
    let mut cases: Vec<Case> = (0..GROUPED_JOBS)
        .map(|_| {
            let job = random_job(&mut random);
            let schedule = stuck_schedule(&mut random, &job);
            Case { job, schedule }
        })
        .collect();
    let mut jobs: Vec<Vec<u8>> = Vec::new();
    jobs.extend((0..SOUND_JOBS).map(|_| sound_job_of(&mut random, 2)));
    jobs.extend((0..DAMAGED_JOBS).map(|_| damaged_job_of(&mut random, 2)));
    jobs.retain(|job| job.len() <= ROOM_FOR_JOB);
    cases.extend(jobs.into_iter().map(|job| Case {
        schedule: replay_schedule(&mut random, &job),
        job,
    }));
    cases
}

/// A job for a walk into a step that cannot be taken.
pub fn random_job(random: &mut Random) -> Vec<u8> {
    grouped_job(random, 4, 10, ALWAYS[0])
}

/// Programs of at most so many instructions, rich in stores, in WFENCE and in what waits; register 3 stays 0.
pub fn grouped_job(
    random: &mut Random,
    most_threads: usize,
    most_instructions: usize,
    clause: [u8; 4],
) -> Vec<u8> {
    let model = random.pick(&[0, TSO, PSO, PSO, PSO]);
    let memory = match model {
        0 => SC,
        _ => [model, random.between(1, 8) as u8],
    };
    let variables = random.pick(&[1, 2, 2, 3, 4, 8]);
    let threads = random.between(1, most_threads);
    let programs: Vec<Program> = (0..threads)
        .map(|_| {
            let count = random.between(0, most_instructions);
            (0..count).map(|_| instruction(random, variables)).collect()
        })
        .collect();
    let initial = vec![0; usize::from(variables)];
    file_of_two(memory, &initial, &programs, 0, &[clause])
}

fn instruction(random: &mut Random, variables: u8) -> [u8; 4] {
    let variable = random.below(usize::from(variables)) as u8;
    let value = random.below(3) as u8;
    match random.below(20) {
        0..=8 => [5, 0, variable, value],
        9 => [4, 0, variable, 0],
        10..=13 => WFENCE,
        14..=16 => compare_exchange(0, variable, value),
        17 => [3, 0, variable, 0],
        18 => [2, 0, 0, 1],
        _ => random.pick(&[FENCE, [7, 0, variable, 0]]),
    }
}

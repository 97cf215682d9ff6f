//! Cases for the fence check, and the line that each is answered with.

use crate::classes::Counts;
use crate::fences::fences;
use crate::job::MOST_INSTRUCTIONS;
use crate::listed::{
    accepted_list, at_the_limit, blank_goals, fewest_and_most_clauses, file, p12, refused_jobs,
    too_long_threads, Memory, Program, Refused, AT_THE_START, FURTHEST_PLACE, MEMORIES,
    P12_REFUSAL, PSO, ROOM_FOR_JOB, SC, TSO,
};
use crate::long_threads::MOST_BEFORE;
use crate::random::{damaged_job_of, random_bytes_of, sound_job_of, Random};
use crate::version_three_jobs::{at_the_limit_of_three, refused_of_three};
use crate::version_two_jobs::{refused_about_versions, refused_in_both};
use crate::{dead_code, dead_code_cases, long_threads};
use crate::{version_three, version_three_fences, version_two, version_two_fences};

/// A job, and the line that a person says for it from the paper.
pub type Known = (Vec<u8>, String);

/// What the program under test prints for a case.
pub fn line(job: &[u8]) -> String {
    match fences(job) {
        [0, number, offset, _] => refused_line([number, offset]),
        [1, ..] => FENCED.to_string(),
        [2, thread, store, load] => open(thread, store, load),
        answer => panic!("the fence check answered {answer:?}, which has no meaning"),
    }
}

const FENCED: &str = "FENCED";

fn refused_line([number, offset]: [u64; 2]) -> String {
    format!("REFUSED {number} {offset}")
}

fn open(thread: u64, store: u64, load: u64) -> String {
    format!("OPEN {thread} {store} {load}")
}

/// Those of version 2 come behind those of version 1, and those of version 3 behind these; all stay where they were.
pub fn all() -> Vec<Vec<u8>> {
    let without_line = |known: Vec<Known>| known.into_iter().map(|(job, _)| job).collect();
    [
        without_line(known_of_version_one()),
        every_small_program(),
        random_jobs(),
        dead_code_cases::random_jobs(),
        without_line(known_of_version_two()),
        version_two_fences::every_small_program(),
        version_two_fences::random_jobs(),
        without_line(known_of_version_three()),
        vec![at_the_limit_of_three()],
        version_three_fences::random_jobs(),
    ]
    .concat()
}

/// How many cases have long threads, by class.
pub fn counts_of_long_threads() -> Counts {
    let classes = [&long_threads::OF_JOBS[..], &long_threads::OF_FENCE_CHECKS].concat();
    counts(&classes, long_threads::of_job, long_threads::of_fence_check)
}

/// How many cases have dead code, by class.
pub fn counts_of_dead_code() -> Counts {
    let classes = [&dead_code::OF_JOBS[..], &dead_code::OF_FENCE_CHECKS].concat();
    counts(&classes, dead_code::of_job, dead_code::of_fence_check)
}

/// How many cases are of version 2, and what their answers hang on, by class.
pub fn counts_of_version_two() -> Counts {
    let classes = [&version_two::of_jobs()[..], &version_two::OF_FENCE_CHECKS].concat();
    counts(&classes, version_two::of_job, version_two::of_fence_check)
}

/// How many cases are of version 3, and what their answers hang on, by class.
pub fn counts_of_version_three() -> Counts {
    let classes = [
        &version_three::of_jobs()[..],
        &version_three::OF_FENCE_CHECKS,
    ]
    .concat();
    let of_fence_check = version_three::of_fence_check;
    counts(&classes, version_three::of_job, of_fence_check)
}

type ClassesOf = fn(&[u8]) -> Vec<&'static str>;

fn counts(classes: &[&'static str], of_job: ClassesOf, of_fence_check: ClassesOf) -> Counts {
    let met = |job: &Vec<u8>| [of_job(job), of_fence_check(job)].concat();
    let met: Vec<_> = all().iter().map(met).collect();
    Counts::new(classes, &met)
}

/// The cases whose lines a person can say.
pub fn all_known() -> Vec<Known> {
    [
        known_of_version_one(),
        known_of_version_two(),
        known_of_version_three(),
    ]
    .concat()
}

fn known_of_version_three() -> Vec<Known> {
    let refused = refusals(refused_of_three());
    [version_three_fences::all_known(), refused].concat()
}

fn known_of_version_two() -> Vec<Known> {
    let refused = [refused_about_versions(), refused_in_both()].concat();
    [version_two_fences::all_known(), refusals(refused)].concat()
}

fn known_of_version_one() -> Vec<Known> {
    [
        listed(),
        under_each_model(),
        each_fence_between(),
        of_each_long_length(),
        at_each_high_place(),
        dead_code_cases::all_known(),
        refused(),
        about_the_range_of_k(),
    ]
    .concat()
}

fn listed() -> Vec<Known> {
    let lines = [
        "OPEN 0 0 1", // P1 to P4: the load follows its thread's store
        "OPEN 0 0 1",
        "OPEN 0 0 1",
        "OPEN 0 0 1",
        FENCED, // P5 has neither store nor load
        FENCED, // P6 to P8: one thread only stores, the other only loads
        FENCED,
        FENCED,
        FENCED, // P9
        FENCED, // P10 and P11: stores only
        FENCED,
    ];
    let known = |(job, line): (Vec<u8>, &str)| (job, line.to_string());
    let mut cases: Vec<Known> = accepted_list().into_iter().zip(lines).map(known).collect();
    cases.extend(p12().map(|job| (job, refused_line(P12_REFUSAL))));
    cases
}

pub(crate) const STORE: [u8; 4] = [5, 0, 0, 1];
pub(crate) const STORE_REGISTER: [u8; 4] = [4, 1, 1, 0];
pub(crate) const LOAD: [u8; 4] = [3, 0, 0, 0];
pub(crate) const LOAD_OTHER: [u8; 4] = [3, 2, 1, 0];
pub(crate) const FENCE: [u8; 4] = [6, 0, 0, 0];
pub(crate) const EXCHANGE: [u8; 4] = [7, 0, 0, 0];
pub(crate) const ADD: [u8; 4] = [2, 0, 0, 1];
pub(crate) const SET: [u8; 4] = [1, 0, 0, 1];

pub(crate) const fn jump(place: u8) -> [u8; 4] {
    [9, 0, place, 0]
}

pub(crate) const fn jump_if(place: u8) -> [u8; 4] {
    [8, 0, place, 0]
}

/// What the goal asks for makes no difference to the fence check.
pub(crate) fn job(memory: Memory, programs: &[Program]) -> Vec<u8> {
    file(memory, &[0, 0], programs, 0, &[AT_THE_START])
}

/// The model makes no difference, nor does the capacity.
fn under_each_model() -> Vec<Known> {
    let threads = [of_one_thread(), of_several_threads(), of_long_threads()].concat();
    let mut cases = Vec::new();
    for (programs, line) in threads {
        for memory in MEMORIES {
            cases.push((job(memory, &programs), line.clone()));
        }
    }
    cases
}

type Threads = Vec<Program>;

/// One thread with its line, and the same thread behind one of no instructions.
fn of_one_thread() -> Vec<(Threads, String)> {
    let mut cases = Vec::new();
    for (program, pair) in shapes() {
        cases.push((vec![program.clone()], line_of(0, pair)));
        cases.push((vec![vec![], program], line_of(1, pair)));
    }
    cases
}

/// One thread each.
pub(crate) fn shapes() -> Vec<Thread> {
    [
        straight(),
        barriers(),
        jumps(),
        loops(),
        branches(),
        least_pairs(),
    ]
    .concat()
}

/// A thread's instructions, and its least open pair if it has one.
pub(crate) type Thread = (Program, Option<[u64; 2]>);

pub(crate) fn fenced(program: &[[u8; 4]]) -> Thread {
    (program.to_vec(), None)
}

pub(crate) fn opened(program: &[[u8; 4]], store: u64, load: u64) -> Thread {
    (program.to_vec(), Some([store, load]))
}

/// The line for a job in which at most this thread has an open pair.
pub(crate) fn line_of(thread: usize, pair: Option<[u64; 2]>) -> String {
    pair.map_or(FENCED.to_string(), |[s, l]| open(thread as u64, s, l))
}

/// Neither jump nor fence. Which variable is stored and which is loaded makes no difference.
fn straight() -> Vec<Thread> {
    vec![
        fenced(&[]),
        fenced(&[STORE]),
        fenced(&[LOAD]),
        fenced(&[STORE, STORE_REGISTER, STORE]),
        fenced(&[LOAD, LOAD_OTHER, LOAD]),
        fenced(&[LOAD, STORE]),
        opened(&[STORE, LOAD], 0, 1),
        opened(&[STORE, LOAD_OTHER], 0, 1),
        opened(&[STORE_REGISTER, LOAD], 0, 1),
        opened(&[STORE_REGISTER, LOAD_OTHER], 0, 1),
        opened(&[STORE, ADD, SET, LOAD], 0, 3),
        opened(&[STORE, STORE, LOAD], 0, 2),
        opened(&[LOAD, STORE, LOAD], 1, 2),
    ]
}

/// FENCE and XCHG between, before and behind; XCHG is neither store nor load.
fn barriers() -> Vec<Thread> {
    let mut threads = vec![
        fenced(&[EXCHANGE]),
        fenced(&[EXCHANGE, EXCHANGE]),
        fenced(&[EXCHANGE, LOAD]),
        fenced(&[STORE, EXCHANGE]),
        fenced(&[STORE, FENCE, EXCHANGE, LOAD]),
    ];
    for barrier in [FENCE, EXCHANGE] {
        threads.extend([
            fenced(&[STORE, barrier, LOAD]),
            fenced(&[STORE, ADD, barrier, SET, LOAD]),
            fenced(&[STORE, STORE_REGISTER, barrier, LOAD, LOAD_OTHER]),
            opened(&[barrier, STORE, LOAD], 1, 2),
            opened(&[STORE, LOAD, barrier], 0, 1),
            opened(&[barrier, STORE, LOAD, barrier], 1, 2),
            opened(&[STORE, LOAD, barrier, LOAD], 0, 1),
            opened(&[STORE, barrier, STORE, LOAD], 2, 3),
            opened(&[STORE, barrier, LOAD, STORE, LOAD], 3, 4),
        ]);
    }
    threads
}

/// Jumps to the own place, over a fence, into one, to place n, and over code that is then dead.
fn jumps() -> Vec<Thread> {
    vec![
        fenced(&[jump(0)]),
        fenced(&[jump(1)]),
        fenced(&[jump_if(0)]),
        fenced(&[jump_if(1)]),
        fenced(&[jump(1), jump(2), jump(0)]),
        fenced(&[jump_if(2), jump(0), jump_if(3)]),
        fenced(&[STORE, jump(1), LOAD]),
        opened(&[STORE, jump_if(1), LOAD], 0, 2),
        fenced(&[STORE, jump(3), LOAD]),
        opened(&[STORE, jump_if(3), LOAD], 0, 2),
        opened(&[STORE, jump(2), LOAD], 0, 2),
        opened(&[STORE, jump(3), FENCE, LOAD], 0, 3),
        fenced(&[STORE, jump(3), LOAD, FENCE]),
        fenced(&[STORE, jump(2), FENCE, LOAD]),
        fenced(&[STORE, jump(3), LOAD, EXCHANGE, jump(2)]),
        fenced(&[jump(0), STORE, LOAD]),
        fenced(&[jump(3), STORE, LOAD]),
        fenced(&[jump(4), STORE, jump(3), LOAD]),
        fenced(&[jump(4), STORE, FENCE, LOAD]),
        fenced(&[STORE, FENCE, jump(2), STORE, LOAD]),
    ]
}

/// The load stands before the store, or before it and behind a fence.
fn loops() -> Vec<Thread> {
    let mut threads = vec![
        opened(&[LOAD, STORE, jump(0)], 1, 0),
        opened(&[LOAD, STORE, jump_if(0)], 1, 0),
        fenced(&[LOAD, STORE, jump(3)]),
        fenced(&[LOAD, STORE, jump(1)]),
        fenced(&[LOAD, STORE, jump(2)]),
        fenced(&[LOAD, jump(0), STORE]),
        opened(&[jump(3), LOAD, jump(5), STORE, jump(1)], 3, 1),
        opened(&[STORE, jump_if(4), FENCE, jump(0), LOAD], 0, 4),
    ];
    for barrier in [FENCE, EXCHANGE] {
        threads.extend([
            fenced(&[LOAD, STORE, barrier, jump(0)]),
            fenced(&[barrier, LOAD, STORE, jump(0)]),
            fenced(&[barrier, LOAD, STORE, jump_if(0)]),
            opened(&[barrier, LOAD, STORE, jump(1)], 2, 1),
            opened(&[LOAD, barrier, STORE, jump(0)], 2, 0),
            fenced(&[STORE, barrier, LOAD, jump(0)]),
            // The second time round the fence is passed over.
            opened(&[LOAD, jump_if(3), barrier, STORE, jump(0)], 3, 0),
        ]);
    }
    threads
}

/// A load that only one of the two ways of a JEQ leads to.
fn branches() -> Vec<Thread> {
    vec![
        opened(&[STORE, jump_if(4), LOAD, jump(4)], 0, 2),
        opened(&[STORE, jump_if(3), FENCE, LOAD], 0, 3),
        opened(&[STORE, jump_if(3), jump(4), LOAD], 0, 3),
        opened(&[STORE, jump_if(3), jump(4), FENCE, LOAD], 0, 4),
        fenced(&[STORE, jump_if(3), FENCE, FENCE, LOAD]),
        fenced(&[STORE, jump_if(3), EXCHANGE, FENCE, LOAD]),
        fenced(&[STORE, jump_if(2), FENCE, LOAD]),
        opened(&[STORE, jump_if(2), LOAD], 0, 2),
        opened(&[jump(2), LOAD, STORE, jump_if(1), FENCE], 2, 1),
        fenced(&[jump(2), LOAD, STORE, jump_if(5), FENCE]),
    ]
}

/// Several pairs: the least store place wins, and then the least load place.
fn least_pairs() -> Vec<Thread> {
    vec![
        opened(&[STORE, LOAD, LOAD], 0, 1),
        opened(&[STORE, LOAD, STORE, LOAD], 0, 1),
        // The walk meets the load at 3 before the one at 1.
        opened(&[jump(2), LOAD, STORE, LOAD, jump(1)], 2, 1),
        // The later store has the earlier load.
        opened(&[STORE, jump(5), STORE, LOAD, jump(6), LOAD], 0, 5),
        opened(&[LOAD, STORE, LOAD, jump(0)], 1, 0),
        opened(&[STORE, FENCE, LOAD, STORE, STORE, LOAD, LOAD], 3, 5),
    ]
}

/// A pair needs both in one thread, and the least thread wins whatever its places are.
fn of_several_threads() -> Vec<(Threads, String)> {
    let none: Program = vec![];
    let near = vec![STORE, LOAD];
    let far = vec![ADD, SET, STORE, ADD, LOAD];
    let back = vec![LOAD, STORE, jump(0)];
    let closed = vec![STORE, FENCE, LOAD];
    let stores = vec![STORE, STORE_REGISTER];
    let loads = vec![LOAD, LOAD_OTHER];
    vec![
        (vec![none.clone(); 4], FENCED.to_string()),
        (vec![stores.clone(), loads.clone()], FENCED.to_string()),
        (
            vec![loads.clone(), stores.clone(), loads.clone(), stores.clone()],
            FENCED.to_string(),
        ),
        (vec![closed.clone(); 4], FENCED.to_string()),
        (vec![closed.clone(), near.clone()], open(1, 0, 1)),
        (vec![far.clone(), near.clone()], open(0, 2, 4)),
        (vec![back.clone(), near.clone(), far.clone()], open(0, 1, 0)),
        (vec![none.clone(), loads, far, back.clone()], open(2, 2, 4)),
        (vec![closed.clone(), stores, closed, back], open(3, 1, 0)),
        (
            vec![none.clone(), none.clone(), none, near.clone()],
            open(3, 0, 1),
        ),
        (vec![near; 4], open(0, 0, 1)),
    ]
}

/// The last place of a thread of the most instructions at which one stands, and the place before it.
pub(crate) const LAST: usize = MOST_INSTRUCTIONS - 1;
const LAST_BUT_ONE: usize = LAST - 1;

/// Threads of the most instructions, and four of them.
fn of_long_threads() -> Vec<(Threads, String)> {
    let all = |instruction| vec![instruction; MOST_INSTRUCTIONS];
    let with = |at, instruction| among_adds(MOST_INSTRUCTIONS, &[(at, instruction)]);
    let pair = |store, load| among_adds(MOST_INSTRUCTIONS, &[(store, STORE), (load, LOAD)]);
    let [last, last_but_one] = [LAST, LAST_BUT_ONE].map(|place| place as u64);
    let ending = |end| {
        let others = [(0, LOAD), (LAST_BUT_ONE, STORE), (LAST, end)];
        among_adds(MOST_INSTRUCTIONS, &others)
    };
    let turned = ending(jump(0));
    let to_the_end = ending(jump(FURTHEST_PLACE));
    let backward = pair(LAST, LAST_BUT_ONE);
    let far_backward = pair(LAST, 0);
    vec![
        (vec![all(ADD); 4], FENCED.to_string()),
        (vec![all(jump(FURTHEST_PLACE)); 4], FENCED.to_string()),
        (vec![all(jump_if(0)); 4], FENCED.to_string()),
        (vec![with(LAST, STORE); 4], FENCED.to_string()),
        (vec![far_backward.clone(); 4], FENCED.to_string()),
        (vec![pair(0, LAST)], open(0, 0, last)),
        (vec![pair(LAST_BUT_ONE, LAST)], open(0, last_but_one, last)),
        (vec![turned.clone()], open(0, last_but_one, 0)),
        (vec![ending(jump_if(0))], open(0, last_but_one, 0)),
        (vec![to_the_end.clone()], FENCED.to_string()),
        (vec![ending(jump_if(FURTHEST_PLACE))], FENCED.to_string()),
        (vec![jumping_back()], open(0, last_but_one, 0)),
        (vec![over_the_last(jump(2))], open(0, 0, 2)),
        (vec![over_the_last(jump_if(2))], open(0, 0, 2)),
        (vec![over_the_last(FENCE)], FENCED.to_string()),
        (vec![over_the_last(EXCHANGE)], FENCED.to_string()),
        (vec![over_the_last(ADD)], FENCED.to_string()),
        (
            vec![over_the_last(jump(FURTHEST_PLACE))],
            FENCED.to_string(),
        ),
        (
            vec![over_the_last(jump_if(FURTHEST_PLACE))],
            FENCED.to_string(),
        ),
        (vec![over_the_last(jump(LAST as u8))], FENCED.to_string()),
        (
            vec![to_the_end, with(0, LOAD), with(LAST, STORE), turned],
            open(3, last_but_one, 0),
        ),
        (
            vec![
                backward.clone(),
                backward.clone(),
                backward,
                pair(LAST_BUT_ONE, LAST),
            ],
            open(3, last_but_one, last),
        ),
        (
            vec![
                far_backward.clone(),
                far_backward.clone(),
                far_backward,
                jumping_back(),
            ],
            open(3, last_but_one, 0),
        ),
    ]
}

/// A thread of so many ADDs, but for these instructions at their places.
pub(crate) fn among_adds(count: usize, others: &[(usize, [u8; 4])]) -> Program {
    let mut program = vec![ADD; count];
    for &(place, instruction) in others {
        program[place] = instruction;
    }
    program
}

/// The only way from the store to the load goes over the last place, if that leads back.
fn over_the_last(last: [u8; 4]) -> Program {
    let others = [(0, STORE), (1, jump(LAST as u8)), (2, LOAD), (LAST, last)];
    among_adds(MOST_INSTRUCTIONS, &others)
}

/// A load first, a store last but one, and jumps that lead from it to the load place by place; place 1 makes the store live.
fn jumping_back() -> Program {
    let mut program: Program = (0..FURTHEST_PLACE)
        .map(|place| jump(place.saturating_sub(1)))
        .collect();
    program[..3].copy_from_slice(&[LOAD, jump(LAST_BUT_ONE as u8), jump(0)]);
    program[LAST_BUT_ONE] = STORE;
    program[LAST] = jump(LAST_BUT_ONE as u8 - 1);
    program
}

/// A fence at each place between a store and a load far apart, forward and back by jumps.
fn each_fence_between() -> Vec<Known> {
    let mut cases = Vec::new();
    for barrier in [FENCE, EXCHANGE] {
        for place in 1..LAST {
            let others = [(0, STORE), (LAST, LOAD), (place, barrier)];
            let forward = among_adds(MOST_INSTRUCTIONS, &others);
            cases.push((job([TSO, 1], &[forward]), FENCED.to_string()));
        }
        for place in 2..LAST_BUT_ONE {
            let mut back = jumping_back();
            back[place] = barrier;
            cases.push((job([PSO, 2], &[back]), FENCED.to_string()));
        }
    }
    cases
}

/// The thread behind a few of no instructions and under a model, other ones for each turn; the goal is its end.
pub(crate) fn by_turns(turn: usize, thread: Thread) -> Known {
    let behind = turn % 4;
    let memory = MEMORIES[turn % MEMORIES.len()];
    let (program, pair) = thread;
    let goal = [[1, behind as u8, 0, program.len() as u8]];
    let mut programs: Vec<Program> = vec![vec![]; behind];
    programs.push(program);
    let line = line_of(behind, pair);
    (file(memory, &[0, 0], &programs, 0, &goal), line)
}

/// Pairs and fences at the last places of threads of each length that request 2 brought.
fn of_each_long_length() -> Vec<Known> {
    let mut cases = Vec::new();
    for count in MOST_BEFORE + 1..=MOST_INSTRUCTIONS {
        let [last, before] = [count - 1, count - 2];
        let [l, b] = [last, before].map(|place| place as u64);
        let end = count as u8;
        let of = |others: &[(usize, [u8; 4])]| among_adds(count, others);
        let turned = |turn| of(&[(0, LOAD), (before, STORE), (last, turn)]);
        let threads = [
            opened(&of(&[(0, STORE), (last, LOAD)]), 0, l),
            fenced(&of(&[(0, STORE), (before, FENCE), (last, LOAD)])),
            fenced(&of(&[(0, STORE), (before, EXCHANGE), (last, LOAD)])),
            opened(&of(&[(before, STORE), (last, LOAD)]), b, l),
            opened(&turned(jump(0)), b, 0),
            fenced(&turned(jump(end))),
            fenced(&turned(jump_if(end))),
            // Behind the last instruction there is only the end.
            fenced(&of(&[(0, LOAD), (last, STORE)])),
        ];
        let turns = (count..).zip(threads);
        cases.extend(turns.map(|(turn, thread)| by_turns(turn, thread)));
    }
    cases
}

/// Each place that request 2 brought as store, load, fence, jump and target, in a thread of the most instructions.
fn at_each_high_place() -> Vec<Known> {
    let mut cases = Vec::new();
    for place in MOST_BEFORE..MOST_INSTRUCTIONS {
        let to_place = jump(place as u8);
        let if_to_place = jump_if(place as u8);
        let at = place as u64;
        let of = |others: &[(usize, [u8; 4])]| among_adds(MOST_INSTRUCTIONS, others);
        // From the store at 0 the load at 2 is met only if the place leads back.
        let led_back = |back| {
            of(&[
                (0, STORE),
                (1, to_place),
                (2, LOAD),
                (3, FENCE),
                (place, back),
            ])
        };
        let mut threads = vec![
            opened(&of(&[(0, STORE), (1, to_place), (place, LOAD)]), 0, at),
            opened(
                &of(&[(0, STORE), (1, if_to_place), (2, FENCE), (place, LOAD)]),
                0,
                at,
            ),
            opened(&led_back(jump(2)), 0, 2),
            opened(&led_back(jump_if(2)), 0, 2),
            fenced(&led_back(jump(FURTHEST_PLACE))),
            fenced(&led_back(FENCE)),
        ];
        if place < LAST {
            let next = place + 1;
            let over = |between| {
                of(&[
                    (0, STORE),
                    (1, to_place),
                    (2, LOAD),
                    (3, FENCE),
                    (place, between),
                    (next, jump(2)),
                ])
            };
            threads.extend([
                opened(&of(&[(0, LOAD), (place, STORE), (next, jump(0))]), at, 0),
                opened(&of(&[(place, STORE), (next, LOAD)]), at, at + 1),
                opened(&over(ADD), 0, 2),
                fenced(&over(FENCE)),
                fenced(&over(EXCHANGE)),
            ]);
        }
        let turns = (place..).zip(threads);
        cases.extend(turns.map(|(turn, thread)| by_turns(turn, thread)));
    }
    cases
}

/// Every thread of one, two and three instructions.
fn every_small_program() -> Vec<Vec<u8>> {
    let mut cases = Vec::new();
    for count in 1..=3 {
        let mut choices = vec![ADD, STORE, LOAD, FENCE, EXCHANGE];
        choices.extend((0..=count).flat_map(|place| [jump(place), jump_if(place)]));
        let mut programs: Vec<Program> = vec![vec![]];
        for _ in 0..count {
            programs = programs
                .iter()
                .flat_map(|front| choices.iter().map(|&next| [&front[..], &[next]].concat()))
                .collect();
        }
        cases.extend(programs.into_iter().map(|program| job(SC, &[program])));
    }
    cases
}

/// Each refusal by the job itself.
fn refused() -> Vec<Known> {
    refusals([refused_jobs(), blank_goals(), too_long_threads()].concat())
}

fn refusals(jobs: Vec<Refused>) -> Vec<Known> {
    let known = |(job, refusal)| (job, refused_line(refusal));
    jobs.into_iter().map(known).collect()
}

/// P1's threads have the same open pair whatever the goal.
fn about_the_range_of_k() -> Vec<Known> {
    let jobs = fewest_and_most_clauses().into_iter();
    jobs.map(|job| (job, open(0, 0, 1))).collect()
}

const WALK_JOBS: usize = 400;
const SOUND_JOBS: usize = 200;
const DAMAGED_JOBS: usize = 80;
const SEED: u64 = 3;

fn random_jobs() -> Vec<Vec<u8>> {
    let mut random = Random::new(SEED);
    let mut jobs = vec![at_the_limit()];
    jobs.extend((0..WALK_JOBS).map(|_| walk_job(&mut random)));
    jobs.extend((0..SOUND_JOBS).map(|_| sound_job_of(&mut random, 1)));
    jobs.extend((0..DAMAGED_JOBS).map(|_| damaged_job_of(&mut random, 1)));
    jobs.extend((0..DAMAGED_JOBS).map(|_| random_bytes_of(&mut random, 1)));
    jobs.retain(|job| job.len() <= ROOM_FOR_JOB);
    jobs
}

/// Few stores and loads among many jumps and fences, so that walks decide.
pub(crate) fn walk_job(random: &mut Random) -> Vec<u8> {
    let memory = random.pick(&MEMORIES);
    let threads = random.between(1, 4);
    let programs: Vec<Program> = (0..threads).map(|_| walk_program(random)).collect();
    job(memory, &programs)
}

fn walk_program(random: &mut Random) -> Program {
    let most = random.pick(&[4, 8, MOST_INSTRUCTIONS]);
    let count = random.between(0, most);
    // A few kinds at a time, or the nearest fence would close nearly every pair.
    let barriers = random.pick(&[0, 10, 30]);
    let mut program = Vec::new();
    for _ in 0..count {
        let place = random.between(0, count) as u8;
        program.push(match random.below(100) {
            chance if chance < barriers => random.pick(&[FENCE, EXCHANGE]),
            chance if chance < 60 => random.pick(&[jump(place), jump_if(place)]),
            chance if chance < 85 => random.pick(&[ADD, SET]),
            chance if chance < 92 => random.pick(&[STORE, STORE_REGISTER]),
            _ => random.pick(&[LOAD, LOAD_OTHER]),
        });
    }
    program
}

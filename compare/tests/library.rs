//! The library as its user meets it: a job's bytes, lent slices, four words back.

use compare::library::{fences, replay, search, search_indexed};
use compare::ring::BENCH_SLOTS;
use second::job::{item, Item, Value};
use second::listed::{
    accepted_list, at_the_limit, bench_list, every_memory, file, in_version, settled,
    too_long_threads, with_byte, Memory, Program, AT_THE_START, P1, PSO, SC, TSO,
};
use second::machine::SLOT_BYTES;
use second::version_three_jobs::{
    at_the_limit_of_three, file_of_three, in_three, of_length, raised, refused_of_three,
};
use second::version_two_jobs::at_the_limit_of_two;
use std::collections::BTreeSet;
use std::slice;

const NO_LINK: u32 = 4_294_967_295;
const TABLE_MARK: u8 = 0xA5;
const LINK_MARK: u32 = 0xDEAD_BEEF;
const SCHEDULE_MARK: u8 = 0x5A;

/// What a search leaves behind in memory that was full of marks before.
struct Run {
    answer: [u64; 4],
    table: Vec<u8>,
    links: Vec<u32>,
    schedule: Vec<u8>,
}

fn run(job: &[u8], slots: usize) -> Run {
    run_sized(job, slots * SLOT_BYTES, slots, slots)
}

fn run_sized(job: &[u8], table: usize, links: usize, schedule: usize) -> Run {
    let mut run = Run {
        answer: [9; 4],
        table: vec![TABLE_MARK; table],
        links: vec![LINK_MARK; links],
        schedule: vec![SCHEDULE_MARK; schedule],
    };
    run.answer = search(job, &mut run.table, &mut run.links, &mut run.schedule);
    run
}

impl Run {
    /// True when only so many slots and links, and so many schedule bytes, were written.
    fn wrote_no_more_than(&self, slots: usize, steps: usize) -> bool {
        self.table[slots * SLOT_BYTES..]
            .iter()
            .all(|&byte| byte == TABLE_MARK)
            && self.links[slots..].iter().all(|&link| link == LINK_MARK)
            && self.schedule[steps..]
                .iter()
                .all(|&byte| byte == SCHEDULE_MARK)
    }
}

// ---- a slot's bytes: values have two, the high one first ----

const fn register_at(thread: usize, register: usize) -> usize {
    4 + 8 * thread + 2 * register
}

const fn variable_at(variable: usize) -> usize {
    36 + 2 * variable
}

const fn buffer_at(thread: usize) -> usize {
    52 + 25 * thread
}

fn put(slot: &mut [u8], at: usize, bytes: &[u8]) {
    slot[at..at + bytes.len()].copy_from_slice(bytes);
}

fn put_value(slot: &mut [u8], at: usize, value: impl Into<Value>) {
    put(slot, at, &value.into().to_be_bytes());
}

fn value(slot: &[u8], at: usize) -> Value {
    Value::from_be_bytes([slot[at], slot[at + 1]])
}

/// P `number` of the bench list.
fn p(number: usize) -> Vec<u8> {
    bench_list().swap_remove(number - 1)
}

/// A state of P1: places, register 0 of both threads, x and y, whether each thread's store is pending, link.
type Row = ([u8; 2], [u8; 2], [u8; 2], [bool; 2], u32);

/// All states of P1 up to distance 4, in order; a link is 64 times the slot before plus the step.
const P1_STATES: [Row; 22] = [
    ([0, 0], [0, 0], [0, 0], [false, false], NO_LINK),
    ([1, 0], [0, 0], [0, 0], [true, false], 0),
    ([0, 1], [0, 0], [0, 0], [false, true], 1),
    ([2, 0], [0, 0], [0, 0], [true, false], 64),
    ([1, 1], [0, 0], [0, 0], [true, true], 64 + 1),
    ([1, 0], [0, 0], [1, 0], [false, false], 64 + 4),
    ([0, 2], [0, 0], [0, 0], [false, true], 2 * 64 + 1),
    ([0, 1], [0, 0], [0, 1], [false, false], 2 * 64 + 13),
    ([2, 1], [0, 0], [0, 0], [true, true], 3 * 64 + 1),
    ([2, 0], [0, 0], [1, 0], [false, false], 3 * 64 + 4),
    ([1, 2], [0, 0], [0, 0], [true, true], 4 * 64 + 1),
    ([1, 1], [0, 0], [1, 0], [false, true], 4 * 64 + 4),
    ([1, 1], [0, 0], [0, 1], [true, false], 4 * 64 + 13),
    ([0, 2], [0, 0], [0, 1], [false, false], 6 * 64 + 13),
    ([2, 2], [0, 0], [0, 0], [true, true], 8 * 64 + 1),
    ([2, 1], [0, 0], [1, 0], [false, true], 8 * 64 + 4),
    ([2, 1], [0, 0], [0, 1], [true, false], 8 * 64 + 13),
    ([1, 2], [0, 0], [1, 0], [false, true], 10 * 64 + 4),
    ([1, 2], [0, 0], [0, 1], [true, false], 10 * 64 + 13),
    ([1, 2], [0, 1], [1, 0], [false, true], 11 * 64 + 1),
    ([1, 1], [0, 0], [1, 1], [false, false], 11 * 64 + 13),
    ([2, 1], [1, 0], [0, 1], [true, false], 12 * 64),
];

/// Thread 0 stores 1 to variable 0, thread 1 stores 1 to variable 1.
fn slot_of((places, registers, memory, pending, _): &Row) -> Vec<u8> {
    let mut slot = vec![0; SLOT_BYTES];
    put(&mut slot, 0, places);
    for (thread, pair) in [[1, 0, 0, 1], [1, 1, 0, 1]].iter().enumerate() {
        put_value(&mut slot, register_at(thread, 0), registers[thread]);
        put_value(&mut slot, variable_at(thread), memory[thread]);
        if pending[thread] {
            put(&mut slot, buffer_at(thread), pair);
        }
    }
    slot
}

#[test]
fn a_slot_has_152_bytes() {
    let last = buffer_at(3) + 1 + 3 * 7 + 2;
    assert_eq!((last + 1, SLOT_BYTES), (152, 152));
    assert_eq!(run_sized(&P1, 152, 9, 9).answer, [3, 1, 0, 0]);
    assert_eq!(run_sized(&P1, 151, 9, 9).answer, [0, 7, 0, 0]);
    assert_eq!(run_sized(&P1, 22 * 152, 99, 99).answer, [1, 4, 22, 0]);
    assert_eq!(run_sized(&P1, 22 * 152 - 1, 99, 99).answer, [3, 21, 0, 0]);
}

fn first_p1_slots(count: usize) -> Vec<u8> {
    P1_STATES[..count].iter().flat_map(slot_of).collect()
}

fn first_p1_links(count: usize) -> Vec<u32> {
    P1_STATES[..count].iter().map(|row| row.4).collect()
}

#[test]
fn p1_whole() {
    let run = run(&P1, BENCH_SLOTS);
    assert_eq!(run.answer, [1, 4, 22, 0]);
    assert_eq!(run.table[..22 * SLOT_BYTES], first_p1_slots(22));
    assert_eq!(run.links[..22], first_p1_links(22));
    assert_eq!(run.schedule[..4], [0, 0, 1, 1]);
    assert!(run.wrote_no_more_than(22, 4));
}

#[test]
fn p1_in_22_slots_has_the_same_answer() {
    let run = run(&P1, 22);
    assert_eq!(run.answer, [1, 4, 22, 0]);
    assert_eq!(run.table, first_p1_slots(22));
    assert_eq!(run.links, first_p1_links(22));
    assert_eq!(run.schedule[..4], [0, 0, 1, 1]);
    assert!(run.wrote_no_more_than(22, 4));
}

#[test]
fn p1_in_21_slots_is_unknown() {
    for (table, links, schedule) in [
        (21 * SLOT_BYTES, 21, 21),
        (22 * SLOT_BYTES - 1, 22, 22),
        (30 * SLOT_BYTES, 21, 30),
        (30 * SLOT_BYTES, 30, 21),
    ] {
        let run = run_sized(&P1, table, links, schedule);
        assert_eq!(run.answer, [3, 21, 0, 0]);
        assert_eq!(run.table[..21 * SLOT_BYTES], first_p1_slots(21));
        assert_eq!(run.links[..21], first_p1_links(21));
        assert!(run.wrote_no_more_than(21, 0));
    }
}

#[test]
fn p2_is_unreachable_under_sc() {
    let run = run(&p(2), BENCH_SLOTS);
    assert_eq!(run.answer, [2, 13, 0, 0]);
    assert_eq!(run.links[0], NO_LINK);
    assert!(run.wrote_no_more_than(13, 0));
}

#[test]
fn p3_takes_two_flushes_more() {
    let run = run(&p(3), BENCH_SLOTS);
    assert_eq!(run.answer, [1, 6, 34, 0]);
    assert_eq!(run.schedule[..6], [0x00, 0x00, 0x01, 0x01, 0x04, 0x0D]);
    assert_eq!(run.table[..22 * SLOT_BYTES], first_p1_slots(22));
    assert!(run.wrote_no_more_than(34, 6));
}

#[test]
fn found_schedules_replay_to_their_goals() {
    assert_eq!(replay(&P1, &[0, 0, 1, 1]), [1, 0, 0, 0]);
    assert_eq!(replay(&P1, &[0, 0, 1]), [2, 0, 0, 0]);
    assert_eq!(replay(&p(3), &[0, 0, 1, 1, 4, 13]), [1, 0, 0, 0]);
    assert_eq!(replay(&p(3), &[0, 0, 1, 1, 4]), [2, 0, 0, 0]);
}

#[test]
fn p10_is_stuck_on_a_full_buffer() {
    // The second of two stores, at C = 1.
    assert_eq!(replay(&p(10), &[0, 0]), [3, 1, 3, 0]);
}

#[test]
fn p11_numbers_above_35_are_no_steps() {
    for step in [0x24, 63, 64, 128, 255] {
        assert_eq!(replay(&p(11), &[step]), [3, 0, 1, 0]);
        assert_eq!(replay(&P1, &[0, 0, step, 1]), [3, 2, 1, 0]);
    }
}

#[test]
fn p1_is_open_and_p9_fenced() {
    assert_eq!(fences(&P1), [2, 0, 0, 1]);
    assert_eq!(fences(&p(9)), [1, 0, 0, 0]);
    assert_eq!(run(&p(9), BENCH_SLOTS).answer[0], 2);
}

#[test]
fn refusals_are_alike_and_write_nothing() {
    let cases = [
        (vec![], 1, 0),
        (vec![0, 1, 0], 2, 2),
        (vec![0, 1, 4], 2, 2),
        (vec![0, 1, 255], 2, 2),
        (vec![0, 1, 1], 6, 3),
        (vec![0, 1, 2], 6, 3),
        (with_byte(&P1, 1, 0x2A), 1, 0),
        (with_byte(&P1, 4, 9), 3, 4),
        (with_byte(&P1, 10, 0x0A), 4, 10),
        (with_byte(&P1, 27, 2), 5, 27),
        (with_byte(&P1, 41, 4), 5, 41),
        (settled([&P1[..], &[0]].concat()), 6, 45),
    ];
    for (job, number, offset) in cases {
        let refusal = [0, number, offset, 0];
        let run = run(&job, BENCH_SLOTS);
        assert_eq!(run.answer, refusal, "{job:?}");
        assert!(run.wrote_no_more_than(0, 0));
        assert_eq!(replay(&job, &[0, 0, 1, 1]), refusal);
        assert_eq!(fences(&job), refusal);
    }
}

#[test]
fn no_slot_is_refusal_7_and_comes_last() {
    let bad = with_byte(&P1, 10, 0x0A);
    for (table, links, schedule) in [(151, 9, 9), (0, 9, 9), (1520, 0, 9), (1520, 9, 0)] {
        let run = run_sized(&P1, table, links, schedule);
        assert_eq!(run.answer, [0, 7, 0, 0]);
        assert!(run.wrote_no_more_than(0, 0));
        assert_eq!(
            run_sized(&bad, table, links, schedule).answer,
            [0, 4, 10, 0]
        );
    }
}

#[test]
fn empty_slices_are_no_special_case() {
    // Rust's empty slices have a pointer that is not null and points at nothing.
    assert_eq!(search(&P1, &mut [], &mut [], &mut []), [0, 7, 0, 0]);
    assert_eq!(search(&[], &mut [], &mut [], &mut []), [0, 1, 0, 0]);
    assert_eq!(replay(&[], &[]), [0, 1, 0, 0]);
    assert_eq!(replay(&P1, &[]), [2, 0, 0, 0]);
    assert_eq!(replay(&p(10), &[]), [1, 0, 0, 0]);
    assert_eq!(fences(&[]), [0, 1, 0, 0]);
}

#[test]
fn p10_is_reached_at_the_start() {
    let run = run(&p(10), 1);
    assert_eq!(run.answer, [1, 0, 1, 0]);
    assert!(run.wrote_no_more_than(1, 0));
}

/// P1 with these bytes for a goal: the flag stands at 27 and K at 28.
fn with_goal(goal: &[u8]) -> Vec<u8> {
    settled([&P1[..27], goal].concat())
}

#[test]
fn p12_a_blank_goal_is_refused_whatever_the_flag() {
    assert_eq!(with_goal(&[0, 0]), p(12));
    for goal in [&[0, 0][..], &[1, 0], &[0, 0, 1, 0, 0, 0]] {
        let job = with_goal(goal);
        let refusal = [0, 5, 28, 0];
        // With no slot as well: that is judged last.
        for slots in [0, 1, BENCH_SLOTS] {
            let run = run(&job, slots);
            assert_eq!(run.answer, refusal, "{goal:?}");
            assert!(run.wrote_no_more_than(0, 0));
        }
        assert_eq!(replay(&job, &[]), refusal, "{goal:?}");
        assert_eq!(fences(&job), refusal, "{goal:?}");
    }
}

#[test]
fn flag_and_missing_k_are_judged_before_a_blank_goal() {
    for (goal, number, offset) in [
        (vec![2, 0], 5, 27),
        (vec![255, 0], 5, 27),
        (vec![0], 6, 28),
        (vec![1], 6, 28),
    ] {
        let job = with_goal(&goal);
        let refusal = [0, number, offset, 0];
        assert_eq!(run(&job, 1).answer, refusal, "{goal:?}");
        assert_eq!(replay(&job, &[]), refusal, "{goal:?}");
        assert_eq!(fences(&job), refusal, "{goal:?}");
    }
}

/// One thread of this program and one variable, asked for a place of it.
fn asking(program: &[[u8; 4]], place: u8) -> Vec<u8> {
    file(SC, &[0], &[program.to_vec()], 0, &[[1, 0, 0, place]])
}

#[test]
fn a_thread_of_64_runs_to_its_end() {
    let job = asking(&[[2, 0, 0, 1]; 64], 64);
    // One state a step, and the start.
    let enough = run(&job, 65);
    assert_eq!(enough.answer, [1, 64, 65, 0]);
    assert_eq!(enough.schedule[..64], [0; 64]);
    for (index, slot) in enough.table.chunks_exact(SLOT_BYTES).enumerate() {
        let register = value(slot, register_at(0, 0));
        assert_eq!((slot[0], register), (index as u8, index as Value));
    }
    assert!(enough.wrote_no_more_than(65, 64));
    assert_eq!(run(&job, 64).answer, [3, 64, 0, 0]);
    assert_eq!(replay(&job, &[0; 64]), [1, 0, 0, 0]);
    assert_eq!(replay(&job, &[0; 63]), [2, 0, 0, 0]);
    // At place 64 it has ended.
    assert_eq!(replay(&job, &[0; 65]), [3, 64, 2, 0]);
}

#[test]
fn jumps_and_place_clauses_reach_64_and_not_65() {
    for jump in [8, 9] {
        let mut program = [[2, 0, 0, 1]; 64];
        program[0] = [jump, 0, 64, 0];
        assert_eq!(replay(&asking(&program, 64), &[0]), [1, 0, 0, 0]);
        program[0][2] = 65;
        assert_eq!(replay(&asking(&program, 64), &[0]), [0, 4, 9, 0]);
    }
    let beyond = asking(&[[2, 0, 0, 1]; 64], 65);
    let clause = beyond.len() as u64 - 4;
    assert_eq!(replay(&beyond, &[]), [0, 5, clause, 0]);
}

#[test]
fn a_thread_of_65_is_refused_by_all_three() {
    for (job, [number, offset]) in too_long_threads() {
        let refusal = [0, number, offset, 0];
        let run = run(&job, 9);
        assert_eq!(run.answer, refusal, "{job:?}");
        assert!(run.wrote_no_more_than(0, 0));
        assert_eq!(replay(&job, &[]), refusal, "{job:?}");
        assert_eq!(fences(&job), refusal, "{job:?}");
    }
}

#[test]
fn the_longest_file_has_1109_bytes_and_in_version_3_it_has_1389() {
    for (longest, bytes) in [
        (at_the_limit(), 1109),
        (at_the_limit_of_two(), 1109),
        (at_the_limit_of_three(), 1389),
    ] {
        assert_eq!(longest.len(), bytes);
        assert_eq!(run(&longest, 9).answer, [3, 9, 0, 0]);
        assert_ne!(fences(&longest)[0], 0);
        let one_more = settled([&longest[..], &[0]].concat());
        assert_eq!(run(&one_more, 9).answer, [0, 1, 0, 0]);
        assert_eq!(fences(&one_more), [0, 1, 0, 0]);
        assert_eq!(replay(&one_more, &[]), [0, 1, 0, 0]);
    }
}

#[test]
fn refusal_1_looks_at_the_version_byte_before_that_is_judged() {
    for version in [0, 1, 2, 4, 128, 255] {
        for bytes in [1110, 1111, 1200, 1388, 1389, 1390, 65_537] {
            let job = of_length(version, bytes);
            assert_eq!(fences(&job), [0, 1, 0, 0], "{bytes} in {version}");
        }
        // At 1,109 bytes the version is judged, if it is none.
        if ![1, 2].contains(&version) {
            assert_eq!(fences(&of_length(version, 1109)), [0, 2, 2, 0]);
        }
    }
    // In version 3 the last clause begins at 1,384.
    assert_eq!(fences(&of_length(3, 1388)), [0, 6, 1384, 0]);
    assert_eq!(fences(&of_length(3, 1390)), [0, 1, 0, 0]);
    // Without a version byte there is nothing to look at.
    for job in [&[][..], &[0], &[0, 0]] {
        assert_eq!(fences(job), [0, 1, 0, 0]);
    }
}

#[test]
fn the_fence_check_sees_places_up_to_63() {
    let [store, load, fence, step] = [[5, 0, 0, 1], [3, 0, 0, 0], [6, 0, 0, 0], [2, 0, 0, 1]];
    let check = |others: &[(usize, [u8; 4])]| {
        let mut program = [step; 64];
        for &(place, instruction) in others {
            program[place] = instruction;
        }
        fences(&asking(&program, 0))
    };
    assert_eq!(check(&[(62, store), (63, load)]), [2, 0, 62, 63]);
    assert_eq!(check(&[(0, store), (63, load)]), [2, 0, 0, 63]);
    assert_eq!(check(&[(0, store), (62, fence), (63, load)]), [1, 0, 0, 0]);
    assert_eq!(check(&[(0, load), (63, store)]), [1, 0, 0, 0]);
    let turned = |place| [(0, load), (62, store), (63, [9, 0, place, 0])];
    assert_eq!(check(&turned(0)), [2, 0, 62, 0]);
    assert_eq!(check(&turned(64)), [1, 0, 0, 0]);
}

const STORE: [u8; 4] = [5, 0, 0, 1];
const LOAD: [u8; 4] = [3, 0, 0, 0];
const FENCE: [u8; 4] = [6, 0, 0, 0];

const fn jump(place: u8) -> [u8; 4] {
    [9, 0, place, 0]
}

#[test]
fn the_fence_check_passes_over_stores_in_dead_code() {
    let check = |program: &[[u8; 4]]| fences(&asking(program, 0));
    let fenced = [1, 0, 0, 0];
    assert_eq!(check(&[jump(3), STORE, LOAD]), fenced);
    assert_eq!(check(&[jump(2), STORE, LOAD]), fenced);
    assert_eq!(check(&[jump(0), STORE, LOAD]), fenced);
    assert_eq!(check(&[jump(4), STORE, LOAD, jump(1)]), fenced);
    assert_eq!(check(&[STORE, FENCE, jump(2), STORE, LOAD]), fenced);
    assert_eq!(check(&[jump(3), STORE, LOAD, STORE, LOAD]), [2, 0, 3, 4]);
    let [dead, live] = [jump(3), jump(1)].map(|first| vec![first, STORE, LOAD]);
    let goal = [[1, 0, 0, 0]];
    let both = file(SC, &[0], &[dead.clone(), dead, live], 0, &goal);
    assert_eq!(fences(&both), [2, 2, 1, 2]);
}

#[test]
fn moves_and_not_runs_decide_whether_a_store_is_dead() {
    let check = |program: &[[u8; 4]]| fences(&asking(program, 0));
    // A jump back, one through a fence, and a JEQ that always jumps, because registers are 0 at the start.
    assert_eq!(check(&[jump(3), STORE, LOAD, jump(1)]), [2, 0, 1, 2]);
    let through_a_fence = [jump(3), STORE, LOAD, FENCE, jump(1)];
    assert_eq!(check(&through_a_fence), [2, 0, 1, 2]);
    assert_eq!(check(&[[8, 0, 3, 0], STORE, LOAD]), [2, 0, 1, 2]);
    // No move leads to place 0, and none has to.
    assert_eq!(check(&[STORE, LOAD, jump(2)]), [2, 0, 0, 1]);
}

// ---- why a step can't be taken: each reason under each model where it can come up ----

/// Taken to the end, without the goal and with it.
const FALLS_SHORT: [u64; 4] = [2, 0, 0, 0];
const REACHES: [u64; 4] = [1, 0, 0, 0];

/// Each model, with room for two stores where there is a buffer.
const EACH_MODEL: [Memory; 3] = [SC, [TSO, 2], [PSO, 2]];
const WITH_BUFFERS: [Memory; 2] = [[TSO, 2], [PSO, 2]];

const EXCHANGE: [u8; 4] = [7, 0, 0, 0];

const fn store(variable: u8) -> [u8; 4] {
    [5, 0, variable, 1]
}

/// The step that flushes the thread's store to the variable.
const fn flush(thread: u8, variable: u8) -> u8 {
    4 + 8 * thread + variable
}

/// V variables that hold 0; the goal holds for as long as thread 0 has not run.
fn job(memory: Memory, variables: usize, programs: &[Program]) -> Vec<u8> {
    file(memory, &vec![0; variables], programs, 0, &[AT_THE_START])
}

/// T = 3 and V = 2. Thread 0 stores to 0, 1 and 0 again, thread 1 stores to 0 and comes to a FENCE, thread 2 has no instructions.
fn three_threads(memory: Memory) -> Vec<u8> {
    let first = vec![store(0), store(1), store(0)];
    job(memory, 2, &[first, vec![store(0), FENCE], vec![]])
}

#[test]
fn reason_1_no_such_step_under_each_model() {
    // Numbers above 35; thread 3, where T is 3; variables 2 to 7, where V is 2.
    let above = [36, 37, 63, 64, 100, 128, 255];
    let no_thread = [3, flush(3, 0), flush(3, 1)];
    let no_variable = [flush(0, 2), flush(1, 2), flush(2, 2), flush(0, 7)];
    let neither = [flush(3, 2), flush(3, 7)];
    for memory in EACH_MODEL {
        let job = three_threads(memory);
        for step in [&above[..], &no_thread, &no_variable, &neither].concat() {
            assert_eq!(replay(&job, &[step]), [3, 0, 1, 0], "{step}");
            // There is never such a step: what has run before makes no difference.
            assert_eq!(replay(&job, &[0, 1, 0, step]), [3, 3, 1, 0], "{step}");
        }
    }
}

#[test]
fn no_thread_and_no_variable_is_absent_at_four_and_eight() {
    // The greatest step is 35, the flush of thread 3 to variable 7: it is there, but there is nothing to flush.
    assert_eq!(flush(3, 7), 35);
    for memory in EACH_MODEL {
        let job = job(memory, 8, &vec![vec![store(7)]; 4]);
        assert_eq!(replay(&job, &[35]), [3, 0, 5, 0]);
        assert_eq!(replay(&job, &[36]), [3, 0, 1, 0]);
        assert_eq!(replay(&job, &[3, 3]), [3, 1, 2, 0]);
    }
    let job = job([PSO, 1], 8, &vec![vec![store(7)]; 4]);
    assert_eq!(replay(&job, &[3, 35]), REACHES);
}

#[test]
fn reason_2_thread_ended_under_each_model() {
    for memory in EACH_MODEL {
        let job = three_threads(memory);
        // Thread 2 has n = 0, and is at place 0 from the start.
        assert_eq!(replay(&job, &[2]), [3, 0, 2, 0]);
        assert_eq!(replay(&job, &[0, 1, 2, 0]), [3, 2, 2, 0]);
    }
    // Under SC nothing waits, so three steps are thread 0's end and two are thread 1's.
    let sc = three_threads(SC);
    assert_eq!(replay(&sc, &[0, 0, 0, 0]), [3, 3, 2, 0]);
    assert_eq!(replay(&sc, &[1, 1, 1]), [3, 2, 2, 0]);
    for memory in WITH_BUFFERS {
        // Thread 1 gets past its FENCE once its store is flushed.
        let job = three_threads(memory);
        assert_eq!(replay(&job, &[1, flush(1, 0), 1, 1]), [3, 3, 2, 0]);
    }
}

#[test]
fn reason_3_buffer_full_under_tso_and_pso() {
    for model in [TSO, PSO] {
        // Thread 0 has three stores, so the one that finds C pending is the last at C = 2 and the second at C = 1.
        let two = three_threads([model, 2]);
        assert_eq!(replay(&two, &[0, 0, 0]), [3, 2, 3, 0]);
        // A flush makes room for it, and another thread's stores take none.
        assert_eq!(replay(&two, &[0, 0, flush(0, 0), 0]), FALLS_SHORT);
        assert_eq!(replay(&two, &[1, 0, 0, 0]), [3, 3, 3, 0]);
        let one = three_threads([model, 1]);
        assert_eq!(replay(&one, &[0, 0]), [3, 1, 3, 0]);
        let three = three_threads([model, 3]);
        assert_eq!(replay(&three, &[0, 0, 0]), FALLS_SHORT);
        // At the greatest C the ninth store waits, of a register as well as of a constant.
        for ninth in [store(0), [4, 3, 1, 0]] {
            let stores = [vec![store(0); 8], vec![ninth]].concat();
            let eight = job([model, 8], 2, &[stores]);
            assert_eq!(replay(&eight, &[0; 8]), FALLS_SHORT);
            assert_eq!(replay(&eight, &[0; 9]), [3, 8, 3, 0]);
        }
    }
    // Never under SC: C is 0 there, and no store is pending ever.
    assert_eq!(replay(&three_threads(SC), &[0, 0, 0]), FALLS_SHORT);
}

#[test]
fn reason_4_buffer_not_empty_under_tso_and_pso() {
    for barrier in [FENCE, EXCHANGE, [7, 3, 1, 0]] {
        let programs = [vec![store(0)], vec![store(0), store(1), barrier]];
        for memory in WITH_BUFFERS {
            let job = job(memory, 2, &programs);
            // Both stores of thread 1 are pending, then one of them, then none; that thread 0 has one doesn't count.
            let [first, second] = [flush(1, 0), flush(1, 1)];
            assert_eq!(replay(&job, &[1, 1, 1]), [3, 2, 4, 0]);
            assert_eq!(replay(&job, &[1, 1, first, 1]), [3, 3, 4, 0]);
            assert_eq!(replay(&job, &[1, 1, first, second, 1]), REACHES);
            let other = [0, 1, 1, first, second, 1];
            assert_eq!(replay(&job, &other), FALLS_SHORT);
        }
        // Under SC there is no buffer, so it waits for nothing.
        assert_eq!(replay(&job(SC, 2, &programs), &[1, 1, 1]), REACHES);
    }
}

#[test]
fn reason_5_nothing_to_flush_under_each_model() {
    for memory in EACH_MODEL {
        let job = three_threads(memory);
        for step in [flush(0, 0), flush(0, 1), flush(1, 1), flush(2, 0)] {
            // Nothing has been stored yet.
            assert_eq!(replay(&job, &[step]), [3, 0, 5, 0], "{step}");
        }
        // What is pending, if anything, is thread 0's store to variable 0.
        for step in [flush(0, 1), flush(1, 0), flush(1, 1), flush(2, 0)] {
            assert_eq!(replay(&job, &[0, step]), [3, 1, 5, 0], "{step}");
        }
    }
    for memory in WITH_BUFFERS {
        // It is flushed once, and then it is pending no more.
        let job = three_threads(memory);
        assert_eq!(replay(&job, &[0, flush(0, 0)]), FALLS_SHORT);
        let twice = [0, flush(0, 0), flush(0, 0)];
        assert_eq!(replay(&job, &twice), [3, 2, 5, 0]);
    }
}

#[test]
fn reason_6_not_the_oldest_under_tso() {
    // Thread 0 has a store to 0 and behind it one to 1. Of these the one to 0 is the oldest, and once it is flushed the other is.
    let tso = three_threads([TSO, 2]);
    assert_eq!(replay(&tso, &[0, 0, flush(0, 1)]), [3, 2, 6, 0]);
    let in_order = [0, 0, flush(0, 0), flush(0, 1)];
    assert_eq!(replay(&tso, &in_order), FALLS_SHORT);
    // With the third store to 0 behind it: now the one to 1 is the oldest.
    let third = [0, 0, flush(0, 0), 0, flush(0, 0)];
    assert_eq!(replay(&tso, &third), [3, 4, 6, 0]);
    // PSO flushes the oldest to a chosen variable, in any order of these.
    let pso = three_threads([PSO, 2]);
    assert_eq!(replay(&pso, &[0, 0, flush(0, 1)]), FALLS_SHORT);
    assert_eq!(replay(&pso, &third), FALLS_SHORT);
}

// ---- where two reasons could apply: the first of them is given ----

#[test]
fn an_absent_thread_is_not_ended() {
    // T is 1 to 4: thread T is not there, and thread T - 1 is, though it has no instructions either.
    for memory in EACH_MODEL {
        for threads in 1..=4 {
            let job = job(memory, 1, &vec![vec![]; usize::from(threads)]);
            assert_eq!(replay(&job, &[threads - 1]), [3, 0, 2, 0]);
            for absent in threads..4 {
                assert_eq!(replay(&job, &[absent]), [3, 0, 1, 0]);
                assert_eq!(replay(&job, &[flush(absent, 0)]), [3, 0, 1, 0]);
            }
        }
    }
}

#[test]
fn a_variable_from_v_up_is_no_such_step_before_there_is_nothing_to_flush() {
    for memory in EACH_MODEL {
        for variables in 1..=8 {
            // One thread, which has its one store pending, to the last variable.
            let job = job(
                memory,
                usize::from(variables),
                &[vec![store(variables - 1)]],
            );
            for variable in 0..8 {
                // Below V nothing is pending but the last, and under SC not even that.
                let own = match variable {
                    _ if variable >= variables => [3, 1, 1, 0],
                    _ if variable == variables - 1 && memory != SC => FALLS_SHORT,
                    _ => [3, 1, 5, 0],
                };
                assert_eq!(replay(&job, &[0, flush(0, variable)]), own);
                // Of an absent thread there is no such step, whether the variable is there or not.
                for absent in 1..4 {
                    let step = flush(absent, variable);
                    assert_eq!(replay(&job, &[0, step]), [3, 1, 1, 0], "{step}");
                }
            }
        }
    }
}

#[test]
fn under_tso_behind_another_and_not_pending_at_all_differ() {
    // Four variables; `stores` run and then the flush to each variable is tried.
    let after = |model, stores: &[u8], flushed: &[u8]| -> [[u64; 4]; 4] {
        let program: Program = stores.iter().map(|&variable| store(variable)).collect();
        let job = job([model, 4], 4, &[program]);
        let flushes = flushed.iter().map(|&variable| flush(0, variable));
        let before: Vec<u8> = vec![0; stores.len()].into_iter().chain(flushes).collect();
        [0, 1, 2, 3].map(|variable| replay(&job, &[&before[..], &[flush(0, variable)]].concat()))
    };
    let [nothing, behind] = [5, 6].map(|reason| move |at| [3, at, reason, 0]);
    let taken = FALLS_SHORT;
    // 1 and 3 are pending behind 2, 0 is not pending.
    assert_eq!(
        after(TSO, &[2, 1, 3], &[]),
        [nothing(3), behind(3), taken, behind(3)]
    );
    assert_eq!(
        after(PSO, &[2, 1, 3], &[]),
        [nothing(3), taken, taken, taken]
    );
    // With 2 flushed it is not pending any more, and 1 is the oldest.
    assert_eq!(
        after(TSO, &[2, 1, 3], &[2]),
        [nothing(4), taken, nothing(4), behind(4)]
    );
    // Twice to one variable: the oldest is to 0, and so the flush to 0 takes it, whatever is behind.
    assert_eq!(
        after(TSO, &[0, 1, 0], &[]),
        [taken, behind(3), nothing(3), nothing(3)]
    );
    assert_eq!(
        after(TSO, &[0, 1, 0], &[0]),
        [behind(4), taken, nothing(4), nothing(4)]
    );
    // Only one variable is pending, so nothing is behind another; and nothing is in an empty buffer.
    assert_eq!(
        after(TSO, &[3, 3], &[]),
        [nothing(2), nothing(2), nothing(2), taken]
    );
    assert_eq!(after(TSO, &[], &[]), [nothing(0); 4]);
}

#[test]
fn under_sc_a_flush_is_a_step_with_nothing_to_flush() {
    // Below T and V it is 5 before any store and behind all of them, since stores go straight to memory.
    let sc = three_threads(SC);
    for thread in 0..3 {
        for variable in 0..2 {
            let step = flush(thread, variable);
            assert_eq!(replay(&sc, &[step]), [3, 0, 5, 0], "{step}");
            let behind = [0, 0, 0, 1, 1, step];
            assert_eq!(replay(&sc, &behind), [3, 5, 5, 0], "{step}");
        }
        assert_eq!(replay(&sc, &[flush(thread, 2)]), [3, 0, 1, 0]);
    }
}

#[test]
fn a_flush_of_an_ended_thread_is_judged_like_any_other() {
    // Thread 0 has ended behind its stores to 0 and 1, and thread 1 from the start; V is 3.
    let programs = [vec![store(0), store(1)], vec![]];
    for memory in EACH_MODEL {
        let job = job(memory, 3, &programs);
        assert_eq!(replay(&job, &[0, 0, 0]), [3, 2, 2, 0]);
        assert_eq!(replay(&job, &[0, 0, flush(0, 2)]), [3, 2, 5, 0]);
        assert_eq!(replay(&job, &[0, 0, flush(0, 3)]), [3, 2, 1, 0]);
        assert_eq!(replay(&job, &[flush(1, 0)]), [3, 0, 5, 0]);
        // The first store, and the one behind it.
        let [oldest, second] = match memory[0] {
            TSO => [FALLS_SHORT, [3, 2, 6, 0]],
            PSO => [FALLS_SHORT, FALLS_SHORT],
            _ => [[3, 2, 5, 0]; 2],
        };
        assert_eq!(replay(&job, &[0, 0, flush(0, 0)]), oldest);
        assert_eq!(replay(&job, &[0, 0, flush(0, 1)]), second);
        if memory != SC {
            // All flushed.
            let before = [0, 0, flush(0, 0), flush(0, 1)];
            for (step, reason) in [(0, 2), (flush(0, 0), 5), (flush(0, 1), 5)] {
                let schedule = [&before[..], &[step]].concat();
                assert_eq!(replay(&job, &schedule), [3, 4, reason, 0]);
            }
        }
    }
}

#[test]
fn what_comes_next_decides_at_a_full_buffer() {
    // C stores are pending, so the buffer is both full and not empty: a store waits for room, FENCE and XCHG for an empty
    // buffer, an ended thread for nothing, and any other instruction runs.
    let next = [
        (vec![store(0)], Some(3)),
        (vec![[4, 1, 1, 0]], Some(3)),
        (vec![FENCE], Some(4)),
        (vec![EXCHANGE], Some(4)),
        (vec![], Some(2)),
        (vec![LOAD], None),
        (vec![jump(1)], None),
    ];
    for model in [TSO, PSO] {
        for capacity in 1..=8 {
            for (next, reason) in &next {
                let count = usize::from(capacity);
                let full: Program = (0..capacity).map(|place| store(place % 2)).collect();
                let job = job([model, capacity], 2, &[[&full[..], next].concat()]);
                let words = match *reason {
                    Some(reason) => [3, u64::from(capacity), reason, 0],
                    None => FALLS_SHORT,
                };
                assert_eq!(replay(&job, &vec![0; count + 1]), words, "{next:?}");
            }
        }
    }
}

#[test]
fn the_reason_is_that_of_the_first_step_that_cannot_be_taken() {
    let tso = three_threads([TSO, 2]);
    // Another that can't be taken stands behind it: of thread 3, which is absent, and thread 2, which has ended, and of two flushes.
    assert_eq!(replay(&tso, &[3, 2]), [3, 0, 1, 0]);
    assert_eq!(replay(&tso, &[2, 3]), [3, 0, 2, 0]);
    let [nothing, behind] = [flush(1, 1), flush(0, 1)];
    assert_eq!(replay(&tso, &[0, 0, nothing, behind]), [3, 2, 5, 0]);
    assert_eq!(replay(&tso, &[0, 0, behind, nothing]), [3, 2, 6, 0]);
    // And it is that of the state which the step is to be taken in: there is no store to 1 yet, and still none; then it is behind
    // the one to 0; then it is the oldest.
    assert_eq!(replay(&tso, &[behind]), [3, 0, 5, 0]);
    assert_eq!(replay(&tso, &[0, behind]), [3, 1, 5, 0]);
    assert_eq!(replay(&tso, &[0, 0, behind]), [3, 2, 6, 0]);
    assert_eq!(replay(&tso, &[0, 0, flush(0, 0), behind]), FALLS_SHORT);
}

// ---- version 2: CMPX and WFENCE ----

const WFENCE: [u8; 4] = [11, 0, 0, 0];

/// CMPX of register 0 with variable 0.
const fn compare_exchange(value: u8) -> [u8; 4] {
    [10, 0, 0, value]
}

const fn store_value(variable: u8, value: u8) -> [u8; 4] {
    [5, 0, variable, value]
}

/// As `job`, in version 2.
fn job_of_two(memory: Memory, variables: usize, programs: &[Program]) -> Vec<u8> {
    in_version(&job(memory, variables, programs), 2)
}

#[test]
fn operations_10_and_11_are_refused_in_version_1_and_run_in_version_2() {
    for instruction in [compare_exchange(1), [10, 3, 1, 255], WFENCE] {
        for memory in EACH_MODEL {
            let job = job(memory, 2, &[vec![instruction]]);
            // Head and values take 9 bytes, then comes n.
            let refusal = [0, 4, 10, 0];
            let run = run(&job, 9);
            assert_eq!(run.answer, refusal);
            assert!(run.wrote_no_more_than(0, 0));
            assert_eq!(replay(&job, &[0]), refusal);
            assert_eq!(fences(&job), refusal);
            let job = in_version(&job, 2);
            assert_eq!(replay(&job, &[0]), FALLS_SHORT);
            assert_eq!(fences(&job), [1, 0, 0, 0]);
        }
    }
}

#[test]
fn operands_of_cmpx_and_wfence_are_judged() {
    let bad = [
        [10, 4, 0, 0],
        [10, 0, 2, 0],
        [11, 1, 0, 0],
        [11, 0, 1, 0],
        [11, 0, 0, 1],
        [12, 0, 0, 0],
    ];
    for instruction in bad {
        let job = job_of_two([PSO, 1], 2, &[vec![instruction]]);
        assert_eq!(replay(&job, &[]), [0, 4, 10, 0], "{instruction:?}");
        assert_eq!(fences(&job), [0, 4, 10, 0], "{instruction:?}");
    }
}

#[test]
fn the_bench_list_has_the_same_answers_in_version_2() {
    for (job, slots) in accepted_list()
        .into_iter()
        .flat_map(|job| [1, 5, BENCH_SLOTS].map(|slots| (job.clone(), slots)))
    {
        let of_two = in_version(&job, 2);
        let [one, two] = [&job, &of_two].map(|job| run(job, slots));
        assert_eq!(one.answer, two.answer);
        assert_eq!(one.table, two.table);
        assert_eq!(one.links, two.links);
        assert_eq!(one.schedule, two.schedule);
        for schedule in [&[0, 0, 1, 1][..], &[0, 0, 1, 1, 4, 13], &[0, 4], &[36], &[]] {
            assert_eq!(replay(&job, schedule), replay(&of_two, schedule));
        }
        assert_eq!(fences(&job), fences(&of_two));
    }
}

/// P6 to P8 with this between the stores of the writer.
fn message_passing(memory: Memory, between: &[[u8; 4]]) -> Vec<u8> {
    let writer = [&[store(0)], between, &[store(1)]].concat();
    let reader = vec![[3, 0, 1, 0], [3, 1, 0, 0]];
    let goal = [[1, 1, 0, 2], [2, 1, 0, 1], [2, 1, 1, 0]];
    in_version(&file(memory, &[0, 0], &[writer, reader], 0, &goal), 2)
}

/// A state of message passing: places, registers 0 and 1 of the reader, x and y, the writer's buffer, link.
type PassingRow = ([u8; 2], [u8; 2], [u8; 2], &'static [u8], u32);

/// The writer's buffer: x alone, and with a WFENCE behind it; x and in the next group y; y, whose group is now the oldest.
const X: &[u8] = &[1, 0, 0, 1];
const X_MARKED: &[u8] = &[129, 0, 0, 1];
const X_THEN_Y: &[u8] = &[2, 0, 0, 1, 17, 0, 1];
const Y: &[u8] = &[1, 1, 0, 1];

/// All states of message passing with a WFENCE under PSO at C = 2, in order, worked out by hand.
const PASSING_STATES: [PassingRow; 30] = [
    ([0, 0], [0, 0], [0, 0], &[], NO_LINK),
    ([1, 0], [0, 0], [0, 0], X, 0),
    ([0, 1], [0, 0], [0, 0], &[], 1),
    ([2, 0], [0, 0], [0, 0], X_MARKED, 64),
    ([1, 1], [0, 0], [0, 0], X, 64 + 1),
    ([1, 0], [0, 0], [1, 0], &[], 64 + 4),
    ([0, 2], [0, 0], [0, 0], &[], 2 * 64 + 1),
    ([3, 0], [0, 0], [0, 0], X_THEN_Y, 3 * 64),
    ([2, 1], [0, 0], [0, 0], X_MARKED, 3 * 64 + 1),
    // The flush of x has taken the WFENCE with it: the same as a WFENCE on the empty buffer of slot 5.
    ([2, 0], [0, 0], [1, 0], &[], 3 * 64 + 4),
    ([1, 2], [0, 0], [0, 0], X, 4 * 64 + 1),
    ([1, 1], [0, 0], [1, 0], &[], 4 * 64 + 4),
    ([3, 1], [0, 0], [0, 0], X_THEN_Y, 7 * 64 + 1),
    // The group of y is renumbered: the same as a store to y into the empty buffer of slot 9.
    ([3, 0], [0, 0], [1, 0], Y, 7 * 64 + 4),
    ([2, 2], [0, 0], [0, 0], X_MARKED, 8 * 64 + 1),
    ([2, 1], [0, 0], [1, 0], &[], 8 * 64 + 4),
    ([1, 2], [0, 0], [1, 0], &[], 10 * 64 + 4),
    ([1, 2], [0, 1], [1, 0], &[], 11 * 64 + 1),
    ([3, 2], [0, 0], [0, 0], X_THEN_Y, 12 * 64 + 1),
    ([3, 1], [0, 0], [1, 0], Y, 12 * 64 + 4),
    ([3, 0], [0, 0], [1, 1], &[], 13 * 64 + 5),
    ([2, 2], [0, 0], [1, 0], &[], 14 * 64 + 4),
    ([2, 2], [0, 1], [1, 0], &[], 15 * 64 + 1),
    ([3, 2], [0, 0], [1, 0], Y, 18 * 64 + 4),
    ([3, 2], [0, 1], [1, 0], Y, 19 * 64 + 1),
    ([3, 1], [0, 0], [1, 1], &[], 19 * 64 + 5),
    ([3, 1], [1, 0], [1, 1], &[], 20 * 64 + 1),
    ([3, 2], [0, 0], [1, 1], &[], 23 * 64 + 5),
    ([3, 2], [0, 1], [1, 1], &[], 24 * 64 + 5),
    ([3, 2], [1, 1], [1, 1], &[], 26 * 64 + 1),
];

/// The slot of a state of message passing, each value times `unit`.
fn passing_slot((places, registers, memory, buffer, _): PassingRow, unit: Value) -> Vec<u8> {
    let mut slot = vec![0; SLOT_BYTES];
    put(&mut slot, 0, &places);
    for at in 0..2 {
        put_value(
            &mut slot,
            register_at(1, at),
            unit * Value::from(registers[at]),
        );
        put_value(&mut slot, variable_at(at), unit * Value::from(memory[at]));
    }
    put(&mut slot, buffer_at(0), buffer);
    for store in slot[buffer_at(0) + 1..buffer_at(1)].chunks_exact_mut(3) {
        let stored = value(store, 1);
        put_value(store, 1, unit * stored);
    }
    slot
}

#[test]
fn message_passing_with_a_wfence_whole() {
    let narrow = message_passing([PSO, 2], &[WFENCE]);
    for (job, unit) in [
        (narrow.clone(), 1),
        (in_three(&narrow), 1),
        (raised(&narrow), 256),
    ] {
        let run = run(&job, BENCH_SLOTS);
        assert_eq!(run.answer, [2, 30, 0, 0]);
        for (slot, row) in run.table.chunks_exact(SLOT_BYTES).zip(PASSING_STATES) {
            assert_eq!(slot, passing_slot(row, unit), "{row:?}");
        }
        assert_eq!(run.links[..30], PASSING_STATES.map(|row| row.4));
        assert!(run.wrote_no_more_than(30, 0));
    }
}

#[test]
fn a_wfence_keeps_the_message_in_order_under_pso() {
    for memory in every_memory() {
        let plain = run(&message_passing(memory, &[]), BENCH_SLOTS).answer[0];
        // P7: with room for one store the first has landed before the second is issued.
        let reachable = memory[0] == PSO && memory[1] > 1;
        assert_eq!(plain, if reachable { 1 } else { 2 }, "{memory:?}");
        let kept = run(&message_passing(memory, &[WFENCE]), BENCH_SLOTS).answer[0];
        assert_eq!(kept, 2, "{memory:?}");
    }
}

/// The count and the stores of thread 0's buffer, in all states of a job of version 2 and one thread in which it is at this place.
fn buffers_at(job: &[u8], place: u8) -> BTreeSet<Vec<u8>> {
    // The goal is never met, so that all states are counted.
    let never = settled([&job[..job.len() - 5], &[2], &AT_THE_START, &[1, 0, 0, 1]].concat());
    let run = run(&never, BENCH_SLOTS);
    let counted = match run.answer {
        [2, states, 0, 0] => states as usize,
        answer => panic!("{answer:?}"),
    };
    let slots = run.table.chunks_exact(SLOT_BYTES).take(counted);
    let here = slots.filter(|slot| slot[0] == place);
    let buffers = here.map(|slot| {
        let buffer = &slot[buffer_at(0)..];
        let stores = usize::from(buffer[0] % 128);
        let (buffer, unused) = buffer.split_at(1 + 3 * stores);
        assert!(unused.iter().all(|&byte| byte == 0));
        buffer.to_vec()
    });
    buffers.collect()
}

fn set_of(buffers: &[&[u8]]) -> BTreeSet<Vec<u8>> {
    buffers.iter().map(|buffer| buffer.to_vec()).collect()
}

#[test]
fn three_groups_with_one_variable_in_two_of_them() {
    let program = vec![
        store_value(0, 1),
        WFENCE,
        store_value(1, 2),
        WFENCE,
        store_value(0, 3),
    ];
    let job = job_of_two([PSO, 3], 2, &[program]);
    // All three, and then the groups that are left, counted from the oldest of these.
    let left = set_of(&[
        &[3, 0, 0, 1, 17, 0, 2, 32, 0, 3],
        &[2, 1, 0, 2, 16, 0, 3],
        &[1, 0, 0, 3],
        &[0],
    ]);
    assert_eq!(buffers_at(&job, 5), left);
    // x is pending in the oldest group and in the newest, y only behind x.
    let stores = [0; 5];
    let [x, y] = [flush(0, 0), flush(0, 1)];
    let after = |flushes: &[u8]| replay(&job, &[&stores[..], flushes].concat());
    assert_eq!(after(&[y]), [3, 5, 6, 0]);
    assert_eq!(after(&[x, x]), [3, 6, 6, 0]);
    assert_eq!(after(&[x, y, y]), [3, 7, 5, 0]);
    assert_eq!(after(&[x, y, x]), FALLS_SHORT);
    assert_eq!(after(&[x, y, x, x]), [3, 8, 5, 0]);
}

#[test]
fn stores_stand_by_group_and_then_by_variable() {
    // 2, 1, 1 again, then 0 and 2.
    let program = vec![
        store_value(2, 1),
        store_value(1, 2),
        store_value(1, 3),
        WFENCE,
        store_value(2, 4),
        store_value(0, 5),
    ];
    let job = job_of_two([PSO, 5], 3, &[program]);
    let whole = [
        &[5][..],
        &[1, 0, 2, 1, 0, 3, 2, 0, 1],
        &[16, 0, 5, 18, 0, 4],
    ]
    .concat();
    assert!(buffers_at(&job, 6).contains(&whole));
}

#[test]
fn what_a_wfence_leaves() {
    let buffers = |program: &[[u8; 4]], place| {
        let job = job_of_two([PSO, 2], 2, &[program.to_vec()]);
        buffers_at(&job, place)
    };
    let empty: &[u8] = &[0];
    // On an empty buffer nothing, once and twice, and the store behind it is in the oldest group.
    assert_eq!(buffers(&[WFENCE, WFENCE, store(0)], 2), set_of(&[empty]));
    assert_eq!(buffers(&[WFENCE, store(0)], 2), set_of(&[X, empty]));
    // Behind a store a mark that the buffer loses when it empties; a second WFENCE changes nothing.
    assert_eq!(buffers(&[store(0), WFENCE], 2), set_of(&[X_MARKED, empty]));
    assert_eq!(
        buffers(&[store(0), WFENCE, WFENCE], 3),
        set_of(&[X_MARKED, empty])
    );
    // Of two stores one may go, and the mark stays.
    assert_eq!(
        buffers(&[store(0), store(1), WFENCE], 3),
        set_of(&[&[130, 0, 0, 1, 1, 0, 1], X_MARKED, &[129, 1, 0, 1], empty])
    );
    // A store that joins ends it, and begins the next group; two in a row are as one.
    let then_y = set_of(&[X_THEN_Y, Y, empty]);
    assert_eq!(buffers(&[store(0), WFENCE, store(1)], 3), then_y);
    assert_eq!(buffers(&[store(0), WFENCE, WFENCE, store(1)], 4), then_y);
    // Under TSO nothing at all.
    let tso = job_of_two([TSO, 2], 2, &[vec![store(0), WFENCE, store(1)]]);
    assert_eq!(buffers_at(&tso, 2), set_of(&[X, empty]));
    let in_order: &[u8] = &[2, 0, 0, 1, 1, 0, 1];
    assert_eq!(buffers_at(&tso, 3), set_of(&[in_order, Y, empty]));
}

#[test]
fn a_wfence_is_enabled_at_a_full_buffer_and_takes_no_room() {
    for memory in every_memory() {
        let count = usize::from(memory[1]);
        let program = [vec![store(0); count], vec![WFENCE, WFENCE, store(1)]].concat();
        let job = job_of_two(memory, 2, &[program]);
        let full = vec![0; count + 2];
        assert_eq!(replay(&job, &full), FALLS_SHORT, "{memory:?}");
        // The store behind it waits: those of all groups count.
        let next = replay(&job, &[&full[..], &[0]].concat());
        let waits = [3, count as u64 + 2, 3, 0];
        assert_eq!(next, if memory == SC { FALLS_SHORT } else { waits });
    }
}

#[test]
fn a_load_takes_the_newest_own_store_across_groups() {
    // x in the first and the third group, y in the second.
    let program = vec![
        store_value(0, 1),
        WFENCE,
        store_value(1, 2),
        WFENCE,
        store_value(0, 3),
        [3, 0, 0, 0],
        [3, 1, 1, 0],
        [3, 2, 2, 0],
    ];
    let goal = [[2, 0, 0, 3], [2, 0, 1, 2], [2, 0, 2, 9], [1, 0, 0, 8]];
    for memory in every_memory() {
        let job = in_version(
            &file(memory, &[0, 0, 9], slice::from_ref(&program), 0, &goal),
            2,
        );
        assert_eq!(run(&job, BENCH_SLOTS).answer[0], 1, "{memory:?}");
        // Whatever has landed by then, the first is not loaded: the value of the first clause is 1 now.
        let older = with_byte(&job, job.len() - 13, 1);
        assert_eq!(run(&older, BENCH_SLOTS).answer[0], 2, "{memory:?}");
    }
}

/// Place and register 0 of thread 0, and variable 0, of the first states.
fn places_and_values(run: &Run, count: usize) -> Vec<[Value; 3]> {
    let slots = run.table.chunks_exact(SLOT_BYTES).take(count);
    let of = |slot: &[u8]| {
        let [register, variable] = [register_at(0, 0), variable_at(0)].map(|at| value(slot, at));
        [slot[0].into(), register, variable]
    };
    slots.map(of).collect()
}

#[test]
fn a_cmpx_takes_or_does_not() {
    // 0 is 0: x becomes 5. 0 is not 5: x stays, and the register is now 5. 5 is 5: x becomes 9.
    let program = [5, 7, 9].map(compare_exchange).to_vec();
    for memory in EACH_MODEL {
        let job = in_version(
            &file(memory, &[0], slice::from_ref(&program), 0, &[[3, 0, 0, 9]]),
            2,
        );
        let run = run(&job, 9);
        assert_eq!(run.answer, [1, 3, 4, 0]);
        let states = [[0, 0, 0], [1, 0, 5], [2, 5, 5], [3, 5, 9]];
        assert_eq!(places_and_values(&run, 4), states);
    }
}

#[test]
fn a_cmpx_waits_for_an_empty_buffer_whether_it_takes_or_not() {
    for first in [[1, 0, 0, 0], [1, 0, 0, 9]] {
        let program = vec![first, store(1), compare_exchange(5)];
        for capacity in [1, 2] {
            for model in [TSO, PSO] {
                let job = job_of_two([model, capacity], 2, slice::from_ref(&program));
                assert_eq!(replay(&job, &[0, 0, 0]), [3, 2, 4, 0]);
                assert_eq!(replay(&job, &[0, 0, flush(0, 1), 0]), FALLS_SHORT);
            }
        }
        let sc = job_of_two(SC, 2, &[program]);
        assert_eq!(replay(&sc, &[0, 0, 0]), FALLS_SHORT);
    }
}

#[test]
fn a_cmpx_gives_a_lock_to_one_alone() {
    let thread = vec![
        [1, 0, 0, 0],
        compare_exchange(1),
        [8, 0, 0, 1],
        store_value(0, 0),
    ];
    let goal = [[1, 0, 0, 3], [1, 1, 0, 3]];
    for memory in every_memory() {
        let both = [thread.clone(), thread.clone()];
        let job = in_version(&file(memory, &[0], &both, 0, &goal), 2);
        assert_eq!(run(&job, BENCH_SLOTS).answer[0], 2, "{memory:?}");
        let one = in_version(&file(memory, &[0], &both, 0, &goal[..1]), 2);
        assert_eq!(run(&one, BENCH_SLOTS).answer[..2], [1, 3], "{memory:?}");
    }
}

#[test]
fn for_the_fence_check_cmpx_is_as_xchg_and_wfence_as_nothing() {
    let check = |program: &[[u8; 4]]| fences(&in_version(&asking(program, 0), 2));
    let [fenced, open] = [[1, 0, 0, 0], [2, 0, 0, 2]];
    for (between, answer) in [
        (compare_exchange(1), fenced),
        (EXCHANGE, fenced),
        (WFENCE, open),
        ([2, 0, 0, 1], open),
    ] {
        assert_eq!(check(&[STORE, between, LOAD]), answer, "{between:?}");
    }
    // Neither is a store or a load.
    for neither in [compare_exchange(1), WFENCE] {
        assert_eq!(check(&[neither, LOAD]), fenced);
        assert_eq!(check(&[STORE, neither]), fenced);
    }
    assert_eq!(check(&[STORE, WFENCE, compare_exchange(1), LOAD]), fenced);
}

// ---- version 3: values of two bytes ----

/// One thread of these instructions and one variable that holds `initial`, asked for these clauses.
fn wide(memory: Memory, initial: Value, program: &[Item], clauses: &[Item]) -> Vec<u8> {
    file_of_three(memory, &[initial], &[program.to_vec()], 0, clauses)
}

/// What all three answer to a job that is refused.
fn assert_refused(job: &[u8], [number, offset]: [u64; 2]) {
    let refusal = [0, number, offset, 0];
    let run = run(job, 3);
    assert_eq!(run.answer, refusal, "{job:?}");
    assert!(run.wrote_no_more_than(0, 0));
    assert_eq!(replay(job, &[0]), refusal, "{job:?}");
    assert_eq!(fences(job), refusal, "{job:?}");
}

#[test]
fn the_bench_list_has_the_same_answers_in_version_3() {
    // P5 alone has a sum that passes 255.
    let jobs = (1..).zip(accepted_list()).filter(|(p, _)| *p != 5);
    for (_, job) in jobs {
        for slots in [1, 5, BENCH_SLOTS] {
            let [one, three] = [&job, &in_three(&job)].map(|job| run(job, slots));
            assert_eq!(one.answer, three.answer);
            assert_eq!(one.table, three.table);
            assert_eq!(one.links, three.links);
            assert_eq!(one.schedule, three.schedule);
        }
        for schedule in [&[0, 0, 1, 1][..], &[0, 0, 1, 1, 4, 13], &[0, 4], &[36], &[]] {
            for of_three in [in_three(&job), raised(&job)] {
                assert_eq!(replay(&job, schedule), replay(&of_three, schedule));
            }
        }
        assert_eq!(fences(&job), fences(&in_three(&job)));
    }
}

#[test]
fn every_value_has_its_two_bytes_in_a_slot() {
    // Thread 1 sets all of its registers and has two stores pending at its end; thread 0 has ended at once.
    let program = vec![
        item(1, 0, 0, 0x0102),
        item(1, 1, 0, 0x0300),
        item(1, 2, 0, 0x0004),
        item(1, 3, 0, 0xFFFF),
        item(5, 0, 0, 0x0506),
        item(4, 1, 1, 0),
    ];
    let programs = [vec![], program];
    let at_end = item(1, 1, 0, 6);
    let asking = |model, clause| {
        let goal = [at_end, clause];
        file_of_three([model, 2], &[0x0700, 0x0809], &programs, 0, &goal)
    };
    for model in [TSO, PSO] {
        let job = asking(model, item(3, 0, 0, 0x0700));
        let run = run(&job, 20);
        assert_eq!(run.answer[..2], [1, 6]);
        let mut slots = run.table.chunks_exact(SLOT_BYTES);
        let mut expected = vec![0; SLOT_BYTES];
        expected[1] = 6;
        put(&mut expected, 12, &[1, 2, 3, 0, 0, 4, 255, 255]);
        put(&mut expected, 36, &[7, 0, 8, 9]);
        put(&mut expected, 77, &[2, 0, 5, 6, 1, 3, 0]);
        assert_eq!(slots.find(|slot| slot[1] == 6), Some(&expected[..]));
        // A byte less, a byte more, and both in the wrong order: that is another value.
        for clause in [
            item(2, 1, 0, 0x0002),
            item(2, 1, 0, 0x0100),
            item(2, 1, 0, 0x0201),
            item(2, 1, 1, 0x0003),
            item(2, 1, 2, 0x0104),
            item(2, 1, 3, 0x00FF),
            item(3, 1, 0, 0x0009),
        ] {
            let other = asking(model, clause);
            assert_eq!(replay(&other, &[1; 6]), FALLS_SHORT, "{clause:?}");
        }
        assert_eq!(replay(&job, &[1; 6]), REACHES);
    }
}

#[test]
fn add_works_modulo_65536_in_version_3_and_modulo_256_in_the_others() {
    for (augend, addend, sum) in [
        (65_535, 1, 0),
        (255, 1, 256),
        (0x00FF, 0xFF01, 0),
        (0x0100, 0xFF00, 0),
        (65_535, 65_535, 65_534),
        (0x1234, 0x0FFF, 0x2233),
        (32_768, 32_767, 65_535),
    ] {
        let program = [item(1, 0, 0, augend), item(2, 0, 0, addend)];
        let goal = [item(1, 0, 0, 2), item(2, 0, 0, sum)];
        let run = run(&wide(SC, 0, &program, &goal), 9);
        assert_eq!(run.answer, [1, 2, 3, 0], "{augend} plus {addend}");
        let states = [[0, 0, 0], [1, augend, 0], [2, sum, 0]];
        assert_eq!(places_and_values(&run, 3), states);
    }
    for version in [1, 2] {
        let program = vec![[1, 0, 0, 255], [2, 0, 0, 1], [2, 0, 0, 255], [2, 0, 0, 255]];
        let goal = [[1, 0, 0, 4], [2, 0, 0, 254]];
        let job = in_version(&file(SC, &[0], &[program], 0, &goal), version);
        let run = run(&job, 9);
        assert_eq!(run.answer, [1, 4, 5, 0]);
        let states = [[0, 0, 0], [1, 255, 0], [2, 0, 0], [3, 255, 0], [4, 254, 0]];
        assert_eq!(places_and_values(&run, 5), states);
    }
}

#[test]
fn jeq_cmpx_and_clauses_look_at_both_bytes() {
    let held = 0x0102;
    for (other, is_same) in [
        (0x0102, true),
        (0x0002, false),
        (0x0100, false),
        (0x0202, false),
        (0x0103, false),
        (0x0201, false),
    ] {
        let set = item(1, 0, 0, held);
        // JEQ: to the end if it jumps, and else round for ever.
        let jumping = [set, item(8, 0, 3, other), item(9, 0, 1, 0)];
        let answer = run(&wide(SC, 0, &jumping, &[item(1, 0, 0, 3)]), 9).answer;
        let expected = if is_same { [1, 2, 3, 0] } else { [2, 3, 0, 0] };
        assert_eq!(answer, expected, "JEQ with {other}");
        // CMPX: memory holds the other value, and another one still if that is the same.
        let taking = [set, item(10, 0, 0, 0x0700)];
        let run = run(&wide(SC, other, &taking, &[item(1, 0, 0, 2)]), 9);
        let memory = if is_same { 0x0700 } else { other };
        let states = [[0, 0, other], [1, held, other], [2, other, memory]];
        assert_eq!(places_and_values(&run, 3), states, "CMPX with {other}");
        // Clauses of a register and of memory.
        let expected = if is_same { REACHES } else { FALLS_SHORT };
        let asks_register = wide(SC, 0, &[set], &[item(2, 0, 0, other)]);
        assert_eq!(replay(&asks_register, &[0]), expected, "{other}");
        let stores = [item(5, 0, 0, held)];
        let asks_memory = wide(SC, 0, &stores, &[item(3, 0, 0, other)]);
        assert_eq!(replay(&asks_memory, &[0]), expected, "{other}");
    }
}

#[test]
fn loads_stores_and_exchanges_move_both_bytes() {
    for model in [TSO, PSO] {
        // Of its own pending stores, the newest; then it lands, and the exchange waits for that.
        let program = [
            item(5, 0, 0, 0x1234),
            item(5, 0, 0, 0x5634),
            item(3, 0, 0, 0),
            item(7, 1, 0, 0),
            item(4, 0, 0, 0),
        ];
        let goal = [
            item(2, 0, 0, 0x5634),
            item(2, 0, 1, 0x5634),
            item(3, 0, 0, 0x5634),
        ];
        let job = wide([model, 2], 0xABCD, &program, &goal);
        let lands = flush(0, 0);
        let schedule = [0, 0, 0, lands, lands, 0, 0, lands];
        assert_eq!(replay(&job, &schedule), REACHES);
        assert_eq!(replay(&job, &schedule[..7]), FALLS_SHORT);
        assert_eq!(run(&job, BENCH_SLOTS).answer[..2], [1, 8]);
    }
}

#[test]
fn what_version_3_refuses_and_where() {
    for (job, refusal) in refused_of_three() {
        assert_refused(&job, refusal);
    }
    // Worked by hand. Head and one value take 9 bytes, n one; flag and K stand behind the instruction, and then the clause.
    let with = |instruction| wide([TSO, 1], 0x0100, &[instruction], &[item(1, 0, 0, 1)]);
    let good = with(item(3, 0, 0, 0));
    assert_eq!(good.len(), 22);
    assert_eq!(fences(&good), [1, 0, 0, 0]);
    let cut = |count: usize| settled(good[..count].to_vec());
    // Half a value, and four bytes of an instruction and of a clause.
    assert_refused(&cut(8), [6, 7]);
    assert_refused(&cut(14), [6, 10]);
    assert_refused(&cut(21), [6, 17]);
    // A byte that must be 0 where k stands: the high one, the low one, both.
    for op in [3, 4, 6, 7, 9, 11] {
        assert_ne!(fences(&with(item(op, 0, 0, 0)))[0], 0);
        for k in [0x0100, 0x8000, 0x0001, 0x0101] {
            assert_refused(&with(item(op, 0, 0, k)), [4, 10]);
        }
    }
    // A place clause above n, and one of 256 plus a good place.
    for place in [2, 255, 256, 257, 0xFF00, 0xFF01, 0xFFFF] {
        let job = wide([TSO, 1], 0, &[item(6, 0, 0, 0)], &[item(1, 0, 0, place)]);
        assert_refused(&job, [5, 17]);
    }
    // A jump's target stays in one byte, whatever k is.
    for (target, k) in [(1, 0), (1, 0x0100), (0, 0xFFFF)] {
        assert_ne!(fences(&with(item(8, 0, target, k)))[0], 0);
        assert_refused(&with(item(8, 0, target + 2, k)), [4, 10]);
    }
}

#[test]
fn k_is_65535_at_most_in_every_instruction_that_has_it() {
    for instruction in [
        item(1, 3, 0, 65_535),
        item(2, 3, 0, 65_535),
        item(5, 0, 0, 65_535),
        item(8, 3, 1, 65_535),
        item(10, 3, 0, 65_535),
    ] {
        let job = wide(SC, 65_535, &[instruction], &[item(1, 0, 0, 1)]);
        assert_eq!(replay(&job, &[0]), REACHES, "{instruction:?}");
        assert_eq!(run(&job, 2).answer, [1, 1, 2, 0], "{instruction:?}");
    }
}

// ---- the search with an index ----

/// Table bytes, links and schedule bytes.
type Sizes = (usize, usize, usize);

/// More than P1 needs of each.
const ENOUGH: Sizes = (40 * SLOT_BYTES, 40, 40);

/// What such a search leaves behind, and the index as it leaves it.
fn run_indexed(job: &[u8], (table, links, schedule): Sizes, index: Vec<u32>) -> (Run, Vec<u32>) {
    let mut run = Run {
        answer: [9; 4],
        table: vec![TABLE_MARK; table],
        links: vec![LINK_MARK; links],
        schedule: vec![SCHEDULE_MARK; schedule],
    };
    let mut index = index;
    run.answer = search_indexed(
        job,
        &mut run.table,
        &mut run.links,
        &mut run.schedule,
        &mut index,
    );
    (run, index)
}

/// Indexes of a length: numbers that could be those of slots, from 0 and from 1 on, all 0, all ones, and any.
fn indexes(count: usize) -> [Vec<u32>; 5] {
    [
        (0..).take(count).collect(),
        (1..).take(count).collect(),
        vec![0; count],
        vec![u32::MAX; count],
        (0..)
            .take(count)
            .map(|i: u32| i.wrapping_mul(0x9E37_79B9))
            .collect(),
    ]
}

#[test]
fn p1_whole_with_an_index() {
    for count in [44, 45, 46, 80, 81, 1000] {
        for index in indexes(count) {
            let (run, _) = run_indexed(&P1, ENOUGH, index);
            assert_eq!(run.answer, [1, 4, 22, 0], "{count}");
            assert_eq!(run.table[..22 * SLOT_BYTES], first_p1_slots(22));
            assert_eq!(run.links[..22], first_p1_links(22));
            assert_eq!(run.schedule[..4], [0, 0, 1, 1]);
            assert!(run.wrote_no_more_than(22, 4));
        }
    }
}

#[test]
fn n_is_at_most_half_the_index_rounded_down() {
    for (count, slots) in [
        (2, 1),
        (3, 1),
        (4, 2),
        (5, 2),
        (6, 3),
        (41, 20),
        (42, 21),
        (43, 21),
    ] {
        for index in indexes(count) {
            let (run, _) = run_indexed(&P1, ENOUGH, index);
            assert_eq!(run.answer, [3, slots as u64, 0, 0], "{count}");
            assert_eq!(run.table[..slots * SLOT_BYTES], first_p1_slots(slots));
            assert_eq!(run.links[..slots], first_p1_links(slots));
            assert!(run.wrote_no_more_than(slots, 0));
        }
    }
}

#[test]
fn an_index_of_0_or_1_has_no_slot_and_stays() {
    for index in [vec![], vec![0], vec![1], vec![u32::MAX]] {
        for sizes in [ENOUGH, (SLOT_BYTES, 1, 1), (0, 0, 0)] {
            let (run, left) = run_indexed(&P1, sizes, index.clone());
            assert_eq!(run.answer, [0, 7, 0, 0]);
            assert!(run.wrote_no_more_than(0, 0));
            assert_eq!(left, index);
        }
    }
}

#[test]
fn the_smallest_of_the_four_decides() {
    let eight = 8 * SLOT_BYTES;
    for (sizes, count, slots) in [
        ((eight, 8, 8), 14, 7),
        ((eight, 8, 8), 15, 7),
        ((eight - 1, 8, 8), 16, 7),
        ((eight, 7, 8), 17, 7),
        ((eight, 8, 7), 16, 7),
        ((eight - 1, 9, 9), 1000, 7),
        ((eight, 8, 8), 16, 8),
    ] {
        for index in indexes(count) {
            let (run, _) = run_indexed(&P1, sizes, index);
            assert_eq!(run.answer, [3, slots as u64, 0, 0], "{sizes:?} {count}");
            assert_eq!(run.table[..slots * SLOT_BYTES], first_p1_slots(slots));
            assert!(run.wrote_no_more_than(slots, 0));
        }
    }
}

#[test]
fn refusals_come_before_no_slot_and_leave_the_index() {
    let cases = [
        (vec![], 1, 0),
        (with_byte(&P1, 1, 0x2A), 1, 0),
        (vec![0, 1, 0], 2, 2),
        (with_byte(&P1, 4, 9), 3, 4),
        (with_byte(&P1, 10, 0x0A), 4, 10),
        (with_goal(&[0, 0]), 5, 28),
        (with_byte(&P1, 41, 4), 5, 41),
        (settled([&P1[..], &[0]].concat()), 6, 45),
        (in_version(&[0, 1, 0], 3), 6, 3),
    ];
    for (job, number, offset) in cases {
        for count in [0, 1, 2, 7, 44, 1000] {
            for sizes in [ENOUGH, (0, 0, 0)] {
                for index in indexes(count) {
                    let (run, left) = run_indexed(&job, sizes, index.clone());
                    assert_eq!(run.answer, [0, number, offset, 0], "{job:?}");
                    assert!(run.wrote_no_more_than(0, 0));
                    assert_eq!(left, index);
                }
            }
        }
    }
}

#[test]
fn no_slot_by_the_others_leaves_the_index() {
    for sizes in [
        (SLOT_BYTES - 1, 9, 9),
        (0, 9, 9),
        (1520, 0, 9),
        (1520, 9, 0),
    ] {
        for count in [2, 3, 1000] {
            for index in indexes(count) {
                let (run, left) = run_indexed(&P1, sizes, index.clone());
                assert_eq!(run.answer, [0, 7, 0, 0]);
                assert!(run.wrote_no_more_than(0, 0));
                assert_eq!(left, index);
            }
        }
    }
}

/// That all is as the plain search leaves it in as many links as there are slots.
fn assert_as_without_index(job: &[u8], sizes: Sizes, index: Vec<u32>) {
    let (table, links, schedule) = sizes;
    let slots = (index.len() / 2).min(links);
    let (with, _) = run_indexed(job, sizes, index);
    let without = run_sized(job, table, slots, schedule);
    assert_eq!(with.answer, without.answer, "{slots} slots, {job:?}");
    assert_eq!(with.table, without.table, "{slots} slots, {job:?}");
    assert_eq!(with.links[..slots], without.links, "{slots} slots, {job:?}");
    assert!(with.links[slots..].iter().all(|&link| link == LINK_MARK));
    assert_eq!(with.schedule, without.schedule, "{slots} slots, {job:?}");
}

#[test]
fn the_bench_list_is_searched_as_without_an_index_at_each_n() {
    for job in accepted_list() {
        let states = match run(&job, BENCH_SLOTS).answer {
            [1, _, states, _] | [2, states, ..] => states as usize,
            answer => panic!("{answer:?}"),
        };
        for count in 0..=2 * states + 3 {
            let sizes = ((states + 2) * SLOT_BYTES, states + 2, states + 2);
            for version in [job.clone(), in_version(&job, 2), raised(&job)] {
                let index = indexes(count).into_iter().nth(count % 5);
                assert_as_without_index(&version, sizes, index.unwrap());
            }
        }
    }
}

#[test]
fn jobs_that_are_never_done_are_searched_as_without_an_index() {
    let sizes = (300 * SLOT_BYTES, 300, 300);
    for job in [
        at_the_limit(),
        at_the_limit_of_two(),
        at_the_limit_of_three(),
    ] {
        for count in [599, 600, 601] {
            for index in indexes(count) {
                assert_as_without_index(&job, sizes, index);
            }
        }
    }
}

#[test]
fn a_search_in_what_another_has_left_answers_as_the_first() {
    let (mut run, mut index) = run_indexed(&P1, ENOUGH, vec![7; 60]);
    let first = (run.answer, run.table.clone(), run.links.clone());
    for _ in 0..2 {
        let answer = search_indexed(
            &P1,
            &mut run.table,
            &mut run.links,
            &mut run.schedule,
            &mut index,
        );
        assert_eq!((answer, run.table.clone(), run.links.clone()), first);
        assert!(run.wrote_no_more_than(22, 4));
    }
    // Another job in the same memory: P2 has 13 states.
    let answer = search_indexed(
        &p(2),
        &mut run.table,
        &mut run.links,
        &mut run.schedule,
        &mut index,
    );
    assert_eq!(answer, [2, 13, 0, 0]);
    let (alone, _) = run_indexed(&p(2), ENOUGH, vec![7; 60]);
    let of_p2 = 13 * SLOT_BYTES;
    assert_eq!(run.table[..of_p2], alone.table[..of_p2]);
    assert_eq!(run.table[of_p2..], first.1[of_p2..]);
}

#[test]
fn empty_slices_are_no_special_case_with_an_index_either() {
    let answer =
        |job: &[u8], index: &mut [u32]| search_indexed(job, &mut [], &mut [], &mut [], index);
    assert_eq!(answer(&P1, &mut []), [0, 7, 0, 0]);
    assert_eq!(answer(&P1, &mut [1, 2]), [0, 7, 0, 0]);
    assert_eq!(answer(&[], &mut []), [0, 1, 0, 0]);
    let (run, _) = run_indexed(&p(10), (SLOT_BYTES, 1, 1), vec![0, 0]);
    assert_eq!(run.answer, [1, 0, 1, 0]);
}

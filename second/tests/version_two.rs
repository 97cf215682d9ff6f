//! Version 2 of the job file: cases worked by hand from request 7.

mod common;
use common::*;
use second::job::VERSIONS;
use second::machine::enabled;
use second::replay::follow;
use second::version_two_jobs::{
    classics_of_two, handover, lock, message_passing_by_wfence, store_buffering_by_cmpx,
};
use second::{bench_lines, decode, fences, replay, Refusal};

const WFENCE: [u8; 4] = [11, 0, 0, 0];
const STORE_X: [u8; 4] = [5, 0, 0, 1];
const STORE_Y: [u8; 4] = [5, 0, 1, 2];
const NONE: [u16; 4] = [0; 4];

/// Register 3 of thread 0 is 1: no thread here uses it.
const NEVER: [[u8; 4]; 1] = [[2, 0, 3, 1]];

fn cmpx(register: u8, variable: u8, value: u8) -> [u8; 4] {
    [10, register, variable, value]
}

fn in_version(version: u8, bytes: &[u8]) -> Vec<u8> {
    let mut bytes = bytes.to_vec();
    bytes[2] = version;
    bytes
}

fn job_of_two(
    memory: [u8; 2],
    initial: &[u8],
    programs: &[&[[u8; 4]]],
    flag: u8,
    clauses: &[[u8; 4]],
) -> Vec<u8> {
    in_version(2, &job(memory, initial, programs, flag, clauses))
}

/// The same slot while a WFENCE stands after the newest store of this thread.
fn with_wfence(thread: usize, mut slot: Vec<u8>) -> Vec<u8> {
    slot[52 + 25 * thread] += 128;
    slot
}

// ---- the file ----

#[test]
fn no_version_but_these_and_3() {
    assert_eq!(bench_lines(&[0, 1, 1]), "REFUSED 6 3\nHOLD\n");
    assert_eq!(bench_lines(&[0, 1, 2]), "REFUSED 6 3\nHOLD\n");
    for version in [0, 4, 128, 255] {
        assert!(!VERSIONS.contains(&version));
        assert_eq!(bench_lines(&[0, 1, version]), "REFUSED 2 2\nHOLD\n");
        let bytes = in_version(version, &p1());
        assert_eq!(bench_lines(&bytes), "REFUSED 2 2\nHOLD\n");
        assert_eq!(run(&bytes, 30).answer, [0, 2, 2, 0]);
        assert!(run(&bytes, 30).untouched_from(0, 0));
        assert_eq!(fences(&bytes), [0, 2, 2, 0]);
        assert_eq!(replay(&bytes, &[0]), [0, 2, 2, 0]);
    }
}

#[test]
fn p1_has_the_same_answers_in_version_2() {
    let [one, two] = [1, 2].map(|version| in_version(version, &p1()));
    assert_eq!(
        bench_lines(&two),
        "REACHABLE 4 22\n00 00 01 01\nOPEN 0 0 1\nHOLD\n"
    );
    for slots in 0..=24 {
        let [before, now] = [&one, &two].map(|bytes| run(bytes, slots));
        assert_eq!(now.answer, before.answer);
        assert_eq!(now.table, before.table);
        assert_eq!(now.links, before.links);
        assert_eq!(now.schedule, before.schedule);
    }
    for number in 0..=255 {
        assert_eq!(replay(&two, &[0, number]), replay(&one, &[0, number]));
    }
    let [mut before, now] = [&one, &two].map(|bytes| decode(bytes).unwrap());
    before.version = 2;
    assert_eq!(now, before);
}

/// One thread of one instruction, which begins at 10, and two variables.
fn with_instruction(version: u8, instruction: [u8; 4]) -> Option<(u8, usize)> {
    let bytes = in_version(version, &job(SC, &[0, 0], &[&[instruction]], 0, &ANY_GOAL));
    let refusal = decode(&bytes).err();
    refusal.map(|Refusal { number, offset }| (number, offset))
}

#[test]
fn version_1_has_nine_operations_and_version_2_eleven() {
    for op in 0..=255 {
        let expected = [
            (!(1..=9).contains(&op)).then_some((4, 10)),
            (!(1..=11).contains(&op)).then_some((4, 10)),
        ];
        let given = [1, 2].map(|version| with_instruction(version, [op, 0, 0, 0]));
        assert_eq!(given, expected, "{op}");
    }
}

#[test]
fn operands_of_both_are_judged() {
    let bad = Some((4, 10));
    for good in [cmpx(0, 0, 0), cmpx(3, 1, 255), cmpx(2, 0, 128), WFENCE] {
        assert_eq!(with_instruction(2, good), None, "{good:?}");
        assert_eq!(with_instruction(1, good), bad, "{good:?}");
    }
    let out_of_range = [
        cmpx(4, 0, 0),
        cmpx(255, 0, 0),
        cmpx(0, 2, 0),
        cmpx(0, 255, 0),
        [11, 1, 0, 0],
        [11, 0, 1, 0],
        [11, 0, 0, 1],
        [11, 0, 0, 255],
    ];
    for wrong in out_of_range {
        assert_eq!(with_instruction(2, wrong), bad, "{wrong:?}");
    }
}

// ---- CMPX ----

#[test]
fn a_cmpx_that_takes_and_one_that_does_not() {
    for memory in [SC, tso(1), tso(8), pso(1), pso(8)] {
        // r0 is 0 as x is, so x becomes 5; then it is 0 and x is 5, so it takes the 5 and leaves x.
        let program = [cmpx(0, 0, 5), cmpx(0, 0, 7)];
        let run = run(&job_of_two(memory, &[0], &[&program], 0, &NEVER), 9);
        assert_eq!(run.answer, [2, 3, 0, 0]);
        assert_eq!(run.slot(0), slot(&[0], &[NONE], &[0], &[]));
        assert_eq!(run.slot(1), slot(&[1], &[NONE], &[5], &[]));
        assert_eq!(run.slot(2), slot(&[2], &[[5, 0, 0, 0]], &[5], &[]));
        assert_eq!(run.links[..3], [u32::MAX, 0, 64]);
        assert!(run.untouched_from(3, 0));
    }
}

#[test]
fn a_cmpx_waits_for_the_empty_own_buffer_even_if_it_will_not_take() {
    for memory in [tso(1), tso(2), pso(1), pso(2)] {
        for x in [0, 9] {
            let own = [[5, 0, 1, 1], cmpx(0, 0, 7)];
            let other = [[5, 0, 1, 3]];
            let goal = [[1, 0, 0, 2]];
            let bytes = job_of_two(memory, &[x, 0], &[&own, &other], 0, &goal);
            assert_eq!(replay(&bytes, &[0, 0]), [3, 1, 4, 0]);
            assert_eq!(replay(&bytes, &[0, 5, 0]), [1, 0, 0, 0]);
            // The other thread's store keeps nobody waiting.
            assert_eq!(replay(&bytes, &[1, 0, 5, 0]), [1, 0, 0, 0]);
            assert_eq!(replay(&bytes, &[1, 0, 13, 0]), [3, 3, 4, 0]);
        }
    }
}

#[test]
fn a_cmpx_sees_what_a_load_may_miss() {
    // Under SC the last places have three situations: both see the other, or one of the two.
    let lines = bench_lines(&store_buffering_by_cmpx(SC));
    assert_eq!(lines, "UNREACHABLE 13\nFENCED\nHOLD\n");
    for memory in [tso(1), tso(8), pso(1), pso(8)] {
        let lines = bench_lines(&store_buffering_by_cmpx(memory));
        assert!(lines.starts_with("UNREACHABLE "), "{lines}");
        assert!(lines.ends_with("\nFENCED\nRELEASE\n"), "{lines}");
    }
}

#[test]
fn two_threads_never_get_in_by_a_cmpx() {
    for memory in [SC, tso(1), tso(2), tso(8), pso(1), pso(2), pso(8)] {
        let run = run(&lock(memory), 400);
        assert_eq!(run.answer[0], 2, "{memory:?}");
        // Each alone does: SET, CMPX and the JEQ that isn't taken.
        let mut alone = lock(memory);
        let clause = alone.len() - 4;
        alone[clause..].copy_from_slice(&[1, 0, 0, 3]);
        assert_eq!(replay(&alone, &[0, 0, 0]), [1, 0, 0, 0], "{memory:?}");
    }
}

// ---- groups ----

/// x = 1, WFENCE, y = 2 by one thread: all states and links.
#[test]
fn every_slot_of_two_stores_with_a_wfence_between() {
    let program = [STORE_X, WFENCE, STORE_Y];
    let search = |memory| run(&job_of_two(memory, &[0, 0], &[&program], 0, &NEVER), 20);
    let at =
        |place, memory: [u16; 2], pairs: &[[u16; 2]]| slot(&[place], &[NONE], &memory, &[pairs]);
    let x = [[0, 1]];
    let y = [[1, 2]];
    let pso2 = search(pso(2));
    let expected = [
        at(0, [0, 0], &[]),
        at(1, [0, 0], &x),
        with_wfence(0, at(2, [0, 0], &x)),
        at(1, [1, 0], &[]),
        // y is in group 1; the WFENCE ended when it joined.
        at(3, [0, 0], &[[0, 1], [17, 2]]),
        // The WFENCE went with x, and on the empty buffer of slot 3 it leaves nothing: one state.
        at(2, [1, 0], &[]),
        // y is in the oldest group now, as it is if it joins behind x.
        at(3, [1, 0], &y),
        at(3, [1, 2], &[]),
    ];
    assert_eq!(pso2.answer, [2, 8, 0, 0]);
    for (index, expected) in expected.iter().enumerate() {
        assert_eq!(pso2.slot(index), expected, "{index}");
    }
    let links = [
        u32::MAX,
        0,
        64,
        64 + 4,
        128,
        128 + 4,
        4 * 64 + 4,
        6 * 64 + 5,
    ];
    assert_eq!(pso2.links[..8], links);
    assert!(pso2.untouched_from(8, 0));
    // With room for one store y waits for x, so no slot has two groups.
    let pso1 = search(pso(1));
    assert_eq!(pso1.answer, [2, 7, 0, 0]);
    let slots: Vec<&[u8]> = (0..7).map(|index| pso1.slot(index)).collect();
    let without_two: Vec<&Vec<u8>> = [0, 1, 2, 3, 5, 6, 7].map(|i| &expected[i]).to_vec();
    assert_eq!(slots, without_two);
    assert_eq!(pso1.links[4..7], [128 + 4, 4 * 64, 5 * 64 + 5]);
    // Under TSO WFENCE does nothing: neither a mark nor a group.
    let tso2 = search(tso(2));
    assert_eq!(tso2.answer, [2, 8, 0, 0]);
    assert_eq!(tso2.slot(2), at(2, [0, 0], &x));
    assert_eq!(tso2.slot(4), at(3, [0, 0], &[[0, 1], [1, 2]]));
    assert_eq!(tso2.links[..8], links);
    // Under SC there is nothing to keep apart.
    let sc = search(SC);
    assert_eq!(sc.answer, [2, 4, 0, 0]);
    assert_eq!(sc.slot(2), at(2, [1, 0], &[]));
}

/// The buffer bytes of thread 0, of three variables, behind these steps under PSO; without the high bytes, which are 0.
fn buffer(capacity: u8, program: &[[u8; 4]], schedule: &[u8]) -> Vec<u8> {
    let bytes = job_of_two(pso(capacity), &[0; 3], &[program], 0, &NEVER);
    let job = decode(&bytes).unwrap();
    let (state, taken) = follow(&job, schedule);
    assert_eq!(taken, schedule.len());
    let slot = state.slot();
    let (used, rest) = slot[53..].split_at(3 * usize::from(slot[52] % 128));
    assert!(rest.iter().all(|&byte| byte == 0));
    let entries = used.chunks(3).flat_map(|entry| {
        assert_eq!(entry[1], 0, "a value of version 2 has no high byte");
        [entry[0], entry[2]]
    });
    [slot[52]].into_iter().chain(entries).collect()
}

fn store(variable: u8, value: u8) -> [u8; 4] {
    [5, 0, variable, value]
}

#[test]
fn on_an_empty_buffer_it_leaves_nothing() {
    let program = [WFENCE, WFENCE, store(1, 6), store(0, 7)];
    assert_eq!(buffer(2, &program, &[0]), [0]);
    assert_eq!(buffer(2, &program, &[0, 0]), [0]);
    assert_eq!(buffer(2, &program, &[0, 0, 0]), [1, 1, 6]);
    assert_eq!(buffer(2, &program, &[0, 0, 0, 0]), [2, 0, 7, 1, 6]);
}

#[test]
fn two_in_a_row_act_as_one() {
    let program = [store(0, 6), WFENCE, WFENCE, store(1, 7)];
    assert_eq!(buffer(2, &program, &[0, 0]), [129, 0, 6]);
    assert_eq!(buffer(2, &program, &[0, 0, 0]), [129, 0, 6]);
    assert_eq!(buffer(2, &program, &[0, 0, 0, 0]), [2, 0, 6, 17, 7]);
}

#[test]
fn it_ends_when_the_buffer_empties_and_not_before() {
    let program = [store(0, 6), store(1, 7), WFENCE, store(2, 8), store(0, 9)];
    assert_eq!(buffer(3, &program, &[0, 0, 0]), [130, 0, 6, 1, 7]);
    assert_eq!(buffer(3, &program, &[0, 0, 0, 4]), [129, 1, 7]);
    assert_eq!(buffer(3, &program, &[0, 0, 0, 4, 5]), [0]);
    // Both go to one group, since nothing stands between them and the start.
    assert_eq!(buffer(3, &program, &[0, 0, 0, 4, 5, 0]), [1, 2, 8]);
    let both = [2, 0, 9, 2, 8];
    assert_eq!(buffer(3, &program, &[0, 0, 0, 4, 5, 0, 0]), both);
    // While the second store is still pending, they are behind it.
    let behind = [3, 1, 7, 16, 9, 18, 8];
    assert_eq!(buffer(3, &program, &[0, 0, 0, 4, 0, 0]), behind);
    assert_eq!(buffer(3, &program, &[0, 0, 0, 4, 0, 0, 5]), both);
}

#[test]
fn it_ends_when_a_store_joins() {
    let program = [store(1, 6), WFENCE, store(2, 7), store(0, 8), WFENCE];
    assert_eq!(buffer(3, &program, &[0, 0]), [129, 1, 6]);
    assert_eq!(buffer(3, &program, &[0, 0, 0]), [2, 1, 6, 18, 7]);
    let joined = [3, 1, 6, 16, 8, 18, 7];
    assert_eq!(buffer(3, &program, &[0, 0, 0, 0]), joined);
    assert_eq!(buffer(3, &program, &[0, 0, 0, 0, 0])[0], 131);
}

#[test]
fn pairs_stand_by_group_then_by_variable_then_by_age() {
    let program = [
        store(2, 1),
        store(0, 2),
        store(2, 3),
        WFENCE,
        store(1, 4),
        store(0, 5),
        store(1, 6),
    ];
    assert_eq!(
        buffer(8, &program, &[0; 7]),
        [6, 0, 2, 2, 1, 2, 3, 16, 5, 17, 4, 17, 6]
    );
}

#[test]
fn three_groups_with_one_variable_in_two_of_them() {
    let program = [store(0, 6), WFENCE, store(1, 7), WFENCE, store(0, 8)];
    let full = [0; 5];
    let then = |steps: &[u8]| [&full[..], steps].concat();
    let after = |steps: &[u8]| buffer(3, &program, &then(steps));
    assert_eq!(after(&[]), [3, 0, 6, 17, 7, 32, 8]);
    assert_eq!(after(&[4]), [2, 1, 7, 16, 8]);
    assert_eq!(after(&[4, 5]), [1, 0, 8]);
    assert_eq!(after(&[4, 5, 4]), [0]);
    let bytes = |goal| job_of_two(pso(3), &[0; 3], &[&program], 0, &[goal]);
    let x = |value| bytes([3, 0, 0, value]);
    // x flushes from the oldest group first, then it is pending in a later one only, then y has to go.
    assert_eq!(replay(&x(6), &then(&[4])), [1, 0, 0, 0]);
    assert_eq!(replay(&x(6), &then(&[5])), [3, 5, 6, 0]);
    assert_eq!(replay(&x(6), &then(&[4, 4])), [3, 6, 6, 0]);
    assert_eq!(replay(&x(6), &then(&[4, 5, 5])), [3, 7, 5, 0]);
    assert_eq!(replay(&x(8), &then(&[4, 5, 4])), [1, 0, 0, 0]);
    // Variable 2 is pending nowhere.
    assert_eq!(replay(&x(6), &then(&[6])), [3, 5, 5, 0]);
}

#[test]
fn as_many_groups_as_a_buffer_holds_stores() {
    let program: Vec<[u8; 4]> = (0..8).flat_map(|v| [store(v % 3, v + 1), WFENCE]).collect();
    assert_eq!(
        buffer(8, &program, &[0; 16]),
        [136, 0, 1, 17, 2, 34, 3, 48, 4, 65, 5, 82, 6, 96, 7, 113, 8]
    );
}

#[test]
fn a_load_takes_the_newest_own_store_of_all_groups() {
    let load = |variable| [3, 0, variable, 0];
    let loaded = |program: &[[u8; 4]], schedule: &[u8], value| {
        let goal = [[2, 0, 0, value]];
        let bytes = job_of_two(pso(4), &[30, 31, 32], &[program], 0, &goal);
        assert_eq!(replay(&bytes, schedule), [1, 0, 0, 0], "{program:?}");
    };
    let [x, other_x, y] = [store(0, 6), store(0, 7), store(1, 8)];
    loaded(&[x, WFENCE, y, load(0)], &[0; 4], 6);
    loaded(&[x, WFENCE, y, load(1)], &[0; 4], 8);
    loaded(&[x, WFENCE, y, load(2)], &[0; 4], 32);
    loaded(&[x, WFENCE, other_x, load(0)], &[0; 4], 7);
    loaded(&[x, other_x, WFENCE, y, load(0)], &[0; 5], 7);
    loaded(&[x, WFENCE, y, WFENCE, other_x, load(0)], &[0; 6], 7);
    loaded(&[x, WFENCE, other_x, load(0)], &[0, 0, 0, 4, 0], 7);
    loaded(&[x, WFENCE, other_x, load(0)], &[0, 0, 0, 4, 4, 0], 7);
    loaded(&[x, WFENCE, load(0)], &[0, 0, 4, 0], 6);
}

#[test]
fn room_is_counted_over_all_groups_and_a_wfence_needs_none() {
    for capacity in 1..=8 {
        let mut program: Vec<[u8; 4]> = (0..capacity).flat_map(|k| [store(0, k), WFENCE]).collect();
        program.extend([WFENCE, store(1, 1), WFENCE]);
        let run = vec![0; 2 * usize::from(capacity) + 1];
        let goal = [[1, 0, 0, program.len() as u8 - 1]];
        let bytes = job_of_two(pso(capacity), &[0, 0], &[&program], 0, &goal);
        let then = |steps: &[u8]| replay(&bytes, &[&run[..], steps].concat());
        let taken = run.len() as u64;
        assert_eq!(then(&[]), [2, 0, 0, 0]);
        assert_eq!(then(&[0]), [3, taken, 3, 0]);
        assert_eq!(then(&[4, 0]), [1, 0, 0, 0]);
    }
}

#[test]
fn an_empty_buffer_is_asked_for_not_the_absence_of_a_wfence() {
    // 00 00 04 and 00 04 00 end alike, and the WFENCE has gone with the store.
    let goal = [[1, 0, 0, 2], [3, 0, 0, 1]];
    let run = run(
        &job_of_two(pso(1), &[0], &[&[STORE_X, WFENCE]], 1, &goal),
        9,
    );
    assert_eq!(run.answer, [1, 3, 5, 0]);
    assert_eq!(run.schedule[..3], [0, 0, 4]);
    assert_eq!(run.slot(4), slot(&[2], &[NONE], &[1], &[]));
    for barrier in [[6, 0, 0, 0], [7, 0, 0, 0], cmpx(0, 0, 0)] {
        let waits = job_of_two(pso(1), &[0], &[&[STORE_X, WFENCE, barrier]], 0, &ANY_GOAL);
        assert_eq!(replay(&waits, &[0, 0, 0]), [3, 2, 4, 0]);
        assert_eq!(replay(&waits, &[0, 0, 4, 0]), [2, 0, 0, 0]);
    }
}

#[test]
fn two_histories_that_leave_the_same_groups_are_one_state() {
    // Both ways of the first thread end with x and y pending and a WFENCE behind them.
    let both_pending = |memory, count_byte| {
        let [.., two_histories] = classics_of_two(memory);
        let run = run(&two_histories, 400);
        assert_eq!(run.answer[0], 2);
        let slots = (0..run.answer[1] as usize).map(|index| run.slot(index));
        let is_met = |slot: &&[u8]| slot[..2] == [11, 3] && slot[41] == 1 && slot[52] == count_byte;
        slots.filter(is_met).count()
    };
    assert_eq!(both_pending(pso(3), 130), 1);
    assert_eq!(both_pending(pso(3), 2), 0);
    assert_eq!(both_pending(tso(3), 2), 2);
}

// ---- message passing ----

#[test]
fn message_passing_by_wfence_is_out_of_reach() {
    // The writer has eight situations (with room for one store seven, under SC four), of which the
    // reader sees y as 1 in the last only; x is 1 from the fourth last (under SC the third last) on.
    for (memory, states) in [
        (pso(2), 30),
        (pso(3), 30),
        (pso(8), 30),
        (pso(1), 27),
        (tso(1), 27),
        (tso(2), 30),
        (SC, 17),
    ] {
        let verdict = if memory == SC { "HOLD" } else { "RELEASE" };
        let lines = bench_lines(&message_passing_by_wfence(memory));
        let expected = format!("UNREACHABLE {states}\nFENCED\n{verdict}\n");
        assert_eq!(lines, expected, "{memory:?}");
    }
    // P6 has the same threads without the WFENCE.
    let mut p6 = message_passing_by_wfence(pso(2));
    p6[9] = 2;
    p6.drain(14..18);
    let p6 = with_length(&p6[2..]);
    let lines = bench_lines(&p6);
    let [first, second] = [0, 1].map(|line| lines.lines().nth(line).unwrap());
    assert!(first.starts_with("REACHABLE 5 "), "{lines}");
    assert_eq!(second, "00 00 05 01 01");
}

#[test]
fn slots_of_message_passing_by_wfence() {
    let bytes = message_passing_by_wfence(pso(2));
    let run = run(&bytes, 40);
    assert_eq!(run.answer, [2, 30, 0, 0]);
    let none = [NONE, NONE];
    // 00 00: x is pending and the WFENCE stands behind it.
    let fenced = slot(&[2, 0], &none, &[0, 0], &[&[[0, 1]]]);
    assert_eq!(run.slot(3), with_wfence(0, fenced));
    assert_eq!(run.slot(3)[52..56], [129, 0, 0, 1]);
    // 00 00 00: y has joined in group 1. 00 00 04: the buffer is empty, so the WFENCE is gone.
    let grouped = slot(&[3, 0], &none, &[0, 0], &[&[[0, 1], [17, 1]]]);
    assert_eq!(run.slot(7), grouped);
    assert_eq!(run.slot(7)[52..59], [2, 0, 0, 1, 17, 0, 1]);
    assert_eq!(run.slot(9), slot(&[2, 0], &none, &[1, 0], &[]));
    // 00 00 00 04: y is in the oldest group now.
    assert_eq!(run.slot(13), slot(&[3, 0], &none, &[1, 0], &[&[[1, 1]]]));
    let links = [3, 7, 9, 13].map(|index| run.links[index]);
    assert_eq!(links, [64, 3 * 64, 3 * 64 + 4, 7 * 64 + 4]);
    assert!(run.untouched_from(30, 0));
}

#[test]
fn steps_and_reasons_of_message_passing_by_wfence() {
    let bytes = message_passing_by_wfence(pso(2));
    let job = decode(&bytes).unwrap();
    let bits = |schedule: &[u8]| enabled(&job, &follow(&job, schedule).0);
    assert_eq!(bits(&[]), 1 << 1 | 1 << 0);
    assert_eq!(bits(&[0]), 1 << 4 | 1 << 1 | 1 << 0);
    assert_eq!(bits(&[0, 0]), 1 << 4 | 1 << 1 | 1 << 0);
    assert_eq!(bits(&[0, 0, 0]), 1 << 4 | 1 << 1);
    assert_eq!(bits(&[0, 0, 0, 4]), 1 << 5 | 1 << 1);
    assert_eq!(bits(&[0, 0, 0, 4, 5]), 1 << 1);
    assert_eq!(replay(&bytes, &[0, 0, 5]), [3, 2, 5, 0]);
    assert_eq!(replay(&bytes, &[0, 0, 0, 5]), [3, 3, 6, 0]);
    assert_eq!(replay(&bytes, &[0, 0, 0, 0]), [3, 3, 2, 0]);
    assert_eq!(replay(&bytes, &[0, 0, 0, 4, 4]), [3, 4, 5, 0]);
    assert_eq!(replay(&bytes, &[0, 0, 0, 4, 5, 1, 1]), [2, 0, 0, 0]);
}

#[test]
fn a_lock_is_handed_over_by_wfence_alone() {
    for memory in [SC, tso(1), tso(2), tso(8), pso(1), pso(2), pso(8)] {
        let guarded = run(&handover(memory, &[WFENCE]), 400);
        assert_eq!(guarded.answer[0], 2, "{memory:?}");
        let bare = run(&handover(memory, &[]), 400);
        if memory == pso(2) || memory == pso(8) {
            // Data, lock, and SET before the flush of the lock, which the CMPX needs.
            assert_eq!(bare.answer[..2], [1, 7], "{memory:?}");
            assert_eq!(bare.schedule[..7], [0, 0, 1, 5, 1, 1, 1], "{memory:?}");
        } else {
            assert_eq!(bare.answer[0], 2, "{memory:?}");
        }
    }
}

// ---- the fence check ----

#[test]
fn cmpx_is_a_fence_and_wfence_is_none() {
    let load = [3, 0, 1, 0];
    let lines = |between| {
        let program = [STORE_X, between, load];
        bench_lines(&job_of_two(SC, &[0, 0], &[&program], 1, &NEVER))
    };
    // Under SC a release hangs on the fence check.
    assert_eq!(lines(cmpx(0, 0, 3)), "UNREACHABLE 4\nFENCED\nRELEASE\n");
    assert_eq!(lines(WFENCE), "UNREACHABLE 4\nOPEN 0 0 2\nHOLD\n");
    let check = |program: &[[u8; 4]]| fences(&job_of_two(pso(1), &[0, 0], &[program], 0, &NEVER));
    assert_eq!(check(&[cmpx(0, 0, 3), load]), [1, 0, 0, 0]);
    assert_eq!(check(&[STORE_X, cmpx(0, 0, 3)]), [1, 0, 0, 0]);
    assert_eq!(check(&[WFENCE, load]), [1, 0, 0, 0]);
    assert_eq!(check(&[STORE_X, WFENCE]), [1, 0, 0, 0]);
    // Walks that make a store live go through both.
    let jump = |place| [9, 0, place, 0];
    assert_eq!(check(&[cmpx(0, 0, 3), STORE_X, load]), [2, 0, 1, 2]);
    assert_eq!(check(&[WFENCE, STORE_X, WFENCE, load]), [2, 0, 1, 3]);
    assert_eq!(check(&[jump(4), STORE_X, WFENCE, load]), [1, 0, 0, 0]);
    assert_eq!(
        check(&[jump(4), STORE_X, WFENCE, load, cmpx(0, 0, 3), jump(1)]),
        [2, 0, 1, 3]
    );
}

//! The edges of N, and what stays untouched there.

mod common;
use common::*;

#[test]
fn no_slot_is_refusal_7() {
    for (table, links, schedule) in [
        (151, 9, 9),
        (96, 9, 9),
        (0, 9, 9),
        (1520, 0, 9),
        (1520, 9, 0),
        (0, 0, 0),
    ] {
        let run = run_sized(&p1(), table, links, schedule);
        assert_eq!(run.answer, [0, 7, 0, 0]);
        assert!(run.untouched_from(0, 0));
    }
}

#[test]
fn refusal_7_comes_last() {
    let mut bytes = p1();
    bytes.push(0);
    assert_eq!(run(&bytes, 0).answer, [0, 1, 0, 0]);
    bytes[1] += 1;
    assert_eq!(run(&bytes, 0).answer, [0, 6, 45, 0]);
    bytes[28] = 0;
    assert_eq!(run(&bytes, 0).answer, [0, 5, 28, 0]);
}

#[test]
fn refusals_write_nothing() {
    let mut bytes = p1();
    bytes[44] = 1;
    bytes[41] = 9;
    let run = run(&bytes, 30);
    assert_eq!(run.answer, [0, 5, 41, 0]);
    assert!(run.untouched_from(0, 0));
}

#[test]
fn the_smallest_buffer_decides() {
    for (table, links, schedule) in [(152, 9, 9), (303, 9, 9), (1520, 1, 9), (1520, 9, 1)] {
        let run = run_sized(&p1(), table, links, schedule);
        assert_eq!(run.answer, [3, 1, 0, 0]);
        assert_eq!(run.slot(0), [0; 152]);
        assert_eq!(run.links[0], u32::MAX);
        assert!(run.untouched_from(1, 0));
    }
}

#[test]
fn unknown_keeps_the_first_slots_of_a_full_search() {
    let full = run(&p1(), 40);
    for slots in 1..22 {
        let short = run(&p1(), slots);
        assert_eq!(short.answer, [3, slots as u64, 0, 0]);
        assert_eq!(short.table, full.table[..slots * 152]);
        assert_eq!(short.links, full.links[..slots]);
        assert!(short.untouched_from(slots, 0));
    }
    for slots in 22..40 {
        let enough = run(&p1(), slots);
        assert_eq!(enough.answer, [1, 4, 22, 0]);
        assert_eq!(enough.table[..22 * 152], full.table[..22 * 152]);
        assert!(enough.untouched_from(22, 4));
    }
}

#[test]
fn unreachable_needs_room_for_every_state() {
    let mut p2 = p1();
    p2[3..5].copy_from_slice(&SC);
    assert_eq!(run(&p2, 12).answer, [3, 12, 0, 0]);
    assert_eq!(run(&p2, 13).answer, [2, 13, 0, 0]);
    assert_eq!(run(&p2, 14).answer, [2, 13, 0, 0]);
}

#[test]
fn a_goal_at_the_start_needs_one_slot() {
    let run = run(
        &job(pso(8), &[3], &[&[[5, 0, 0, 1]]], 1, &[[3, 0, 0, 3]]),
        1,
    );
    assert_eq!(run.answer, [1, 0, 1, 0]);
    assert!(run.untouched_from(1, 0));
}

#[test]
fn n_never_passes_65536() {
    // A 16-bit counter in two registers: one state a level, about three for every count.
    let counter = [
        [2, 0, 0, 1],
        [8, 0, 3, 0],
        [9, 0, 0, 0],
        [2, 1, 0, 1],
        [9, 0, 0, 0],
    ];
    let bytes = job(SC, &[0], &[&counter], 0, &[[3, 0, 0, 1]]);
    let run = run(&bytes, 65_538);
    assert_eq!(run.answer, [3, 65_536, 0, 0]);
    assert!(run.untouched_from(65_536, 0));
    assert_eq!(run.links[65_535], 65_534 * 64);
}

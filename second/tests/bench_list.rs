//! The bench list, P1 to P12 and the refusals.

mod common;
use common::*;
use second::{bench_lines, fences, replay};

fn p2() -> Vec<u8> {
    let mut bytes = p1();
    bytes[3..5].copy_from_slice(&SC);
    bytes
}

fn p3() -> Vec<u8> {
    let mut bytes = p1();
    bytes[27] = 1;
    bytes
}

fn p4() -> Vec<u8> {
    let program = [[5, 0, 0, 1], [3, 0, 0, 0]];
    job(tso(1), &[0], &[&program], 0, &[[1, 0, 0, 2], [2, 0, 0, 0]])
}

fn p5() -> Vec<u8> {
    let program = [[1, 0, 0, 255], [2, 0, 0, 1]];
    job(SC, &[0], &[&program], 0, &[[1, 0, 0, 2], [2, 0, 0, 0]])
}

fn message_passing(model_and_capacity: [u8; 2]) -> Vec<u8> {
    let writer = [[5, 0, 0, 1], [5, 0, 1, 1]];
    let reader = [[3, 0, 1, 0], [3, 1, 0, 0]];
    let goal = [[1, 1, 0, 2], [2, 1, 0, 1], [2, 1, 1, 0]];
    job(model_and_capacity, &[0, 0], &[&writer, &reader], 0, &goal)
}

fn p9() -> Vec<u8> {
    let first = [[5, 0, 0, 1], [6, 0, 0, 0], [3, 0, 1, 0]];
    let second = [[5, 0, 1, 1], [6, 0, 0, 0], [3, 0, 0, 0]];
    let goal = [[1, 0, 0, 3], [1, 1, 0, 3], [2, 0, 0, 0], [2, 1, 0, 0]];
    job(tso(1), &[0, 0], &[&first, &second], 0, &goal)
}

fn p10() -> Vec<u8> {
    two_stores([1, 0, 0, 0])
}

fn two_stores(goal: [u8; 4]) -> Vec<u8> {
    let program = [[5, 0, 0, 1], [5, 0, 0, 2]];
    job(tso(1), &[0], &[&program], 0, &[goal])
}

fn p12(flag: u8) -> Vec<u8> {
    let mut bytes = p1();
    bytes.truncate(29);
    bytes[1] = 27;
    bytes[27] = flag;
    bytes[28] = 0;
    bytes
}

#[test]
fn listed_jobs_are_these() {
    let mp = message_passing;
    let these = [
        p1(),
        p2(),
        p3(),
        p4(),
        p5(),
        mp(pso(2)),
        mp(pso(1)),
        mp(tso(2)),
        p9(),
        p10(),
        p10(),
        p12(0),
        p12(1),
    ];
    assert_eq!(second::listed::bench_list(), these);
}

#[test]
fn p1_store_buffering() {
    assert_eq!(
        bench_lines(&p1()),
        "REACHABLE 4 22\n00 00 01 01\nOPEN 0 0 1\nHOLD\n"
    );
    assert_eq!(fences(&p1()), [2, 0, 0, 1]);
    assert_eq!(replay(&p1(), &[0, 0, 1, 1]), [1, 0, 0, 0]);
    assert_eq!(replay(&p1(), &[0, 0, 1]), [2, 0, 0, 0]);
}

#[test]
fn p1_fits_in_22_slots_and_not_in_21() {
    let enough = run(&p1(), 22);
    assert_eq!(enough.answer, [1, 4, 22, 0]);
    assert_eq!(enough.schedule[..4], [0, 0, 1, 1]);
    let short = run(&p1(), 21);
    assert_eq!(short.answer, [3, 21, 0, 0]);
    assert!(short.untouched_from(21, 0));
}

#[test]
fn p2_sc_is_unreachable_and_held_because_open() {
    assert_eq!(bench_lines(&p2()), "UNREACHABLE 13\nOPEN 0 0 1\nHOLD\n");
}

#[test]
fn p3_needs_the_flushes() {
    assert_eq!(
        bench_lines(&p3()),
        "REACHABLE 6 34\n00 00 01 01 04 0D\nOPEN 0 0 1\nHOLD\n"
    );
}

#[test]
fn p4_a_load_sees_its_own_store() {
    assert_eq!(bench_lines(&p4()), "UNREACHABLE 5\nOPEN 0 0 1\nRELEASE\n");
}

#[test]
fn p5_add_wraps() {
    assert_eq!(bench_lines(&p5()), "REACHABLE 2 3\n00 00\nFENCED\nHOLD\n");
}

#[test]
fn p6_to_p8_message_passing() {
    let p6 = run(&message_passing(pso(2)), 400);
    assert_eq!((p6.answer[0], p6.answer[1]), (1, 5));
    assert_eq!(p6.schedule[..5], [0x00, 0x00, 0x05, 0x01, 0x01]);
    assert_eq!(run(&message_passing(pso(1)), 400).answer[0], 2);
    assert_eq!(run(&message_passing(tso(2)), 400).answer[0], 2);
    assert!(bench_lines(&message_passing(pso(1))).ends_with("FENCED\nRELEASE\n"));
    assert!(bench_lines(&message_passing(tso(2))).ends_with("FENCED\nRELEASE\n"));
}

#[test]
fn p9_fences_close_store_buffering() {
    let lines = bench_lines(&p9());
    assert!(lines.starts_with("UNREACHABLE "), "{lines}");
    assert!(lines.ends_with("\nFENCED\nRELEASE\n"), "{lines}");
}

#[test]
fn p10_and_p11_replay_gets_stuck() {
    // The buffer holds one store, and the second would be another.
    assert_eq!(replay(&p10(), &[0, 0]), [3, 1, 3, 0]);
    // With a flush between the stores neither is stuck, and the second one stays.
    assert_eq!(
        replay(&two_stores([3, 0, 0, 2]), &[0, 4, 0, 4]),
        [1, 0, 0, 0]
    );
    for any_job in [p1(), p2(), p5(), p10()] {
        // 36 is no such step.
        assert_eq!(replay(&any_job, &[0x24]), [3, 0, 1, 0]);
    }
}

#[test]
fn p10_is_searched_for_its_start() {
    assert_eq!(bench_lines(&p10()), "REACHABLE 0 1\n\nFENCED\nHOLD\n");
}

#[test]
fn p12_a_blank_goal_is_refused_with_either_flag() {
    for flag in [0, 1] {
        assert_eq!(bench_lines(&p12(flag)), "REFUSED 5 28\nHOLD\n");
        assert_eq!(run(&p12(flag), 400).answer, [0, 5, 28, 0]);
        assert_eq!(fences(&p12(flag)), [0, 5, 28, 0]);
        assert_eq!(replay(&p12(flag), &[]), [0, 5, 28, 0]);
        assert_eq!(replay(&p12(flag), &[0x24]), [0, 5, 28, 0]);
    }
}

#[test]
fn listed_refusals() {
    assert_eq!(bench_lines(&[]), "REFUSED 1 0\nHOLD\n");
    assert_eq!(bench_lines(&[0, 1, 0]), "REFUSED 2 2\nHOLD\n");
    assert_eq!(bench_lines(&[0, 1, 1]), "REFUSED 6 3\nHOLD\n");
    assert_eq!(bench_lines(&[0, 1, 2]), "REFUSED 6 3\nHOLD\n");
    assert_eq!(bench_lines(&[0, 1, 3]), "REFUSED 6 3\nHOLD\n");
    let mut bytes = p1();
    bytes[10] = 0x0A;
    assert_eq!(bench_lines(&bytes), "REFUSED 4 10\nHOLD\n");
    assert_eq!(fences(&bytes), [0, 4, 10, 0]);
    assert_eq!(replay(&bytes, &[0]), [0, 4, 10, 0]);
}

#[test]
fn sc_is_released_only_with_the_flag_and_fenced() {
    let fenced = [[3, 0, 0, 0]];
    let open = [[5, 0, 0, 0], [3, 0, 0, 0]];
    let never = [[3, 0, 0, 9]];
    let last = |program: &[[u8; 4]], flag| {
        let lines = bench_lines(&job(SC, &[0], &[program], flag, &never));
        lines.lines().last().unwrap().to_string()
    };
    assert_eq!(last(&fenced, 1), "RELEASE");
    assert_eq!(last(&fenced, 0), "HOLD");
    assert_eq!(last(&open, 1), "HOLD");
    assert_eq!(last(&open, 0), "HOLD");
}

#[test]
fn bench_says_unknown_400() {
    // Two counters that run freely have 65,536 states and more.
    let counter = [[2, 0, 0, 1], [9, 0, 0, 0]];
    let never = [[3, 0, 0, 9]];
    let lines = bench_lines(&job(tso(1), &[0], &[&counter, &counter], 0, &never));
    assert_eq!(lines, "UNKNOWN 400\nFENCED\nHOLD\n");
}

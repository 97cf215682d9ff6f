//! Slots and links of small jobs, worked by hand.

mod common;
use common::*;

const NONE: [u16; 4] = [0; 4];

#[test]
fn p5_three_slots_in_a_row() {
    let program = [[1, 0, 0, 255], [2, 0, 0, 1]];
    let run = run(
        &job(SC, &[7], &[&program], 0, &[[1, 0, 0, 2], [2, 0, 0, 0]]),
        5,
    );
    assert_eq!(run.answer, [1, 2, 3, 0]);
    assert_eq!(run.slot(0), slot(&[0], &[NONE], &[7], &[]));
    assert_eq!(run.slot(1), slot(&[1], &[[255, 0, 0, 0]], &[7], &[]));
    assert_eq!(run.slot(2), slot(&[2], &[NONE], &[7], &[]));
    assert_eq!(run.links[..3], [u32::MAX, 0, 64]);
    assert_eq!(run.schedule[..2], [0, 0]);
    assert!(run.untouched_from(3, 2));
}

#[test]
fn p4_two_ways_meet_and_the_first_one_is_linked() {
    let program = [[5, 0, 0, 1], [3, 0, 0, 0]];
    let run = run(
        &job(tso(1), &[0], &[&program], 0, &[[1, 0, 0, 2], [2, 0, 0, 0]]),
        9,
    );
    assert_eq!(run.answer, [2, 5, 0, 0]);
    assert_eq!(run.slot(0), slot(&[0], &[NONE], &[0], &[]));
    assert_eq!(run.slot(1), slot(&[1], &[NONE], &[0], &[&[[0, 1]]]));
    assert_eq!(run.slot(2), slot(&[2], &[[1, 0, 0, 0]], &[0], &[&[[0, 1]]]));
    assert_eq!(run.slot(3), slot(&[1], &[NONE], &[1], &[]));
    assert_eq!(run.slot(4), slot(&[2], &[[1, 0, 0, 0]], &[1], &[]));
    // 00 00 04 comes before 00 04 00, so slot 4 hangs on slot 2 by step 4.
    assert_eq!(run.links[..5], [u32::MAX, 0, 64, 64 + 4, 2 * 64 + 4]);
    assert!(run.untouched_from(5, 0));
}

#[test]
fn two_threads_are_ordered_by_step_and_then_by_slot() {
    let first = [[1, 1, 0, 5]];
    let second = [[1, 2, 0, 6]];
    let run = run(&job(SC, &[0, 3], &[&first, &second], 0, &[[3, 1, 0, 4]]), 8);
    assert_eq!(run.answer, [2, 4, 0, 0]);
    assert_eq!(
        run.slot(1),
        slot(&[1, 0], &[[0, 5, 0, 0], NONE], &[0, 3], &[])
    );
    assert_eq!(
        run.slot(2),
        slot(&[0, 1], &[NONE, [0, 0, 6, 0]], &[0, 3], &[])
    );
    assert_eq!(
        run.slot(3),
        slot(&[1, 1], &[[0, 5, 0, 0], [0, 0, 6, 0]], &[0, 3], &[])
    );
    assert_eq!(run.links[..4], [u32::MAX, 0, 1, 64 + 1]);
    assert!(run.untouched_from(4, 0));
}

#[test]
fn tso_keeps_issue_order_and_pso_sorts_by_variable() {
    // Stores 1 to y, 2 to x, 3 to y: the fourth state after three executes holds them all.
    let program = [[5, 0, 1, 1], [5, 0, 0, 2], [5, 0, 1, 3]];
    let goal = [[1, 0, 0, 3]];
    let full = |model| {
        let run = run(&job(model, &[0, 0], &[&program], 0, &goal), 64);
        assert_eq!(run.answer[..2], [1, 3]);
        assert_eq!(run.schedule[..3], [0, 0, 0]);
        run
    };
    let in_order = slot(&[3], &[NONE], &[0, 0], &[&[[1, 1], [0, 2], [1, 3]]]);
    let sorted = slot(&[3], &[NONE], &[0, 0], &[&[[0, 2], [1, 1], [1, 3]]]);
    // Start; 00; 00 00 and 00 05; then the level of 00 00 00 begins at slot 4.
    assert_eq!(full(tso(3)).slot(4), in_order);
    assert_eq!(full(pso(3)).slot(4), sorted);
}

#[test]
fn pso_counts_one_state_for_two_issue_orders() {
    // A branch on y, which the other thread sets, stores x and y in either order.
    let program = [
        [3, 0, 2, 0],
        [8, 0, 5, 1],
        [5, 0, 0, 1],
        [5, 0, 1, 1],
        [9, 0, 7, 0],
        [5, 0, 1, 1],
        [5, 0, 0, 1],
        [1, 0, 0, 0],
    ];
    let setter = [[7, 0, 2, 0]];
    let swapped = [[1, 0, 0, 1], setter[0], [1, 0, 0, 0]];
    let never = [[3, 0, 0, 9]];
    let both_pending = |model| {
        let run = run(
            &job(model, &[0, 0, 0], &[&program, &swapped], 0, &never),
            400,
        );
        assert_eq!(run.answer[0], 2);
        let slots = (0..run.answer[1] as usize).map(|index| run.slot(index).to_vec());
        let ended = |s: &Vec<u8>| s[0] == 8 && s[1] == 3 && s[52] == 2 && s[41] == 1;
        slots.filter(ended).count()
    };
    assert_eq!(both_pending(pso(2)), 1);
    assert_eq!(both_pending(tso(2)), 2);
}

#[test]
fn a_load_takes_the_newest_own_store_and_no_other_threads_store() {
    let own = [[5, 0, 0, 1], [5, 0, 0, 2], [3, 0, 0, 0]];
    let other = [[3, 0, 0, 0]];
    for model in [tso(2), pso(2)] {
        let run = run(
            &job(
                model,
                &[9],
                &[&own, &other],
                0,
                &[[1, 0, 0, 3], [1, 1, 0, 1]],
            ),
            99,
        );
        assert_eq!(run.answer[..2], [1, 4]);
        assert_eq!(run.schedule[..4], [0, 0, 0, 1]);
        let wanted = slot(
            &[3, 1],
            &[[2, 0, 0, 0], [9, 0, 0, 0]],
            &[9],
            &[&[[0, 1], [0, 2]]],
        );
        assert!((0..run.answer[2] as usize).any(|index| run.slot(index) == wanted));
    }
}

#[test]
fn exchange_waits_for_the_own_buffer_and_swaps_with_memory() {
    let program = [[1, 3, 0, 4], [5, 0, 0, 8], [7, 3, 0, 0]];
    let bytes = job(tso(1), &[1], &[&program], 1, &[[2, 0, 3, 8], [3, 0, 0, 4]]);
    assert_eq!(second::replay(&bytes, &[0, 0, 0]), [3, 2, 4, 0]);
    assert_eq!(second::replay(&bytes, &[0, 0, 4, 0]), [1, 0, 0, 0]);
    let run = run(&bytes, 20);
    assert_eq!(run.answer, [1, 4, 5, 0]);
    assert_eq!(run.slot(4), slot(&[3], &[[0, 0, 0, 8]], &[4], &[]));
}

#[test]
fn the_fourth_thread_and_the_eighth_variable_have_their_places() {
    let last = [[5, 0, 7, 6]];
    let bytes = job(pso(8), &[0; 8], &[&[], &[], &[], &last], 0, &[[3, 7, 0, 6]]);
    let run = run(&bytes, 3);
    assert_eq!(run.answer, [1, 2, 3, 0]);
    // Step 35 = 4 + 8 * 3 + 7 is the greatest there is.
    assert_eq!(run.schedule, [3, 35, SCHEDULE_MARK]);
    assert_eq!(run.links, [u32::MAX, 3, 64 + 35]);
    assert_eq!(
        run.slot(1),
        slot(&[0, 0, 0, 1], &[], &[0; 8], &[&[], &[], &[], &[[7, 6]]])
    );
    assert_eq!(
        run.slot(2),
        slot(&[0, 0, 0, 1], &[], &[0, 0, 0, 0, 0, 0, 0, 6], &[])
    );
}

#[test]
fn a_jump_to_itself_adds_no_state() {
    let run = run(&job(SC, &[0], &[&[[9, 0, 0, 0]]], 0, &[[1, 0, 0, 1]]), 1);
    assert_eq!(run.answer, [2, 1, 0, 0]);
    assert_eq!(run.links, [u32::MAX]);
}

//! The search with an index: what N is then, worked by hand, and that all else is as without one.

mod common;
use common::*;
use second::listed::in_version;
use second::version_three_jobs::in_three;

/// Any contents: numbers that could be slots, one after the other.
fn index_of(count: usize) -> Vec<u32> {
    (0..).take(count).collect()
}

/// Table bytes, links, schedule bytes and numbers of the index.
type Lent = (usize, usize, usize, usize);

fn run_lent(job: &[u8], (table, links, schedule, index): Lent) -> Run {
    let mut run = Run {
        answer: [9; 4],
        table: vec![TABLE_MARK; table],
        links: vec![LINK_MARK; links],
        schedule: vec![SCHEDULE_MARK; schedule],
    };
    run.answer = second::search_indexed(
        job,
        &mut run.table,
        &mut run.links,
        &mut run.schedule,
        &index_of(index),
    );
    run
}

/// More than P1 needs of everything but the index.
fn run_with_index(job: &[u8], index: usize) -> Run {
    run_lent(job, (40 * 152, 40, 40, index))
}

/// P1 under SC, which is P2.
fn p2() -> Vec<u8> {
    let mut bytes = p1();
    bytes[3..5].copy_from_slice(&SC);
    bytes
}

#[test]
fn an_index_of_0_or_1_has_no_slot() {
    for index in [0, 1] {
        for lent in [
            (40 * 152, 40, 40, index),
            (152, 1, 1, index),
            (151, 1, 1, index),
            (152, 0, 1, index),
            (152, 1, 0, index),
            (0, 0, 0, index),
        ] {
            let run = run_lent(&p1(), lent);
            assert_eq!(run.answer, [0, 7, 0, 0], "{lent:?}");
            assert!(run.untouched_from(0, 0));
        }
    }
}

#[test]
fn no_index_is_long_enough_for_the_other_three_without_a_slot() {
    for index in [2, 3, 44, 1000] {
        for (table, links, schedule) in [(151, 9, 9), (0, 9, 9), (1520, 0, 9), (1520, 9, 0)] {
            let run = run_lent(&p1(), (table, links, schedule, index));
            assert_eq!(run.answer, [0, 7, 0, 0]);
            assert!(run.untouched_from(0, 0));
        }
    }
}

#[test]
fn n_is_half_the_index_rounded_down() {
    for (index, slots) in [
        (2, 1),
        (3, 1),
        (4, 2),
        (5, 2),
        (6, 3),
        (7, 3),
        (41, 20),
        (42, 21),
        (43, 21),
    ] {
        let run = run_with_index(&p1(), index);
        assert_eq!(run.answer, [3, slots as u64, 0, 0], "{index}");
        assert_eq!(run.slot(0), [0; 152]);
        assert_eq!(run.links[0], u32::MAX);
        assert!(run.untouched_from(slots, 0));
    }
}

#[test]
fn p1_needs_44_numbers_for_its_22_states() {
    assert_eq!(run_with_index(&p1(), 43).answer, [3, 21, 0, 0]);
    for index in [44, 45, 46, 79, 80, 81, 1000] {
        let run = run_with_index(&p1(), index);
        assert_eq!(run.answer, [1, 4, 22, 0], "{index}");
        assert_eq!(run.schedule[..4], [0, 0, 1, 1]);
        assert!(run.untouched_from(22, 4));
    }
}

#[test]
fn p2_needs_26_numbers_for_its_13_states() {
    for (index, answer) in [
        (24, [3, 12, 0, 0]),
        (25, [3, 12, 0, 0]),
        (26, [2, 13, 0, 0]),
        (27, [2, 13, 0, 0]),
        (28, [2, 13, 0, 0]),
    ] {
        let run = run_with_index(&p2(), index);
        assert_eq!(run.answer, answer, "{index}");
        assert!(run.untouched_from(answer[1] as usize, 0));
    }
}

#[test]
fn a_goal_at_the_start_needs_two_numbers() {
    let bytes = job(pso(8), &[3], &[&[[5, 0, 0, 1]]], 1, &[[3, 0, 0, 3]]);
    assert_eq!(run_with_index(&bytes, 1).answer, [0, 7, 0, 0]);
    for index in [2, 3] {
        let run = run_with_index(&bytes, index);
        assert_eq!(run.answer, [1, 0, 1, 0]);
        assert!(run.untouched_from(1, 0));
    }
}

#[test]
fn the_smallest_of_the_four_decides() {
    for (lent, slots) in [
        // The index.
        ((9 * 152, 9, 9, 14), 7),
        ((9 * 152, 9, 9, 15), 7),
        ((9 * 152, 9, 9, 17), 8),
        ((8 * 152 + 151, 8, 8, 15), 7),
        // All alike.
        ((7 * 152, 7, 7, 14), 7),
        ((7 * 152 + 151, 7, 7, 15), 7),
        // The table, beside an index that is just as long and one that is much longer.
        ((7 * 152, 9, 9, 16), 7),
        ((8 * 152 - 1, 9, 9, 800), 7),
        // The links.
        ((9 * 152, 7, 9, 16), 7),
        ((9 * 152, 7, 9, 800), 7),
        // The schedule.
        ((9 * 152, 9, 7, 16), 7),
        ((9 * 152, 9, 7, 800), 7),
    ] {
        let run = run_lent(&p1(), lent);
        assert_eq!(run.answer, [3, slots as u64, 0, 0], "{lent:?}");
        assert!(run.untouched_from(slots, 0));
    }
}

/// That all is as without an index and with as many links as N.
fn assert_as_without(job: &[u8], lent: Lent, slots: usize) {
    let (table, links, schedule, _) = lent;
    assert!(slots <= links);
    let with = run_lent(job, lent);
    let without = run_sized(job, table, slots, schedule);
    assert_eq!(with.answer, without.answer, "{lent:?}");
    assert_eq!(with.table, without.table, "{lent:?}");
    assert_eq!(with.links[..slots], without.links, "{lent:?}");
    assert_eq!(with.links[slots..], vec![LINK_MARK; links - slots]);
    assert_eq!(with.schedule, without.schedule, "{lent:?}");
}

#[test]
fn all_is_as_without_an_index_at_the_same_n() {
    for bytes in [p1(), p2(), in_version(&p1(), 2), in_three(&p1())] {
        for index in 0..60 {
            assert_as_without(&bytes, (40 * 152, 40, 40, index), index / 2);
            assert_as_without(&bytes, (20 * 152, 40, 40, index), (index / 2).min(20));
            assert_as_without(&bytes, (40 * 152, 40, 20, index), (index / 2).min(20));
        }
    }
}

#[test]
fn refusal_7_comes_last() {
    for index in [0, 1] {
        for (table, links, schedule) in [(40 * 152, 40, 40), (0, 0, 0)] {
            let answer = |bytes: &[u8]| run_lent(bytes, (table, links, schedule, index)).answer;
            let mut bytes = p1();
            assert_eq!(answer(&bytes), [0, 7, 0, 0]);
            bytes.push(0);
            assert_eq!(answer(&bytes), [0, 1, 0, 0]);
            bytes[1] += 1;
            assert_eq!(answer(&bytes), [0, 6, 45, 0]);
            bytes[28] = 0;
            assert_eq!(answer(&bytes), [0, 5, 28, 0]);
            bytes[10] = 10;
            assert_eq!(answer(&bytes), [0, 4, 10, 0]);
            bytes[3] = 3;
            assert_eq!(answer(&bytes), [0, 3, 3, 0]);
            bytes[2] = 0;
            assert_eq!(answer(&bytes), [0, 2, 2, 0]);
            assert_eq!(answer(&[]), [0, 1, 0, 0]);
        }
    }
}

#[test]
fn refusals_are_as_without_an_index_and_write_nothing() {
    let mut bytes = p1();
    bytes[41] = 9;
    for index in [0, 1, 2, 3, 44, 80, 1000] {
        let run = run_with_index(&bytes, index);
        assert_eq!(run.answer, [0, 5, 41, 0]);
        assert!(run.untouched_from(0, 0));
    }
}

#[test]
fn n_never_passes_65536_with_an_index_either() {
    // A 16-bit counter in two registers: one state a level, about three for every count.
    let counter = [
        [2, 0, 0, 1],
        [8, 0, 3, 0],
        [9, 0, 0, 0],
        [2, 1, 0, 1],
        [9, 0, 0, 0],
    ];
    let bytes = job(SC, &[0], &[&counter], 0, &[[3, 0, 0, 1]]);
    for (index, slots) in [(131_071, 65_535), (131_072, 65_536), (131_075, 65_536)] {
        let run = run_lent(&bytes, (65_538 * 152, 65_538, 65_538, index));
        assert_eq!(run.answer, [3, slots as u64, 0, 0]);
        assert!(run.untouched_from(slots, 0));
        assert_eq!(run.links[slots - 1], (slots as u32 - 2) * 64);
    }
}

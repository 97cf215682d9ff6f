//! The refusal table, row by row and in its order.

mod common;
use common::*;
use second::listed::{blank_goals, fewest_and_most_clauses};
use second::{decode, fences, replay, Refusal};

/// Of version 1, which these files have.
const LONGEST_FILE: usize = second::job::longest_file(1);

fn refused(bytes: &[u8]) -> Option<(u8, usize)> {
    decode(bytes)
        .err()
        .map(|Refusal { number, offset }| (number, offset))
}

const FENCE: [u8; 4] = [6, 0, 0, 0];

/// One thread with one instruction, two variables; the instruction begins at 10.
fn with_instruction(instruction: [u8; 4]) -> Option<(u8, usize)> {
    refused(&job(SC, &[0, 0], &[&[instruction]], 0, &ANY_GOAL))
}

/// Two threads of one and no instructions, two variables; the clause begins at 17.
fn with_clause(clause: [u8; 4]) -> Option<(u8, usize)> {
    refused(&job(SC, &[0, 0], &[&[[6, 0, 0, 0]], &[]], 0, &[clause]))
}

#[test]
fn length_is_judged_first() {
    for bytes in [&[][..], &[0], &[0, 0], &[0, 2, 9], &[0, 0, 9], &[1, 0, 9]] {
        assert_eq!(refused(bytes), Some((1, 0)));
    }
    // Two bytes less follow the length field than the file has.
    let mut too_long = with_length(&[9; LONGEST_FILE - 1]);
    assert_eq!(refused(&too_long), Some((1, 0)));
    too_long.truncate(LONGEST_FILE);
    assert_eq!(refused(&too_long), Some((1, 0)));
    let just_fits = with_length(&[9; LONGEST_FILE - 2]);
    assert_eq!(refused(&just_fits), Some((2, 2)));
}

/// A file with all counts at their most, as request 2 gives them.
fn longest_file() -> Vec<u8> {
    let program = [FENCE; 64];
    job(tso(8), &[1; 8], &[&program[..]; 4], 1, &[[1, 3, 0, 64]; 16])
}

#[test]
fn the_longest_file_is_accepted_and_one_byte_more_is_not() {
    let longest = longest_file();
    assert_eq!(longest.len(), 1109);
    assert_eq!(LONGEST_FILE, 1109);
    assert_eq!(refused(&longest), None);
    // 1,110 bytes, with a length field that counts the one more and with one that doesn't.
    let counted = with_length(&[&longest[2..], &[0]].concat());
    assert_eq!(refused(&counted), Some((1, 0)));
    let uncounted = [&longest[..], &[0]].concat();
    assert_eq!(refused(&uncounted), Some((1, 0)));
}

#[test]
fn the_longest_file_with_a_wrong_length_field() {
    let right = LONGEST_FILE as u16 - 2;
    for wrong in [0, right - 1, right + 1, right + 2, u16::MAX] {
        let mut bytes = longest_file();
        bytes[..2].copy_from_slice(&u16::to_be_bytes(wrong));
        assert_eq!(refused(&bytes), Some((1, 0)), "{wrong}");
    }
}

#[test]
fn faults_are_found_at_the_end_of_the_longest_file() {
    let set = |at: usize, value: u8| {
        let mut bytes = longest_file();
        bytes[at] = value;
        refused(&bytes)
    };
    // The head and the values take 15 bytes and each thread 257; then flag, K and clauses.
    let last_n = 15 + 3 * 257;
    let last_instruction = last_n + 1 + 4 * 63;
    let flag = last_n + 257;
    assert_eq!(set(last_n, 65), Some((4, last_n)));
    assert_eq!(set(last_instruction, 10), Some((4, last_instruction)));
    assert_eq!(set(flag, 2), Some((5, flag)));
    assert_eq!(set(flag + 1, 17), Some((5, flag + 1)));
    let last_clause = LONGEST_FILE - 4;
    assert_eq!(set(flag + 1, 15), Some((6, last_clause)));
    assert_eq!(set(last_clause + 3, 65), Some((5, last_clause)));
}

#[test]
fn every_beginning_is_refused_where_the_cut_item_begins() {
    let whole = p1();
    let item_starts = [
        2, 3, 4, 5, 6, 7, 8, 9, 10, 14, 18, 19, 23, 27, 28, 29, 33, 37, 41,
    ];
    for cut in 3..whole.len() {
        let begins = item_starts
            .iter()
            .copied()
            .filter(|&start| start <= cut)
            .max()
            .unwrap();
        let bytes = with_length(&whole[2..cut]);
        assert_eq!(refused(&bytes), Some((6, begins)), "cut at {cut}");
    }
}

#[test]
fn bytes_left_over_come_after_all_other_faults() {
    let mut body = p1()[2..].to_vec();
    body.extend([0, 0]);
    assert_eq!(refused(&with_length(&body)), Some((6, 45)));
    body[39] = 7;
    assert_eq!(refused(&with_length(&body)), Some((5, 41)));
}

#[test]
fn header_ranges() {
    let header = |index: usize, value: u8| {
        let mut bytes = p1();
        bytes[index] = value;
        refused(&bytes)
    };
    assert_eq!(header(2, 0), Some((2, 2)));
    assert_eq!(header(3, 3), Some((3, 3)));
    assert_eq!(header(3, 0), Some((3, 4)));
    assert_eq!(header(4, 0), Some((3, 4)));
    assert_eq!(header(4, 8), None);
    assert_eq!(header(4, 9), Some((3, 4)));
    assert_eq!(header(5, 0), Some((3, 5)));
    assert_eq!(header(5, 5), Some((3, 5)));
    assert_eq!(header(6, 0), Some((3, 6)));
    assert_eq!(header(6, 9), Some((3, 6)));
}

#[test]
fn program_lengths() {
    for length in 0..=64 {
        assert_eq!(with_programs(&[&vec![FENCE; length]]), None, "{length}");
    }
    let too_long = [FENCE; 65];
    assert_eq!(with_programs(&[&too_long]), Some((4, 8)));
    assert_eq!(with_programs(&[&[FENCE; 2], &too_long]), Some((4, 17)));
    assert_eq!(with_programs(&[&[FENCE; 64], &too_long]), Some((4, 265)));
    let fourth: [&[[u8; 4]]; 4] = [&[FENCE; 64], &[], &[FENCE; 51], &too_long];
    assert_eq!(with_programs(&fourth), Some((4, 8 + 257 + 1 + 205)));
}

fn with_programs(programs: &[&[[u8; 4]]]) -> Option<(u8, usize)> {
    refused(&job(SC, &[0], programs, 0, &ANY_GOAL))
}

#[test]
fn a_thread_of_65_is_refused_before_what_is_missing_behind_it() {
    let whole = job(SC, &[0], &[&[FENCE; 65]], 0, &ANY_GOAL);
    // The file may end right behind n, in an instruction, or between two of them.
    for count in [9, 10, 12, 13, 9 + 4 * 64, 9 + 4 * 64 + 3, whole.len()] {
        assert_eq!(refused(&with_length(&whole[2..count])), Some((4, 8)));
    }
    // Whether n is there comes first, and so does the length.
    assert_eq!(refused(&with_length(&whole[2..8])), Some((6, 8)));
    assert_eq!(refused(&whole[..whole.len() - 1]), Some((1, 0)));
    // With n = 64 the same file is read on, and ends where the goal's flag is looked for.
    let mut fewer = whole;
    fewer[8] = 64;
    assert_eq!(refused(&fewer), Some((5, 9 + 4 * 64)));
    fewer.truncate(9 + 4 * 63 + 3);
    assert_eq!(refused(&with_length(&fewer[2..])), Some((6, 9 + 4 * 63)));
}

/// A thread of so many fences behind another of one, with this instruction at its last place.
fn ending_with(length: usize, instruction: [u8; 4]) -> Option<(u8, usize)> {
    let mut program = vec![FENCE; length];
    program[length - 1] = instruction;
    with_programs(&[&[FENCE], &program])
}

#[test]
fn jumps_and_place_clauses_go_up_to_n() {
    for length in [1, 32, 33, 51, 63, 64] {
        let n = length as u8;
        // The second thread's n stands behind 8 bytes and a thread of 5.
        let instruction = Some((4, 8 + 5 + 1 + 4 * (length - 1)));
        for jump in [8, 9] {
            assert_eq!(ending_with(length, [jump, 0, n, 0]), None, "{length}");
            assert_eq!(ending_with(length, [jump, 0, n + 1, 0]), instruction);
        }
        let program = vec![FENCE; length];
        let ask = |place| job(SC, &[0], &[&[FENCE], &program], 0, &[[1, 1, 0, place]]);
        assert_eq!(refused(&ask(n)), None, "{length}");
        let clause = ask(n + 1).len() - 4;
        assert_eq!(refused(&ask(n + 1)), Some((5, clause)), "{length}");
    }
}

#[test]
fn instructions() {
    let bad = Some((4, 10));
    for op in [0].into_iter().chain(10..=255) {
        assert_eq!(with_instruction([op, 0, 0, 0]), bad);
    }
    for op in 1..=9 {
        assert_eq!(with_instruction([op, 0, 0, 0]), None);
    }
    for op in [1, 2] {
        assert_eq!(with_instruction([op, 3, 0, 255]), None);
        assert_eq!(with_instruction([op, 4, 0, 0]), bad);
        assert_eq!(with_instruction([op, 0, 1, 0]), bad);
    }
    for op in [3, 4, 7] {
        assert_eq!(with_instruction([op, 3, 1, 0]), None);
        assert_eq!(with_instruction([op, 4, 0, 0]), bad);
        assert_eq!(with_instruction([op, 0, 2, 0]), bad);
        assert_eq!(with_instruction([op, 0, 0, 1]), bad);
    }
    assert_eq!(with_instruction([5, 0, 1, 255]), None);
    assert_eq!(with_instruction([5, 1, 0, 0]), bad);
    assert_eq!(with_instruction([5, 0, 2, 0]), bad);
    for fence in [[6, 1, 0, 0], [6, 0, 1, 0], [6, 0, 0, 1]] {
        assert_eq!(with_instruction(fence), bad);
    }
    assert_eq!(with_instruction([8, 3, 1, 255]), None);
    assert_eq!(with_instruction([8, 4, 0, 0]), bad);
    assert_eq!(with_instruction([8, 0, 2, 0]), bad);
    assert_eq!(with_instruction([9, 0, 1, 0]), None);
    for jump in [[9, 1, 0, 0], [9, 0, 2, 0], [9, 0, 0, 1]] {
        assert_eq!(with_instruction(jump), bad);
    }
}

#[test]
fn clauses() {
    let bad = Some((5, 17));
    for kind in [0].into_iter().chain(4..=255) {
        assert_eq!(with_clause([kind, 0, 0, 0]), bad);
    }
    for good in [[1, 0, 0, 1], [1, 1, 0, 0], [2, 1, 3, 255], [3, 1, 0, 255]] {
        assert_eq!(with_clause(good), None);
    }
    for wrong in [[1, 0, 0, 2], [1, 1, 0, 1], [1, 2, 0, 0], [1, 0, 1, 0]] {
        assert_eq!(with_clause(wrong), bad);
    }
    for wrong in [[2, 2, 0, 0], [2, 0, 4, 0], [3, 2, 0, 0], [3, 0, 1, 0]] {
        assert_eq!(with_clause(wrong), bad);
    }
}

/// The flag stands at 9 and K at 10; there may be more clauses than K says, or fewer.
fn with_goal(flag: u8, count: u8, clauses: usize) -> Vec<u8> {
    let mut bytes = job(SC, &[0], &[&[]], flag, &vec![[3, 0, 0, 0]; clauses]);
    bytes[10] = count;
    bytes
}

#[test]
fn goal_flag_and_count() {
    let goal = |flag, count, clauses| refused(&with_goal(flag, count, clauses));
    for count in 1..=16 {
        assert_eq!(goal(0, count, usize::from(count)), None);
        assert_eq!(goal(1, count, usize::from(count)), None);
    }
    assert_eq!(goal(2, 17, 17), Some((5, 9)));
    assert_eq!(goal(0, 17, 17), Some((5, 10)));
    assert_eq!(goal(0, 17, 0), Some((5, 10)));
    assert_eq!(goal(0, 2, 1), Some((6, 15)));
    assert_eq!(goal(0, 1, 2), Some((6, 15)));
}

#[test]
fn a_blank_goal_is_refused_whatever_stands_behind_it() {
    for clauses in [0, 1, 2, 16, 17] {
        assert_eq!(refused(&with_goal(0, 0, clauses)), Some((5, 10)));
        assert_eq!(refused(&with_goal(1, 0, clauses)), Some((5, 10)));
    }
    let mut one_byte_more = with_goal(0, 0, 0)[2..].to_vec();
    one_byte_more.push(0);
    assert_eq!(refused(&with_length(&one_byte_more)), Some((5, 10)));
}

#[test]
fn the_flag_is_judged_before_a_blank_goal() {
    for flag in 2..=255 {
        assert_eq!(refused(&with_goal(flag, 0, 0)), Some((5, 9)));
        assert_eq!(refused(&with_goal(flag, 0, 1)), Some((5, 9)));
    }
}

#[test]
fn whether_k_is_there_is_judged_before_what_it_holds() {
    let cut = |flag, count: usize| refused(&with_length(&with_goal(flag, 0, 0)[2..count]));
    for flag in [0, 1] {
        assert_eq!(cut(flag, 11), Some((5, 10)));
        assert_eq!(cut(flag, 10), Some((6, 10)));
        assert_eq!(cut(flag, 9), Some((6, 9)));
    }
    assert_eq!(cut(2, 10), Some((5, 9)));
}

#[test]
fn earlier_faults_win_over_a_blank_goal() {
    let with_blank_goal = |index: usize, value: u8| {
        let mut bytes = with_length(&p1()[2..29]);
        bytes[28] = 0;
        bytes[index] = value;
        refused(&bytes)
    };
    assert_eq!(with_blank_goal(28, 0), Some((5, 28)));
    assert_eq!(with_blank_goal(1, 28), Some((1, 0)));
    assert_eq!(with_blank_goal(2, 4), Some((2, 2)));
    for header in 3..=6 {
        assert_eq!(with_blank_goal(header, 255), Some((3, header)));
    }
    for (fault, begins) in [(9, 9), (10, 10), (17, 14), (18, 18), (26, 23)] {
        assert_eq!(with_blank_goal(fault, 255), Some((4, begins)));
    }
}

#[test]
fn blank_goals_are_refused_alike_and_nothing_is_written() {
    for (bytes, [number, offset]) in blank_goals() {
        let refusal = [0, number, offset, 0];
        for slots in [0, 1, 400] {
            let run = run(&bytes, slots);
            assert_eq!(run.answer, refusal, "{bytes:?} in {slots} slots");
            assert!(run.untouched_from(0, 0), "{bytes:?} in {slots} slots");
        }
        for schedule in [&[][..], &[0], &[36]] {
            assert_eq!(replay(&bytes, schedule), refusal, "{bytes:?}");
        }
        assert_eq!(fences(&bytes), refusal, "{bytes:?}");
    }
}

#[test]
fn one_clause_and_sixteen_are_searched_replayed_and_checked() {
    for bytes in fewest_and_most_clauses() {
        assert_eq!(run(&bytes, 1).answer, [1, 0, 1, 0], "{bytes:?}");
        assert_eq!(replay(&bytes, &[]), [1, 0, 0, 0], "{bytes:?}");
        assert_eq!(fences(&bytes), [2, 0, 0, 1], "{bytes:?}");
    }
}

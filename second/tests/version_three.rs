//! Version 3 of the job file: cases worked by hand from request 10.

mod common;
use common::*;
use second::bench::BENCH_SLOTS;
use second::hex::from_hex;
use second::job::{longest_file, width, Clause, Instruction, VERSIONS};
use second::machine::SLOT_BYTES;
use second::replay::follow;
use second::{bench_lines, decode, fences, replay, Refusal};
use std::fs::File;
use std::process::Command;

/// An instruction or a clause as it stands in the file.
type Five = [u8; 5];

const FENCE: Five = [6, 0, 0, 0, 0];
const WFENCE: Five = [11, 0, 0, 0, 0];
const NONE: [u16; 4] = [0; 4];

/// Thread 0 is at place 0.
const AT_THE_START: Five = [1, 0, 0, 0, 0];
/// Register 3 of thread 0 is 1: no thread here uses it.
const NEVER: Five = [2, 0, 3, 0, 1];

fn set(register: u8, [high, low]: [u8; 2]) -> Five {
    [1, register, 0, high, low]
}

fn add(register: u8, [high, low]: [u8; 2]) -> Five {
    [2, register, 0, high, low]
}

fn put(variable: u8, [high, low]: [u8; 2]) -> Five {
    [5, 0, variable, high, low]
}

fn cmpx(register: u8, variable: u8, [high, low]: [u8; 2]) -> Five {
    [10, register, variable, high, low]
}

/// A job file of version 3 with a right length field.
fn job_of_three(
    memory: [u8; 2],
    initial: &[[u8; 2]],
    programs: &[&[Five]],
    flag: u8,
    clauses: &[Five],
) -> Vec<u8> {
    let mut body = vec![3];
    body.extend(memory);
    body.extend([programs.len() as u8, initial.len() as u8]);
    body.extend(initial.concat());
    for program in programs {
        body.push(program.len() as u8);
        body.extend(program.concat());
    }
    body.extend([flag, clauses.len() as u8]);
    body.extend(clauses.concat());
    with_length(&body)
}

fn refused(bytes: &[u8]) -> Option<(u8, usize)> {
    decode(bytes)
        .err()
        .map(|Refusal { number, offset }| (number, offset))
}

// ---- the file: its size ----

/// Head 7, eight values of 2, four threads of 1 + 64 times 5, flag and K, sixteen clauses of 5.
fn longest() -> Vec<u8> {
    let program = [[1, 3, 0, 0xFF, 0xFF]; 64];
    let programs = [&program[..]; 4];
    job_of_three(
        pso(8),
        &[[0xFF, 0xFF]; 8],
        &programs,
        1,
        &[[1, 3, 0, 0, 64]; 16],
    )
}

#[test]
fn the_width_is_a_property_of_the_version() {
    assert_eq!(VERSIONS, 1..=3);
    for version in 0..=255 {
        let [bytes, values, item] = match version {
            3 => [2, 65_536, 5],
            _ => [1, 256, 4],
        };
        assert_eq!(width(version).bytes(), bytes);
        assert_eq!(width(version).values() as usize, values);
        assert_eq!(width(version).item_bytes(), item);
        let most = if version == 3 { 1389 } else { 1109 };
        assert_eq!(longest_file(version), most);
    }
    assert_eq!(7 + 8 * 2 + 4 * (1 + 64 * 5) + 2 + 16 * 5, 1389);
}

#[test]
fn bytes_1389_are_accepted_and_1390_are_not() {
    let longest = longest();
    assert_eq!(longest.len(), 1389);
    assert_eq!(refused(&longest), None);
    // With a length field that counts the byte more, and with one that does not.
    let counted = with_length(&[&longest[2..], &[0]].concat());
    assert_eq!(counted.len(), 1390);
    assert_eq!(refused(&counted), Some((1, 0)));
    assert_eq!(refused(&[&longest[..], &[0]].concat()), Some((1, 0)));
    // One byte less, and the last clause, which begins at 1384, is not wholly there.
    assert_eq!(refused(&with_length(&longest[2..1388])), Some((6, 1384)));
    // Wrong length fields.
    for field in [0, 1386, 1388, 0x6B05, u16::MAX] {
        let wrong = [&field.to_be_bytes()[..], &longest[2..]].concat();
        assert_eq!(refused(&wrong), Some((1, 0)), "{field}");
    }
}

#[test]
fn bytes_1110_to_1389_are_refusal_1_unless_the_version_byte_is_3() {
    for count in 1110..=1389 {
        for version in [0, 1, 2, 4, 5, 128, 255] {
            let mut bytes = with_length(&longest()[2..count]);
            bytes[2] = version;
            assert_eq!(refused(&bytes), Some((1, 0)), "{count} {version}");
        }
        // In version 3 an item is missing, unless the file is whole.
        let number = refused(&with_length(&longest()[2..count])).map(|(number, _)| number);
        assert_eq!(number, if count < 1389 { Some(6) } else { None });
    }
    // Where the size is right for the byte, the version is judged next.
    for version in [0, 4, 255] {
        let mut bytes = with_length(&longest()[2..1109]);
        bytes[2] = version;
        assert_eq!(refused(&bytes), Some((2, 2)), "{version}");
    }
}

#[test]
fn fewer_than_3_bytes_are_refusal_1_and_no_version_byte_is_looked_at() {
    for bytes in [&[][..], &[0], &[0, 3], &[0, 0]] {
        assert_eq!(refused(bytes), Some((1, 0)));
    }
    assert_eq!(refused(&[0, 1, 3]), Some((6, 3)));
    assert_eq!(refused(&[0, 2, 3]), Some((1, 0)));
}

#[test]
fn refusal_2_is_none_of_the_three() {
    for version in 0..=255 {
        let expected = match version {
            1..=3 => "REFUSED 6 3\nHOLD\n",
            _ => "REFUSED 2 2\nHOLD\n",
        };
        assert_eq!(bench_lines(&[0, 1, version]), expected);
    }
    let mut bytes = p1_in_three();
    bytes[2] = 4;
    assert_eq!(run(&bytes, 30).answer, [0, 2, 2, 0]);
    assert!(run(&bytes, 30).untouched_from(0, 0));
    assert_eq!(fences(&bytes), [0, 2, 2, 0]);
    assert_eq!(replay(&bytes, &[0]), [0, 2, 2, 0]);
}

// ---- the file: its fields ----

/// P1 with two bytes for each value.
fn p1_in_three() -> Vec<u8> {
    from_hex(
        "00 35 03 01 01 02 02 0000 0000 \
         02 05 00 00 0001 03 00 01 0000 \
         02 05 00 01 0001 03 00 00 0000 \
         00 04 01 00 00 0002 01 01 00 0002 02 00 00 0000 02 01 00 0000",
    )
    .unwrap()
}

#[test]
fn p1_has_the_same_answers_in_version_3() {
    let [one, three] = [p1(), p1_in_three()];
    assert_eq!(three.len(), 55);
    assert_eq!(
        bench_lines(&three),
        "REACHABLE 4 22\n00 00 01 01\nOPEN 0 0 1\nHOLD\n"
    );
    for slots in 0..=24 {
        let [before, now] = [&one, &three].map(|bytes| run(bytes, slots));
        assert_eq!(now.answer, before.answer);
        assert_eq!(now.table, before.table);
        assert_eq!(now.links, before.links);
        assert_eq!(now.schedule, before.schedule);
    }
    for number in 0..=255 {
        assert_eq!(replay(&three, &[0, number]), replay(&one, &[0, number]));
    }
    let [mut before, now] = [&one, &three].map(|bytes| decode(bytes).unwrap());
    before.version = 3;
    assert_eq!(now, before);
}

#[test]
fn every_beginning_is_refused_where_the_cut_item_begins() {
    let whole = p1_in_three();
    // Model to V, two values, n, two instructions, n, two instructions, flag, K, four clauses.
    let begins = [
        3, 4, 5, 6, 7, 9, 11, 12, 17, 22, 23, 28, 33, 34, 35, 40, 45, 50,
    ];
    for cut in 3..whole.len() {
        let begun = begins.into_iter().filter(|&begin| begin <= cut).max();
        let expected = Some((6, begun.unwrap()));
        assert_eq!(refused(&with_length(&whole[2..cut])), expected, "{cut}");
    }
    let longer = with_length(&[&whole[2..], &[0]].concat());
    assert_eq!(refused(&longer), Some((6, 55)));
}

#[test]
fn half_an_initial_value_is_refusal_6_where_it_begins() {
    for variables in 1..=8 {
        let initial = vec![[0x12, 0x34]; variables];
        let whole = job_of_three(SC, &initial, &[&[]], 0, &[AT_THE_START]);
        for value in 0..variables {
            let begin = 7 + 2 * value;
            for half in [0, 1] {
                let cut = with_length(&whole[2..begin + half]);
                assert_eq!(refused(&cut), Some((6, begin)), "{variables} {value}");
            }
        }
        // Behind the values comes n.
        let n = 7 + 2 * variables;
        assert_eq!(refused(&with_length(&whole[2..n])), Some((6, n)));
        assert_eq!(refused(&whole), None);
    }
}

#[test]
fn values_and_items_stand_in_order_the_high_byte_first() {
    let program = [
        set(3, [0x01, 0x02]),
        add(2, [0xFF, 0xFF]),
        put(1, [0x00, 0xFF]),
        [8, 1, 5, 0x80, 0x00],
        cmpx(0, 0, [0x7F, 0x00]),
    ];
    let clauses = [
        [1, 0, 0, 0, 5],
        [2, 0, 2, 0x12, 0x34],
        [3, 1, 0, 0xFF, 0x00],
    ];
    let bytes = job_of_three(SC, &[[0x00, 0x01], [0x01, 0x00]], &[&program], 1, &clauses);
    let job = decode(&bytes).unwrap();
    assert_eq!(job.initial, [1, 256]);
    let expected = [
        Instruction::Set {
            register: 3,
            value: 258,
        },
        Instruction::Add {
            register: 2,
            value: 65_535,
        },
        Instruction::StoreConstant {
            variable: 1,
            value: 255,
        },
        Instruction::JumpIfEqual {
            register: 1,
            target: 5,
            value: 32_768,
        },
        Instruction::CompareExchange {
            register: 0,
            variable: 0,
            value: 0x7F00,
        },
    ];
    assert_eq!(job.programs, [expected]);
    let expected = [
        Clause::Place {
            thread: 0,
            place: 5,
        },
        Clause::Register {
            thread: 0,
            register: 2,
            value: 0x1234,
        },
        Clause::Memory {
            variable: 1,
            value: 0xFF00,
        },
    ];
    assert_eq!(job.goal.clauses, expected);
}

/// One thread of one instruction, which begins at 12, and two variables.
fn with_instruction(instruction: Five) -> Option<(u8, usize)> {
    let initial = [[0, 0]; 2];
    refused(&job_of_three(
        SC,
        &initial,
        &[&[instruction]],
        0,
        &[AT_THE_START],
    ))
}

const BAD_INSTRUCTION: Option<(u8, usize)> = Some((4, 12));

#[test]
fn the_operations_are_those_of_version_2() {
    for op in 0..=255 {
        let expected = (!(1..=11).contains(&op)).then_some((4, 12));
        assert_eq!(with_instruction([op, 0, 0, 0, 0]), expected, "{op}");
    }
}

#[test]
fn k_has_every_value_and_both_bytes_are_0_where_there_is_none() {
    for [high, low] in [[0, 0], [0, 1], [0, 255], [1, 0], [255, 0], [255, 255]] {
        for op in [1, 2, 5, 8, 10] {
            let with_k = [op, 0, 0, high, low];
            assert_eq!(with_instruction(with_k), None, "{with_k:?}");
        }
        for op in [3, 4, 6, 7, 9, 11] {
            let without_k = [op, 0, 0, high, low];
            let expected = ([high, low] != [0, 0]).then_some((4, 12));
            assert_eq!(with_instruction(without_k), expected, "{without_k:?}");
        }
    }
    // Each of the sixteen bits alone.
    for bit in 0..16 {
        let [high, low] = (1_u16 << bit).to_be_bytes();
        for op in [3, 4, 6, 7, 9, 11] {
            assert_eq!(with_instruction([op, 0, 0, high, low]), BAD_INSTRUCTION);
        }
    }
}

#[test]
fn operands_are_those_of_version_2_and_jumps_have_their_target_in_b() {
    for op in [1, 2] {
        assert_eq!(with_instruction([op, 3, 0, 1, 0]), None);
        assert_eq!(with_instruction([op, 4, 0, 1, 0]), BAD_INSTRUCTION);
        assert_eq!(with_instruction([op, 0, 1, 1, 0]), BAD_INSTRUCTION);
    }
    for op in [3, 4, 7, 10] {
        assert_eq!(with_instruction([op, 3, 1, 0, 0]), None);
        assert_eq!(with_instruction([op, 4, 0, 0, 0]), BAD_INSTRUCTION);
        assert_eq!(with_instruction([op, 0, 2, 0, 0]), BAD_INSTRUCTION);
    }
    assert_eq!(with_instruction([5, 0, 1, 1, 0]), None);
    assert_eq!(with_instruction([5, 1, 0, 1, 0]), BAD_INSTRUCTION);
    assert_eq!(with_instruction([5, 0, 2, 1, 0]), BAD_INSTRUCTION);
    for op in [6, 11] {
        assert_eq!(with_instruction([op, 1, 0, 0, 0]), BAD_INSTRUCTION);
        assert_eq!(with_instruction([op, 0, 1, 0, 0]), BAD_INSTRUCTION);
    }
    // n is 1, so a jump goes to 0 or to 1.
    assert_eq!(with_instruction([8, 3, 1, 255, 255]), None);
    assert_eq!(with_instruction([8, 0, 2, 0, 0]), BAD_INSTRUCTION);
    assert_eq!(with_instruction([9, 0, 1, 0, 0]), None);
    assert_eq!(with_instruction([9, 0, 2, 0, 0]), BAD_INSTRUCTION);
    assert_eq!(with_instruction([9, 0, 0, 0, 1]), BAD_INSTRUCTION);
    assert_eq!(with_instruction([9, 1, 0, 0, 0]), BAD_INSTRUCTION);
}

/// Two threads of three and of no instructions: n at 11, the second n at 27, flag at 28, K at 29 and the clause at 30.
fn with_clause(clause: Five) -> Option<(u8, usize)> {
    let programs = [&[FENCE; 3][..], &[]];
    refused(&job_of_three(SC, &[[0, 0]; 2], &programs, 0, &[clause]))
}

const BAD_CLAUSE: Option<(u8, usize)> = Some((5, 30));

#[test]
fn a_place_has_two_bytes_in_a_clause() {
    for place in 0..=3 {
        assert_eq!(with_clause([1, 0, 0, 0, place]), None);
        // 256 and more plus a good place.
        for high in [1, 2, 3, 128, 255] {
            assert_eq!(with_clause([1, 0, 0, high, place]), BAD_CLAUSE, "{high}");
        }
    }
    // Above the thread's n, and above that of the other.
    for place in [4, 5, 64, 65, 255] {
        assert_eq!(with_clause([1, 0, 0, 0, place]), BAD_CLAUSE, "{place}");
    }
    assert_eq!(with_clause([1, 1, 0, 0, 0]), None);
    assert_eq!(with_clause([1, 1, 0, 0, 1]), BAD_CLAUSE);
    assert_eq!(with_clause([1, 1, 0, 1, 0]), BAD_CLAUSE);
    // The last of a thread of 64.
    let full = |place: [u8; 2]| {
        let clause = [1, 0, 0, place[0], place[1]];
        refused(&job_of_three(SC, &[[0, 0]], &[&[FENCE; 64]], 0, &[clause]))
    };
    let clause = 7 + 2 + 1 + 64 * 5 + 2;
    assert_eq!(full([0, 64]), None);
    assert_eq!(full([0, 65]), Some((5, clause)));
    assert_eq!(full([1, 64]), Some((5, clause)));
}

#[test]
fn other_clauses_have_every_value_in_both_bytes() {
    for [high, low] in [[0, 0], [0, 255], [1, 0], [255, 0], [255, 255]] {
        assert_eq!(with_clause([2, 1, 3, high, low]), None);
        assert_eq!(with_clause([3, 1, 0, high, low]), None);
        for wrong in [
            [2, 2, 0],
            [2, 0, 4],
            [3, 2, 0],
            [3, 0, 1],
            [0, 0, 0],
            [4, 0, 0],
        ] {
            let [kind, a, b] = wrong;
            assert_eq!(with_clause([kind, a, b, high, low]), BAD_CLAUSE);
        }
    }
    assert_eq!(with_clause([1, 2, 0, 0, 0]), BAD_CLAUSE);
    assert_eq!(with_clause([1, 0, 1, 0, 0]), BAD_CLAUSE);
}

#[test]
fn counts_have_the_ranges_that_they_had() {
    let program = |count: usize| {
        let instructions = vec![FENCE; count];
        refused(&job_of_three(
            SC,
            &[[0, 0]],
            &[&instructions],
            0,
            &[AT_THE_START],
        ))
    };
    for count in 0..=64 {
        assert_eq!(program(count), None, "{count}");
    }
    assert_eq!(program(65), Some((4, 9)));
    let clauses = |count: usize| {
        let goal = vec![AT_THE_START; count];
        refused(&job_of_three(SC, &[[0, 0]], &[&[]], 0, &goal))
    };
    for count in 1..=16 {
        assert_eq!(clauses(count), None, "{count}");
    }
    assert_eq!(clauses(0), Some((5, 11)));
    assert_eq!(clauses(17), Some((5, 11)));
    for (at, value, number) in [
        (3, 3, 3),
        (4, 0, 3),
        (4, 9, 3),
        (5, 0, 3),
        (5, 5, 3),
        (6, 0, 3),
        (6, 9, 3),
        (11, 65, 4),
        (33, 2, 5),
        (34, 17, 5),
    ] {
        let mut bytes = p1_in_three();
        bytes[at] = value;
        assert_eq!(refused(&bytes), Some((number, at)), "{value}");
    }
}

// ---- ADD ----

/// The register of one thread that is set and then added to.
fn sum(before: [u8; 2], k: [u8; 2]) -> u16 {
    let program = [set(1, before), add(1, k)];
    let bytes = job_of_three(SC, &[[0, 0]], &[&program], 0, &[NEVER]);
    let run = run(&bytes, 9);
    assert_eq!(run.answer, [2, 3, 0, 0]);
    // Register 1 of thread 0 stands at 6 and 7.
    u16::from_be_bytes([run.slot(2)[6], run.slot(2)[7]])
}

#[test]
fn add_is_the_sum_modulo_65536() {
    assert_eq!(sum([0xFF, 0xFF], [0x00, 0x01]), 0);
    assert_eq!(sum([0x00, 0xFF], [0x00, 0x01]), 256);
    assert_eq!(sum([0x00, 0xFE], [0x00, 0x01]), 255);
    assert_eq!(sum([0xFF, 0xFE], [0x00, 0x01]), 65_535);
    assert_eq!(sum([0xFF, 0xFF], [0xFF, 0xFF]), 65_534);
    assert_eq!(sum([0x01, 0x00], [0xFF, 0x00]), 0);
    assert_eq!(sum([0x80, 0x80], [0x80, 0x80]), 0x0100);
    assert_eq!(sum([0x12, 0x34], [0x00, 0x00]), 0x1234);
    assert_eq!(sum([0x00, 0x00], [0xAB, 0xCD]), 0xABCD);
}

#[test]
fn versions_1_and_2_still_add_modulo_256() {
    let program = [[1, 0, 0, 255], [2, 0, 0, 1]];
    for version in [1, 2] {
        let mut bytes = job(SC, &[0], &[&program], 0, &[[1, 0, 0, 2], [2, 0, 0, 0]]);
        bytes[2] = version;
        assert_eq!(bench_lines(&bytes), "REACHABLE 2 3\n00 00\nFENCED\nHOLD\n");
    }
    // The same in version 3 ends at 256 and never at 0.
    let wide = [set(0, [0, 255]), add(0, [0, 1])];
    let ask = |k: [u8; 2]| {
        let goal = [[1, 0, 0, 0, 2], [2, 0, 0, k[0], k[1]]];
        bench_lines(&job_of_three(SC, &[[0, 0]], &[&wide], 0, &goal))
    };
    assert_eq!(ask([1, 0]), "REACHABLE 2 3\n00 00\nFENCED\nHOLD\n");
    assert_eq!(ask([0, 0]), "UNREACHABLE 3\nFENCED\nHOLD\n");
}

// ---- slots ----

#[test]
fn a_slot_has_152_bytes() {
    assert_eq!(SLOT_BYTES, 152);
    assert_eq!(4 + 32 + 16 + 4 * 25, 152);
    // N divides by it.
    for (table, slots) in [
        (151, 0),
        (152, 1),
        (303, 1),
        (304, 2),
        (1519, 9),
        (1520, 10),
    ] {
        let run = run_sized(&p1_in_three(), table, 99, 99);
        let expected = match slots {
            0 => [0, 7, 0, 0],
            _ => [3, slots, 0, 0],
        };
        assert_eq!(run.answer, expected, "{table}");
    }
}

#[test]
fn every_slot_of_a_register_that_passes_both_bytes() {
    // 255, 256, 65,535 and 0, in the first and the last register of the first thread.
    let program = [
        set(0, [0x00, 0xFF]),
        add(0, [0x00, 0x01]),
        set(3, [0xFF, 0xFF]),
        add(3, [0x00, 0x01]),
    ];
    let run = run(
        &job_of_three(SC, &[[0x12, 0x34]], &[&program], 0, &[NEVER]),
        9,
    );
    assert_eq!(run.answer, [2, 5, 0, 0]);
    let expected = [
        slot(&[0], &[NONE], &[0x1234], &[]),
        slot(&[1], &[[255, 0, 0, 0]], &[0x1234], &[]),
        slot(&[2], &[[256, 0, 0, 0]], &[0x1234], &[]),
        slot(&[3], &[[256, 0, 0, 65_535]], &[0x1234], &[]),
        slot(&[4], &[[256, 0, 0, 0]], &[0x1234], &[]),
    ];
    for (index, expected) in expected.iter().enumerate() {
        assert_eq!(run.slot(index), expected, "{index}");
    }
    assert_eq!(run.links[..5], [u32::MAX, 0, 64, 128, 192]);
    // Byte by byte: a place, the registers, memory.
    assert_eq!(run.slot(3)[..12], [3, 0, 0, 0, 1, 0, 0, 0, 0, 0, 255, 255]);
    assert_eq!(run.slot(3)[12..36], [0; 24]);
    assert_eq!(run.slot(3)[36..40], [0x12, 0x34, 0, 0]);
    assert_eq!(run.slot(3)[40..], [0; 112]);
    assert!(run.untouched_from(5, 0));
}

#[test]
fn the_last_thread_and_the_last_variable_have_their_places() {
    let last = [set(3, [0xAB, 0xCD]), [4, 3, 7, 0, 0]];
    let programs: [&[Five]; 4] = [&[], &[], &[], &last];
    let goal = [3, 7, 0, 0xAB, 0xCD];
    let bytes = job_of_three(pso(8), &[[0, 1]; 8], &programs, 0, &[goal]);
    let run = run(&bytes, 9);
    assert_eq!(run.answer, [1, 3, 4, 0]);
    assert_eq!(run.schedule[..3], [3, 3, 35]);
    let registers = [NONE, NONE, NONE, [0, 0, 0, 0xABCD]];
    let store: &[[u16; 2]] = &[[7, 0xABCD]];
    let pending = slot(&[0, 0, 0, 2], &registers, &[1; 8], &[&[], &[], &[], store]);
    assert_eq!(run.slot(2), pending);
    // The last register ends at 35, the last variable at 51, and the last buffer begins at 127.
    assert_eq!(run.slot(2)[34..36], [0xAB, 0xCD]);
    assert_eq!(run.slot(2)[127..131], [1, 7, 0xAB, 0xCD]);
    assert_eq!(run.slot(3)[50..52], [0xAB, 0xCD]);
    assert_eq!(run.slot(3)[127..], [0; 25]);
}

#[test]
fn versions_1_and_2_have_a_high_byte_of_0() {
    let program = [[1, 0, 0, 255], [4, 0, 1, 0]];
    for version in [1, 2] {
        let mut bytes = job(tso(2), &[254, 253], &[&program], 0, &[[1, 0, 0, 2]]);
        bytes[2] = version;
        let run = run(&bytes, 9);
        assert_eq!(run.answer, [1, 2, 3, 0]);
        assert_eq!(run.slot(2)[4..6], [0, 255]);
        assert_eq!(run.slot(2)[36..40], [0, 254, 0, 253]);
        assert_eq!(run.slot(2)[52..56], [1, 1, 0, 255]);
        let stored: &[[u16; 2]] = &[[1, 255]];
        let expected = slot(&[2], &[[255, 0, 0, 0]], &[254, 253], &[stored]);
        assert_eq!(run.slot(2), expected);
    }
}

/// The buffer bytes of thread 0 behind these steps, with nothing behind them.
fn buffer(memory: [u8; 2], program: &[Five], schedule: &[u8]) -> Vec<u8> {
    let bytes = job_of_three(memory, &[[0, 0]; 3], &[program], 0, &[NEVER]);
    let job = decode(&bytes).unwrap();
    let (state, taken) = follow(&job, schedule);
    assert_eq!(taken, schedule.len());
    let slot = state.slot();
    assert_eq!(slot.len(), 152);
    let used = 1 + 3 * usize::from(slot[52] % 128);
    assert!(slot[52 + used..].iter().all(|&byte| byte == 0));
    slot[52..52 + used].to_vec()
}

#[test]
fn pending_stores_have_three_bytes_with_groups_and_a_wfence() {
    let program = [
        put(2, [0x01, 0x00]),
        put(0, [0x00, 0x01]),
        WFENCE,
        put(2, [0xFF, 0xFF]),
        put(0, [0x12, 0x34]),
        WFENCE,
        WFENCE,
    ];
    let full = [0; 7];
    // Under PSO by group, then by variable; the variable has 16 more in the second group, the count 128 while the WFENCE stands.
    let all = [132, 0, 0, 1, 2, 1, 0, 16, 0x12, 0x34, 18, 255, 255];
    assert_eq!(buffer(pso(4), &program, &full), all);
    assert_eq!(buffer(pso(4), &program, &full[..2]), [2, 0, 0, 1, 2, 1, 0]);
    assert_eq!(
        buffer(pso(4), &program, &full[..3]),
        [130, 0, 0, 1, 2, 1, 0]
    );
    // When the first group has gone, the second is the oldest.
    let rest = [&full[..], &[4, 6]].concat();
    let left = [130, 0, 0x12, 0x34, 2, 255, 255];
    assert_eq!(buffer(pso(4), &program, &rest), left);
    // Under TSO they stand as they came, and WFENCE does nothing.
    let issued = [4, 2, 1, 0, 0, 0, 1, 2, 255, 255, 0, 0x12, 0x34];
    assert_eq!(buffer(tso(4), &program, &full), issued);
}

#[test]
fn eight_groups_fill_a_buffer() {
    let program: Vec<Five> = (0..8)
        .flat_map(|k| [put(k % 3, [k + 1, 255 - k]), WFENCE])
        .collect();
    let mut expected = vec![136];
    for (k, sign) in (0..).zip([0, 17, 34, 48, 65, 82, 96, 113]) {
        expected.extend([sign, k + 1, 255 - k]);
    }
    assert_eq!(buffer(pso(8), &program, &[0; 16]), expected);
}

/// x = 258, WFENCE, y = 256 by one thread that then loads both: states, slots and links.
#[test]
fn every_slot_of_two_wide_stores_with_a_wfence_between() {
    let program = [put(0, [1, 2]), WFENCE, put(1, [1, 0])];
    let run = run(
        &job_of_three(pso(2), &[[0, 2]; 2], &[&program], 0, &[NEVER]),
        20,
    );
    assert_eq!(run.answer, [2, 8, 0, 0]);
    let at =
        |place, memory: [u16; 2], stores: &[[u16; 2]]| slot(&[place], &[NONE], &memory, &[stores]);
    let with_wfence = |mut slot: Vec<u8>| {
        slot[52] += 128;
        slot
    };
    let expected = [
        at(0, [2, 2], &[]),
        at(1, [2, 2], &[[0, 258]]),
        with_wfence(at(2, [2, 2], &[[0, 258]])),
        at(1, [258, 2], &[]),
        at(3, [2, 2], &[[0, 258], [17, 256]]),
        at(2, [258, 2], &[]),
        at(3, [258, 2], &[[1, 256]]),
        at(3, [258, 256], &[]),
    ];
    for (index, expected) in expected.iter().enumerate() {
        assert_eq!(run.slot(index), expected, "{index}");
    }
    assert_eq!(run.slot(4)[52..59], [2, 0, 1, 2, 17, 1, 0]);
    assert_eq!(run.links[..8], [u32::MAX, 0, 64, 68, 128, 132, 260, 389]);
    assert!(run.untouched_from(8, 0));
}

#[test]
fn states_that_one_byte_alone_tells_apart_are_two() {
    // Register 0 is 1 or 257, by whether x, which another thread exchanges, was seen.
    for (first, second) in [([0, 1], [1, 1]), ([1, 0], [1, 1]), ([1, 0], [2, 0])] {
        let look = [[3, 0, 0, 0, 0]];
        let change = [set(0, second), [7, 0, 0, 0, 0], set(0, [0, 0])];
        let bytes = job_of_three(SC, &[first], &[&look, &change], 0, &[NEVER]);
        let run = run(&bytes, 40);
        // The changer has four places; before its exchange the look gives one value, behind it the other.
        let [old, new] = [first, second].map(u16::from_be_bytes);
        assert_eq!(run.answer, [2, 4 + 4 + 2, 0, 0], "{old} {new}");
        let seen = |value: u16| {
            let slots = (0..10).map(|index| run.slot(index));
            slots
                .filter(|slot| slot[0] == 1 && slot[4..6] == value.to_be_bytes())
                .count()
        };
        assert_eq!([seen(old), seen(new)], [4, 2]);
    }
}

// ---- comparisons ----

/// Values that a byte alone tells apart, or their order.
const ALIKE: [[[u8; 2]; 2]; 6] = [
    [[0, 1], [1, 1]],
    [[1, 0], [0, 0]],
    [[255, 255], [0, 255]],
    [[1, 0], [1, 1]],
    [[255, 255], [255, 0]],
    [[1, 2], [2, 1]],
];

#[test]
fn jeq_cmpx_and_clauses_compare_both_bytes() {
    for [one, other] in ALIKE.into_iter().flat_map(|[a, b]| [[a, b], [b, a]]) {
        let [high, low] = other;
        let ends = |initial: [u8; 2], program: &[Five], goal: &[Five]| {
            let bytes = job_of_three(SC, &[initial], &[program], 0, goal);
            replay(&bytes, &vec![0; program.len().min(2)])[0]
        };
        let [reaches, short] = [1, 2];
        // JEQ does not jump, and jumps at the value itself.
        let jeq = |k: [u8; 2]| [set(0, one), [8, 0, 3, k[0], k[1]], FENCE];
        assert_eq!(ends([0, 0], &jeq(other), &[[1, 0, 0, 0, 2]]), reaches);
        assert_eq!(ends([0, 0], &jeq(one), &[[1, 0, 0, 0, 3]]), reaches);
        // CMPX leaves memory and takes its value, and where they are equal writes both bytes.
        let compare = |k| [set(0, one), cmpx(0, 0, k)];
        let kept = [[3, 0, 0, high, low], [2, 0, 0, high, low]];
        assert_eq!(ends(other, &compare([7, 7]), &kept), reaches);
        let taken = [[3, 0, 0, 7, 8], [2, 0, 0, one[0], one[1]]];
        assert_eq!(ends(one, &compare([7, 8]), &taken), reaches);
        // Clauses about a register and about memory.
        let held = [set(2, one)];
        assert_eq!(ends([0, 0], &held, &[[2, 0, 2, high, low]]), short);
        assert_eq!(ends([0, 0], &held, &[[2, 0, 2, one[0], one[1]]]), reaches);
        assert_eq!(ends(one, &[FENCE], &[[3, 0, 0, high, low]]), short);
        assert_eq!(ends(one, &[FENCE], &[[3, 0, 0, one[0], one[1]]]), reaches);
    }
}

#[test]
fn loads_stores_and_exchanges_move_both_bytes() {
    let program = [
        set(0, [0xAB, 0xCD]),
        [4, 0, 0, 0, 0],
        [3, 1, 0, 0, 0],
        FENCE,
        [3, 2, 0, 0, 0],
        set(3, [0x01, 0x02]),
        [7, 3, 0, 0, 0],
    ];
    let goal = [
        [2, 0, 1, 0xAB, 0xCD],
        [2, 0, 2, 0xAB, 0xCD],
        [2, 0, 3, 0xAB, 0xCD],
        [3, 0, 0, 0x01, 0x02],
    ];
    let schedules: [(_, &[u8]); 3] = [
        (SC, &[0, 0, 0, 0, 0, 0, 0]),
        (tso(1), &[0, 0, 0, 4, 0, 0, 0, 0]),
        (pso(8), &[0, 0, 0, 4, 0, 0, 0, 0]),
    ];
    for (memory, schedule) in schedules {
        let bytes = job_of_three(memory, &[[0x77, 0x77]], &[&program], 1, &goal);
        assert_eq!(replay(&bytes, schedule), [1, 0, 0, 0], "{memory:?}");
    }
}

// ---- all three jobs ----

#[test]
fn replay_gives_its_reasons_and_the_fence_check_its_pair() {
    let first = [put(0, [1, 0]), WFENCE, put(1, [1, 0]), cmpx(0, 0, [1, 1])];
    let second = [put(0, [2, 0]), [3, 0, 1, 0, 0]];
    let bytes = job_of_three(pso(2), &[[0, 0]; 2], &[&first, &second], 0, &[NEVER]);
    assert_eq!(replay(&bytes, &[36]), [3, 0, 1, 0]);
    assert_eq!(replay(&bytes, &[2]), [3, 0, 1, 0]);
    assert_eq!(replay(&bytes, &[1, 1, 1]), [3, 2, 2, 0]);
    assert_eq!(replay(&bytes, &[0, 0, 0, 0]), [3, 3, 4, 0]);
    assert_eq!(replay(&bytes, &[0, 0, 0, 5]), [3, 3, 6, 0]);
    assert_eq!(replay(&bytes, &[0, 5]), [3, 1, 5, 0]);
    assert_eq!(replay(&bytes, &[0, 0, 0, 4, 5, 0]), [2, 0, 0, 0]);
    let one = job_of_three(pso(1), &[[0, 0]; 2], &[&first, &second], 0, &[NEVER]);
    assert_eq!(replay(&one, &[0, 0, 0]), [3, 2, 3, 0]);
    // The first thread has no load, and CMPX is none.
    assert_eq!(fences(&bytes), [2, 1, 0, 1]);
    let fenced = [put(0, [2, 0]), cmpx(0, 0, [6, 6]), [3, 0, 1, 0, 0]];
    let closed = job_of_three(SC, &[[0, 0]; 2], &[&first, &fenced], 0, &[NEVER]);
    assert_eq!(fences(&closed), [1, 0, 0, 0]);
}

#[test]
fn the_bench_has_400_slots() {
    assert_eq!(BENCH_SLOTS, 400);
    let count = [add(0, [0, 1]), [9, 0, 0, 0, 0]];
    // Two states a count: the 200th is told by the 400th state, the next one is not.
    let ask = |k: [u8; 2], place| {
        let goal = [[2, 0, 0, k[0], k[1]], [1, 0, 0, 0, place]];
        bench_lines(&job_of_three(tso(1), &[[0, 0]], &[&count], 0, &goal))
    };
    let found = ask([0, 200], 1);
    assert!(found.starts_with("REACHABLE 399 400\n00 00 "), "{found}");
    assert!(found.ends_with("\nFENCED\nHOLD\n"), "{found}");
    assert_eq!(ask([0, 200], 0), "UNKNOWN 400\nFENCED\nHOLD\n");
    assert_eq!(ask([1, 0], 0), "UNKNOWN 400\nFENCED\nHOLD\n");
    // By 256 a count the register is 0 again after 256 of them, which is 512 states, by 512 after 128.
    let by = |k: [u8; 2]| {
        let round = [add(0, k), [9, 0, 0, 0, 0]];
        bench_lines(&job_of_three(tso(1), &[[0, 0]], &[&round], 0, &[NEVER]))
    };
    assert_eq!(by([1, 0]), "UNKNOWN 400\nFENCED\nHOLD\n");
    assert_eq!(by([2, 0]), "UNREACHABLE 256\nFENCED\nRELEASE\n");
}

#[test]
fn a_refusal_of_version_3_writes_nothing() {
    for bytes in [
        vec![0, 1, 3],
        with_length(&longest()[2..1388]),
        with_length(&[&longest()[2..], &[0]].concat()),
    ] {
        let number = refused(&bytes).unwrap();
        let run = run(&bytes, 10);
        assert_eq!(run.answer, [0, number.0.into(), number.1 as u64, 0]);
        assert!(run.untouched_from(0, 0));
    }
    assert_eq!(run(&longest(), 0).answer, [0, 7, 0, 0]);
}

/// It stops after 1,390 bytes, so an input without an end is refused as any other that is too long.
#[cfg(unix)]
#[test]
fn the_bench_reads_no_more_than_it_takes_to_refuse() {
    let bench = |input: &str| {
        let mut bench = Command::new(env!("CARGO_BIN_EXE_second"));
        let run = bench.arg("bench").stdin(File::open(input).unwrap());
        String::from_utf8(run.output().unwrap().stdout).unwrap()
    };
    assert_eq!(bench("/dev/zero"), "REFUSED 1 0\nHOLD\n");
    assert_eq!(bench("/dev/null"), "REFUSED 1 0\nHOLD\n");
}

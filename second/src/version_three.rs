//! Version 3 of the job file, which request 10 brought: what values of two bytes do in a job and in its calls, told once for the run cases and for the comparison.
//!
//! What CMPX and WFENCE do is told by the classes of `version_two`, counted here for version 3.

use crate::classes::those_met;
use crate::job::{decode, longest_file, Clause, Instruction, Job, Refusal, Value};
use crate::listed::{rewritten, settled, with_byte};
use crate::machine::{step, State, Step};
use crate::search::search;
use crate::version_three_jobs::VERSION;
use crate::version_two::{self, Searched};
use std::collections::BTreeSet;

/// The last value that versions 1 and 2 have.
const MOST_BEFORE: Value = 255;

fn is_wide(value: Value) -> bool {
    value > MOST_BEFORE
}

/// The high byte and the low byte.
fn halves(value: Value) -> [Value; 2] {
    [value >> 8, value & MOST_BEFORE]
}

/// Two values that one byte alone tells apart, the high one or the low one.
fn differ_in(one: Value, other: Value) -> Option<Half> {
    let [high, low] = halves(one ^ other);
    match (high, low) {
        (0, 0) => None,
        (_, 0) => Some(Half::High),
        (0, _) => Some(Half::Low),
        (_, _) => None,
    }
}

#[derive(Clone, Copy, Debug, PartialEq, Eq)]
enum Half {
    High,
    Low,
}

// ---- jobs ----

pub const LONG_FILE: &str = "more than 1109 bytes";
pub const WIDE_INITIAL: &str = "an initial value above 255";
/// By operation.
pub const WIDE_K: [&str; 5] = [
    "SET above 255",
    "ADD above 255",
    "STOREK above 255",
    "JEQ above 255",
    "CMPX above 255",
];
pub const WIDE_CLAUSE: [&str; 2] = ["a register clause above 255", "a memory clause above 255"];
pub const AT_MOST: &str = "a k of 65535";
pub const TOO_LONG: &str = "refused for more than 1389 bytes in version 3";
pub const TOO_LONG_BEFORE: &str = "refused for 1110 to 1389 bytes in version 1 or 2";
pub const TOO_LONG_OTHERWISE: &str = "refused by 1 for 1110 to 1389 bytes with no version";
pub const HALF_A_VALUE: &str = "refused for half an initial value";
pub const HALF_A_K: &str = "refused for half a k";
pub const HIGH_NOT_0: &str = "refused for a high byte that must be 0";
pub const LOW_NOT_0: &str = "refused for a low byte that must be 0";
pub const HIGH_PLACE: &str = "refused for 256 or more plus a good place";
pub const LOW_PLACE: &str = "refused for a place up to 255";

const OF_FILES: [&str; 12] = [
    LONG_FILE,
    WIDE_INITIAL,
    AT_MOST,
    TOO_LONG,
    TOO_LONG_BEFORE,
    TOO_LONG_OTHERWISE,
    HALF_A_VALUE,
    HALF_A_K,
    HIGH_NOT_0,
    LOW_NOT_0,
    HIGH_PLACE,
    LOW_PLACE,
];

/// What the file alone shows; there is no other version that could be refused for its operations.
pub fn of_jobs() -> Vec<&'static str> {
    let mut classes = version_two::of_jobs();
    classes.retain(|&class| class != version_two::IN_VERSION_ONE);
    [&classes[..], &WIDE_K, &WIDE_CLAUSE, &OF_FILES].concat()
}

/// The classes of `of_jobs` that a job is in.
pub fn of_job(job: &[u8]) -> Vec<&'static str> {
    let mut classes = version_two::of_job_in(VERSION, job);
    classes.retain(|&class| class != version_two::IN_VERSION_ONE);
    classes.extend(match decode(job) {
        Ok(accepted) if accepted.version == VERSION => of_accepted(job, &accepted),
        Ok(_) => Vec::new(),
        Err(refusal) => of_refused(job, refusal),
    });
    classes
}

fn of_accepted(bytes: &[u8], job: &Job) -> Vec<&'static str> {
    let instructions = job.programs.iter().flatten().copied();
    let ks: Vec<(usize, Value)> = instructions.filter_map(k_of).collect();
    let asked: Vec<(usize, Value)> = job.goal.clauses.iter().filter_map(asked_of).collect();
    let any_wide = |values: &[(usize, Value)], kind| {
        let mut of_kind = values.iter().filter(|(of, _)| *of == kind);
        of_kind.any(|&(_, value)| is_wide(value))
    };
    let mut classes = Vec::new();
    classes.extend(
        (0..)
            .zip(WIDE_K)
            .map(|(op, class)| (class, any_wide(&ks, op))),
    );
    let clauses = (0..).zip(WIDE_CLAUSE);
    classes.extend(clauses.map(|(kind, class)| (class, any_wide(&asked, kind))));
    let at_most = |&(_, value): &(usize, Value)| value == Value::MAX;
    classes.extend([
        (LONG_FILE, bytes.len() > longest_file(1)),
        (
            WIDE_INITIAL,
            job.initial.iter().any(|&value| is_wide(value)),
        ),
        (AT_MOST, ks.iter().any(at_most)),
    ]);
    those_met(&classes)
}

/// The value that an instruction has in the file, and its class by `WIDE_K`.
fn k_of(instruction: Instruction) -> Option<(usize, Value)> {
    match instruction {
        Instruction::Set { value, .. } => Some((0, value)),
        Instruction::Add { value, .. } => Some((1, value)),
        Instruction::StoreConstant { value, .. } => Some((2, value)),
        Instruction::JumpIfEqual { value, .. } => Some((3, value)),
        Instruction::CompareExchange { value, .. } => Some((4, value)),
        Instruction::Load { .. }
        | Instruction::StoreRegister { .. }
        | Instruction::Fence
        | Instruction::Exchange { .. }
        | Instruction::StoreFence
        | Instruction::Jump { .. } => None,
    }
}

/// The value that a clause asks for, and its class by `WIDE_CLAUSE`.
fn asked_of(clause: &Clause) -> Option<(usize, Value)> {
    match *clause {
        Clause::Register { value, .. } => Some((0, value)),
        Clause::Memory { value, .. } => Some((1, value)),
        Clause::Place { .. } => None,
    }
}

fn of_refused(job: &[u8], refusal: Refusal) -> Vec<&'static str> {
    let version = match job.get(2) {
        Some(&version) => version,
        None => return Vec::new(),
    };
    let [narrow, wide] = [1, VERSION].map(longest_file);
    let between = (narrow + 1..=wide).contains(&job.len());
    let Refusal { number, offset } = refusal;
    match (number, version) {
        (1, VERSION) => those_met(&[(TOO_LONG, job.len() > wide)]),
        (1, 1 | 2) => those_met(&[(TOO_LONG_BEFORE, between)]),
        (1, _) => those_met(&[(TOO_LONG_OTHERWISE, between)]),
        (4, VERSION) => those_met(&[
            (HIGH_NOT_0, mends(job, refusal, offset + 3)),
            (LOW_NOT_0, mends(job, refusal, offset + 4)),
        ]),
        (5, VERSION) if job[offset] == 1 => those_met(&[
            (HIGH_PLACE, mends(job, refusal, offset + 3)),
            (
                LOW_PLACE,
                mends(job, refusal, offset + 4) && job[offset + 3] == 0,
            ),
        ]),
        (6, VERSION) => {
            let values = 7..7 + 2 * usize::from(job.get(6).copied().unwrap_or(0));
            let in_a_value = values.contains(&offset);
            those_met(&[
                (HALF_A_VALUE, job.len() == offset + 1 && in_a_value),
                (
                    HALF_A_K,
                    job.len() == offset + 4 && ends_in_item(job, refusal),
                ),
            ])
        }
        _ => Vec::new(),
    }
}

/// Whether the fault is gone when this byte is 0.
fn mends(job: &[u8], refusal: Refusal, at: usize) -> bool {
    at < job.len() && decode(&with_byte(job, at, 0)).err() != Some(refusal)
}

/// Whether bytes are missing: if some are left over, they are also with one more.
fn ends_in_item(job: &[u8], refusal: Refusal) -> bool {
    let longer = settled([job, &[0]].concat());
    decode(&longer).err() != Some(refusal)
}

// ---- replays ----

pub const SUM_WRAPS: &str = "an ADD over 65535";
pub const SUM_CARRIES: &str = "an ADD that carries into the high byte";
pub const JEQ_AT_WIDE: &str = "a JEQ that jumps at a value above 255";
pub const JEQ_BY_HIGH: &str = "a JEQ that the high byte alone keeps from jumping";
pub const JEQ_BY_LOW: &str = "a JEQ that the low byte alone keeps from jumping";
pub const TAKES_AT_WIDE: &str = "a CMPX that takes at a value above 255";
pub const TAKES_NOT_BY_HIGH: &str = "a CMPX that the high byte alone keeps from taking";
pub const TAKES_NOT_BY_LOW: &str = "a CMPX that the low byte alone keeps from taking";
pub const LOADS_WIDE: &str = "a load of a value above 255 from memory";
pub const LOADS_WIDE_OWN: &str = "a load of an own pending value above 255";
pub const STORES_WIDE: &str = "a STORE of a value above 255";
pub const EXCHANGES_WIDE: &str = "an XCHG of a value above 255";
pub const FLUSHES_WIDE: &str = "a flush of a value above 255";
pub const REACHES_WIDE: &str = "reaches by a clause above 255";
pub const SHORT_BY_HIGH: &str = "falls short by high bytes alone";
pub const SHORT_BY_LOW: &str = "falls short by low bytes alone";

/// What a schedule meets on its way, and at its end.
pub const OF_WIDE_REPLAYS: [&str; 16] = [
    SUM_WRAPS,
    SUM_CARRIES,
    JEQ_AT_WIDE,
    JEQ_BY_HIGH,
    JEQ_BY_LOW,
    TAKES_AT_WIDE,
    TAKES_NOT_BY_HIGH,
    TAKES_NOT_BY_LOW,
    LOADS_WIDE,
    LOADS_WIDE_OWN,
    STORES_WIDE,
    EXCHANGES_WIDE,
    FLUSHES_WIDE,
    REACHES_WIDE,
    SHORT_BY_HIGH,
    SHORT_BY_LOW,
];

pub fn of_replays() -> Vec<&'static str> {
    [&version_two::OF_REPLAYS[..], &OF_WIDE_REPLAYS].concat()
}

/// The classes of `of_replays` that a replay is in.
pub fn of_replay(job: &[u8], schedule: &[u8]) -> Vec<&'static str> {
    let mut classes = version_two::of_replay_in(VERSION, job, schedule);
    let job = match decode(job) {
        Ok(job) if job.version == VERSION => job,
        _ => return classes,
    };
    let mut met = BTreeSet::new();
    let mut state = State::start(&job);
    let mut is_stuck = false;
    for &number in schedule {
        match step(&job, &state, number) {
            Ok(next) => {
                met.extend(of_step(&job, &state, number));
                state = next;
            }
            Err(_) => {
                is_stuck = true;
                break;
            }
        }
    }
    if !is_stuck {
        met.extend(of_end(&job, &state));
    }
    let wide = OF_WIDE_REPLAYS.into_iter();
    classes.extend(wide.filter(|class| met.contains(class)));
    classes
}

/// A step that is taken.
fn of_step(job: &Job, state: &State, number: u8) -> Vec<&'static str> {
    let classes = match Step::from_number(number) {
        Some(Step::Execute { thread }) => of_execute(job, state, thread),
        Some(Step::Flush { thread, variable }) => {
            let buffer = &state.threads[thread].buffer;
            let mut stores = buffer.stores();
            // The oldest to the variable goes.
            let store = stores.find(|store| usize::from(store.variable) == variable);
            let goes_wide = store.map_or(false, |store| is_wide(store.value));
            vec![(FLUSHES_WIDE, goes_wide)]
        }
        None => vec![],
    };
    those_met(&classes)
}

fn of_execute(job: &Job, state: &State, thread: usize) -> Vec<(&'static str, bool)> {
    let own = &state.threads[thread];
    match job.programs[thread][own.place] {
        Instruction::Add { register, value } => {
            let [sum, low] = [
                u32::from(own.registers[register]) + u32::from(value),
                u32::from(halves(own.registers[register])[1] + halves(value)[1]),
            ];
            let wraps = sum > u32::from(Value::MAX);
            let carries = low > u32::from(MOST_BEFORE);
            vec![(SUM_WRAPS, wraps), (SUM_CARRIES, carries && !wraps)]
        }
        Instruction::JumpIfEqual {
            register, value, ..
        } => {
            let held = own.registers[register];
            let half = differ_in(held, value);
            vec![
                (JEQ_AT_WIDE, held == value && is_wide(value)),
                (JEQ_BY_HIGH, half == Some(Half::High)),
                (JEQ_BY_LOW, half == Some(Half::Low) && is_wide(value)),
            ]
        }
        Instruction::CompareExchange {
            register, variable, ..
        } => {
            let [held, memory] = [own.registers[register], state.memory[variable]];
            let half = differ_in(held, memory);
            vec![
                (TAKES_AT_WIDE, held == memory && is_wide(held)),
                (TAKES_NOT_BY_HIGH, half == Some(Half::High)),
                (TAKES_NOT_BY_LOW, half == Some(Half::Low) && is_wide(held)),
            ]
        }
        Instruction::Load { variable, .. } => {
            let pending = own.buffer.newest(variable);
            let from_memory = pending.is_none() && is_wide(state.memory[variable]);
            vec![
                (LOADS_WIDE, from_memory),
                (LOADS_WIDE_OWN, pending.map_or(false, is_wide)),
            ]
        }
        Instruction::StoreRegister { register, .. } => {
            vec![(STORES_WIDE, is_wide(own.registers[register]))]
        }
        Instruction::Exchange { register, variable } => {
            let both = [own.registers[register], state.memory[variable]];
            vec![(EXCHANGES_WIDE, both.into_iter().any(is_wide))]
        }
        Instruction::Set { .. }
        | Instruction::StoreConstant { .. }
        | Instruction::Fence
        | Instruction::StoreFence
        | Instruction::Jump { .. } => vec![],
    }
}

/// Where the schedule ends: would the goal hold if one of the bytes was not looked at?
fn of_end(job: &Job, state: &State) -> Vec<&'static str> {
    let holds = state.is_goal(job);
    let mut asked = job.goal.clauses.iter().filter_map(asked_of);
    let holds_by = |half: usize| {
        let of = |value: Value| halves(value)[half];
        with_values(job, state, of)
    };
    let [by_high, by_low] = [0, 1].map(holds_by);
    those_met(&[
        (
            REACHES_WIDE,
            holds && asked.any(|(_, value)| is_wide(value)),
        ),
        (SHORT_BY_HIGH, !holds && by_low),
        (SHORT_BY_LOW, !holds && by_high),
    ])
}

/// Whether the goal holds when each value is taken for another, those that are asked for and those that are held.
fn with_values(job: &Job, state: &State, other: impl Fn(Value) -> Value) -> bool {
    let mut job = job.clone();
    for clause in &mut job.goal.clauses {
        match clause {
            Clause::Register {
                thread,
                register,
                value,
            } => {
                let held = state.threads[*thread].registers[*register];
                *value = if other(held) == other(*value) {
                    held
                } else {
                    !held
                };
            }
            Clause::Memory { variable, value } => {
                let held = state.memory[*variable];
                *value = if other(held) == other(*value) {
                    held
                } else {
                    !held
                };
            }
            Clause::Place { .. } => {}
        }
    }
    state.is_goal(&job)
}

// ---- searches ----

pub const WIDE_REGISTER: &str = "a slot with a register above 255";
pub const WIDE_MEMORY: &str = "a slot with memory above 255";
pub const WIDE_STORE: &str = "a slot with a pending value above 255";
pub const WIDE_IN_GROUP: &str = "a slot with a pending value above 255 in a later group";
pub const APART_BY_HIGH: &str = "two slots that high bytes alone tell apart";
pub const APART_BY_LOW: &str = "two slots with values above 255 that low bytes alone tell apart";
pub const OTHER_IF_NARROW: &str = "another answer than with low bytes alone";

/// What the slots show that a search has counted, and what its answer hangs on.
pub const OF_WIDE_SEARCHES: [&str; 7] = [
    WIDE_REGISTER,
    WIDE_MEMORY,
    WIDE_STORE,
    WIDE_IN_GROUP,
    APART_BY_HIGH,
    APART_BY_LOW,
    OTHER_IF_NARROW,
];

pub fn of_searches() -> Vec<&'static str> {
    [&version_two::OF_SEARCHES[..], &OF_WIDE_SEARCHES].concat()
}

/// The classes of `of_searches` that a search is in.
pub fn of_search(job: &[u8], searched: Searched) -> Vec<&'static str> {
    let mut classes = version_two::of_search_in(VERSION, job, searched);
    if decode(job).map_or(true, |job| job.version != VERSION) {
        return classes;
    }
    let mut met: BTreeSet<&str> = searched.slots().flat_map(of_slot).collect();
    let slots: Vec<&[u8]> = searched.slots().collect();
    let without = |half: usize, slots: &[&[u8]]| {
        let rest: BTreeSet<Vec<u8>> = slots.iter().map(|slot| without_half(slot, half)).collect();
        rest.len() < slots.len()
    };
    let mut wide = slots.clone();
    wide.retain(|slot| !of_slot(slot).is_empty());
    met.extend(those_met(&[
        (APART_BY_HIGH, without(0, &slots)),
        (APART_BY_LOW, without(1, &wide)),
        (OTHER_IF_NARROW, has_other_answer(job, searched.answer)),
    ]));
    let of_wide = OF_WIDE_SEARCHES.into_iter();
    classes.extend(of_wide.filter(|class| met.contains(class)));
    classes
}

/// Where the values of a slot begin: registers, memory, and pending stores behind their variable.
fn values_in_slot() -> impl Iterator<Item = usize> {
    let registers_and_memory = (4..52).step_by(2);
    let stores = (0..4).flat_map(|thread| (0..8).map(move |k| 52 + 25 * thread + 1 + 3 * k + 1));
    registers_and_memory.chain(stores)
}

/// Read off the bytes as request 10 has them.
fn of_slot(slot: &[u8]) -> Vec<&'static str> {
    let wide = values_in_slot().filter(|&at| slot[at] > 0);
    let classes = wide.flat_map(|at| match at {
        4..=35 => vec![WIDE_REGISTER],
        36..=51 => vec![WIDE_MEMORY],
        _ if slot[at - 1] >= 16 => vec![WIDE_STORE, WIDE_IN_GROUP],
        _ => vec![WIDE_STORE],
    });
    classes.collect()
}

/// The slot with 0 for the high byte of each value, or for the low one.
fn without_half(slot: &[u8], half: usize) -> Vec<u8> {
    let mut rest = slot.to_vec();
    for at in values_in_slot() {
        rest[at + half] = 0;
    }
    rest
}

/// Whether the job of version 2 with the low bytes of its values has another answer in as many slots as this took.
fn has_other_answer(job: &[u8], answer: [u64; 4]) -> bool {
    let slots = match answer {
        [1, _, states, _] | [2 | 3, states, ..] => states as usize,
        _ => return false,
    };
    let mut table = vec![0; slots * crate::machine::SLOT_BYTES];
    let narrow = rewritten(job, 2);
    let given = search(
        &narrow,
        &mut table,
        &mut vec![0; slots],
        &mut vec![0; slots],
    );
    given != answer
}

// ---- fence checks ----

/// Nothing of a fence check hangs on values, so the classes are those of version 2.
pub use crate::version_two::OF_FENCE_CHECKS;

/// The classes of `OF_FENCE_CHECKS` that a job is in.
pub fn of_fence_check(job: &[u8]) -> Vec<&'static str> {
    version_two::of_fence_check_in(VERSION, job)
}

#[cfg(test)]
mod tests {
    use super::*;
    use crate::job::Item;
    use crate::listed::{in_version, Memory, P1, PSO, SC, TSO};
    use crate::machine::SLOT_BYTES;
    use crate::version_three_jobs::{
        add, at_the_limit_of_three, compare_exchange, exchange, file_of_three, in_three, is_at,
        jump, jump_if, load, memory_is, of_length, put, raised, register_is, set, store,
        AT_THE_START, FENCE, WFENCE,
    };
    use crate::version_two::{BAD_OPERAND, NEITHER, NO_VERSION, WITH_CMPX};

    #[test]
    fn the_names_say_the_numbers() {
        let [narrow, wide] = [1, VERSION].map(longest_file);
        assert_eq!(LONG_FILE, format!("more than {narrow} bytes"));
        assert!(TOO_LONG.contains(&format!("more than {wide} bytes")));
        for name in [TOO_LONG_BEFORE, TOO_LONG_OTHERWISE] {
            assert!(name.contains(&format!("{} to {wide} bytes", narrow + 1)));
        }
        assert!(AT_MOST.ends_with(&Value::MAX.to_string()));
    }

    /// Of one thread, with these values for three variables.
    fn job(memory: Memory, initial: [Value; 3], program: &[Item], goal: &[Item]) -> Vec<u8> {
        file_of_three(memory, &initial, &[program.to_vec()], 0, goal)
    }

    /// The classes of a job under SC beside those of its model and of what it has no part in.
    fn shapes(initial: Value, program: &[Item], goal: &[Item]) -> Vec<&'static str> {
        let mut classes = of_job(&job(SC, [initial, 0, 0], program, goal));
        classes.retain(|&class| ![NEITHER, "SC", WITH_CMPX[0]].contains(&class));
        classes
    }

    #[test]
    fn jobs_by_their_values() {
        assert_eq!(of_job(&P1), [""; 0]);
        assert_eq!(of_job(&in_three(&P1)), ["TSO, C 1", NEITHER]);
        let goal = [AT_THE_START];
        assert_eq!(shapes(255, &[set(0, 255)], &goal), [""; 0]);
        assert_eq!(shapes(256, &[], &goal), [WIDE_INITIAL]);
        let with_k = [
            set(0, 256),
            add(0, 256),
            put(0, 256),
            jump_if(0, 0, 256),
            compare_exchange(0, 0, 256),
        ];
        for (instruction, class) in with_k.into_iter().zip(WIDE_K) {
            assert_eq!(shapes(0, &[instruction], &goal), [class]);
        }
        assert_eq!(shapes(0, &[set(0, 65_535)], &goal), [WIDE_K[0], AT_MOST]);
        assert_eq!(shapes(0, &[], &[register_is(0, 0, 256)]), [WIDE_CLAUSE[0]]);
        assert_eq!(shapes(0, &[], &[memory_is(0, 256)]), [WIDE_CLAUSE[1]]);
        assert!(of_job(&at_the_limit_of_three()).contains(&LONG_FILE));
    }

    #[test]
    fn refused_jobs_by_their_size() {
        let [narrow, wide] = [1, VERSION].map(longest_file);
        assert_eq!(of_job(&of_length(VERSION, wide + 1)), [TOO_LONG]);
        assert_eq!(of_job(&of_length(1, narrow + 1)), [TOO_LONG_BEFORE]);
        assert_eq!(of_job(&of_length(2, wide)), [TOO_LONG_BEFORE]);
        assert_eq!(of_job(&of_length(1, wide + 1)), [""; 0]);
        assert_eq!(of_job(&of_length(4, narrow + 1)), [TOO_LONG_OTHERWISE]);
        assert_eq!(of_job(&of_length(4, narrow)), [NO_VERSION]);
    }

    #[test]
    fn refused_jobs_by_half_items_and_by_bytes_that_must_be_0() {
        let refused = |instruction: Item, clause: Item| {
            let job = job(SC, [0; 3], &[instruction], &[clause]);
            assert!(decode(&job).is_err(), "{instruction:?} {clause:?}");
            of_job(&job)
        };
        let with = |instruction| refused(instruction, AT_THE_START);
        assert_eq!(with(Item { k: 256, ..FENCE }), [HIGH_NOT_0]);
        assert_eq!(with(Item { k: 255, ..FENCE }), [LOW_NOT_0]);
        assert_eq!(with(Item { k: 257, ..FENCE }), [""; 0]);
        assert_eq!(with(Item { a: 1, ..WFENCE }), [BAD_OPERAND]);
        let asked = |clause| refused(FENCE, clause);
        assert_eq!(asked(is_at(0, 257)), [HIGH_PLACE]);
        assert_eq!(asked(is_at(0, 2)), [LOW_PLACE]);
        assert_eq!(asked(is_at(0, 258)), [""; 0]);
        assert_eq!(asked(is_at(1, 256)), [""; 0]);
        // P1's values begin at 7 and 9, its first instruction at 12, its last clause at 50.
        let cut = |count: usize| of_job(&settled(in_three(&P1)[..count].to_vec()));
        assert_eq!([cut(8), cut(10)], [[HALF_A_VALUE], [HALF_A_VALUE]]);
        assert_eq!([cut(16), cut(54)], [[HALF_A_K], [HALF_A_K]]);
        for count in [7, 9, 11, 12, 15, 17, 53] {
            assert_eq!(cut(count), [""; 0], "{count}");
        }
        // Four bytes left over are no item.
        let longer = settled([&in_three(&P1)[..], &[0; 4]].concat());
        assert_eq!(of_job(&longer), [""; 0]);
    }

    /// What of the classes about values a replay of one thread under TSO meets, where the goal is out of reach in both bytes.
    fn met(initial: Value, program: &[Item], schedule: &[u8]) -> Vec<&'static str> {
        let job = job(
            [TSO, 2],
            [initial, 0, 0],
            program,
            &[register_is(0, 3, 0x5A5A)],
        );
        let mut classes = of_replay(&job, schedule);
        classes.retain(|class| OF_WIDE_REPLAYS.contains(class));
        classes
    }

    #[test]
    fn replays_by_their_sums() {
        let sum = |before, k| met(0, &[set(0, before), add(0, k)], &[0, 0]);
        assert_eq!(sum(254, 1), [""; 0]);
        assert_eq!(sum(256, 256), [""; 0]);
        assert_eq!(sum(255, 1), [SUM_CARRIES]);
        assert_eq!(sum(65_535, 1), [SUM_WRAPS]);
        assert_eq!(sum(65_280, 256), [SUM_WRAPS]);
    }

    #[test]
    fn replays_by_what_is_compared() {
        let jump = |held, k| met(0, &[set(0, held), jump_if(0, 2, k)], &[0, 0]);
        assert_eq!(jump(1, 1), [""; 0]);
        assert_eq!(jump(257, 257), [JEQ_AT_WIDE]);
        assert_eq!(jump(1, 257), [JEQ_BY_HIGH]);
        assert_eq!(jump(256, 257), [JEQ_BY_LOW]);
        assert_eq!(jump(2, 1), [""; 0]);
        assert_eq!(jump(256, 1), [""; 0]);
        let take = |held, memory| met(memory, &[set(0, held), compare_exchange(0, 0, 1)], &[0, 0]);
        assert_eq!(take(1, 1), [""; 0]);
        assert_eq!(take(257, 257), [TAKES_AT_WIDE]);
        assert_eq!(take(1, 257), [TAKES_NOT_BY_HIGH]);
        assert_eq!(take(257, 256), [TAKES_NOT_BY_LOW]);
        let ends = |asked| {
            let job = job(SC, [0; 3], &[set(0, 257)], &[register_is(0, 0, asked)]);
            of_replay(&job, &[0])
        };
        assert_eq!(ends(257), [REACHES_WIDE]);
        assert_eq!(ends(1), [SHORT_BY_HIGH]);
        assert_eq!(ends(256), [SHORT_BY_LOW]);
        assert_eq!(ends(512), [""; 0]);
    }

    #[test]
    fn replays_by_what_is_moved() {
        assert_eq!(met(256, &[load(0, 0)], &[0]), [LOADS_WIDE]);
        assert_eq!(met(255, &[load(0, 0)], &[0]), [""; 0]);
        let own = [put(0, 256), load(0, 0)];
        assert_eq!(met(0, &own, &[0, 0]), [LOADS_WIDE_OWN]);
        assert_eq!(met(0, &own, &[0, 4]), [FLUSHES_WIDE]);
        let through = [set(0, 256), store(0, 0), jump(0)];
        assert_eq!(met(0, &through, &[0, 0]), [STORES_WIDE]);
        assert_eq!(met(256, &[exchange(0, 0)], &[0]), [EXCHANGES_WIDE]);
        // A step that cannot be taken meets nothing.
        assert_eq!(met(256, &[load(0, 0)], &[1, 0]), [""; 0]);
        assert_eq!(of_replay(&P1, &[0]), [""; 0]);
    }

    /// The classes about values of a search with enough slots.
    fn found(job: &[u8]) -> Vec<&'static str> {
        let (mut table, mut schedule) = (vec![0; 99 * SLOT_BYTES], vec![0; 99]);
        let answer = search(job, &mut table, &mut vec![0; 99], &mut schedule);
        let searched = Searched {
            answer,
            table: &table,
            schedule: &schedule,
        };
        let mut classes = of_search(job, searched);
        classes.retain(|class| OF_WIDE_SEARCHES.contains(class));
        classes
    }

    #[test]
    fn searches_by_their_slots_and_by_what_their_answers_hang_on() {
        let never = [register_is(0, 3, 1)];
        let one = |memory, program: &[Item]| job(memory, [0; 3], program, &never);
        assert_eq!(found(&P1), [""; 0]);
        assert_eq!(found(&in_three(&P1)), [""; 0]);
        assert_eq!(found(&one(SC, &[set(0, 256)])), [WIDE_REGISTER]);
        assert_eq!(found(&one(SC, &[put(0, 256)])), [WIDE_MEMORY]);
        assert_eq!(
            found(&one([TSO, 1], &[put(0, 256)])),
            [WIDE_MEMORY, WIDE_STORE]
        );
        let grouped = [put(0, 1), WFENCE, put(1, 256)];
        assert!(found(&one([PSO, 2], &grouped)).contains(&WIDE_IN_GROUP));
        // Three states of which the low bytes make one, and three of which the high bytes do.
        let by_high = [add(0, 256), jump_if(0, 0, 256), jump_if(0, 0, 512)];
        let high = found(&one(SC, &by_high));
        assert_eq!(high, [WIDE_REGISTER, APART_BY_HIGH, OTHER_IF_NARROW]);
        let by_low = [set(0, 256), jump_if(1, 3, 1), set(0, 257), set(1, 0)];
        let low = one(SC, &[&by_low[..], &[jump(1)]].concat());
        assert!(found(&low).contains(&APART_BY_LOW));
        assert!(!found(&low).contains(&APART_BY_HIGH));
        let wraps = raised(&in_version(&P1, 2));
        assert!(found(&wraps).contains(&WIDE_STORE));
    }
}

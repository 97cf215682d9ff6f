//! Version 2 of the job file, which request 7 brought: what CMPX and WFENCE do in a job and in its calls, told once for the run cases and for the comparison.
//!
//! Version 3 has the same operations, so what tells of them takes the version that is counted (`of_job_in` and so on).

use crate::buffer::Buffer;
use crate::classes::those_met;
use crate::fences::open_pairs;
use crate::job::{decode, width, Instruction, Job, Model, Refusal};
use crate::machine::{reason, step, Reason, State, Step, SLOT_BYTES};
use crate::random::found_schedule;
use std::collections::BTreeSet;

const VERSION: u8 = 2;

// ---- jobs ----

/// Accepted, by model and capacity.
pub const WITH_MEMORY: [&str; 17] = [
    "SC", "TSO, C 1", "TSO, C 2", "TSO, C 3", "TSO, C 4", "TSO, C 5", "TSO, C 6", "TSO, C 7",
    "TSO, C 8", "PSO, C 1", "PSO, C 2", "PSO, C 3", "PSO, C 4", "PSO, C 5", "PSO, C 6", "PSO, C 7",
    "PSO, C 8",
];
/// By model.
pub const WITH_CMPX: [&str; 3] = ["CMPX under SC", "CMPX under TSO", "CMPX under PSO"];
pub const WITH_WFENCE: [&str; 3] = ["WFENCE under SC", "WFENCE under TSO", "WFENCE under PSO"];
pub const NEITHER: &str = "neither CMPX nor WFENCE";
pub const IN_VERSION_ONE: &str = "refused for CMPX or WFENCE in version 1";
pub const BAD_OPERAND: &str = "refused for an operand of CMPX or WFENCE";
pub const NO_VERSION: &str = "refused for its version";

/// What the file alone shows.
pub fn of_jobs() -> Vec<&'static str> {
    [
        &WITH_MEMORY[..],
        &WITH_CMPX,
        &WITH_WFENCE,
        &[NEITHER, IN_VERSION_ONE, BAD_OPERAND, NO_VERSION],
    ]
    .concat()
}

/// The classes of `of_jobs` that a job is in.
pub fn of_job(job: &[u8]) -> Vec<&'static str> {
    of_job_in(VERSION, job)
}

/// The same where jobs of this version are counted, of which version 1 is none.
pub fn of_job_in(version: u8, job: &[u8]) -> Vec<&'static str> {
    match decode(job) {
        Ok(accepted) if accepted.version == version => of_accepted(&accepted),
        Ok(_) => Vec::new(),
        Err(refusal) => of_refused(version, job, refusal),
    }
}

fn of_accepted(job: &Job) -> Vec<&'static str> {
    let model = match job.model {
        Model::Sc => 0,
        Model::Tso => 1,
        Model::Pso => 2,
    };
    let memory = match job.model {
        Model::Sc => 0,
        Model::Tso => job.capacity,
        Model::Pso => 8 + job.capacity,
    };
    let has = |wanted: fn(Instruction) -> bool| {
        let mut instructions = job.programs.iter().flatten();
        instructions.any(|&instruction| wanted(instruction))
    };
    let [cmpx, wfence] = [has(is_compare_exchange), has(is_wfence)];
    those_met(&[
        (WITH_MEMORY[memory], true),
        (WITH_CMPX[model], cmpx),
        (WITH_WFENCE[model], wfence),
        (NEITHER, !cmpx && !wfence),
    ])
}

fn of_refused(version: u8, job: &[u8], refusal: Refusal) -> Vec<&'static str> {
    match refusal.number {
        2 => vec![NO_VERSION],
        // No n so small is refused, so this is an operation.
        4 if matches!(job[refusal.offset], 10 | 11) => those_met(&[
            (IN_VERSION_ONE, job[2] == 1),
            (BAD_OPERAND, job[2] == version),
        ]),
        _ => Vec::new(),
    }
}

pub fn is_compare_exchange(instruction: Instruction) -> bool {
    matches!(instruction, Instruction::CompareExchange { .. })
}

pub fn is_wfence(instruction: Instruction) -> bool {
    instruction == Instruction::StoreFence
}

// ---- replays ----

pub const TAKES: &str = "a CMPX that takes";
pub const TAKES_NOT: &str = "a CMPX that does not take";
pub const WAITS_TO_TAKE: &str = "stuck at a CMPX that would take";
pub const WAITS_FOR_NOTHING: &str = "stuck at a CMPX that would not take";
pub const DOES_NOTHING: &str = "a WFENCE behind a store under TSO";
pub const ON_EMPTY: &str = "a WFENCE on an empty buffer";
pub const ON_FULL: &str = "a WFENCE on a full buffer";
pub const IN_A_ROW: &str = "a WFENCE behind a WFENCE";
pub const BEGINS_GROUP: &str = "a store that begins a later group";
pub const JOINS_GROUP: &str = "a store that joins a later group";
pub const LOADS_FROM_GROUP: &str = "a load from a later group";
pub const LOADS_THE_NEWER: &str = "a load that has a store in two groups to choose from";
pub const GROUP_GONE: &str = "a flush that makes a later group the oldest";
pub const WFENCE_STAYS: &str = "a flush that leaves a WFENCE";
pub const WFENCE_GONE: &str = "a flush that takes a WFENCE with it";
pub const THREE_GROUPS: &str = "three groups or more";
pub const IN_TWO_GROUPS: &str = "a variable in two groups";
pub const STUCK_BEHIND: &str = "stuck at a flush of a later group";
pub const STUCK_BESIDE: &str = "stuck at a flush of nothing beside groups";
pub const STUCK_FULL: &str = "stuck at a buffer full of groups";

/// What a schedule meets on its way; all but the first five under PSO.
pub const OF_REPLAYS: [&str; 20] = [
    TAKES,
    TAKES_NOT,
    WAITS_TO_TAKE,
    WAITS_FOR_NOTHING,
    DOES_NOTHING,
    ON_EMPTY,
    ON_FULL,
    IN_A_ROW,
    BEGINS_GROUP,
    JOINS_GROUP,
    LOADS_FROM_GROUP,
    LOADS_THE_NEWER,
    GROUP_GONE,
    WFENCE_STAYS,
    WFENCE_GONE,
    THREE_GROUPS,
    IN_TWO_GROUPS,
    STUCK_BEHIND,
    STUCK_BESIDE,
    STUCK_FULL,
];

/// The classes of `OF_REPLAYS` that a replay is in.
pub fn of_replay(job: &[u8], schedule: &[u8]) -> Vec<&'static str> {
    of_replay_in(VERSION, job, schedule)
}

/// The same where jobs of this version are counted.
pub fn of_replay_in(version: u8, job: &[u8], schedule: &[u8]) -> Vec<&'static str> {
    let job = match decode(job) {
        Ok(job) if job.version == version => job,
        _ => return Vec::new(),
    };
    let mut met = BTreeSet::new();
    let mut state = State::start(&job);
    for &number in schedule {
        met.extend(of_step(&job, &state, number));
        match step(&job, &state, number) {
            Ok(next) => state = next,
            Err(_) => break,
        }
        met.extend(state.threads.iter().flat_map(|own| of_buffer(&own.buffer)));
    }
    let classes = OF_REPLAYS.into_iter();
    classes.filter(|class| met.contains(class)).collect()
}

fn of_buffer(buffer: &Buffer) -> Vec<&'static str> {
    those_met(&[
        (THREE_GROUPS, buffer.groups().count() >= 3),
        (
            IN_TWO_GROUPS,
            (0..8).any(|variable| groups_with(buffer, variable) >= 2),
        ),
    ])
}

/// How many groups have a store to the variable.
fn groups_with(buffer: &Buffer, variable: u8) -> usize {
    let groups = buffer.groups();
    let with = groups.filter(|group| group.iter().any(|store| store.variable == variable));
    with.count()
}

fn of_step(job: &Job, state: &State, number: u8) -> Vec<&'static str> {
    let why_not = reason(job, state, number);
    match Step::from_number(number) {
        Some(Step::Execute { thread }) => {
            let own = state.threads.get(thread);
            let next = own.and_then(|own| job.programs[thread].get(own.place));
            let next = next.map(|&instruction| of_instruction(job, state, thread, instruction));
            next.map_or(Vec::new(), |classes| match why_not {
                None => classes.if_taken,
                Some(_) => classes.if_stuck,
            })
        }
        Some(Step::Flush { thread, variable }) => {
            let own = state.threads.get(thread);
            let buffer = own.map(|own| &own.buffer);
            buffer.map_or(Vec::new(), |buffer| {
                of_flush(job, buffer, variable, why_not)
            })
        }
        None => Vec::new(),
    }
}

/// The classes of an execute step, which depend on whether it can be taken.
struct Classes {
    if_taken: Vec<&'static str>,
    if_stuck: Vec<&'static str>,
}

fn of_instruction(job: &Job, state: &State, thread: usize, instruction: Instruction) -> Classes {
    let own = &state.threads[thread];
    let buffer = &own.buffer;
    let groups = buffer.groups().count();
    let under_pso = job.model == Model::Pso;
    let (if_taken, if_stuck) = match instruction {
        Instruction::CompareExchange {
            register, variable, ..
        } => {
            let takes = state.memory[variable] == own.registers[register];
            (
                vec![(TAKES, takes), (TAKES_NOT, !takes)],
                vec![(WAITS_TO_TAKE, takes), (WAITS_FOR_NOTHING, !takes)],
            )
        }
        Instruction::StoreFence => {
            let under_tso = job.model == Model::Tso;
            let taken = vec![
                (DOES_NOTHING, under_tso && groups > 0),
                (ON_EMPTY, under_pso && groups == 0),
                (ON_FULL, under_pso && buffer.pending() == job.capacity),
                (IN_A_ROW, buffer.has_wfence()),
            ];
            (taken, vec![])
        }
        Instruction::StoreRegister { .. } | Instruction::StoreConstant { .. } => (
            vec![
                (BEGINS_GROUP, buffer.has_wfence()),
                (JOINS_GROUP, !buffer.has_wfence() && groups >= 2),
            ],
            vec![(STUCK_FULL, groups >= 2)],
        ),
        Instruction::Load { variable, .. } => {
            let oldest = buffer.groups().next().unwrap_or_default();
            let from_oldest = oldest
                .iter()
                .any(|store| usize::from(store.variable) == variable);
            let with = groups_with(buffer, variable as u8);
            let taken = vec![
                (LOADS_FROM_GROUP, with == 1 && !from_oldest),
                (LOADS_THE_NEWER, with >= 2),
            ];
            (taken, vec![])
        }
        Instruction::Set { .. }
        | Instruction::Add { .. }
        | Instruction::Fence
        | Instruction::Exchange { .. }
        | Instruction::JumpIfEqual { .. }
        | Instruction::Jump { .. } => (vec![], vec![]),
    };
    Classes {
        if_taken: those_met(&if_taken),
        if_stuck: those_met(&if_stuck),
    }
}

fn of_flush(
    job: &Job,
    buffer: &Buffer,
    variable: usize,
    why_not: Option<Reason>,
) -> Vec<&'static str> {
    let groups = buffer.groups().count();
    let is_last = buffer.pending() == 1;
    let oldest = buffer.groups().next().unwrap_or_default();
    match why_not {
        None => those_met(&[
            (GROUP_GONE, groups >= 2 && oldest.len() == 1),
            (WFENCE_STAYS, buffer.has_wfence() && !is_last),
            (WFENCE_GONE, buffer.has_wfence() && is_last),
        ]),
        Some(Reason::NotTheOldest) => those_met(&[(STUCK_BEHIND, job.model == Model::Pso)]),
        Some(Reason::NothingToFlush) => {
            let is_variable = variable < job.initial.len();
            those_met(&[(STUCK_BESIDE, groups >= 2 && is_variable)])
        }
        Some(_) => Vec::new(),
    }
}

// ---- searches ----

pub const SLOT_WITH_WFENCE: &str = "a slot with a WFENCE";
pub const SLOT_WITH_TWO: &str = "a slot with two groups";
pub const SLOT_WITH_THREE: &str = "a slot with three groups";
pub const SLOT_WITH_MORE: &str = "a slot with more than three groups";
pub const SLOT_WITH_VARIABLE: &str = "a slot with a variable in two groups";
pub const HELD_BY_WFENCE: &str = "unreachable only by a WFENCE";
pub const WAY_OVER_CMPX: &str = "a way over a CMPX that takes";

/// What the slots show that a search has counted, and what its answer hangs on.
pub const OF_SEARCHES: [&str; 7] = [
    SLOT_WITH_WFENCE,
    SLOT_WITH_TWO,
    SLOT_WITH_THREE,
    SLOT_WITH_MORE,
    SLOT_WITH_VARIABLE,
    HELD_BY_WFENCE,
    WAY_OVER_CMPX,
];

/// What a search answered, and what it has written.
#[derive(Clone, Copy)]
pub struct Searched<'a> {
    pub answer: [u64; 4],
    pub table: &'a [u8],
    pub schedule: &'a [u8],
}

impl<'a> Searched<'a> {
    /// The slots of the states that it has counted.
    pub fn slots(&self) -> impl Iterator<Item = &'a [u8]> {
        let counted = match self.answer {
            [1, _, states, _] | [2 | 3, states, ..] => states,
            _ => 0,
        };
        self.table.chunks_exact(SLOT_BYTES).take(counted as usize)
    }

    /// The schedule that it has found, if one is.
    pub fn way(&self) -> &'a [u8] {
        match self.answer {
            [1, distance, ..] => &self.schedule[..distance as usize],
            _ => &[],
        }
    }
}

/// The classes of `OF_SEARCHES` that a search is in.
pub fn of_search(job: &[u8], searched: Searched) -> Vec<&'static str> {
    of_search_in(VERSION, job, searched)
}

/// The same where jobs of this version are counted.
pub fn of_search_in(version: u8, job: &[u8], searched: Searched) -> Vec<&'static str> {
    if decode(job).map_or(true, |job| job.version != version) {
        return Vec::new();
    }
    let is_shut_out = searched.answer[0] == 2;
    let on_the_way = of_replay_in(version, job, searched.way());
    let mut met: BTreeSet<&str> = searched.slots().flat_map(of_slot).collect();
    met.extend(those_met(&[
        (
            HELD_BY_WFENCE,
            is_shut_out && is_reached_without_wfences(job),
        ),
        (WAY_OVER_CMPX, on_the_way.contains(&TAKES)),
    ]));
    let classes = OF_SEARCHES.into_iter();
    classes.filter(|class| met.contains(class)).collect()
}

/// Read off the bytes as requests 7 and 10 have them.
fn of_slot(slot: &[u8]) -> Vec<&'static str> {
    let mut classes = Vec::new();
    for buffer in slot[52..].chunks_exact(25) {
        let count = usize::from(buffer[0] % 128);
        let signs: BTreeSet<u8> = buffer[1..]
            .chunks(3)
            .take(count)
            .map(|store| store[0])
            .collect();
        let groups = signs.iter().map(|sign| 1 + sign / 16).max().unwrap_or(0);
        let variables: BTreeSet<u8> = signs.iter().map(|sign| sign % 16).collect();
        classes.extend(those_met(&[
            (SLOT_WITH_WFENCE, buffer[0] >= 128),
            (SLOT_WITH_TWO, groups == 2),
            (SLOT_WITH_THREE, groups == 3),
            (SLOT_WITH_MORE, groups > 3),
            // A sign is a variable in one group, so some variable has two of them.
            (SLOT_WITH_VARIABLE, signs.len() > variables.len()),
        ]));
    }
    classes
}

/// The same job with ADD 0 in place of each WFENCE, where they stand in the file.
fn is_reached_without_wfences(job: &[u8]) -> bool {
    let mut changed = job.to_vec();
    for at in instructions_at(job) {
        if changed[at] == 11 {
            changed[at] = 2;
        }
    }
    changed != job && !found_schedule(&changed).is_empty()
}

/// Where the instructions of an accepted file begin.
pub fn instructions_at(job: &[u8]) -> Vec<usize> {
    let [value, item] = [width(job[2]).bytes(), width(job[2]).item_bytes()];
    let mut places = Vec::new();
    let mut at = 7 + value * usize::from(job[6]);
    for _ in 0..job[5] {
        let count = usize::from(job[at]);
        places.extend((0..count).map(|place| at + 1 + item * place));
        at += 1 + item * count;
    }
    places
}

// ---- fence checks ----

pub const CLOSED_BY_CMPX: &str = "FENCED only by a CMPX";
pub const LATER_BY_CMPX: &str = "OPEN by a later pair than without a CMPX";
pub const OPEN_OVER_WFENCE: &str = "OPEN only because WFENCE is no fence";
pub const SOONER_OVER_WFENCE: &str = "OPEN by a pair over a WFENCE, with another behind it";

/// What the answer of the fence check hangs on.
pub const OF_FENCE_CHECKS: [&str; 4] = [
    CLOSED_BY_CMPX,
    LATER_BY_CMPX,
    OPEN_OVER_WFENCE,
    SOONER_OVER_WFENCE,
];

/// The classes of `OF_FENCE_CHECKS` that a job is in.
pub fn of_fence_check(job: &[u8]) -> Vec<&'static str> {
    of_fence_check_in(VERSION, job)
}

/// The same where jobs of this version are counted.
pub fn of_fence_check_in(version: u8, job: &[u8]) -> Vec<&'static str> {
    let job = match decode(job) {
        Ok(job) if job.version == version => job,
        _ => return Vec::new(),
    };
    let least = |job: &Job| open_pairs(job).into_iter().next();
    let open_to_all = least(&with(&job, is_compare_exchange, Instruction::StoreFence));
    let closed_by_wfence = least(&with(&job, is_wfence, Instruction::Fence));
    let pair = least(&job);
    let moved_by_cmpx = open_to_all != pair;
    let moved_by_wfence = closed_by_wfence != pair;
    those_met(&[
        (CLOSED_BY_CMPX, moved_by_cmpx && pair.is_none()),
        (LATER_BY_CMPX, moved_by_cmpx && pair.is_some()),
        (
            OPEN_OVER_WFENCE,
            moved_by_wfence && closed_by_wfence.is_none(),
        ),
        (
            SOONER_OVER_WFENCE,
            moved_by_wfence && closed_by_wfence.is_some(),
        ),
    ])
}

/// The same job with another instruction in place of each of this kind.
pub fn with(job: &Job, kind: fn(Instruction) -> bool, other: Instruction) -> Job {
    let mut changed = job.clone();
    let instructions = changed.programs.iter_mut().flatten();
    for instruction in instructions.filter(|instruction| kind(**instruction)) {
        *instruction = other;
    }
    changed
}

#[cfg(test)]
mod tests {
    use super::*;
    use crate::listed::{file, in_version, with_byte, AT_THE_START, P1, PSO, SC, TSO};
    use crate::search::search;
    use crate::version_two_jobs::{
        compare_exchange, file_of_two, lock, message_passing_by_wfence, WFENCE,
    };

    const LOAD_Y: [u8; 4] = [3, 0, 1, 0];

    fn store(variable: u8) -> [u8; 4] {
        [5, 0, variable, 1]
    }

    #[test]
    fn the_names_say_model_and_capacity() {
        let of = |model: &str| {
            (1..=8)
                .map(|c| format!("{model}, C {c}"))
                .collect::<Vec<_>>()
        };
        let names = [vec!["SC".to_string()], of("TSO"), of("PSO")].concat();
        assert_eq!(names, WITH_MEMORY);
        for (model, names) in ["SC", "TSO", "PSO"]
            .into_iter()
            .zip(WITH_CMPX.into_iter().zip(WITH_WFENCE))
        {
            assert_eq!(names.0, format!("CMPX under {model}"));
            assert_eq!(names.1, format!("WFENCE under {model}"));
        }
    }

    #[test]
    fn jobs_by_memory_and_operations() {
        assert_eq!(of_job(&P1), [""; 0]);
        assert_eq!(of_job(&in_version(&P1, 2)), ["TSO, C 1", NEITHER]);
        let passing = |memory| of_job(&message_passing_by_wfence(memory));
        assert_eq!(passing(SC), ["SC", WITH_WFENCE[0]]);
        assert_eq!(passing([TSO, 8]), ["TSO, C 8", WITH_WFENCE[1]]);
        assert_eq!(passing([PSO, 1]), ["PSO, C 1", WITH_WFENCE[2]]);
        assert_eq!(of_job(&lock([TSO, 3])), ["TSO, C 3", WITH_CMPX[1]]);
    }

    #[test]
    fn refused_jobs_by_what_version_2_has_more() {
        assert_eq!(of_job(&[0, 1, 0]), [NO_VERSION]);
        assert_eq!(of_job(&[0, 1, 2]), [""; 0]);
        for op in [10, 11] {
            let of_one = with_byte(&P1, 10, op);
            assert_eq!(of_job(&of_one), [IN_VERSION_ONE]);
            // Register 4, which there is not, and a byte that must be 0.
            let bad = with_byte(&in_version(&of_one, 2), 11, 4);
            assert_eq!(of_job(&bad), [BAD_OPERAND]);
        }
        assert_eq!(of_job(&with_byte(&in_version(&P1, 2), 10, 12)), [""; 0]);
    }

    /// The classes of a replay of one thread, of three variables, all 0.
    fn met(memory: [u8; 2], program: &[[u8; 4]], schedule: &[u8]) -> Vec<&'static str> {
        let programs = [program.to_vec()];
        let job = file_of_two(memory, &[0; 3], &programs, 0, &[AT_THE_START]);
        of_replay(&job, schedule)
    }

    #[test]
    fn replays_over_a_cmpx() {
        let program = [compare_exchange(0, 0, 1), compare_exchange(0, 0, 2)];
        assert_eq!(met(SC, &program, &[0]), [TAKES]);
        assert_eq!(met(SC, &program, &[0, 0]), [TAKES, TAKES_NOT]);
        let waits = [store(1), compare_exchange(0, 0, 1)];
        assert_eq!(met([TSO, 1], &waits, &[0, 0]), [WAITS_TO_TAKE]);
        assert_eq!(met([TSO, 1], &waits, &[0, 5, 0]), [TAKES]);
        let for_nothing = [[1, 0, 0, 9], store(1), compare_exchange(0, 0, 1)];
        let stuck = met([PSO, 1], &for_nothing, &[0, 0, 0]);
        assert_eq!(stuck, [WAITS_FOR_NOTHING]);
        // In a file of version 1 there is nothing new.
        let job = file(SC, &[0], &[vec![store(0)]], 0, &[AT_THE_START]);
        assert_eq!(of_replay(&job, &[0]), [""; 0]);
    }

    #[test]
    fn replays_over_a_wfence() {
        let program = [WFENCE, store(0), WFENCE, WFENCE];
        assert_eq!(met(SC, &program, &[0; 4]), [""; 0]);
        assert_eq!(met([TSO, 1], &program, &[0; 3]), [DOES_NOTHING]);
        assert_eq!(met([PSO, 2], &program, &[0; 3]), [ON_EMPTY]);
        assert_eq!(met([PSO, 1], &program, &[0; 3]), [ON_EMPTY, ON_FULL]);
        let twice = met([PSO, 2], &program, &[0; 4]);
        assert_eq!(twice, [ON_EMPTY, IN_A_ROW]);
        let emptied = met([PSO, 2], &program, &[0, 0, 0, 4]);
        assert_eq!(emptied, [ON_EMPTY, WFENCE_GONE]);
        let left = [store(0), store(1), WFENCE];
        let left = met([PSO, 3], &left, &[0, 0, 0, 4]);
        assert_eq!(left, [WFENCE_STAYS]);
    }

    #[test]
    fn replays_over_groups() {
        let program = [store(0), WFENCE, store(1), store(0), LOAD_Y, [3, 0, 0, 0]];
        let met = |capacity, schedule: &[u8]| met([PSO, capacity], &program, schedule);
        assert_eq!(met(4, &[0; 3]), [BEGINS_GROUP]);
        let joined = [BEGINS_GROUP, JOINS_GROUP, IN_TWO_GROUPS];
        assert_eq!(met(4, &[0; 4]), joined);
        assert!(met(4, &[0; 5]).contains(&LOADS_FROM_GROUP));
        assert!(!met(4, &[0; 5]).contains(&LOADS_THE_NEWER));
        assert!(met(4, &[0; 6]).contains(&LOADS_THE_NEWER));
        assert_eq!(met(4, &[0, 0, 0, 4]), [BEGINS_GROUP, GROUP_GONE]);
        assert_eq!(met(4, &[0, 0, 0, 5]), [BEGINS_GROUP, STUCK_BEHIND]);
        assert_eq!(met(4, &[0, 0, 0, 6]), [BEGINS_GROUP, STUCK_BESIDE]);
        // Variable 3 is absent.
        assert_eq!(met(4, &[0, 0, 0, 7]), [BEGINS_GROUP]);
        assert_eq!(met(2, &[0, 0, 0, 0]), [BEGINS_GROUP, STUCK_FULL]);
    }

    #[test]
    fn three_groups() {
        let program = [store(0), WFENCE, store(1), WFENCE, store(2)];
        let all = met([PSO, 3], &program, &[0; 5]);
        assert_eq!(all, [BEGINS_GROUP, THREE_GROUPS]);
        assert_eq!(met([PSO, 3], &program, &[0; 4]), [BEGINS_GROUP]);
    }

    /// The classes of a search in as many slots as there are to count.
    fn found(job: &[u8]) -> Vec<&'static str> {
        let (mut table, mut schedule) = (vec![0; 400 * SLOT_BYTES], vec![0; 400]);
        let answer = search(job, &mut table, &mut vec![0; 400], &mut schedule);
        let searched = Searched {
            answer,
            table: &table,
            schedule: &schedule,
        };
        of_search(job, searched)
    }

    #[test]
    fn searches_by_their_slots_and_by_what_their_answers_hang_on() {
        assert_eq!(found(&P1), [""; 0]);
        assert_eq!(found(&message_passing_by_wfence(SC)), [""; 0]);
        assert_eq!(found(&message_passing_by_wfence([TSO, 2])), [""; 0]);
        let one = found(&message_passing_by_wfence([PSO, 1]));
        assert_eq!(one, [SLOT_WITH_WFENCE]);
        let two = found(&message_passing_by_wfence([PSO, 2]));
        assert_eq!(two, [SLOT_WITH_WFENCE, SLOT_WITH_TWO, HELD_BY_WFENCE]);
        let takes = vec![compare_exchange(0, 0, 1)];
        let taken = file_of_two(SC, &[0], &[takes], 0, &[[3, 0, 0, 1]]);
        assert_eq!(found(&taken), [WAY_OVER_CMPX]);
    }

    #[test]
    fn slots_by_their_bytes() {
        let of_buffer = |bytes: &[u8]| {
            let mut slot = vec![0; SLOT_BYTES];
            // That of the third thread.
            slot[102..102 + bytes.len()].copy_from_slice(bytes);
            of_slot(&slot)
        };
        assert_eq!(of_buffer(&[0]), [""; 0]);
        assert_eq!(of_buffer(&[2, 0, 0, 1, 1, 0, 1]), [""; 0]);
        assert_eq!(of_buffer(&[129, 7, 0, 1]), [SLOT_WITH_WFENCE]);
        // Values have no part in it.
        assert_eq!(of_buffer(&[2, 0, 99, 1, 17, 99, 1]), [SLOT_WITH_TWO]);
        let twice = of_buffer(&[2, 3, 0, 1, 19, 0, 1]);
        assert_eq!(twice, [SLOT_WITH_TWO, SLOT_WITH_VARIABLE]);
        let three = of_buffer(&[131, 0, 0, 1, 17, 0, 1, 34, 0, 1]);
        assert_eq!(three, [SLOT_WITH_WFENCE, SLOT_WITH_THREE]);
        let four = of_buffer(&[4, 0, 0, 1, 17, 0, 1, 34, 0, 1, 51, 0, 1]);
        assert_eq!(four, [SLOT_WITH_MORE]);
    }

    #[test]
    fn fence_checks_by_what_their_answers_hang_on() {
        let check = |program: &[[u8; 4]]| {
            let programs = [program.to_vec()];
            of_fence_check(&file_of_two(SC, &[0; 2], &programs, 0, &[AT_THE_START]))
        };
        let compare = compare_exchange(0, 0, 1);
        assert_eq!(check(&[store(0), LOAD_Y]), [""; 0]);
        assert_eq!(check(&[compare, LOAD_Y]), [""; 0]);
        assert_eq!(check(&[store(0), compare, LOAD_Y]), [CLOSED_BY_CMPX]);
        assert_eq!(
            check(&[store(0), compare, store(0), LOAD_Y]),
            [LATER_BY_CMPX]
        );
        assert_eq!(check(&[store(0), WFENCE, LOAD_Y]), [OPEN_OVER_WFENCE]);
        assert_eq!(
            check(&[store(0), WFENCE, LOAD_Y, store(0), LOAD_Y]),
            [SOONER_OVER_WFENCE]
        );
        assert_eq!(
            check(&[store(0), WFENCE, compare, LOAD_Y]),
            [CLOSED_BY_CMPX]
        );
    }
}

//! Repeatable random jobs, buffer sizes and schedules for a comparison.

use crate::bench::BENCH_SLOTS;
use crate::job::{
    decode, item, longest_file, width, Item, Job, Model, Value, Width, MOST_INSTRUCTIONS, VERSIONS,
};
use crate::listed::AT_THE_START;
use crate::machine::{reason, successors, Reason, State, Step, SLOT_BYTES};
use crate::search::search;
use std::collections::BTreeMap;

/// Splitmix64: tiny, and the same numbers everywhere for the same seed.
#[derive(Clone, Debug)]
pub struct Random {
    state: u64,
}

impl Random {
    pub fn new(seed: u64) -> Random {
        Random { state: seed }
    }

    pub fn word(&mut self) -> u64 {
        self.state = self.state.wrapping_add(0x9E37_79B9_7F4A_7C15);
        let mut mixed = self.state;
        mixed = (mixed ^ (mixed >> 30)).wrapping_mul(0xBF58_476D_1CE4_E5B9);
        mixed = (mixed ^ (mixed >> 27)).wrapping_mul(0x94D0_49BB_1331_11EB);
        mixed ^ (mixed >> 31)
    }

    /// A number from 0 to `bound` - 1; the slight bias does no harm here.
    pub fn below(&mut self, bound: usize) -> usize {
        (self.word() % bound as u64) as usize
    }

    /// A number from `least` to `most`, both included.
    pub fn between(&mut self, least: usize, most: usize) -> usize {
        least + self.below(most - least + 1)
    }

    pub fn byte(&mut self) -> u8 {
        self.word() as u8
    }

    pub fn percent(&mut self, chance: usize) -> bool {
        self.below(100) < chance
    }

    pub fn pick<T: Copy>(&mut self, choices: &[T]) -> T {
        choices[self.below(choices.len())]
    }
}

/// One comparison: a job, sizes for the lent buffers, and a schedule to replay.
#[derive(Clone, Debug)]
pub struct Case {
    pub job: Vec<u8>,
    pub sizes: Sizes,
    pub schedule: Vec<u8>,
}

/// A mix of all kinds of jobs, most of them sound.
pub fn case(random: &mut Random) -> Case {
    let job = match random.below(10) {
        0 => random_bytes(random),
        1..=3 => damaged_job(random),
        _ => sound_job(random),
    };
    let sizes = buffer_sizes(random, &job);
    let schedule = replay_schedule(random, &job);
    Case {
        job,
        sizes,
        schedule,
    }
}

/// Each version as often as the others.
pub fn some_version(random: &mut Random) -> u8 {
    let [first, last] = [*VERSIONS.start(), *VERSIONS.end()].map(usize::from);
    random.between(first, last) as u8
}

// ---- (a) random bytes ----

/// Random bytes, often with a front good enough to get past the first checks.
pub fn random_bytes(random: &mut Random) -> Vec<u8> {
    let version = some_version(random);
    random_bytes_of(random, version)
}

/// The same, where a good front has this version.
pub fn random_bytes_of(random: &mut Random, version: u8) -> Vec<u8> {
    // The last is a little more than a file may have.
    let most_bytes = random.pick(&[4, 20, 60, longest_file(version) + 23]);
    // Small bytes mean something far more often than large ones.
    let bound = random.pick(&[3, 10, 256]);
    let count = random.between(0, most_bytes);
    let mut bytes: Vec<u8> = (0..count).map(|_| random.below(bound) as u8).collect();
    if random.percent(75) {
        fix_length(&mut bytes);
    }
    if random.percent(66) {
        let front = good_front(random, version);
        for (byte, good) in bytes.iter_mut().skip(2).zip(front) {
            *byte = good;
        }
    }
    bytes
}

/// Version, model, C, T and V within their ranges.
fn good_front(random: &mut Random, version: u8) -> [u8; 5] {
    let model = random.below(3) as u8;
    let capacity = some_capacity(random, model);
    [
        version,
        model,
        capacity,
        random.between(1, 4) as u8,
        random.between(1, 8) as u8,
    ]
}

/// Makes the length field right, if there is one.
fn fix_length(bytes: &mut [u8]) {
    if bytes.len() >= 2 {
        let follow = (bytes.len() - 2) as u16;
        bytes[..2].copy_from_slice(&follow.to_be_bytes());
    }
}

// ---- (b) sound jobs ----

/// What a job is drawn from.
#[derive(Clone, Copy, Debug)]
struct Source {
    /// It says which operations there are, and how wide values are.
    version: u8,
    /// Most values are of these, so that conditions come true.
    few: [Value; 3],
}

impl Source {
    fn width(self) -> Width {
        width(self.version)
    }
}

/// Small values, or where there are others also such as are like them in one of their bytes, or with their bytes exchanged.
fn some_source(random: &mut Random, version: u8) -> Source {
    let small = [0, 1, 2];
    let few = match width(version).bytes() {
        1 => small,
        _ => random.pick(&[
            small,
            [0, 1, 256],
            [0, 256, 257],
            [0, 256, 512],
            [256, 257, 258],
            [256, 257, 511],
            [1, 257, 513],
            [1, 255, 256],
            [1, 255, 65_535],
        ]),
    };
    Source { version, few }
}

/// A job file in pieces; count bytes stand apart from what they count, so that they can lie.
#[derive(Clone, Debug)]
struct Draft {
    /// The version byte may lie.
    drawn_from: Source,
    version: u8,
    model: u8,
    capacity: u8,
    thread_count: u8,
    variable_count: u8,
    initial: Vec<Value>,
    programs: Vec<Program>,
    flag: u8,
    clause_count: u8,
    clauses: Vec<Item>,
}

#[derive(Clone, Debug)]
struct Program {
    count: u8,
    instructions: Vec<Item>,
}

impl Draft {
    fn bytes(&self) -> Vec<u8> {
        let width = self.drawn_from.width();
        let in_file = |items: &[Item]| -> Vec<u8> {
            let bytes = items.iter().flat_map(|item| item.in_file(width));
            bytes.collect()
        };
        let header = [
            self.model,
            self.capacity,
            self.thread_count,
            self.variable_count,
        ];
        let mut bytes = vec![0, 0, self.version];
        bytes.extend(header);
        bytes.extend(self.initial.iter().flat_map(|&value| width.in_file(value)));
        for program in &self.programs {
            bytes.push(program.count);
            bytes.extend(in_file(&program.instructions));
        }
        bytes.extend([self.flag, self.clause_count]);
        bytes.extend(in_file(&self.clauses));
        fix_length(&mut bytes);
        bytes
    }
}

/// A job that is accepted, with a goal that a random walk has mostly been at.
pub fn sound_job(random: &mut Random) -> Vec<u8> {
    let version = some_version(random);
    sound_job_of(random, version)
}

/// The same in this version.
pub fn sound_job_of(random: &mut Random, version: u8) -> Vec<u8> {
    sound_draft(random, version).bytes()
}

fn sound_draft(random: &mut Random, version: u8) -> Draft {
    let longest = random.percent(2);
    let mut draft = draft_with_any_goal(random, version, longest);
    let in_groups = version > 1 && !longest && random.percent(50);
    if in_groups {
        fill_with_groups(random, &mut draft);
    }
    if in_groups && random.percent(40) {
        choose_goal_without_wfences(random, &mut draft);
    } else {
        choose_goal(random, &mut draft, longest);
    }
    draft
}

fn draft_with_any_goal(random: &mut Random, version: u8, longest: bool) -> Draft {
    let model = random.below(3) as u8;
    let threads = if longest {
        4
    } else {
        random.pick(&[1, 1, 2, 2, 2, 2, 3, 3, 4])
    };
    let variables = if longest { 8 } else { some_variables(random) };
    let source = some_source(random, version);
    let mut programs = Vec::new();
    for _ in 0..threads {
        let count = if longest {
            MOST_INSTRUCTIONS
        } else {
            some_count(random)
        };
        programs.push(sound_program(random, source, count, variables));
    }
    Draft {
        drawn_from: source,
        version,
        model,
        capacity: some_capacity(random, model),
        thread_count: threads,
        variable_count: variables as u8,
        initial: (0..variables).map(|_| some_value(random, source)).collect(),
        programs,
        flag: random.below(2) as u8,
        // A job without a goal is refused, so this one stands in until a walk shows a better one.
        clause_count: 1,
        clauses: vec![AT_THE_START.into()],
    }
}

/// One or two threads whose buffers hold several groups; now and then under TSO, where WFENCE does nothing.
fn fill_with_groups(random: &mut Random, draft: &mut Draft) {
    draft.model = random.pick(&[1, 2, 2, 2, 2]);
    draft.capacity = random.between(1, 8) as u8;
    let variables = random.pick(&[2, 2, 3, 4, 8]);
    draft.variable_count = variables as u8;
    draft.initial.resize(variables, 0);
    draft.programs.truncate(random.pick(&[1, 1, 2]));
    draft.thread_count = draft.programs.len() as u8;
    let source = draft.drawn_from;
    for program in &mut draft.programs {
        *program = grouped_program(random, source, variables);
    }
}

/// A store or two, a WFENCE and now and then a load, over and over.
fn grouped_program(random: &mut Random, source: Source, variables: usize) -> Program {
    let [stores, wfence, loads, waits]: [&[u8]; 4] = [&[4, 5, 5, 5], &[11], &[3], &[10, 10, 6, 7]];
    let mut kinds = Vec::new();
    for _ in 0..random.between(1, 4) {
        kinds.extend(vec![stores; random.pick(&[1, 1, 1, 2])]);
        kinds.extend(vec![wfence; random.pick(&[0, 1, 1, 1, 1, 2])]);
        kinds.extend(vec![loads; random.pick(&[0, 0, 1])]);
        kinds.extend(vec![waits; random.pick(&[0, 0, 0, 0, 0, 1])]);
    }
    let count = kinds.len();
    let instructions = kinds.into_iter();
    let instructions =
        instructions.map(|kind| sound_instruction(random, source, kind, count, variables));
    Program {
        count: count as u8,
        instructions: instructions.collect(),
    }
}

fn some_capacity(random: &mut Random, model: u8) -> u8 {
    match model {
        0 => 0,
        1 | 2 => {
            let most = if random.percent(70) { 3 } else { 8 };
            random.between(1, most) as u8
        }
        3..=255 => panic!("{model} is no model"),
    }
}

/// Few variables make threads meet; many are needed for the layout's edges.
fn some_variables(random: &mut Random) -> usize {
    let most = random.pick(&[2, 2, 3, 8]);
    random.between(1, most)
}

/// Short programs mostly, because their state spaces can be searched in full.
fn some_count(random: &mut Random) -> usize {
    match random.below(50) {
        0 => random.pick(&[MOST_INSTRUCTIONS - 1, MOST_INSTRUCTIONS]),
        1..=3 => random.between(8, MOST_INSTRUCTIONS),
        4..=10 => random.between(5, 8),
        _ => random.between(0, 4),
    }
}

/// Few values mostly, so that conditions come true; edges sometimes, so that sums wrap.
fn some_value(random: &mut Random, source: Source) -> Value {
    let chance = random.below(10);
    match (source.width().bytes(), chance) {
        (1, 0) => random.byte().into(),
        (_, 0) => random.word() as Value,
        (1, 1) => random.pick(&[127, 128, 254, 255]),
        (_, 1) => random.pick(&[255, 256, 32_767, 32_768, 65_280, 65_534, 65_535]),
        _ => source.few[random.below(3)],
    }
}

fn sound_program(random: &mut Random, source: Source, count: usize, variables: usize) -> Program {
    let operations = some_operations(random, source.version);
    let front = quiet_front(random, count);
    let mut instructions: Vec<Item> = (0..count)
        .map(|place| {
            if place < front {
                quiet_instruction(random, source)
            } else {
                sound_instruction(random, source, operations, count, variables)
            }
        })
        .collect();
    if front > 0 && random.percent(60) {
        // Short walks and searches get past the front, too.
        instructions[0] = item(9, 0, front as u8, 0);
    }
    Program {
        count: count as u8,
        instructions,
    }
}

/// So many instructions at the front of a long program touch no variable, so that its first stores, loads and fences stand late.
fn quiet_front(random: &mut Random, count: usize) -> usize {
    if count > 8 && random.percent(50) {
        random.between(0, count)
    } else {
        0
    }
}

fn quiet_instruction(random: &mut Random, source: Source) -> Item {
    let register = random.below(4) as u8;
    let op = random.pick(&[1, 2]);
    item(op, register, 0, some_value(random, source))
}

/// The operations that a program is drawn from, those that make threads meet more often than others.
fn some_operations(random: &mut Random, version: u8) -> &'static [u8] {
    match version {
        1 => &OF_VERSION_ONE,
        _ if random.percent(10) => &OF_VERSION_ONE,
        2 => &[1, 2, 3, 3, 3, 4, 4, 5, 5, 5, 6, 7, 8, 9, 10, 10, 11, 11],
        // More that looks at both bytes.
        _ => &[
            1, 2, 2, 2, 3, 3, 3, 4, 4, 5, 5, 5, 6, 7, 8, 8, 9, 10, 10, 11, 11,
        ],
    }
}

const OF_VERSION_ONE: [u8; 14] = [1, 2, 3, 3, 3, 4, 4, 5, 5, 5, 6, 7, 8, 9];

fn sound_instruction(
    random: &mut Random,
    source: Source,
    operations: &[u8],
    count: usize,
    variables: usize,
) -> Item {
    let register = random.pick(&[0, 0, 0, 1, 1, 2, 3]);
    let variable = random.below(variables) as u8;
    let place = random.between(0, count) as u8;
    let value = some_value(random, source);
    match random.pick(operations) {
        op @ (1 | 2) => item(op, register, 0, value),
        op @ (3 | 4 | 7) => item(op, register, variable, 0),
        5 => item(5, 0, variable, value),
        op @ (6 | 11) => item(op, 0, 0, 0),
        8 => item(8, register, place, value),
        9 => item(9, 0, place, 0),
        10 => item(10, register, variable, value),
        other => panic!("{other} is no operation"),
    }
}

fn choose_goal(random: &mut Random, draft: &mut Draft, longest: bool) {
    let state = end_of_walk(random, draft);
    let count = if longest {
        16
    } else {
        some_clause_count(random)
    };
    let mut clauses: Vec<Item> = (0..count).map(|_| clause_about(random, &state)).collect();
    if random.percent(40) {
        // Naming all places keeps the goal far from the start.
        let places = state.threads.iter().enumerate();
        clauses.extend(places.map(|(thread, t)| item(1, thread as u8, 0, t.place as Value)));
    }
    if random.percent(25) {
        spoil_a_clause(random, draft.drawn_from, &mut clauses);
    }
    if random.percent(10) {
        contradict_a_clause(random, draft, &mut clauses);
    }
    clauses.truncate(16);
    draft.clause_count = clauses.len() as u8;
    draft.clauses = clauses;
}

fn some_clause_count(random: &mut Random) -> usize {
    match random.below(20) {
        0 => 1,
        1 => 16,
        2 => random.between(1, 16),
        _ => random.between(1, 5),
    }
}

/// The state some random steps away from the start, often with drained buffers if they must be.
fn end_of_walk(random: &mut Random, draft: &Draft) -> State {
    let job = decode(&draft.bytes()).expect("a draft with any goal is sound");
    let mut state = State::start(&job);
    for _ in 0..random.between(0, 30) {
        let moves: Vec<State> = successors(&job, &state).into_values().collect();
        if moves.is_empty() {
            break;
        }
        state = moves[random.below(moves.len())].clone();
    }
    if draft.flag == 1 && random.percent(90) {
        // Flush steps are numbered from 4, so the greatest enabled step drains if any does.
        while state.threads.iter().any(|thread| thread.pending() > 0) {
            state = successors(&job, &state)
                .into_values()
                .last()
                .expect("a pending store can go");
        }
    }
    state
}

/// Places and memory that a walk comes by where nothing keeps stores apart, so that WFENCEs may shut them out.
fn choose_goal_without_wfences(random: &mut Random, draft: &mut Draft) {
    draft.flag = 0;
    let job = decode(&without_wfences(draft).bytes()).expect("a draft with any goal is sound");
    let (_, states) = busy_walk(random, &job);
    // One store has gone before another: only there can they have changed places.
    let between = |state: &&State| {
        let waits = state.threads.iter().any(|thread| thread.pending() > 0);
        waits && state.memory != job.initial
    };
    let between: Vec<&State> = states.iter().filter(between).collect();
    let state = match between.len() {
        0 => &states[0],
        count => between[random.below(count)],
    };
    let places = (0..).zip(&state.threads);
    let memory = (0..).zip(&state.memory);
    draft.clauses = places
        .map(|(thread, own)| item(1, thread, 0, own.place as Value))
        .chain(memory.map(|(variable, &value)| item(3, variable, 0, value)))
        .collect();
    draft.clause_count = draft.clauses.len() as u8;
}

/// The same draft with ADD 0 in place of each WFENCE.
fn without_wfences(draft: &Draft) -> Draft {
    let mut changed = draft.clone();
    let programs = changed.programs.iter_mut();
    for instruction in programs.flat_map(|program| &mut program.instructions) {
        if instruction.first == 11 {
            *instruction = item(2, 0, 0, 0);
        }
    }
    changed
}

/// A clause that is true of the state.
fn clause_about(random: &mut Random, state: &State) -> Item {
    let thread = random.below(state.threads.len());
    let register = random.below(4);
    let variable = random.below(state.memory.len());
    match random.below(3) {
        0 => item(1, thread as u8, 0, state.threads[thread].place as Value),
        1 => {
            let value = state.threads[thread].registers[register];
            item(2, thread as u8, register as u8, value)
        }
        _ => item(3, variable as u8, 0, state.memory[variable]),
    }
}

/// Asks for another value, which is often never reached; places stay in their range.
fn spoil_a_clause(random: &mut Random, source: Source, clauses: &mut [Item]) {
    let index = random.below(clauses.len());
    if clauses[index].first != 1 {
        clauses[index].k = some_value(random, source);
    }
}

/// Adds a second clause about the same thing, sometimes equal and mostly at odds.
fn contradict_a_clause(random: &mut Random, draft: &Draft, clauses: &mut Vec<Item>) {
    let mut rival = clauses[random.below(clauses.len())];
    rival.k = match rival.first {
        1 => {
            let count = draft.programs[usize::from(rival.a)].count;
            random.between(0, usize::from(count)) as Value
        }
        2 | 3 => some_value(random, draft.drawn_from),
        0 | 4..=255 => panic!("{rival:?} is no clause"),
    };
    clauses.insert(0, rival);
}

// ---- (c) damaged jobs ----

/// A sound job with one or two faults, or values at the edge of a fault.
pub fn damaged_job(random: &mut Random) -> Vec<u8> {
    let version = some_version(random);
    damaged_job_of(random, version)
}

/// The same from a job of this version.
pub fn damaged_job_of(random: &mut Random, version: u8) -> Vec<u8> {
    let mut draft = sound_draft(random, version);
    // Two faults at once show which one wins.
    let (edges, scars) = random.pick(&[(1, 0), (1, 0), (2, 0), (1, 1), (0, 1), (0, 2)]);
    for _ in 0..edges {
        push_to_edge(random, &mut draft);
    }
    let mut bytes = draft.bytes();
    for _ in 0..scars {
        scar(random, &mut bytes);
    }
    bytes
}

/// Damages the bytes without regard to what they mean.
fn scar(random: &mut Random, bytes: &mut Vec<u8>) {
    match random.below(4) {
        0 => flip_bits(random, bytes),
        1 => {
            let rest = random.between(0, bytes.len());
            bytes.truncate(rest);
            settle_length(random, bytes);
        }
        2 => {
            let extra = random.pick(&[1, 1, 2, 3, 4, 30]);
            bytes.extend((0..extra).map(|_| random.pick(&[0, 1, 6, 255])));
            settle_length(random, bytes);
        }
        _ => wrong_length(random, bytes),
    }
}

/// Many damaged files get a right length again, so that later checks see the damage.
fn settle_length(random: &mut Random, bytes: &mut [u8]) {
    if random.percent(60) {
        fix_length(bytes);
    }
}

fn flip_bits(random: &mut Random, bytes: &mut [u8]) {
    if bytes.is_empty() {
        return;
    }
    for _ in 0..random.between(1, 3) {
        // Flips behind the length field are seen by more of the checks.
        let first = if bytes.len() > 2 && random.percent(90) {
            2
        } else {
            0
        };
        let index = random.between(first, bytes.len() - 1);
        bytes[index] ^= 1 << random.below(8);
    }
}

fn wrong_length(random: &mut Random, bytes: &mut [u8]) {
    if bytes.len() < 2 {
        return;
    }
    let right = bytes.len() as u16 - 2;
    let wrong = match random.below(5) {
        0 => right.wrapping_add(1),
        1 => right.wrapping_sub(1),
        2 => right + 2,
        3 => right.swap_bytes(),
        _ => random.word() as u16,
    };
    bytes[..2].copy_from_slice(&wrong.to_be_bytes());
}

/// Puts one field at or just over the edge of its range.
fn push_to_edge(random: &mut Random, draft: &mut Draft) {
    match random.below(13) {
        0 => edge_version(random, draft),
        1 => draft.model = random.pick(&[0, 1, 2, 3, 255]),
        2 => draft.capacity = random.pick(&[0, 1, 8, 9, 255]),
        3 => edge_thread_count(random, draft),
        4 => edge_variable_count(random, draft),
        5 => draft.flag = random.pick(&[0, 1, 2, 255]),
        6 | 7 => edge_program_count(random, draft),
        8 => edge_clause_count(random, draft),
        9 | 10 => edge_instruction(random, draft),
        _ => edge_clause(random, draft),
    }
}

/// Numbers that are no version in later requests either; for a job that may have CMPX and WFENCE also 1, which has neither, and for one of wide values also those that have none.
fn edge_version(random: &mut Random, draft: &mut Draft) {
    draft.version = match draft.drawn_from.version {
        1 => random.pick(&[0, 4, 255]),
        2 => random.pick(&[0, 1, 1, 1, 4, 255]),
        _ => random.pick(&[0, 1, 2, 2, 4, 255]),
    };
}

fn edge_thread_count(random: &mut Random, draft: &mut Draft) {
    draft.thread_count = random.pick(&[0, 1, 4, 5]);
    if random.percent(60) {
        let count = some_count(random);
        let variables = draft.initial.len().max(1);
        let filler = sound_program(random, draft.drawn_from, count, variables);
        draft
            .programs
            .resize(usize::from(draft.thread_count), filler);
    }
}

fn edge_variable_count(random: &mut Random, draft: &mut Draft) {
    draft.variable_count = random.pick(&[0, 1, 8, 9]);
    if random.percent(60) {
        draft.initial.resize(usize::from(draft.variable_count), 0);
    }
}

fn edge_program_count(random: &mut Random, draft: &mut Draft) {
    if draft.programs.is_empty() {
        return;
    }
    let variables = draft.initial.len().max(1);
    let thread = random.below(draft.programs.len());
    let most = MOST_INSTRUCTIONS;
    let count = random.pick(&[0, most - 1, most, most + 1, 255]);
    draft.programs[thread] = match random.below(3) {
        0 => Program {
            count: count as u8,
            instructions: draft.programs[thread].instructions.clone(),
        },
        _ => sound_program(random, draft.drawn_from, count, variables),
    };
}

fn edge_clause_count(random: &mut Random, draft: &mut Draft) {
    draft.clause_count = random.pick(&[0, 15, 16, 17, 255]);
    if random.percent(70) {
        draft
            .clauses
            .resize(usize::from(draft.clause_count), item(3, 0, 0, 0));
    }
}

fn edge_instruction(random: &mut Random, draft: &mut Draft) {
    let source = draft.drawn_from;
    let variables = draft.variable_count;
    let filled = |program: &&mut Program| !program.instructions.is_empty();
    let mut programs: Vec<&mut Program> = draft.programs.iter_mut().filter(filled).collect();
    if programs.is_empty() {
        return;
    }
    let chosen = random.below(programs.len());
    let count = programs[chosen].count;
    let place = random.below(programs[chosen].instructions.len());
    programs[chosen].instructions[place] = instruction_at_edge(random, source, count, variables);
}

fn instruction_at_edge(random: &mut Random, source: Source, count: u8, variables: u8) -> Item {
    let Source { version, .. } = source;
    let width = source.width();
    let register = random.pick(&[0, 3, 3, 4, 255]);
    let variable = random.pick(&[0, variables.wrapping_sub(1), variables, 255]);
    let place = random.pick(&[0, count, count, count.wrapping_add(1), 255]);
    let value = some_value(random, source);
    // Bytes that must be 0 are 0 mostly, so that the operand is what is judged.
    let zero = random.pick(&[0, 0, 0, 0, 1, 255]);
    let other_zero = random.pick(&[0, 0, 0, 0, 1]);
    let tried: &[u8] = match version {
        1 => &[0, 1, 2, 3, 4, 5, 6, 7, 8, 8, 9, 9, 10, 255],
        _ => &[
            0, 1, 2, 3, 4, 5, 6, 7, 8, 9, 10, 10, 10, 11, 11, 11, 12, 255,
        ],
    };
    match random.pick(tried) {
        op @ (1 | 2) => item(op, register, zero, value),
        op @ (3 | 4 | 7) => item(op, register, variable, in_some_byte(random, width, zero)),
        5 => item(5, zero, variable, value),
        op @ (6 | 11) => {
            let last = random.pick(&[0, 0, 0, 1]);
            item(op, zero, other_zero, in_some_byte(random, width, last))
        }
        8 => item(8, register, place, value),
        9 => item(9, zero, place, in_some_byte(random, width, other_zero)),
        10 if version > 1 => item(10, register, variable, value),
        // All operands 0 would be in range anywhere, so only the number can be at fault.
        op => item(op, 0, 0, 0),
    }
}

/// A k of which this is one byte, the low one or the high one, and the other 0.
fn in_some_byte(random: &mut Random, width: Width, byte: u8) -> Value {
    let low = Value::from(byte);
    match width.bytes() {
        1 => low,
        _ => random.pick(&[low, low << 8]),
    }
}

fn edge_clause(random: &mut Random, draft: &mut Draft) {
    let clause = clause_at_edge(random, draft);
    if draft.clauses.is_empty() {
        draft.clauses.push(clause);
        draft.clause_count = draft.clause_count.wrapping_add(1);
    } else {
        let index = random.below(draft.clauses.len());
        draft.clauses[index] = clause;
    }
}

fn clause_at_edge(random: &mut Random, draft: &Draft) -> Item {
    let source = draft.drawn_from;
    let last = draft.thread_count.wrapping_sub(1);
    let thread = random.pick(&[0, last, last, draft.thread_count]);
    let count = draft
        .programs
        .get(usize::from(thread))
        .map_or(0, |program| program.count);
    let place = random.pick(&[0, count, count, count.wrapping_add(1), 255]);
    let register = random.pick(&[0, 3, 3, 4, 255]);
    let variables = draft.variable_count;
    let variable = random.pick(&[0, variables.wrapping_sub(1), variables, 255]);
    let zero = random.pick(&[0, 0, 0, 1, 255]);
    let value = some_value(random, source);
    match random.pick(&[0, 1, 1, 1, 2, 2, 3, 3, 4, 255]) {
        1 => item(
            1,
            thread,
            zero,
            about_the_place(random, source.width(), place),
        ),
        2 => item(2, thread, register, value),
        3 => item(3, variable, zero, value),
        kind => item(kind, 0, 0, 0),
    }
}

/// Where a place has two bytes, now and then another one that has this place in one of them.
fn about_the_place(random: &mut Random, width: Width, place: u8) -> Value {
    let place = Value::from(place);
    match width.bytes() {
        1 => place,
        _ => random.pick(&[place, place, place, 256 + place, place << 8]),
    }
}

// ---- buffer sizes ----

/// How many table bytes, links and schedule bytes to lend.
#[derive(Clone, Copy, Debug, PartialEq, Eq)]
pub struct Sizes {
    pub table: usize,
    pub links: usize,
    pub schedule: usize,
}

/// Slots that a first search may use to learn how many states there are to count.
const PROBE_SLOTS: usize = 1024;

/// Sizes for a search, many of them at an edge of N.
pub fn buffer_sizes(random: &mut Random, job: &[u8]) -> Sizes {
    match random.below(10) {
        0 => tiny_sizes(random),
        1 => {
            let slots = random.between(1, 40);
            narrowed(random, slots)
        }
        2 => narrowed(random, BENCH_SLOTS),
        3 => {
            let slots = random.between(1, PROBE_SLOTS);
            narrowed(random, slots)
        }
        _ => {
            let slots = around_the_count(random, job);
            narrowed(random, slots)
        }
    }
}

fn tiny_sizes(random: &mut Random) -> Sizes {
    Sizes {
        table: random.pick(&[
            0,
            1,
            SLOT_BYTES - 1,
            SLOT_BYTES,
            SLOT_BYTES + 1,
            2 * SLOT_BYTES - 1,
            2 * SLOT_BYTES,
            2 * SLOT_BYTES + 1,
            10 * SLOT_BYTES,
        ]),
        links: random.pick(&[0, 1, 2, 3, 10]),
        schedule: random.pick(&[0, 1, 2, 3, 10]),
    }
}

/// One below, at or one above the number of states that a search counts with enough slots.
fn around_the_count(random: &mut Random, job: &[u8]) -> usize {
    let mut table = vec![0; PROBE_SLOTS * SLOT_BYTES];
    let mut links = vec![0; PROBE_SLOTS];
    let mut schedule = vec![0; PROBE_SLOTS];
    let count = match search(job, &mut table, &mut links, &mut schedule) {
        [1, _, states, _] => states as usize,
        [2, states, _, _] => states as usize,
        [0 | 3, ..] => random.between(1, PROBE_SLOTS),
        answer => panic!("the search answered {answer:?}, which has no meaning"),
    };
    random.pick(&[count.saturating_sub(1), count, count, count + 1])
}

/// Makes N equal `slots`, with any of the three buffers the smallest.
fn narrowed(random: &mut Random, slots: usize) -> Sizes {
    let spare = random.pick(&[0, 0, 1, 7]);
    let part_of_a_slot = random.pick(&[0, 0, 1, SLOT_BYTES - 1]);
    let table = slots * SLOT_BYTES + part_of_a_slot;
    let roomy_table = table + spare * SLOT_BYTES;
    match random.below(4) {
        0 => Sizes {
            table,
            links: slots + spare,
            schedule: slots + spare,
        },
        1 => Sizes {
            table: roomy_table,
            links: slots,
            schedule: slots + spare,
        },
        2 => Sizes {
            table: roomy_table,
            links: slots + spare,
            schedule: slots,
        },
        _ => Sizes {
            table,
            links: slots,
            schedule: slots,
        },
    }
}

// ---- schedules ----

/// A schedule for replay: found ones, walks, walks into a step that cannot be taken, and random bytes, some with a bad step.
pub fn replay_schedule(random: &mut Random, job: &[u8]) -> Vec<u8> {
    let mut schedule = match random.below(10) {
        0..=2 => found_schedule(job),
        3..=5 => walk_schedule(random, job),
        6..=8 => stuck_schedule(random, job),
        _ => (0..random.between(0, 12))
            .map(|_| random.below(40) as u8)
            .collect(),
    };
    if random.percent(15) {
        spoil_a_step(random, &mut schedule);
    }
    if random.percent(10) {
        schedule.push(random.below(36) as u8);
    }
    schedule
}

/// A walk up to where some step cannot be taken, and that step, often for a reason that is seldom met.
pub fn stuck_schedule(random: &mut Random, job: &[u8]) -> Vec<u8> {
    let job = match decode(job) {
        Ok(job) => job,
        Err(_) => return Vec::new(),
    };
    // There are so many numbers above 35 that one has to stand for them all.
    let above = random.between(36, 255) as u8;
    let mut withheld: BTreeMap<Reason, Vec<(usize, u8)>> = BTreeMap::new();
    let (walk, states) = busy_walk(random, &job);
    for (taken, state) in states.iter().enumerate() {
        for number in (0..36).chain([above]) {
            if let Some(reason) = reason(&job, state, number) {
                // Where stores are pending, another reason could be mistaken for the right one.
                let weight = if has_pending(state, number) { 8 } else { 1 };
                let places = withheld.entry(reason).or_default();
                places.extend(vec![(taken, number); weight]);
            }
        }
    }
    let mut reasons: Vec<Reason> = withheld.keys().copied().collect();
    if reasons.iter().any(is_seldom) && random.percent(60) {
        reasons.retain(is_seldom);
    }
    let behind = Reason::NotTheOldest;
    // Under PSO it takes groups, which few walks come to.
    if job.model == Model::Pso && reasons.contains(&behind) && random.percent(60) {
        reasons = vec![behind];
    }
    let picked = random.pick(&reasons);
    let (taken, number) = random.pick(&withheld[&picked]);
    [&walk[..taken], &[number]].concat()
}

/// Whether stores of the step's thread are pending.
fn has_pending(state: &State, number: u8) -> bool {
    let thread = match Step::from_number(number) {
        Some(Step::Execute { thread } | Step::Flush { thread, .. }) => state.threads.get(thread),
        None => None,
    };
    thread.map_or(false, |thread| thread.pending() > 0)
}

/// Steps with one of the other reasons are there in almost every state.
fn is_seldom(reason: &Reason) -> bool {
    matches!(
        reason,
        Reason::BufferFull | Reason::BufferNotEmpty | Reason::NotTheOldest
    )
}

/// A walk on which stores wait for long, so that buffers fill; with the states before it, on it and behind it.
fn busy_walk(random: &mut Random, job: &Job) -> (Vec<u8>, Vec<State>) {
    let mut walk = Vec::new();
    let mut states = vec![State::start(job)];
    for _ in 0..random.between(0, 30) {
        let mut moves = successors(job, &states[walk.len()]);
        let mut steps: Vec<u8> = moves.keys().copied().collect();
        if steps.iter().any(|&step| step < 4) && random.percent(85) {
            steps.retain(|&step| step < 4);
        }
        if steps.is_empty() {
            break;
        }
        let step = random.pick(&steps);
        walk.push(step);
        states.extend(moves.remove(&step));
    }
    (walk, states)
}

/// The schedule that a search finds, or none.
pub fn found_schedule(job: &[u8]) -> Vec<u8> {
    let mut table = vec![0; PROBE_SLOTS * SLOT_BYTES];
    let mut links = vec![0; PROBE_SLOTS];
    let mut schedule = vec![0; PROBE_SLOTS];
    match search(job, &mut table, &mut links, &mut schedule) {
        [1, distance, _, _] => schedule[..distance as usize].to_vec(),
        [0 | 2 | 3, ..] => Vec::new(),
        answer => panic!("the search answered {answer:?}, which has no meaning"),
    }
}

fn walk_schedule(random: &mut Random, job: &[u8]) -> Vec<u8> {
    let mut schedule = Vec::new();
    if let Ok(job) = decode(job) {
        // Groups need stores that wait.
        if job.version > 1 && random.percent(50) {
            return busy_walk(random, &job).0;
        }
        let mut state = State::start(&job);
        for _ in 0..random.between(0, 40) {
            let mut moves: Vec<(u8, State)> = successors(&job, &state).into_iter().collect();
            if moves.is_empty() {
                break;
            }
            let (step, next) = moves.swap_remove(random.below(moves.len()));
            schedule.push(step);
            state = next;
        }
    }
    schedule
}

/// Numbers just above the last step, and ones that reappear as steps when bits are lost.
fn spoil_a_step(random: &mut Random, schedule: &mut Vec<u8>) {
    let low_byte = random.below(36) as u8;
    let bad = random.pick(&[36, 63, 64, 255, 64 + low_byte, 128 + low_byte, low_byte]);
    if schedule.is_empty() {
        schedule.push(bad);
    } else {
        let index = random.below(schedule.len());
        schedule[index] = bad;
    }
}

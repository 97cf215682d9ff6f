//! Jobs to compare on: the listed ones first, then random ones of many shapes, sound and damaged.

use crate::lengths;
use crate::walk::walk;
use second::job::{item, longest_file, width, Item, Value, Width, MOST_INSTRUCTIONS};
use second::listed::{
    at_the_limit, bench_list, file, in_version, settled, with_byte, Memory, Parts, Program,
    AT_THE_START, FURTHEST_PLACE, P1, PSO, SC, TSO,
};
use second::long_threads::MOST_BEFORE;
use second::machine::State;
use second::random::{damaged_job, random_bytes, some_version, sound_job, sound_job_of, Random};
use second::version_three_jobs::{
    at_the_limit_of_three, classics_of_three, in_three, of_length, raised,
};
use second::version_two::instructions_at;
use second::version_two_jobs::{at_the_limit_of_two, classics_of_two, compare_exchange, WFENCE};
use second::{decode, Job};
use std::ops::Range;

/// The job of a run that has more states than a search ever counts.
pub const COUNTER: u64 = 0;

thread_local! {
    static LISTED: Vec<Vec<u8>> = listed();
}

/// Job `number` of a run: every run begins with the listed jobs.
pub fn job(random: &mut Random, number: u64) -> Vec<u8> {
    let listed = LISTED.with(|listed| listed.get(number as usize).cloned());
    listed.unwrap_or_else(|| random_job(random))
}

/// One of many shapes, sound or damaged.
pub fn random_job(random: &mut Random) -> Vec<u8> {
    match random.below(100) {
        0..=5 => random_bytes(random),
        6..=7 => with_misused_operation(random),
        8..=9 => with_wide_fault(random),
        10..=23 => damaged_job(random),
        24..=27 => {
            let job = sound_of_any_shape(random);
            with_blank_goal(random, job)
        }
        28..=31 => {
            let job = one_of_the_listed(random, |_| true);
            damaged(random, job)
        }
        32..=36 => {
            let job = match random.below(10) {
                0..=6 => handshake(random),
                7 => parked(random),
                _ => sequencer(random),
            };
            damaged(random, job)
        }
        37..=42 => sound_job(random),
        43..=46 => crowded(random),
        47..=49 => deep_buffer(random),
        50..=56 => parked(random),
        57..=62 => sequencer(random),
        63..=72 => {
            let job = sound_job(random);
            with_far_goal(random, job, FAR)
        }
        73..=84 => handshake(random),
        85..=95 => {
            let job = handshake(random);
            with_far_goal(random, job, FAR)
        }
        96..=97 => message(random),
        _ => full_size(random),
    }
}

fn sound_of_any_shape(random: &mut Random) -> Vec<u8> {
    match random.below(5) {
        0 => sound_job(random),
        1 => handshake(random),
        2 => full_size(random),
        3 => parked(random),
        _ => one_of_the_listed(random, |job| decode(job).is_ok()),
    }
}

fn one_of_the_listed(random: &mut Random, wanted: fn(&[u8]) -> bool) -> Vec<u8> {
    LISTED.with(|listed| {
        let wanted: Vec<&Vec<u8>> = listed.iter().filter(|job| wanted(job)).collect();
        random.pick(&wanted).clone()
    })
}

/// The counter, the bench list and its refused inputs, and a job at every limit; then those that versions 2 and 3 have more.
fn listed() -> Vec<Vec<u8>> {
    let mut jobs = vec![counter()];
    jobs.extend(bench_list());
    let longest = at_the_limit();
    let too_long = settled([&longest[..], &[0]].concat());
    jobs.extend([vec![], vec![0, 1, 0], vec![0, 1, 1], with_byte(&P1, 10, 10)]);
    jobs.extend([longest, too_long]);
    jobs.extend(listed_of_two());
    jobs.extend(listed_of_three());
    jobs
}

/// What version 2 takes or refuses otherwise than version 1, P1, jobs that hang on CMPX and WFENCE, and one at every limit.
fn listed_of_two() -> Vec<Vec<u8>> {
    let p1 = in_version(&P1, 2);
    let mut jobs = vec![
        vec![0, 1, 2],
        with_byte(&p1, 10, 10),
        with_byte(&p1, 10, 11),
    ];
    jobs.push(p1);
    jobs.extend(classics_of_two([PSO, 3]));
    jobs.push(at_the_limit_of_two());
    jobs
}

/// P1 as it stands, with its values in the high bytes, and under the wrong number; jobs that hang on both bytes of a value, one at every limit, and files about both limits of length.
fn listed_of_three() -> Vec<Vec<u8>> {
    let p1 = in_three(&P1);
    let mut jobs = vec![
        vec![0, 1, 3],
        with_byte(&p1, 12, 11),
        in_version(&p1, 1),
        in_version(&p1, 2),
        in_version(&P1, 3),
        raised(&P1),
    ];
    jobs.push(p1);
    jobs.extend(classics_of_three([PSO, 3]));
    jobs.push(at_the_limit_of_three());
    for version in [0, 1, 2, 3, 4, 255] {
        let lengths = lengths::edges().into_iter();
        jobs.extend(lengths.map(|length| of_length(version, length)));
    }
    jobs
}

/// Counts to 65,536 in two registers, one state after another.
fn counter() -> Vec<u8> {
    let program = vec![
        [2, 0, 0, 1],
        [8, 0, 3, 0],
        [9, 0, 0, 0],
        [2, 1, 0, 1],
        [9, 0, 0, 0],
    ];
    file(SC, &[0], &[program], 0, &[[3, 0, 0, 1]])
}

// ---- handshakes: programs that announce, look, wait and go round ----

/// Stands for the program's end until its length is known.
const END: u8 = 255;

/// A few threads that wait for each other in loops, with a goal that a walk has been near.
pub fn handshake(random: &mut Random) -> Vec<u8> {
    let version = some_version(random);
    let variables = random.between(1, 4);
    let threads = random.pick(&[1, 2, 2, 2, 3, 4]);
    let longest = random.pick(&[4, 6, 8]);
    let programs: Vec<Program> = (0..threads)
        .map(|_| handshake_program(random, version, variables, longest))
        .collect();
    let initial: Vec<u8> = (0..variables).map(|_| random.below(2) as u8).collect();
    let memory = some_memory(random);
    let job = with_any_goal(random, version, memory, &initial, &programs);
    with_near_goal(random, job)
}

fn some_memory(random: &mut Random) -> Memory {
    match random.below(3) as u8 {
        0 => SC,
        model => [model, random.pick(&[1, 1, 2, 2, 3, 4, 5, 6, 7, 8])],
    }
}

fn handshake_program(
    random: &mut Random,
    version: u8,
    variables: usize,
    longest: usize,
) -> Program {
    let mut program = Program::new();
    // A thread without instructions has ended at once.
    while program.len() < longest && random.percent(85) {
        let at = program.len() as u8;
        program.extend(phrase(random, version, at, variables));
    }
    program.truncate(longest);
    if program.len() < longest && random.percent(40) {
        let back = random.below(program.len() + 1) as u8;
        program.push([9, 0, back, 0]);
    }
    with_ends(program)
}

/// Puts the program's own length where its end is meant.
fn with_ends(mut program: Program) -> Program {
    let end = program.len() as u8;
    for instruction in &mut program {
        if matches!(instruction[0], 8 | 9) && instruction[2] == END {
            instruction[2] = end;
        }
    }
    program
}

const FENCE: [u8; 4] = [6, 0, 0, 0];

/// Instructions that belong together; `at` is the place of the first of them.
fn phrase(random: &mut Random, version: u8, at: u8, variables: usize) -> Program {
    let register = random.below(4) as u8;
    let variable = random.below(variables) as u8;
    let other = random.below(variables) as u8;
    let value = random.below(3) as u8;
    let announce = [5, 0, variable, value];
    let look = [3, register, other, 0];
    // Those from 10 on have operations of version 2.
    let phrases = if version == 1 { 10 } else { 15 };
    match random.below(phrases) {
        0 => vec![announce, look],
        1 => vec![announce, FENCE, look],
        // Waits in a loop while the variable has this value.
        2 | 3 => vec![look, [8, register, at, value]],
        // Takes a lock by an exchange, again and again.
        4 => vec![
            [1, register, 0, 1],
            [7, register, variable, 0],
            [8, register, at, 1],
        ],
        // Counts, and leaves or goes round.
        5 => vec![
            [2, register, 0, value],
            [8, register, END, value],
            [9, 0, at, 0],
        ],
        // Stays at one place for ever, if the register is so.
        6 => vec![[8, register, at, value]],
        7 => vec![random.pick(&[[9, 0, at, 0], [9, 0, END, 0], [8, register, END, value]])],
        8 => vec![[2, register, 0, 1], [4, register, variable, 0]],
        9 => vec![[4, register, variable, 0], [5, 0, other, 0]],
        // Takes a lock only if it is free, again and again.
        10 => vec![
            [1, register, 0, 0],
            compare_exchange(register, variable, 1),
            [8, register, at, 1],
        ],
        // Takes or does not, by what the register happens to hold.
        11 => vec![compare_exchange(register, variable, value)],
        // Says one thing before the other, whatever the model.
        12 => vec![announce, WFENCE, [4, register, other, 0]],
        13 => vec![announce, WFENCE, look],
        _ => vec![WFENCE],
    }
}

/// What no load comes past: FENCE, XCHG and, in version 2, CMPX.
fn barrier(random: &mut Random, version: u8, variable: u8) -> [u8; 4] {
    let of_both = [FENCE, [7, 1, variable, 0]];
    match version {
        1 => random.pick(&of_both),
        _ if random.percent(50) => random.pick(&of_both),
        _ => compare_exchange(1, variable, 1),
    }
}

/// What a load comes past: a quiet step or, in version 2, a WFENCE.
fn no_barrier(random: &mut Random, version: u8) -> [u8; 4] {
    match version {
        1 => quiet_step(random),
        _ if random.percent(30) => quiet_step(random),
        _ => WFENCE,
    }
}

// ---- sequencers: a long thread whose stores, loads and fences stand late ----

/// A long thread that steps through quiet work before it handshakes, alone or beside a short one.
fn sequencer(random: &mut Random) -> Vec<u8> {
    let version = some_version(random);
    let variables = random.between(1, 4);
    let mut programs = vec![sequencer_program(random, version, variables)];
    if random.percent(70) {
        let short = handshake_program(random, version, variables, 4);
        programs.insert(random.below(2), short);
    }
    let initial: Vec<u8> = (0..variables).map(|_| random.below(2) as u8).collect();
    let memory = some_memory(random);
    let job = with_any_goal(random, version, memory, &initial, &programs);
    with_far_goal(random, job, 2 * MOST_INSTRUCTIONS)
}

fn sequencer_program(random: &mut Random, version: u8, variables: usize) -> Program {
    let count = match random.below(8) {
        0 => MOST_BEFORE + 1,
        1..=3 => MOST_INSTRUCTIONS,
        _ => random.between(MOST_BEFORE + 1, MOST_INSTRUCTIONS),
    };
    let front = random.between(count / 2, count - LEAST_LATE_PART);
    let mut program: Program = (0..front).map(|_| quiet_step(random)).collect();
    let late = late_part(random, version, front..count, variables);
    program.extend(late);
    if random.percent(50) {
        // Short walks and small rooms get to the late part, too.
        program[0] = [9, 0, front as u8, 0];
    }
    with_ends(program)
}

const LEAST_LATE_PART: usize = 5;

/// The instructions at these places; of one kind, because among all kinds hardly any pair stays closed.
fn late_part(random: &mut Random, version: u8, places: Range<usize>, variables: usize) -> Program {
    let Range {
        start: front,
        end: count,
    } = places;
    let announce = [5, 0, random.below(variables) as u8, 1];
    let look = [3, 0, random.below(variables) as u8, 0];
    let exchanged = random.below(variables) as u8;
    let barrier = barrier(random, version, exchanged);
    let mut late = Program::new();
    match random.below(6) {
        0 | 1 => late = [announce, barrier, look].repeat(count),
        2 => late = [announce, no_barrier(random, version), look].repeat(count),
        3 => {
            while late.len() < count - front {
                let at = (front + late.len()) as u8;
                late.extend(phrase(random, version, at, variables));
            }
        }
        4 => {
            // Looks before it announces: only what the last place leads back to can be open.
            late.resize_with(count - front, || quiet_step(random));
            if random.percent(50) {
                late[0] = barrier;
            }
            late[1] = look;
            let last = late.len() - 1;
            late[last - 1] = announce;
            late[last] = jump_to(random, &[0, front as u8, front as u8 + 1, END]);
        }
        _ => {
            // Leaps over a look to the last place: only from there a look may follow.
            late.resize_with(count - front, || quiet_step(random));
            let over = jump_to(random, &[count as u8 - 1]);
            late[..4].copy_from_slice(&[announce, over, barrier, look]);
            let back = jump_to(random, &[front as u8 + 3, END]);
            let last = late.len() - 1;
            late[last] = random.pick(&[look, back, back, barrier]);
        }
    }
    late.truncate(count - front);
    late
}

/// JMP or JEQ to one of these places.
fn jump_to(random: &mut Random, places: &[u8]) -> [u8; 4] {
    let place = random.pick(places);
    random.pick(&[[9, 0, place, 0], [8, 3, place, 1]])
}

/// A step of the sequence that touches no variable.
fn quiet_step(random: &mut Random) -> [u8; 4] {
    [random.pick(&[1, 2]), 3, 0, random.below(3) as u8]
}

// ---- parked routines: stores and loads that a jump leads over, and jumps that lead back to them ----

/// Threads that are fenced where they are live, mostly, so that what is dead would decide.
fn parked(random: &mut Random) -> Vec<u8> {
    let version = some_version(random);
    let variables = random.between(1, 4);
    let threads = random.pick(&[1, 1, 2, 2, 3, 4]);
    let longest = random.pick(&[6, 10, 16, MOST_INSTRUCTIONS]);
    let programs: Vec<Program> = (0..threads)
        .map(|_| parked_program(random, version, variables, longest))
        .collect();
    let initial: Vec<u8> = (0..variables).map(|_| random.below(2) as u8).collect();
    let memory = some_memory(random);
    let job = with_any_goal(random, version, memory, &initial, &programs);
    with_far_goal(random, job, FAR)
}

fn parked_program(random: &mut Random, version: u8, variables: usize, longest: usize) -> Program {
    let mut program = Program::new();
    let mut routines = vec![0];
    while program.len() < longest && random.percent(95) {
        let at = program.len() as u8;
        let [variable, other] = [(); 2].map(|()| random.below(variables) as u8);
        let [announce, look] = [[5, 0, variable, 1], [3, 0, other, 0]];
        let barrier = barrier(random, version, variable);
        match random.below(8) {
            0..=2 => {
                let routine = routine(random, version, at + 1, [announce, look]);
                routines.push(at + 1);
                let past = at + 1 + routine.len() as u8;
                program.push([9, 0, past, 0]);
                program.extend(routine);
            }
            3 | 4 => program.extend([announce, barrier, look]),
            5 => program.extend([look, [8, 0, at, 1]]),
            // Runs may always jump here or never; both ways are moves.
            6 => program.push([8, 2, random.pick(&[at, END, at + 2]), random.below(2) as u8]),
            _ => program.extend([barrier, quiet_step(random)]),
        }
    }
    program.truncate(longest.saturating_sub(2));
    if random.percent(40) {
        // A JMP back ends the live part, and may make a parked routine live.
        let at = random.below(program.len() + 1);
        program.truncate(at);
        program.push([9, 0, random.pick(&routines), 0]);
        program.extend([[5, 0, 0, 1], [3, 0, 0, 0]]);
    } else if random.percent(50) {
        program.push(FENCE);
        program.push(jump_to(random, &routines));
    }
    program.truncate(longest);
    within_its_end(program)
}

/// A store and a load that nothing stands between, or a fence; it ends, goes on or goes round.
fn routine(random: &mut Random, version: u8, at: u8, [announce, look]: [[u8; 4]; 2]) -> Program {
    let mut routine = match random.below(4) {
        0 => vec![announce, FENCE, look],
        1 => vec![announce, no_barrier(random, version), look],
        2 => vec![quiet_step(random), announce, look],
        _ => vec![announce, look],
    };
    match random.below(4) {
        0 => routine.push([9, 0, END, 0]),
        1 => routine.push(jump_to(random, &[at, END])),
        _ => {}
    }
    routine
}

/// A jump past what was cut off leads to the program's end, and so does one to `END`, which is past every place.
fn within_its_end(mut program: Program) -> Program {
    let end = program.len() as u8;
    for instruction in &mut program {
        if matches!(instruction[0], 8 | 9) {
            instruction[2] = instruction[2].min(end);
        }
    }
    program
}

// ---- deep buffers: a pending store among others, or a WFENCE, is all that two states differ in ----

/// A thread that makes some stores, one of which, or a WFENCE, hangs on whether another thread has raised a flag by then; both forget it.
fn deep_buffer(random: &mut Random) -> Vec<u8> {
    const FLAG: u8 = 0;
    let version = some_version(random);
    let variables = random.between(2, 8);
    // The later it stands, the fewer other jobs have two states that differ there alone.
    let before = random.pick(&[0, 1, 2, 3, 4, 5, 5, 6, 6, 6, 7, 7, 7]);
    let behind = random.below(8 - before);
    let capacity = random.between(before + 1 + behind, 8) as u8;
    let mut storing = plain_stores(random, version, before, variables);
    let at = storing.len() as u8;
    storing.push([3, 0, FLAG, 0]);
    let [variable, other] = [(); 2].map(|()| random.between(1, variables - 1) as u8);
    let wfence_hangs = version > 1 && random.percent(60);
    if wfence_hangs {
        storing.extend([[8, 0, at + 3, 1], WFENCE]);
    } else if random.percent(50) {
        storing.push([4, 0, variable, 0]);
    } else {
        storing.extend([[8, 0, at + 4, 1], [5, 0, variable, 0], [9, 0, at + 5, 0]]);
        storing.push([5, 0, other, 0]);
    }
    storing.push([1, 0, 0, 0]);
    storing.extend(plain_stores(random, version, behind, variables));
    // The exchange gives the register its 0 back.
    let raising = vec![[1, 0, 0, 1], [7, 0, FLAG, 0]];
    let mut programs = vec![Program::new(); 4];
    let thread = random.pick(&[0, 1, 2, 3, 3]);
    programs[(thread + random.between(1, 3)) % 4] = raising;
    programs[thread] = storing;
    // Under TSO a WFENCE leaves nothing that two states could differ in.
    let model = if wfence_hangs {
        PSO
    } else {
        random.pick(&[TSO, PSO])
    };
    let memory = [model, capacity];
    let job = with_any_goal(random, version, memory, &vec![0; variables], &programs);
    with_far_goal(random, job, FAR)
}

fn plain_stores(random: &mut Random, version: u8, count: usize, variables: usize) -> Program {
    let store = |random: &mut Random| {
        let variable = random.between(1, variables - 1) as u8;
        [5, 0, variable, random.below(2) as u8]
    };
    let stores: Program = (0..count).map(|_| store(random)).collect();
    in_groups(random, version, stores)
}

/// Stores with a WFENCE now and then behind one, if the version has it.
fn in_groups(random: &mut Random, version: u8, stores: Program) -> Program {
    let mut program = Program::new();
    for store in stores {
        program.push(store);
        if version > 1 && random.percent(35) {
            program.push(WFENCE);
        }
    }
    program
}

// ---- crowded buffers: a store, a fence or the end behind about as many stores as a buffer holds ----

/// One thread or two that fill their buffers of any capacity, beside short ones.
fn crowded(random: &mut Random) -> Vec<u8> {
    let version = some_version(random);
    let variables = random.pick(&[1, 2, 3, 4, 5, 6, 7, 8, 8]);
    // Small buffers are soon full in other jobs, too.
    let capacity = random.pick(&[1, 2, 3, 4, 4, 5, 5, 6, 6, 7, 7, 8, 8]);
    let threads = random.between(1, 4);
    let mut programs: Vec<Program> = (0..threads)
        .map(|_| handshake_program(random, version, variables, 3))
        .collect();
    for _ in 0..random.between(1, 2) {
        programs[random.below(threads)] = crowding_program(random, version, capacity, variables);
    }
    let memory = [random.pick(&[TSO, PSO]), capacity as u8];
    let job = with_any_goal(random, version, memory, &vec![0; variables], &programs);
    with_far_goal(random, job, FAR)
}

/// One store less than the buffer holds, just as many, or one more; behind them something that waits, or doesn't.
fn crowding_program(
    random: &mut Random,
    version: u8,
    capacity: usize,
    variables: usize,
) -> Program {
    let count = random.pick(&[capacity - 1, capacity, capacity + 1, capacity + 1]);
    let variable = |random: &mut Random| random.below(variables) as u8;
    let stores: Program = (0..count)
        .map(|_| {
            let variable = variable(random);
            random.pick(&[
                [5, 0, variable, 1],
                [5, 0, variable, 2],
                [4, 0, variable, 0],
            ])
        })
        .collect();
    let mut program = in_groups(random, version, stores);
    let other = variable(random);
    let ends: [&[[u8; 4]]; 9] = [
        &[],
        &[FENCE],
        &[[7, 0, other, 0]],
        &[[3, 0, other, 0]],
        &[[9, 0, 0, 0]],
        &[[9, 0, 0, 0]],
        // From here on with operations of version 2.
        &[compare_exchange(0, other, 1)],
        &[WFENCE, [9, 0, 0, 0]],
        &[WFENCE, WFENCE],
    ];
    let known = if version == 1 { 6 } else { ends.len() };
    program.extend(ends[random.below(known)]);
    program
}

// ---- messages: stores that another thread may see in another order, unless something keeps them apart ----

/// Thread 0 stores to some variables, thread 1 looks at a late one and then at an early one; the goal is that it sees the late one alone.
fn message(random: &mut Random) -> Vec<u8> {
    let version = some_version(random);
    let count = random.between(2, 4);
    let mut writer = Program::new();
    for variable in 0..count {
        writer.push([5, 0, variable as u8, 1]);
        match random.below(10) {
            0 => writer.push(FENCE),
            1..=5 if version > 1 => writer.push(WFENCE),
            _ => {}
        }
    }
    let early = random.below(count - 1);
    let late = random.between(early + 1, count - 1) as u8;
    let looks = [3, 0, late, 0];
    // A CMPX sees the late one as well, and takes only if it is not there yet.
    let sees_late = match version {
        1 => looks,
        _ => random.pick(&[looks, compare_exchange(0, late, 2)]),
    };
    let reader = vec![sees_late, [3, 1, early as u8, 0]];
    let memory = match random.below(8) {
        0 => SC,
        1 => [TSO, random.between(1, 8) as u8],
        _ => [PSO, random.between(1, 8) as u8],
    };
    let goal = [[1, 1, 0, 2], [2, 1, 0, 1], [2, 1, 1, 0]];
    let job = file(memory, &vec![0; count], &[writer, reader], 0, &goal);
    of_version(random, version, &job)
}

/// Four threads of the most instructions, which is all that a file holds.
fn full_size(random: &mut Random) -> Vec<u8> {
    let version = some_version(random);
    let programs: Vec<Program> = (0..4).map(|_| full_program(random, version)).collect();
    let initial: Vec<u8> = (0..8).map(|_| random.byte()).collect();
    let memory = some_memory(random);
    let job = with_any_goal(random, version, memory, &initial, &programs);
    with_far_goal(random, job, FAR)
}

fn full_program(random: &mut Random, version: u8) -> Program {
    let mut program = Program::new();
    while program.len() < MOST_INSTRUCTIONS {
        let at = program.len() as u8;
        program.extend(phrase(random, version, at, 8));
    }
    program.truncate(MOST_INSTRUCTIONS);
    with_ends(program)
}

// ---- values: others in place of the small ones that all shapes are drawn with ----

/// In place of 0, 1 and 2, where values have one byte: mostly themselves, and such that sums wrap.
const NARROW: [[Value; 3]; 6] = [
    [0, 1, 2],
    [0, 1, 2],
    [0, 1, 2],
    [0, 1, 255],
    [255, 1, 0],
    [0, 128, 255],
];

/// The same where they have two.
const WIDE: [[Value; 3]; 12] = [
    [0, 1, 2],
    // The high byte alone tells them apart, or the low one alone, or they have the same two bytes.
    [0, 256, 512],
    [1, 257, 513],
    [256, 257, 258],
    [0, 256, 257],
    [0, 1, 256],
    [1, 256, 257],
    // Sums carry, or wrap.
    [0, 255, 256],
    [255, 1, 256],
    [0, 128, 65_408],
    [0, 1, 65_535],
    [65_535, 1, 0],
];

/// Those about which a byte is full or empty, here and there in place of any other.
const NARROW_EDGES: [Value; 4] = [127, 128, 254, 255];
const WIDE_EDGES: [Value; 6] = [255, 256, 32_768, 65_280, 65_534, 65_535];

/// The job of version 1 in this version, with other values in place of the small ones, the same everywhere, and any in place of the rest.
fn of_version(random: &mut Random, version: u8, job: &[u8]) -> Vec<u8> {
    let width = width(version);
    let (in_place, edges): (&[[Value; 3]], &[Value]) = match width.bytes() {
        1 => (&NARROW, &NARROW_EDGES),
        _ => (&WIDE, &WIDE_EDGES),
    };
    let in_place = random.pick(in_place);
    let mut parts = Parts::of(job);
    parts.version = version;
    let instructions = parts.programs.iter_mut().flatten();
    let instructions = instructions.filter(|instruction| holds_value(instruction));
    let clauses = parts.clauses.iter_mut();
    let clauses = clauses.filter(|clause| is_about_value(clause));
    let values = instructions.chain(clauses).map(|item| &mut item.k);
    for value in values.chain(&mut parts.initial) {
        let any = (random.word() as u32 % width.values()) as Value;
        let small = in_place.get(usize::from(*value)).copied();
        *value = match random.below(40) {
            0 => random.pick(edges),
            _ => small.unwrap_or(any),
        };
    }
    parts.file()
}

/// SET, ADD, STOREK, JEQ and CMPX; of the others k is 0.
fn holds_value(instruction: &Item) -> bool {
    matches!(instruction.first, 1 | 2 | 5 | 8 | 10)
}

/// All clauses but those of a place.
fn is_about_value(clause: &Item) -> bool {
    clause.first != 1
}

// ---- goals ----

/// Without a goal a file is refused and can't be walked, so this one stands in until another takes its place.
fn with_any_goal(
    random: &mut Random,
    version: u8,
    memory: Memory,
    initial: &[u8],
    programs: &[Program],
) -> Vec<u8> {
    let job = file(memory, initial, programs, 0, &[AT_THE_START]);
    of_version(random, version, &job)
}

/// One or two facts about a state that a walk has been at.
fn with_near_goal(random: &mut Random, job: Vec<u8>) -> Vec<u8> {
    let count = random.between(1, 3);
    with_goal_after(random, job, 20, |random, state| {
        let mut facts = facts(state);
        (0..count)
            .map(|_| facts.swap_remove(random.below(facts.len())))
            .collect()
    })
}

/// The longest walk to a far goal where no thread is meant to come to its end.
const FAR: usize = 40;

/// All places and some more of the state at a long walk's end, so that few states are goals.
fn with_far_goal(random: &mut Random, job: Vec<u8>, most_steps: usize) -> Vec<u8> {
    let more = random.between(0, 12);
    with_goal_after(random, job, most_steps, |random, state| {
        let mut facts = facts(state);
        let mut clauses: Vec<Item> = facts.drain(..state.threads.len()).collect();
        while clauses.len() < 16.min(state.threads.len() + more) && !facts.is_empty() {
            clauses.push(facts.swap_remove(random.below(facts.len())));
        }
        clauses
    })
}

/// The sound job with another goal, made of the state at a walk's end.
fn with_goal_after(
    random: &mut Random,
    job: Vec<u8>,
    most_steps: usize,
    clauses: impl Fn(&mut Random, &State) -> Vec<Item>,
) -> Vec<u8> {
    let decoded = decode(&job).expect("only a sound job gets another goal");
    let steps = random.between(2, most_steps);
    let (_, state) = walk(random, &decoded, steps);
    let empty = state.threads.iter().all(|thread| thread.pending() == 0);
    let mut parts = Parts::of(&job);
    parts.flag = u8::from(empty && random.percent(60));
    parts.clauses = clauses(random, &state);
    if random.percent(20) {
        let mut clauses = parts.clauses.iter_mut();
        if let Some(clause) = clauses.find(|clause| is_about_value(clause)) {
            clause.k = seldom_there(random, decoded.width(), clause.k);
        }
    }
    parts.file()
}

/// Most goals with such a value are never reached.
fn seldom_there(random: &mut Random, width: Width, held: Value) -> Value {
    match width.bytes() {
        1 => random.pick(&[3, 4, 128, 255]),
        // Mostly one that is like what is there, but for a byte or for the order of both.
        _ => random.pick(&[
            3,
            65_535,
            held ^ 0x0001,
            held ^ 0x0080,
            held ^ 0x0100,
            held ^ 0x8000,
            held.swap_bytes(),
        ]),
    }
}

/// All clauses that are true of the state, the places of all threads first.
fn facts(state: &State) -> Vec<Item> {
    let threads = || (0u8..).zip(&state.threads);
    let places = threads().map(|(thread, own)| item(1, thread, 0, own.place as Value));
    let registers = threads().flat_map(|(thread, own)| {
        (0u8..)
            .zip(own.registers)
            .map(move |(register, value)| item(2, thread, register, value))
    });
    let memory = (0u8..).zip(&state.memory);
    let memory = memory.map(|(variable, &value)| item(3, variable, 0, value));
    places.chain(registers).chain(memory).collect()
}

/// Where the goal's flag stands in an accepted file.
fn goal_offset(job: &Job) -> usize {
    let width = job.width();
    let programs = job.programs.iter();
    let programs = programs.map(|program| 1 + width.item_bytes() * program.len());
    7 + width.bytes() * job.initial.len() + programs.sum::<usize>()
}

/// The sound job with K = 0, the clauses taken away or left behind; now and then another fault shows which one wins.
fn with_blank_goal(random: &mut Random, mut job: Vec<u8>) -> Vec<u8> {
    let flag = goal_offset(&decode(&job).expect("only a sound job's goal is made blank"));
    let k = flag + 1;
    job[k] = 0;
    if random.percent(60) {
        job.truncate(k + 1);
    }
    match random.below(10) {
        0 => job[flag] = random.pick(&[2, 255]),
        1 => job.truncate(k),
        2 => return damaged(random, job),
        _ => {}
    }
    settled(job)
}

// ---- damage ----

/// A job of version 2 or 3 that says another version, or has a CMPX or WFENCE with an operand about the edge of its range.
fn with_misused_operation(random: &mut Random) -> Vec<u8> {
    let version = random.pick(&[2, 3]);
    let mut job = sound_job_of(random, version);
    let variables = job[6];
    let last_byte = width(version).item_bytes() - 1;
    // CMPX's register and variable, and any byte of WFENCE.
    let (operation, operand, about_its_edge) = match random.below(6) {
        0 | 1 => (10, 1, [3, 4, 4, 255]),
        2 | 3 => (10, 2, [variables - 1, variables, variables, 255]),
        _ => (11, random.between(1, last_byte), [1, 1, 128, 255]),
    };
    let mut places = instructions_at(&job);
    places.retain(|&at| job[at] == operation);
    if places.is_empty() || random.percent(30) {
        return in_version(&job, random.pick(&[1, 1, 5 - version, 0, 4, 255]));
    }
    job[random.pick(&places) + operand] = random.pick(&about_its_edge);
    job
}

/// A job of version 3 with a fault that a value of two bytes is needed for, or a file about as long as its version byte lets it be.
fn with_wide_fault(random: &mut Random) -> Vec<u8> {
    let job = sound_job_of(random, 3);
    let mut parts = Parts::of(&job);
    match random.below(6) {
        0 => cut_in_a_value(random, job),
        1 => cut_in_a_k(random, job),
        2 => {
            let instructions = parts.programs.iter_mut().flatten();
            let mut without_k: Vec<&mut Item> = instructions
                .filter(|instruction| !holds_value(instruction))
                .collect();
            if !without_k.is_empty() {
                let chosen = random.below(without_k.len());
                without_k[chosen].k = random.pick(&[0x0001, 0x0100, 0x0100, 0xFF00, 0xFFFF]);
            }
            parts.file()
        }
        3 => {
            // A place behind the end, or one that has a good one in its low byte.
            let thread = random.below(parts.programs.len());
            let end = parts.programs[thread].len();
            let place = random.between(0, end) as Value;
            let bad = [
                end as Value + 1,
                255,
                256 + place,
                256 + place,
                65_280 + place,
            ];
            parts.clauses[0] = item(1, thread as u8, 0, random.pick(&bad));
            parts.file()
        }
        _ => {
            let version = random.pick(&[0, 1, 2, 2, 3, 3, 4, 255]);
            let between = random.between(longest_file(1), longest_file(3));
            let length = match random.below(3) {
                0 => between,
                _ => random.pick(&lengths::edges()),
            };
            of_length(version, length)
        }
    }
}

/// Up to the middle of an initial value.
fn cut_in_a_value(random: &mut Random, mut job: Vec<u8>) -> Vec<u8> {
    let value = random.below(usize::from(job[6]));
    job.truncate(7 + 2 * value + 1);
    settled(job)
}

/// Up to the middle of the k of an instruction or a clause.
fn cut_in_a_k(random: &mut Random, mut job: Vec<u8>) -> Vec<u8> {
    let decoded = decode(&job).expect("only a sound job is cut so");
    let first_clause = goal_offset(&decoded) + 2;
    let clauses = (first_clause..job.len()).step_by(decoded.width().item_bytes());
    let begins: Vec<usize> = instructions_at(&job).into_iter().chain(clauses).collect();
    job.truncate(random.pick(&begins) + 4);
    settled(job)
}

/// The numbers at and beside the ends of every range of the file.
fn edges() -> Vec<u8> {
    let about_most_instructions = FURTHEST_PLACE - 1..=FURTHEST_PLACE + 1;
    [0, 1, 2, 3, 4, 5, 7, 8, 9, 10, 15, 16, 17]
        .into_iter()
        .chain(about_most_instructions)
        .chain([127, 254, 255])
        .collect()
}

/// The job with a fault anywhere; the length field is mostly made right again.
fn damaged(random: &mut Random, mut job: Vec<u8>) -> Vec<u8> {
    match random.below(5) {
        0 if !job.is_empty() => {
            let at = random.below(job.len());
            job[at] ^= 1 << random.below(8);
        }
        1 => job.truncate(random.between(0, job.len())),
        2 => job.extend(vec![random.pick(&edges()); random.pick(&[1, 2, 4, 5])]),
        _ if !job.is_empty() => {
            let at = random.below(job.len());
            job[at] = random.pick(&edges());
        }
        _ => job.push(random.byte()),
    }
    if random.percent(80) {
        settled(job)
    } else {
        job
    }
}

//! Cases for the fence check about dead code, each with the line that a person says for it from request 4.

use crate::fence_cases::{
    among_adds, by_turns, fenced, job, jump, jump_if, line_of, opened, Known, Thread, ADD,
    EXCHANGE, FENCE, LAST, LOAD, LOAD_OTHER, SET, STORE, STORE_REGISTER,
};
use crate::job::MOST_INSTRUCTIONS;
use crate::listed::{Program, FURTHEST_PLACE, MEMORIES};
use crate::random::Random;

pub fn all_known() -> Vec<Known> {
    [
        of_each_shape(),
        among_threads(),
        chains_of_jumps(),
        at_the_end_of_a_chain(),
        at_each_place(),
    ]
    .concat()
}

/// What request 4 names, a group each.
pub fn shapes() -> Vec<Thread> {
    [
        behind_a_jump(),
        behind_an_endless_loop(),
        behind_dead_code(),
        revived(),
        at_the_start(),
        dead_loads(),
        behind_a_jeq_that_runs_take_one_way(),
        beside_a_live_pair(),
        short(),
    ]
    .concat()
}

/// A JMP leads over the store: to the end, to its load or past both.
fn behind_a_jump() -> Vec<Thread> {
    let mut threads = vec![
        fenced(&[jump(3), STORE, LOAD]),
        fenced(&[jump(3), STORE_REGISTER, LOAD_OTHER]),
        fenced(&[jump(2), STORE, LOAD]),
        fenced(&[jump(3), STORE, STORE_REGISTER, LOAD]),
        fenced(&[LOAD, jump(4), STORE, LOAD]),
        fenced(&[jump(1), jump(4), STORE, LOAD]),
        // Both ways of the JEQ lead to the JMP.
        fenced(&[jump_if(1), jump(4), STORE, LOAD]),
        // A parked routine that leads back into the program.
        fenced(&[jump(5), STORE, ADD, LOAD, jump(5), SET]),
        fenced(&[jump(6), STORE, jump_if(5), FENCE, jump(6), LOAD]),
    ];
    for barrier in [FENCE, EXCHANGE] {
        threads.extend([
            fenced(&[STORE, barrier, LOAD, jump(6), STORE, LOAD]),
            fenced(&[STORE, barrier, jump(4), STORE_REGISTER, LOAD]),
            fenced(&[jump(4), STORE, barrier, STORE, LOAD]),
            fenced(&[barrier, jump(3), STORE, LOAD]),
        ]);
    }
    threads
}

/// No way leads out of the loop, with or without a fence in it.
fn behind_an_endless_loop() -> Vec<Thread> {
    let mut threads = vec![
        fenced(&[jump(0), STORE, LOAD]),
        fenced(&[ADD, jump(0), STORE, LOAD]),
        fenced(&[ADD, jump(1), STORE_REGISTER, LOAD]),
        fenced(&[LOAD, jump(0), STORE, LOAD]),
        fenced(&[ADD, SET, LOAD, jump(1), STORE, LOAD]),
        fenced(&[jump(1), jump(2), jump(0), STORE, LOAD]),
        fenced(&[jump(2), STORE, jump(2), LOAD]),
        // A JEQ leads on inside of the loop only.
        fenced(&[jump_if(0), jump(0), STORE, LOAD]),
        fenced(&[jump_if(2), jump(0), jump(0), STORE, LOAD]),
        fenced(&[jump_if(3), ADD, jump(0), jump(3), STORE, LOAD]),
        // The loop itself has an open pair.
        opened(&[STORE, LOAD, jump(0), STORE, LOAD], 0, 1),
        opened(&[LOAD, STORE, jump(0), STORE, LOAD], 1, 0),
        // By moves a loop of JEQs has a way out.
        opened(&[jump_if(0), STORE, LOAD], 1, 2),
        opened(&[ADD, jump_if(0), STORE, LOAD], 2, 3),
    ];
    for barrier in [FENCE, EXCHANGE] {
        threads.extend([
            fenced(&[barrier, jump(0), STORE, LOAD]),
            fenced(&[ADD, barrier, SET, jump(1), STORE, LOAD]),
            fenced(&[STORE, barrier, LOAD, jump(0), STORE, LOAD]),
            fenced(&[STORE, barrier, jump(2), STORE, LOAD]),
        ]);
    }
    threads
}

/// Something leads to the store, but nothing leads there in turn.
fn behind_dead_code() -> Vec<Thread> {
    vec![
        // By JMP, by JEQ and from the place before.
        fenced(&[jump(5), jump(2), STORE, LOAD, ADD]),
        fenced(&[jump(5), jump(3), ADD, STORE, LOAD]),
        fenced(&[jump(4), jump_if(2), STORE, LOAD]),
        fenced(&[jump(6), jump_if(4), ADD, jump(6), STORE, LOAD]),
        fenced(&[jump(4), ADD, STORE, LOAD]),
        fenced(&[jump(5), FENCE, SET, STORE, LOAD]),
        // The same from behind.
        fenced(&[jump(6), STORE, LOAD, ADD, jump(1), ADD]),
        fenced(&[jump(6), STORE, LOAD, ADD, jump_if(1), ADD]),
        fenced(&[jump(3), STORE, LOAD, jump(3), jump(1)]),
        // Dead loops, alone and two that lead to each other.
        fenced(&[jump(4), STORE, LOAD, jump(1)]),
        fenced(&[jump(4), STORE, jump(3), jump(1), LOAD]),
        fenced(&[jump(5), STORE, jump_if(1), LOAD, jump(1), ADD]),
        fenced(&[jump(7), STORE, jump(4), ADD, LOAD, jump(1), ADD]),
        // It leads into live code.
        fenced(&[jump(4), jump(2), STORE, ADD, LOAD]),
        fenced(&[jump(4), STORE, jump_if(4), FENCE, LOAD]),
    ]
}

/// Parked behind a JMP, but a jump in live code leads back to the store, through fences too.
fn revived() -> Vec<Thread> {
    let mut threads = vec![
        opened(&[jump(3), STORE, LOAD, jump(1)], 1, 2),
        opened(&[jump(3), STORE_REGISTER, LOAD, jump_if(1)], 1, 2),
        opened(&[jump(4), ADD, STORE, LOAD, jump(1)], 2, 3),
        opened(&[jump(4), LOAD, STORE, jump(1), jump(2)], 2, 1),
        // By several jumps, of which one was parked itself.
        opened(&[jump(5), STORE, LOAD, jump(1), ADD, jump(3)], 1, 2),
        opened(&[jump(5), STORE, LOAD, jump_if(1), ADD, jump_if(3)], 1, 2),
        // The jump back leads to the load alone, or is dead itself.
        fenced(&[jump(3), STORE, LOAD, jump(2)]),
        fenced(&[jump(4), STORE, LOAD, jump_if(1)]),
        fenced(&[jump(5), STORE, LOAD, jump(1), jump(3)]),
    ];
    for barrier in [FENCE, EXCHANGE] {
        threads.extend([
            opened(&[jump(3), STORE, LOAD, barrier, jump(1)], 1, 2),
            opened(&[jump(3), STORE, LOAD, barrier, jump_if(1)], 1, 2),
            opened(&[barrier, jump(4), STORE, LOAD, jump(2)], 2, 3),
            opened(&[jump(3), STORE, jump(5), barrier, jump(1), LOAD], 1, 5),
            opened(
                &[jump(3), STORE, LOAD, FENCE, ADD, barrier, EXCHANGE, jump(1)],
                1,
                2,
            ),
            // Two parked routines: the first is revived through the second.
            opened(
                &[
                    jump(7),
                    STORE,
                    LOAD,
                    jump(9),
                    barrier,
                    jump(1),
                    jump(9),
                    barrier,
                    jump(4),
                ],
                1,
                2,
            ),
            // Revived, and fenced from its load.
            fenced(&[jump(4), STORE, barrier, LOAD, jump(1)]),
            fenced(&[jump(4), barrier, LOAD, STORE, jump(3)]),
        ]);
    }
    threads
}

/// Place 0 is live without a move, and what it leads to is all that is live.
fn at_the_start() -> Vec<Thread> {
    vec![
        opened(&[STORE, LOAD], 0, 1),
        opened(&[STORE_REGISTER, LOAD_OTHER], 0, 1),
        opened(&[STORE, LOAD, jump(2)], 0, 1),
        opened(&[STORE, LOAD, jump(0)], 0, 1),
        opened(&[STORE, jump(3), FENCE, LOAD], 0, 3),
        opened(&[STORE, jump_if(0), LOAD], 0, 2),
        // Only dead code leads back to place 0.
        opened(&[STORE, LOAD, jump(4), jump(0)], 0, 1),
        fenced(&[STORE]),
        fenced(&[STORE, FENCE, LOAD]),
        fenced(&[STORE, jump(1), LOAD]),
        fenced(&[jump(2), STORE]),
        opened(&[jump(1), STORE, LOAD], 1, 2),
        opened(&[jump_if(1), STORE, LOAD], 1, 2),
        opened(&[STORE, FENCE, jump(4), LOAD, STORE, LOAD], 4, 5),
    ]
}

/// No live store leads to a dead load, since what a live place leads to is live.
fn dead_loads() -> Vec<Thread> {
    vec![
        fenced(&[STORE, jump(3), LOAD]),
        fenced(&[STORE, jump(4), ADD, LOAD]),
        fenced(&[STORE, jump(5), jump_if(4), ADD, LOAD]),
        // Only a dead store leads to it.
        fenced(&[STORE, jump(4), STORE, LOAD]),
        fenced(&[STORE, jump(1), STORE, LOAD]),
        fenced(&[STORE, FENCE, jump(5), STORE_REGISTER, LOAD]),
        // The same load where the live store does lead to it.
        opened(&[STORE, jump(3), ADD, LOAD], 0, 3),
        opened(&[STORE, jump_if(4), jump(5), STORE, LOAD], 0, 4),
        opened(&[STORE, jump(5), STORE, LOAD, jump(6), jump(3)], 0, 3),
        opened(&[STORE, ADD, jump(4), FENCE, SET, LOAD], 0, 5),
    ]
}

/// JEQ r0 p 1.
const fn jump_if_one(place: u8) -> [u8; 4] {
    [8, 0, place, 1]
}

/// Registers are 0 at the start, and SET makes r0 1: runs take one way of the JEQ only, but moves take both.
fn behind_a_jeq_that_runs_take_one_way() -> Vec<Thread> {
    vec![
        // Runs always jump over the store.
        opened(&[jump_if(3), STORE, LOAD], 1, 2),
        opened(&[SET, jump_if_one(4), STORE, LOAD], 2, 3),
        opened(&[SET, jump_if_one(5), FENCE, STORE, LOAD], 3, 4),
        opened(&[jump_if(2), jump(5), jump_if(5), STORE, LOAD], 3, 4),
        // Runs stay at the JEQ for ever.
        opened(&[SET, jump_if_one(1), STORE, LOAD], 2, 3),
        // Runs never jump to the store.
        opened(&[jump_if_one(2), jump(4), STORE, LOAD], 2, 3),
        opened(&[SET, jump_if(3), jump(5), STORE, LOAD], 3, 4),
        opened(&[jump(3), STORE, LOAD, jump_if_one(1)], 1, 2),
        fenced(&[jump_if(4), STORE, FENCE, LOAD]),
        fenced(&[jump_if(4), jump(4), STORE, LOAD]),
    ]
}

/// The dead pair would be the least, and a later one is live.
fn beside_a_live_pair() -> Vec<Thread> {
    vec![
        opened(&[jump(3), STORE, LOAD, STORE, LOAD], 3, 4),
        opened(&[jump(4), STORE, ADD, LOAD, STORE_REGISTER, LOAD], 4, 5),
        // They share the load.
        opened(&[jump(2), STORE, STORE, LOAD], 2, 3),
        opened(&[jump(3), STORE, STORE, STORE_REGISTER, LOAD], 3, 4),
        opened(&[jump(3), STORE, LOAD, STORE, jump(2)], 3, 2),
        opened(&[LOAD, jump(4), STORE, LOAD, STORE, jump(0)], 4, 0),
        opened(&[STORE, FENCE, jump(5), STORE, LOAD, STORE, LOAD], 5, 6),
        opened(
            &[
                jump(5),
                STORE,
                LOAD,
                STORE,
                LOAD,
                STORE,
                EXCHANGE,
                STORE,
                LOAD,
            ],
            7,
            8,
        ),
        // The live pair is the least as it was before.
        opened(&[STORE, jump(4), STORE, LOAD, STORE, LOAD], 0, 5),
        opened(&[ADD, STORE, LOAD, jump(6), STORE, LOAD], 1, 2),
    ]
}

/// Threads of no instruction and of one.
fn short() -> Vec<Thread> {
    let mut threads = vec![fenced(&[])];
    for alone in [ADD, LOAD, FENCE, EXCHANGE] {
        threads.push(fenced(&[alone]));
    }
    for place in [0, 1] {
        threads.extend([fenced(&[jump(place)]), fenced(&[jump_if(place)])]);
    }
    threads
}

/// Each shape as it is in each of the four threads, and in longer threads of several lengths.
fn of_each_shape() -> Vec<Known> {
    let mut cases = Vec::new();
    for (number, shape) in shapes().into_iter().enumerate() {
        let alike = (0..4).map(|_| shape.clone());
        let variants = alike.chain(in_longer_threads(number, &shape));
        for (at, variant) in variants.enumerate() {
            cases.push(among_sound_threads(number + at, at % 4, variant));
        }
    }
    cases
}

/// Last, first, behind a dead pair and in the middle.
fn in_longer_threads(turn: usize, shape: &Thread) -> [Thread; 4] {
    let spare = MOST_INSTRUCTIONS - shape.0.len();
    let parked = |count: usize| {
        let dead = [(0, jump(count as u8)), (1, STORE), (2, LOAD)];
        among_adds(count, &dead)
    };
    let middle = 1 + turn % (spare / 2);
    [
        behind(vec![ADD; spare], shape),
        followed_by(spare, shape),
        behind(parked(3 + turn % (spare - 2)), shape),
        followed_by(middle, &behind(vec![SET; middle], shape)),
    ]
}

/// The thread behind this front, its jumps and its pair moved along.
fn behind(front: Program, (program, pair): &Thread) -> Thread {
    let moved = front.len();
    let shifted = program.iter().map(|&instruction| match instruction {
        [op @ (8 | 9), r, p, k] => [op, r, p + moved as u8, k],
        other => other,
    });
    let whole = front.iter().copied().chain(shifted).collect();
    (whole, pair.map(|places| places.map(|p| p + moved as u64)))
}

/// What comes behind the thread is neither store nor load, so its pair stays.
fn followed_by(count: usize, (program, pair): &Thread) -> Thread {
    ([&program[..], &vec![ADD; count]].concat(), *pair)
}

/// The thread as one of several, other ones and another model for each turn; the others have no open pair.
fn among_sound_threads(turn: usize, own: usize, (program, pair): Thread) -> Known {
    let others = [vec![], vec![STORE, FENCE, LOAD], vec![LOAD, STORE]];
    let count = own + 1 + turn % (4 - own);
    let mut programs: Vec<Program> = (0..count)
        .map(|at| others[(turn + at) % others.len()].clone())
        .collect();
    programs[own] = program;
    let memory = MEMORIES[turn % MEMORIES.len()];
    (job(memory, &programs), line_of(own, pair))
}

/// All ways to put four threads together of which each is empty, fenced, open or open by dead code alone.
fn among_threads() -> Vec<Known> {
    let kinds = [
        fenced(&[]),
        fenced(&[STORE, FENCE, LOAD]),
        fenced(&[jump(3), STORE, LOAD]),
        opened(&[jump(3), STORE, LOAD, STORE, ADD, LOAD], 3, 5),
    ];
    let mut cases = Vec::new();
    for turn in 0..kinds.len().pow(4) {
        let threads: Vec<&Thread> = (0..4).map(|at| &kinds[(turn >> (2 * at)) % 4]).collect();
        let programs: Vec<Program> = threads.iter().map(|(program, _)| program.clone()).collect();
        let first_open = threads.iter().position(|(_, pair)| pair.is_some());
        let line = match first_open {
            Some(thread) => line_of(thread, threads[thread].1),
            None => line_of(0, None),
        };
        cases.push((job(MEMORIES[turn % MEMORIES.len()], &programs), line));
    }
    cases
}

/// Jumps alone, in threads of each length: to the next place, round from the last to the first, and by JEQ.
fn chains_of_jumps() -> Vec<Known> {
    let mut cases = Vec::new();
    for count in 1..=FURTHEST_PLACE {
        let onward: Program = (1..=count).map(jump).collect();
        let mut round: Program = (0..count)
            .map(|place| jump(place.saturating_sub(1)))
            .collect();
        round[0] = jump(count - 1);
        let halved: Program = (0..count).map(|place| jump_if(place / 2)).collect();
        let threads = [onward, round, halved].map(|program| fenced(&program));
        let turns = (usize::from(count)..).zip(threads);
        cases.extend(turns.map(|(turn, thread)| by_turns(turn, thread)));
    }
    cases
}

/// The shortest thread that has a chain.
const LEAST_CHAIN: u8 = 5;

/// From place 0 over every other place to the store, which no walk reaches sooner.
fn chain_to_a_store(count: u8) -> Program {
    let mut program: Program = (0..count)
        .map(|place| jump(place.saturating_sub(1)))
        .collect();
    let front = [jump(2), STORE, LOAD, jump(count - 1), jump(1)];
    program[..front.len()].copy_from_slice(&front);
    program
}

/// The store is live by the whole chain, and dead if one of its jumps leads to the end or to itself.
fn at_the_end_of_a_chain() -> Vec<Known> {
    let mut cases = Vec::new();
    for count in LEAST_CHAIN..=FURTHEST_PLACE {
        let whole = chain_to_a_store(count);
        let link = 3 + usize::from(count) % (usize::from(count) - 3);
        let broken = |to: u8| {
            let mut program = whole.clone();
            program[link] = jump(to);
            program
        };
        let threads = [
            opened(&whole, 1, 2),
            fenced(&broken(count)),
            fenced(&broken(link as u8)),
        ];
        let turns = (usize::from(count)..).zip(threads);
        cases.extend(turns.map(|(turn, thread)| by_turns(turn, thread)));
    }
    cases
}

/// Stores, dead and live, and live loads behind dead stores, at each place of a thread of the most instructions.
fn at_each_place() -> Vec<Known> {
    let mut cases = Vec::new();
    for place in 1..LAST {
        let (at, next) = (place as u64, place + 1);
        let of = |others: &[(usize, [u8; 4])]| among_adds(MOST_INSTRUCTIONS, others);
        let behind = |before| of(&[(place - 1, before), (place, STORE), (next, LOAD)]);
        let mut threads = vec![
            fenced(&behind(jump(FURTHEST_PLACE))),
            opened(&behind(jump_if(FURTHEST_PLACE)), at, at + 1),
            fenced(&of(&[(0, jump(next as u8)), (1, STORE), (next, LOAD)])),
        ];
        if next < LAST {
            let mut revived = behind(jump(LAST as u8));
            revived[LAST] = jump(place as u8);
            threads.push(opened(&revived, at, at + 1));
        }
        let turns = (place..).zip(threads);
        cases.extend(turns.map(|(turn, thread)| by_turns(turn, thread)));
    }
    cases
}

const RANDOM_JOBS: usize = 600;
const SEED: u64 = 4;

/// Programs rich in dead code; the lines of these are the checker's own.
pub fn random_jobs() -> Vec<Vec<u8>> {
    let mut random = Random::new(SEED);
    let jobs = (0..RANDOM_JOBS).map(|_| random_job(&mut random));
    jobs.collect()
}

fn random_job(random: &mut Random) -> Vec<u8> {
    let memory = random.pick(&MEMORIES);
    let threads = random.pick(&[1, 1, 2, 3, 4]);
    let programs: Vec<Program> = (0..threads)
        .map(|_| match random.below(2) {
            0 => full_of_jumps(random),
            _ => with_parked_routines(random),
        })
        .collect();
    job(memory, &programs)
}

fn some_length(random: &mut Random) -> usize {
    let most = random.pick(&[6, 12, 24, MOST_INSTRUCTIONS]);
    random.between(2, most)
}

/// Many a JMP to anywhere, so that much is dead.
fn full_of_jumps(random: &mut Random) -> Program {
    let count = some_length(random);
    let [jumps, barriers] = [[30, 50, 70], [0, 5, 15]].map(|shares| random.pick(&shares));
    let mut program = Program::new();
    for _ in 0..count {
        let place = random.between(0, count) as u8;
        program.push(match random.below(100) {
            chance if chance < jumps => jump(place),
            chance if chance < jumps + barriers => random.pick(&[FENCE, EXCHANGE]),
            _ => random.pick(&[jump_if(place), ADD, STORE, STORE_REGISTER, LOAD, LOAD_OTHER]),
        });
    }
    program
}

/// Sound steps, and between them routines that a JMP leads over; a last jump may lead back anywhere.
fn with_parked_routines(random: &mut Random) -> Program {
    let count = some_length(random);
    let mut program = Program::new();
    while program.len() < count {
        let at = program.len() as u8;
        let inner = random.pick(&[ADD, SET, STORE, FENCE]);
        let part = match random.below(6) {
            0..=2 => vec![jump(at + 4), STORE, inner, LOAD],
            3 => vec![STORE, FENCE, LOAD],
            4 => vec![FENCE, random.pick(&[ADD, LOAD])],
            _ => vec![LOAD, STORE, EXCHANGE],
        };
        program.extend(part);
    }
    program.truncate(count);
    let end = count as u8;
    for instruction in &mut program {
        // The last routine may have been cut off.
        if instruction[0] == 9 {
            instruction[2] = instruction[2].min(end);
        }
    }
    if random.percent(50) {
        let back = random.below(count) as u8;
        program[count - 1] = random.pick(&[jump(back), jump_if(back)]);
    }
    program
}

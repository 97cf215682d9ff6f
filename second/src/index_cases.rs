//! Cases for the search with an index: lengths about the edges of N, fills of all kinds, and refusals.

use crate::classes::Counts;
use crate::index::{
    deciding, of_answer, of_fill, of_job, of_length, Lent, DECIDING, MODELS, OF_ANSWERS, OF_FILLS,
    OF_LENGTHS, REFUSED, REFUSED_WITH_NUMBERS, VERSIONS,
};
use crate::listed::{
    accepted_list, at_the_limit, blank_goals, classics, file, in_version, refused_jobs,
    too_long_threads, under, Memory, Refused, MEMORIES, P1, PSO, SC, TSO,
};
use crate::machine::SLOT_BYTES;
use crate::random::{buffer_sizes, damaged_job, sound_job_of, Random, Sizes};
use crate::search_cases::{
    count, counts_without_end, searched, within_the_room, Case, Index, Searched, NOTHING, ROOM,
    ROOM_FOR_INDEX,
};
use crate::version_three_jobs::{
    at_the_limit_of_three, classics_of_three, raised, refused_of_three,
};
use crate::version_two_jobs::{
    at_the_limit_of_two, classics_of_two, refused_about_versions, refused_in_both,
};

pub fn all() -> Vec<Case> {
    let groups = [
        short_indexes(),
        every_length(),
        about_the_count(),
        each_the_smallest(),
        back_at_the_start(),
        long_indexes(),
        refused(),
        without_a_slot(),
        random_jobs(),
        random_refusals(),
    ];
    groups.concat()
}

/// How many cases have an index, and what they are about, by class.
pub fn counts() -> Counts {
    let classes = [
        &OF_LENGTHS[..],
        &DECIDING,
        &OF_FILLS,
        &REFUSED,
        &REFUSED_WITH_NUMBERS,
        &OF_ANSWERS,
        &VERSIONS,
        &MODELS,
    ];
    let met: Vec<_> = all().iter().map(met).collect();
    Counts::new(&classes.concat(), &met)
}

fn met(case: &Case) -> Vec<&'static str> {
    let index = case.index.expect("all these cases have an index");
    let lent = Lent {
        sizes: case.sizes,
        index: index.count,
    };
    let Searched { answer, left } = searched(case);
    let mut classes = vec![of_length(index.count), deciding(&lent)];
    // This checker leaves the index as it was.
    classes.extend(of_fill(&left.index[..index.count], lent.slots()));
    classes.extend(of_answer(&lent, answer, Some(count(&case.job))));
    classes.extend(of_job(&case.job));
    classes
}

/// First numbers of the fill: small ones look like slots, great ones do not, and some of these turn into small ones within the index.
const FIRSTS: [u32; 11] = [
    0,
    1,
    2,
    3,
    u32::MAX,
    u32::MAX - 1,
    1 << 31,
    4_294_967_000,
    u32::MAX - 16,
    65_535,
    0x9E37_79B9,
];

/// A prime number of them, so that over many turns each comes with odd and even lengths.
fn first(turn: usize) -> u32 {
    FIRSTS[turn % FIRSTS.len()]
}

fn case(job: &[u8], sizes: Sizes, count: usize, first: u32) -> Case {
    Case {
        sizes,
        index: Some(Index { count, first }),
        job: job.to_vec(),
    }
}

/// The job in each version; where each value is times 256, all counts and answers stay.
fn in_each_version(job: &[u8]) -> [Vec<u8>; 3] {
    [job.to_vec(), in_version(job, 2), raised(job)]
}

/// All other room, and as little index as can be, with every fill.
fn short_indexes() -> Vec<Case> {
    let mut cases = Vec::new();
    for job in in_each_version(&P1) {
        for count in 0..=5 {
            cases.extend(FIRSTS.map(|first| case(&job, ROOM, count, first)));
        }
    }
    cases
}

/// Every length of the index up to more than is needed, by turns in each version.
fn every_length() -> Vec<Case> {
    let mut cases = Vec::new();
    let mut turn = 0;
    for job in accepted_list() {
        let versions = in_each_version(&job);
        for length in 0..=2 * count(&job) + 3 {
            cases.push(case(&versions[turn % 3], ROOM, length, first(turn)));
            turn += 1;
        }
    }
    cases
}

/// Numbers enough for one slot less than is needed, for as many and for one more, and a number beside each.
fn about_the_count() -> Vec<Case> {
    let few: [Memory; 3] = [SC, [TSO, 2], [PSO, 2]];
    let mut jobs: Vec<Vec<u8>> = Vec::new();
    jobs.extend(MEMORIES.into_iter().flat_map(classics));
    jobs.extend(few.into_iter().flat_map(classics_of_two));
    jobs.extend(few.into_iter().flat_map(classics_of_three));
    let mut cases = Vec::new();
    let mut turn = 0;
    for job in jobs {
        let enough = 2 * count(&job);
        for length in enough - 2..=enough + 3 {
            cases.push(case(&job, ROOM, length, first(turn)));
            turn += 1;
        }
    }
    cases
}

/// So many slots by the index, the table, the links or the schedule, or by all; the others have so many more.
fn shaped(job: &[u8], slots: usize, smallest: usize, spare: usize, turn: usize) -> Case {
    let room = |which| match smallest {
        4 => slots,
        _ if smallest == which => slots,
        _ => slots + spare,
    };
    let sizes = Sizes {
        table: room(1) * SLOT_BYTES + turn % SLOT_BYTES,
        links: room(2),
        schedule: room(3),
    };
    // A number beside those of the last slot makes no difference.
    case(job, sizes, 2 * room(0) + turn % 2, first(turn / 2))
}

/// Each of the four the smallest by one slot and by many, at few slots and about what is needed.
fn each_the_smallest() -> Vec<Case> {
    let mut cases = Vec::new();
    let mut turn = 0;
    for job in in_each_version(&P1) {
        let needed = count(&job);
        for slots in [1, 2, 3, needed - 1, needed, needed + 1] {
            for smallest in 0..=4 {
                for spare in [1, 1, 300, 300] {
                    cases.push(shaped(&job, slots, smallest, spare, turn));
                    turn += 1;
                }
            }
        }
    }
    cases
}

/// Loops whose last step leads back to the start, so that this has to be found again; as many states as places, and where stores are flushed some more.
fn back_at_the_start() -> Vec<Case> {
    let never = [[2, 0, 3, 1]];
    let back = [9, 0, 0, 0];
    let mut cases = Vec::new();
    let mut turn = 0;
    for memory in MEMORIES {
        for body in [
            vec![],
            vec![[1, 0, 0, 0]],
            vec![[5, 0, 0, 0]],
            vec![[1, 1, 0, 7], [1, 1, 0, 0]],
        ] {
            let program = [body, vec![back]].concat();
            let job = file(memory, &[0], &[program], 0, &never);
            let versions = in_each_version(&job);
            let enough = 2 * count(&job);
            for length in enough - 1..=enough + 1 {
                // Each length in each version, by and by.
                let version = &versions[(turn + turn / 3) % 3];
                cases.push(case(version, ROOM, length, first(turn)));
                turn += 1;
            }
        }
    }
    cases
}

/// As long an index as there is room for, one about as long as the table has slots for, and one in which all fills that wrap do so.
fn long_indexes() -> Vec<Case> {
    let endless = counts_without_end();
    let mut jobs = accepted_list();
    jobs.extend([
        at_the_limit(),
        at_the_limit_of_two(),
        at_the_limit_of_three(),
        endless.clone(),
    ]);
    let whole = jobs.iter().enumerate();
    let whole = whole.map(|(turn, job)| case(job, ROOM, ROOM_FOR_INDEX, first(turn)));
    let most = ROOM.table / SLOT_BYTES;
    let about = 2 * most - 1..=2 * most + 2;
    let about = about.map(|length| case(&endless, ROOM, length, first(length)));
    let filled = FIRSTS.map(|first| case(&endless, ROOM, 600, first));
    whole.chain(about).chain(filled).collect()
}

/// Jobs that are refused themselves: by every number, and some of each list.
fn refused_ones() -> Vec<Vec<u8>> {
    let some = |refused: Vec<Refused>, every: usize| {
        let jobs = refused.into_iter().map(|(job, _)| job);
        jobs.step_by(every).collect::<Vec<_>>()
    };
    [
        some(refused_jobs(), 1),
        some(blank_goals(), 17),
        some(too_long_threads(), 4),
        some(refused_about_versions(), 13),
        some(refused_in_both(), 19),
        some(refused_of_three(), 19),
    ]
    .concat()
}

/// With an index that has a slot and with none, beside all other room and beside none.
fn refused() -> Vec<Case> {
    let mut cases = Vec::new();
    let mut turn = 0;
    for job in refused_ones() {
        for length in [0, 1, 2, 7, ROOM_FOR_INDEX] {
            for sizes in [ROOM, NOTHING] {
                cases.push(case(&job, sizes, length, first(turn)));
                turn += 1;
            }
        }
    }
    cases
}

/// No slot by the index alone, by one of the others, and by several.
fn without_a_slot() -> Vec<Case> {
    let small = [
        [0, ROOM.links, ROOM.schedule],
        [SLOT_BYTES - 1, ROOM.links, ROOM.schedule],
        [ROOM.table, 0, ROOM.schedule],
        [ROOM.table, ROOM.links, 0],
        [ROOM.table, 0, 0],
        [0, 0, 0],
        // A slot by all three of them.
        [SLOT_BYTES, 1, 1],
    ];
    let mut cases = Vec::new();
    let mut turn = 0;
    for memory in [SC, [TSO, 1], [PSO, 8]] {
        let job = under(&P1, memory);
        for [table, links, schedule] in small {
            let sizes = Sizes {
                table,
                links,
                schedule,
            };
            for length in [0, 1, 2, 3, ROOM_FOR_INDEX] {
                cases.push(case(&job, sizes, length, first(turn)));
                turn += 1;
            }
        }
    }
    cases
}

const SOUND_JOBS: usize = 360;
const DAMAGED_JOBS: usize = 90;
const SEED: u64 = 60;

/// Any length, but mostly one about twice as many slots as the others have or as the job needs.
fn some_length(random: &mut Random, job: &[u8], sizes: Sizes) -> usize {
    let lent = Lent { sizes, index: 0 };
    let slots = match random.below(8) {
        0 => return random.pick(&[0, 1, 2, 3]),
        1 => return random.between(0, ROOM_FOR_INDEX),
        2..=4 => lent.slots_without_index(),
        _ => count(job),
    };
    let length = (2 * slots + random.below(6)).saturating_sub(2);
    length.min(ROOM_FOR_INDEX)
}

fn some_first(random: &mut Random) -> u32 {
    match random.below(3) {
        0 => random.word() as u32,
        1 => random.below(70) as u32,
        _ => random.pick(&FIRSTS),
    }
}

fn random_jobs() -> Vec<Case> {
    let mut random = Random::new(SEED);
    let cases = (0..SOUND_JOBS).map(|turn| {
        let job = sound_job_of(&mut random, 1 + (turn % 3) as u8);
        let sizes = within_the_room(buffer_sizes(&mut random, &job));
        let length = some_length(&mut random, &job, sizes);
        case(&job, sizes, length, some_first(&mut random))
    });
    cases.collect()
}

fn random_refusals() -> Vec<Case> {
    let mut random = Random::new(SEED + 1);
    let cases = (0..DAMAGED_JOBS).map(|_| {
        let job = damaged_job(&mut random);
        let sizes = within_the_room(buffer_sizes(&mut random, &job));
        let length = some_length(&mut random, &job, sizes);
        case(&job, sizes, length, some_first(&mut random))
    });
    cases.collect()
}

//! Cases for the search in lent memory, and the two lines that each is answered with.

use crate::classes::Counts;
use crate::job::MOST_INSTRUCTIONS;
use crate::listed::{
    accepted_list, at_the_limit, bench_list, blank_goals, classics, every_memory,
    fewest_and_most_clauses, file, in_version, p12, refused_jobs, too_long_threads, under, Memory,
    Program, Refused, AT_THE_START, COUNT, FURTHEST_PLACE, MEMORIES, P1, PSO, SC, TSO,
};
use crate::long_threads::{ends_high, of_job, HIGH_GOAL, MOST_BEFORE, OF_JOBS};
use crate::machine::SLOT_BYTES;
use crate::random::{buffer_sizes, sound_job_of, Random, Sizes};
use crate::search::{search, search_indexed};
use crate::version_three_jobs::{
    self, add, at_the_limit_of_three, classics_of_three, file_of_three, in_three, is_at, jump,
    load, message_passing, put, raised, refused_of_three, set, store, wide_groups,
    VERSION as THREE,
};
use crate::version_two_jobs::{
    classics_of_two, file_of_two, message_passing_by_wfence, refused_about_versions,
    refused_in_both, WFENCE,
};
use crate::version_two_replays::grouped_job;
use crate::{index_cases, version_three, version_two};

/// A job, and how much of each memory is lent for it.
#[derive(Clone)]
pub struct Case {
    pub sizes: Sizes,
    /// None for the plain search.
    pub index: Option<Index>,
    pub job: Vec<u8>,
}

impl Case {
    pub fn plain(sizes: Sizes, job: Vec<u8>) -> Case {
        Case {
            sizes,
            index: None,
            job,
        }
    }
}

/// How much of an index is lent, and what stands in all the room for one before: number i is the first plus i, modulo 2^32.
#[derive(Clone, Copy, Debug, PartialEq, Eq)]
pub struct Index {
    pub count: usize,
    pub first: u32,
}

/// All that there is to lend.
pub(crate) const ROOM: Sizes = Sizes {
    table: 65_536,
    links: 1024,
    schedule: 1024,
};

pub(crate) const NOTHING: Sizes = Sizes {
    table: 0,
    links: 0,
    schedule: 0,
};

/// All that there is to lend as an index.
pub const ROOM_FOR_INDEX: usize = 1024;

/// What stands in all that there is to lend.
#[derive(Clone)]
pub struct Contents {
    pub table: Vec<u8>,
    pub links: Vec<u32>,
    pub schedule: Vec<u8>,
    /// Nothing for the plain search.
    pub index: Vec<u32>,
}

impl Contents {
    fn before(case: &Case) -> Contents {
        let index = case.index.map_or(Vec::new(), |Index { first, .. }| {
            let numbers = (0..).take(ROOM_FOR_INDEX);
            numbers.map(|i| first.wrapping_add(i)).collect()
        });
        Contents {
            table: pattern(ROOM.table, 3),
            links: (1_000_003..).take(ROOM.links).collect(),
            schedule: pattern(ROOM.schedule, 5),
            index,
        }
    }
}

/// What the program under test prints for a case: the answer, and a sum over each whole memory; with an index a line more.
pub fn lines(case: &Case) -> String {
    lines_by(case, answer)
}

/// The same by another search, which gets all that there is to lend and may use what the case says.
pub fn lines_by(case: &Case, search: impl Fn(&Case, &mut Contents) -> [u64; 4]) -> String {
    let mut contents = Contents::before(case);
    let answer = search(case, &mut contents);
    let index = case.index.map_or(String::new(), |Index { count, .. }| {
        index_line(answer, count, &contents.index)
    });
    let sums = [
        sum(contents.table.into_iter().map(u64::from)),
        sum(contents.links.into_iter().map(u64::from)),
        sum(contents.schedule.into_iter().map(u64::from)),
    ];
    format!(
        "{}\nSUMS {} {} {}\n{index}",
        answer_line(answer),
        sums[0],
        sums[1],
        sums[2]
    )
}

/// A refusal leaves the whole index as it was; an answer leaves open what stands in so much of it as was lent.
fn index_line(answer: [u64; 4], count: usize, index: &[u32]) -> String {
    let kept = match answer {
        [0, ..] => index,
        _ => &index[count..],
    };
    let numbers = kept.iter().copied();
    format!("INDEX {}\n", sum(numbers.map(u64::from)))
}

/// The answer to a case, and all the memory that there was to lend as the search leaves it.
pub(crate) struct Searched {
    pub(crate) answer: [u64; 4],
    pub(crate) left: Contents,
}

pub(crate) fn searched(case: &Case) -> Searched {
    let mut left = Contents::before(case);
    let answer = answer(case, &mut left);
    Searched { answer, left }
}

/// This checker's answer in the memory that the case lends.
pub fn answer(case: &Case, contents: &mut Contents) -> [u64; 4] {
    let table = &mut contents.table[..case.sizes.table];
    let links = &mut contents.links[..case.sizes.links];
    let schedule = &mut contents.schedule[..case.sizes.schedule];
    match case.index {
        None => search(&case.job, table, links, schedule),
        Some(Index { count, .. }) => {
            search_indexed(&case.job, table, links, schedule, &contents.index[..count])
        }
    }
}

/// Byte i is (7 i + first) mod 251.
fn pattern(count: usize, first: usize) -> Vec<u8> {
    (0..count).map(|i| ((7 * i + first) % 251) as u8).collect()
}

/// The value of the elements as digits in base 31, modulo the largest prime below 2^32.
fn sum(elements: impl Iterator<Item = u64>) -> u64 {
    elements.fold(0, |sum, x| (sum * 31 + x) % 4_294_967_291)
}

fn answer_line(answer: [u64; 4]) -> String {
    let [kind, first, second, _] = answer;
    match kind {
        0 => format!("REFUSED {first} {second}"),
        1 => format!("REACHABLE {first} {second}"),
        2 => format!("UNREACHABLE {first}"),
        3 => format!("UNKNOWN {first}"),
        4.. => panic!("the search answered {answer:?}, which has no meaning"),
    }
}

pub fn all() -> Vec<Case> {
    let groups = [
        goal_at_the_start(),
        every_room(),
        about_the_count(),
        narrow_buffers(),
        with_and_without_room(refused_jobs()),
        with_and_without_room(blank_goals()),
        blank_goals_in_small_rooms(),
        about_the_range_of_k(),
        with_all_the_room(),
        random_jobs(),
        with_and_without_room(too_long_threads()),
        to_each_long_end(),
        about_the_longest_way(),
        beside_a_long_thread(),
        of_version_two(),
        of_version_three(),
        index_cases::all(),
    ];
    groups.concat()
}

/// These come behind the others, which stay where they were.
fn of_version_two() -> Vec<Case> {
    let groups = [
        with_and_without_room(refused_about_versions()),
        with_and_without_room(refused_in_both()),
        as_in_version_one(),
        about_the_count_of_two(),
        every_room_of_two(),
        full_of_groups(),
        random_jobs_of_two(),
    ];
    groups.concat()
}

/// These come behind those of version 2.
fn of_version_three() -> Vec<Case> {
    let groups = [
        with_and_without_room(refused_of_three()),
        as_in_the_others(),
        about_the_count_of_three(),
        every_room_of_three(),
        full_of_wide_groups(),
        counters_of_three(),
        sums_of_three(),
        random_jobs_of_three(),
    ];
    groups.concat()
}

/// How many cases have long threads, by class.
pub fn counts_of_long_threads() -> Counts {
    let classes = [&OF_JOBS[..], &[HIGH_GOAL]].concat();
    let met = |case: &Case| {
        let Searched { answer, left } = searched(case);
        let to_high_goal = match answer {
            [1, distance, ..] => ends_high(&case.job, &left.schedule[..distance as usize]),
            _ => false,
        };
        [
            of_job(&case.job),
            vec![HIGH_GOAL; usize::from(to_high_goal)],
        ]
        .concat()
    };
    let met: Vec<_> = all().iter().map(met).collect();
    Counts::new(&classes, &met)
}

/// How many cases are of version 2, and what their slots and answers show, by class.
pub fn counts_of_version_two() -> Counts {
    let classes = [&version_two::of_jobs()[..], &version_two::OF_SEARCHES].concat();
    counts(&classes, version_two::of_job, version_two::of_search)
}

/// How many cases are of version 3, and what their slots and answers show, by class.
pub fn counts_of_version_three() -> Counts {
    let classes = [version_three::of_jobs(), version_three::of_searches()].concat();
    counts(&classes, version_three::of_job, version_three::of_search)
}

fn counts(
    classes: &[&'static str],
    of_job: fn(&[u8]) -> Vec<&'static str>,
    of_search: fn(&[u8], version_two::Searched) -> Vec<&'static str>,
) -> Counts {
    let met = |case: &Case| {
        let Searched { answer, left } = searched(case);
        let left = version_two::Searched {
            answer,
            table: &left.table,
            schedule: &left.schedule,
        };
        [of_job(&case.job), of_search(&case.job, left)].concat()
    };
    let met: Vec<_> = all().iter().map(met).collect();
    Counts::new(classes, &met)
}

/// Just so many slots, the table, the links or the schedule being the smallest by turns.
fn lent(job: &[u8], slots: usize, turn: usize) -> Case {
    let roomy = slots + 2;
    let pick = |which: usize| if turn % 3 == which { slots } else { roomy };
    let sizes = Sizes {
        table: pick(0) * SLOT_BYTES + turn % SLOT_BYTES,
        links: pick(1),
        schedule: pick(2),
    };
    Case::plain(sizes, job.to_vec())
}

/// How many states the search counts with all the room, and so from how many slots on the answer stays.
pub(crate) fn count(job: &[u8]) -> usize {
    let mut table = vec![0; ROOM.table];
    let mut links = vec![0; ROOM.links];
    let mut schedule = vec![0; ROOM.schedule];
    match search(job, &mut table, &mut links, &mut schedule) {
        [1, _, states, _] | [2, states, _, _] => states as usize,
        // Nothing was counted to the end, so all the room is taken.
        [0 | 3, ..] => ROOM.table / SLOT_BYTES,
        answer => panic!("the search answered {answer:?}, which has no meaning"),
    }
}

fn goal_at_the_start() -> Vec<Case> {
    let programs = [vec![[5, 0, 0, 1], [3, 0, 0, 0]]];
    let mut cases = Vec::new();
    for memory in MEMORIES {
        for clauses in [
            vec![AT_THE_START],
            vec![AT_THE_START, [2, 0, 3, 0], [3, 0, 0, 7]],
        ] {
            let job = file(memory, &[7], &programs, 1, &clauses);
            cases.extend((0..3).map(|slots| lent(&job, slots, slots)));
        }
    }
    cases
}

/// Every room up to one more than is needed: where a level ends, within it, and with a goal in the part that fits.
fn every_room() -> Vec<Case> {
    let mut cases = Vec::new();
    for job in accepted_list() {
        for slots in 0..=count(&job) + 1 {
            cases.push(lent(&job, slots, slots));
        }
    }
    cases
}

/// One slot less than is needed, as many and one more, the smallest buffer being another each time.
fn about_what_is_needed(job: &[u8]) -> Vec<Case> {
    let needed = count(job);
    let rooms = (needed - 1..=needed + 1).enumerate();
    let cases = rooms.map(|(turn, slots)| lent(job, slots, turn));
    cases.filter(|case| fits(case.sizes)).collect()
}

/// One slot less than is needed, as many and one more, each buffer being the smallest.
fn about_the_count() -> Vec<Case> {
    let mut cases = Vec::new();
    for memory in MEMORIES {
        for job in classics(memory) {
            let needed = count(&job);
            for slots in [needed - 1, needed, needed + 1] {
                cases.extend((0..3).map(|turn| lent(&job, slots, turn)));
            }
        }
    }
    cases.retain(|case| fits(case.sizes));
    cases
}

fn fits(sizes: Sizes) -> bool {
    sizes.table <= ROOM.table && sizes.links <= ROOM.links && sizes.schedule <= ROOM.schedule
}

/// Table bytes about whole slots, and buffers of few elements or none.
fn narrow_buffers() -> Vec<Case> {
    let mut cases = Vec::new();
    let about_whole_slots = [1, 2, 22].map(|slots| {
        let whole = slots * SLOT_BYTES;
        [whole - 1, whole, whole + 1]
    });
    for table in [vec![0, 1], about_whole_slots.concat()].concat() {
        for links in [0, 1, 21, 22, ROOM.links] {
            for schedule in [0, 1, 3, 4, 21, 22, ROOM.schedule] {
                let sizes = Sizes {
                    table,
                    links,
                    schedule,
                };
                cases.push(Case::plain(sizes, P1.to_vec()));
            }
        }
    }
    cases
}

/// Jobs that are refused themselves, with all the room and with none at all.
fn with_and_without_room(jobs: Vec<Refused>) -> Vec<Case> {
    let cases = jobs
        .into_iter()
        .flat_map(|(job, _)| [ROOM, NOTHING].map(|sizes| Case::plain(sizes, job.clone())));
    cases.collect()
}

/// Room for the one slot that a goal at the start needs, for two, and for none: a blank goal comes before no slot.
fn blank_goals_in_small_rooms() -> Vec<Case> {
    let mut cases = Vec::new();
    for job in p12() {
        for slots in 0..=2 {
            cases.extend((0..3).map(|turn| lent(&job, slots, turn)));
        }
    }
    cases
}

fn about_the_range_of_k() -> Vec<Case> {
    let mut cases = Vec::new();
    for job in fewest_and_most_clauses() {
        cases.extend((0..3).map(|slots| lent(&job, slots, slots)));
    }
    cases
}

/// More states than there is room for, and no goal among them.
pub(crate) fn counts_without_end() -> Vec<u8> {
    let counter = vec![[2, 0, 0, 1], [9, 0, 0, 0]];
    let never = [[3, 0, 0, 9]];
    file([TSO, 1], &[0], &[counter.clone(), counter], 0, &never)
}

fn with_all_the_room() -> Vec<Case> {
    let mut jobs = bench_list();
    jobs.extend([counts_without_end(), at_the_limit()]);
    let cases = jobs.into_iter().map(|job| Case::plain(ROOM, job));
    cases.collect()
}

/// One thread of so many counts, asked for its end: as many steps, and one state more.
pub fn long_way(memory: Memory, count: usize) -> Vec<u8> {
    let goal = [[1, 0, 0, count as u8]];
    file(memory, &[0], &[vec![COUNT; count]], 0, &goal)
}

/// Each length that request 2 brought, with just room enough.
fn to_each_long_end() -> Vec<Case> {
    let ways = (MOST_BEFORE + 1..=MOST_INSTRUCTIONS).map(|count| {
        let job = long_way(MEMORIES[count % MEMORIES.len()], count);
        lent(&job, count + 1, count)
    });
    ways.collect()
}

/// The sequencer of request 2 and the longest thread: a slot too few, as many as are needed, and one more.
fn about_the_longest_way() -> Vec<Case> {
    let mut cases = Vec::new();
    for memory in MEMORIES {
        for count in [51, MOST_INSTRUCTIONS] {
            let job = long_way(memory, count);
            let rooms = (count..count + 3).enumerate();
            cases.extend(rooms.map(|(turn, slots)| lent(&job, slots, turn)));
        }
    }
    cases
}

/// A long thread beside a short one: it ends, handshakes at its last places, goes round, or jumps to its end.
fn beside_a_long_thread() -> Vec<Case> {
    let mut cases = Vec::new();
    let none: Program = vec![];
    let [raise, look, fence] = [[5, 0, 0, 1], [3, 0, 1, 0], [6, 0, 0, 0]];
    let [raise_other, look_other] = [[5, 0, 1, 1], [3, 0, 0, 0]];
    let handshake = vec![raise_other, look_other];
    let fenced_handshake = vec![raise_other, fence, look_other];
    let ending = |last: &[[u8; 4]]| {
        let mut program = vec![COUNT; MOST_INSTRUCTIONS - last.len()];
        program.extend(last);
        program
    };
    // Set and never counted, so that a turn comes back to a state that is known.
    let mut round = vec![[1, 1, 0, 1]; MOST_INSTRUCTIONS];
    round[MOST_INSTRUCTIONS - 1] = [9, 0, 0, 0];
    let mut over = ending(&[]);
    over[0] = [9, 0, FURTHEST_PLACE, 0];
    let both_ended = |short: &Program| {
        let end = [1, 1, 0, short.len() as u8];
        [[1, 0, 0, FURTHEST_PLACE], end, [2, 0, 0, 0], [2, 1, 0, 0]]
    };
    let pairs = [
        (ending(&[]), handshake.clone()),
        (ending(&[raise, look]), handshake.clone()),
        (ending(&[raise, fence, look]), fenced_handshake),
        (round, none.clone()),
        (over, handshake),
        (vec![COUNT; MOST_INSTRUCTIONS], none),
    ];
    for memory in MEMORIES {
        for (long, short) in &pairs {
            let goal = both_ended(short);
            let job = file(memory, &[0, 0], &[long.clone(), short.clone()], 0, &goal);
            cases.extend(about_what_is_needed(&job));
        }
        // As many threads as there are, which no room here holds.
        let ends = [0, 1, 2, 3].map(|thread| [1, thread, 0, FURTHEST_PLACE]);
        let job = file(memory, &[0], &vec![ending(&[]); 4], 1, &ends);
        cases.push(Case::plain(ROOM, job));
    }
    cases
}

/// With neither CMPX nor WFENCE the version makes no difference.
fn as_in_version_one() -> Vec<Case> {
    let mut jobs = bench_list();
    jobs.extend(MEMORIES.into_iter().flat_map(classics));
    let in_version_two = jobs.iter().map(|job| in_version(job, 2));
    let cases = in_version_two.map(|job| Case::plain(ROOM, job));
    cases.collect()
}

fn about_the_count_of_two() -> Vec<Case> {
    let jobs = every_memory().into_iter().flat_map(classics_of_two);
    jobs.flat_map(|job| about_what_is_needed(&job)).collect()
}

/// Jobs whose levels have slots with groups and with a WFENCE, in every room up to one more than is needed.
fn every_room_of_two() -> Vec<Case> {
    let [_, _, _, _, three_groups, ..] = classics_of_two([PSO, 3]);
    let mut cases = Vec::new();
    for job in [message_passing_by_wfence([PSO, 2]), three_groups] {
        let rooms = 0..=count(&job) + 1;
        cases.extend(rooms.map(|slots| lent(&job, slots, slots)));
    }
    cases
}

/// As many stores as the buffer holds, each in a group of its own or two in one, some behind two WFENCEs, to all variables and to two; a store more has to wait.
fn full_of_groups() -> Vec<Case> {
    let mut cases = Vec::new();
    for memory in every_memory() {
        for variables in [2, 8] {
            for in_a_group in [1, 2] {
                let mut program = Program::new();
                for k in 0..=memory[1].max(1) {
                    program.push([5, 0, k % variables, k + 1]);
                    if k % in_a_group == 0 {
                        let in_a_row = if k % 4 == 0 { 2 } else { 1 };
                        program.extend(vec![WFENCE; in_a_row]);
                    }
                }
                let initial = vec![0; usize::from(variables)];
                let job = file_of_two(memory, &initial, &[program], 0, &[NEVER]);
                cases.extend(about_what_is_needed(&job));
            }
        }
    }
    cases
}

/// No thread here uses that register.
const NEVER: [u8; 4] = [2, 0, 3, 1];

const SOUND_JOBS_OF_TWO: usize = 60;
const GROUPED_JOBS: usize = 60;
const SEED_OF_TWO: u64 = 6;

fn random_jobs_of_two() -> Vec<Case> {
    let mut random = Random::new(SEED_OF_TWO);
    let mut cases = Vec::new();
    for turn in 0..SOUND_JOBS_OF_TWO + GROUPED_JOBS {
        let job = if turn < SOUND_JOBS_OF_TWO {
            sound_job_of(&mut random, 2)
        } else {
            grouped_job(&mut random, 2, 6, NEVER)
        };
        let sizes = within_the_room(buffer_sizes(&mut random, &job));
        cases.push(Case::plain(sizes, job));
    }
    cases
}

/// The bench list, the classics and those of version 2, as they stand and with each value times 256.
fn as_in_the_others() -> Vec<Case> {
    let mut jobs = accepted_list();
    jobs.extend(MEMORIES.into_iter().flat_map(classics));
    jobs.extend(MEMORIES.into_iter().flat_map(classics_of_two));
    let of_three = jobs.iter().flat_map(|job| [in_three(job), raised(job)]);
    let cases = of_three.map(|job| Case::plain(ROOM, job));
    cases.collect()
}

fn about_the_count_of_three() -> Vec<Case> {
    let jobs = every_memory().into_iter().flat_map(classics_of_three);
    jobs.flat_map(|job| about_what_is_needed(&job)).collect()
}

/// Jobs whose levels have slots with wide values in registers, memory and groups, in every room up to one more than is needed.
fn every_room_of_three() -> Vec<Case> {
    let mut cases = Vec::new();
    for job in [message_passing([PSO, 2]), wide_groups([PSO, 3])] {
        let rooms = 0..=count(&job) + 1;
        cases.extend(rooms.map(|slots| lent(&job, slots, slots)));
    }
    cases
}

/// As many wide stores as the buffer holds, each in a group of its own or two in one; values that are told apart by one byte alone.
fn full_of_wide_groups() -> Vec<Case> {
    let mut cases = Vec::new();
    for memory in every_memory() {
        for variables in [2, 8] {
            let mut program = Vec::new();
            for k in 0..=memory[1].max(1) {
                let value = [0x0100, 0xFF00, 0x00FF][usize::from(k % 3)] * u16::from(k / 3 + 1);
                program.push(put(k % variables, value));
                if k % 2 == variables / 8 {
                    program.push(version_three_jobs::WFENCE);
                }
            }
            let initial: Vec<u16> = (0..u16::from(variables)).map(|v| 0x0102 * v).collect();
            let job = file_of_three(memory, &initial, &[program], 0, &[NEVER.into()]);
            cases.extend(about_what_is_needed(&job));
        }
    }
    cases
}

/// Counters that pass 255, that wrap at 65,536, and that no room holds; the longest way and the longest file.
fn counters_of_three() -> Vec<Case> {
    let mut cases = Vec::new();
    for memory in MEMORIES {
        for (k, turns) in [(1, 130), (2, 130), (0x8000, 2), (0x4000, 4), (0xFF01, 130)] {
            // Two states a turn, and it comes back to the start where k goes into 65,536.
            let counter = vec![add(1, k), jump(0)];
            let asked = version_three_jobs::register_is(0, 1, k.wrapping_mul(turns));
            let goal = [is_at(0, 1), asked];
            let job = file_of_three(memory, &[0], &[counter], 0, &goal);
            cases.extend(about_what_is_needed(&job));
        }
        let job = under(&at_the_limit_of_three(), memory);
        cases.push(Case::plain(ROOM, job));
        let two = vec![vec![add(0, 0x0100), jump(0)]; 2];
        let job = file_of_three(memory, &[0], &two, 0, &[NEVER.into()]);
        cases.push(Case::plain(ROOM, job));
        cases.extend(about_what_is_needed(&raised(&long_way(
            memory,
            MOST_INSTRUCTIONS,
        ))));
    }
    cases
}

/// Sums that carry and that wrap, on their way through a buffer; all states are counted.
fn sums_of_three() -> Vec<Case> {
    let mut cases = Vec::new();
    let sums = [
        (65_535, 1),
        (255, 1),
        (65_280, 256),
        (0x8000, 0x8000),
        (0x12FF, 0xED02),
    ];
    for (turn, (before, k)) in sums.into_iter().enumerate() {
        for memory in [SC, [TSO, 1], [PSO, 1 + turn as u8]] {
            let program = vec![set(0, before), add(0, k), store(0, 1), load(1, 1)];
            let job = file_of_three(memory, &[k, before], &[program], 0, &[NEVER.into()]);
            cases.extend(about_what_is_needed(&job));
            // As often as it takes to come back to the start.
            let round = vec![add(1, 0x1000 << (turn % 4)), jump(0)];
            let job = file_of_three(memory, &[before], &[round], 0, &[NEVER.into()]);
            cases.extend(about_what_is_needed(&job));
        }
    }
    cases
}

const SOUND_JOBS_OF_THREE: usize = 100;
const GROUPED_JOBS_OF_THREE: usize = 60;
const SEED_OF_THREE: u64 = 12;

fn random_jobs_of_three() -> Vec<Case> {
    let mut random = Random::new(SEED_OF_THREE);
    let mut cases = Vec::new();
    for turn in 0..SOUND_JOBS_OF_THREE + GROUPED_JOBS_OF_THREE {
        let job = if turn < SOUND_JOBS_OF_THREE {
            sound_job_of(&mut random, THREE)
        } else {
            raised(&grouped_job(&mut random, 2, 6, NEVER))
        };
        let sizes = within_the_room(buffer_sizes(&mut random, &job));
        cases.push(Case::plain(sizes, job));
    }
    cases
}

const RANDOM_JOBS: usize = 60;
const SEED: u64 = 1;

fn random_jobs() -> Vec<Case> {
    let mut random = Random::new(SEED);
    let cases = (0..RANDOM_JOBS).map(|_| {
        let job = sound_job_of(&mut random, 1);
        let sizes = buffer_sizes(&mut random, &job);
        Case::plain(within_the_room(sizes), job)
    });
    cases.collect()
}

pub(crate) fn within_the_room(sizes: Sizes) -> Sizes {
    Sizes {
        table: sizes.table.min(ROOM.table),
        links: sizes.links.min(ROOM.links),
        schedule: sizes.schedule.min(ROOM.schedule),
    }
}

//! Cases for replay, and the line that each is answered with.

use crate::classes::Counts;
use crate::job::MOST_INSTRUCTIONS;
use crate::listed::{
    accepted_list, at_the_limit, bench_list, blank_goals, classics, fewest_and_most_clauses, file,
    p12, refused_jobs, too_long_threads, with_byte, Program, Refused, COUNT, FURTHEST_PLACE,
    MEMORIES, P12_REFUSAL, PSO, ROOM_FOR_JOB, SC, TSO,
};
use crate::long_threads::{ends_high, of_job, HIGH_END, MOST_BEFORE, OF_JOBS};
use crate::random::{damaged_job_of, found_schedule, replay_schedule, sound_job_of, Random};
use crate::reason_cases;
use crate::reasons::{of_replay, of_replays};
use crate::replay::replay;
use crate::version_three_jobs::refused_of_three;
use crate::version_two_jobs::{refused_about_versions, refused_in_both};
use crate::{version_three, version_three_replays, version_two, version_two_replays};
use std::slice;

/// A job, and the schedule that is replayed on it.
#[derive(Clone)]
pub struct Case {
    pub job: Vec<u8>,
    pub schedule: Vec<u8>,
}

/// A case, and the line that a person says for it from the paper.
pub type Known = (Case, String);

/// The longest schedule that the program under test has room for.
pub const MOST_STEPS: usize = 70_000;

pub(crate) const REACHES: &str = "REACHES";
pub(crate) const FALLS_SHORT: &str = "FALLS SHORT";

// The numbers that request 5 gives to the reasons, written down apart from the machine's.
pub(crate) const NO_SUCH_STEP: u8 = 1;
pub(crate) const THREAD_ENDED: u8 = 2;
pub(crate) const BUFFER_FULL: u8 = 3;
pub(crate) const BUFFER_NOT_EMPTY: u8 = 4;
pub(crate) const NOTHING_TO_FLUSH: u8 = 5;
pub(crate) const NOT_THE_OLDEST: u8 = 6;

/// What the program under test prints for a case.
pub fn line(case: &Case) -> String {
    match replay(&case.job, &case.schedule) {
        [0, number, offset, _] => refused_line([number, offset]),
        [1, ..] => REACHES.to_string(),
        [2, ..] => FALLS_SHORT.to_string(),
        [3, step, reason, _] => stuck_at(step as usize, reason as u8),
        answer => panic!("replay answered {answer:?}, which has no meaning"),
    }
}

fn refused_line([number, offset]: [u64; 2]) -> String {
    format!("REFUSED {number} {offset}")
}

pub(crate) fn stuck_at(step: usize, reason: u8) -> String {
    format!("STUCK {step} {reason}")
}

fn case(job: &[u8], schedule: &[u8]) -> Case {
    Case {
        job: job.to_vec(),
        schedule: schedule.to_vec(),
    }
}

pub(crate) fn known(job: &[u8], schedule: &[u8], line: &str) -> Known {
    (case(job, schedule), line.to_string())
}

/// Those of version 2 come behind those of version 1, and those of version 3 behind these; all stay where they were.
pub fn all() -> Vec<Case> {
    let without_line = |known: Vec<Known>| known.into_iter().map(|(case, _)| case).collect();
    [
        without_line(known_of_version_one()),
        changed_found(),
        random_cases(),
        reason_cases::random_cases(),
        without_line(known_of_version_two()),
        version_two_replays::random_cases(),
        without_line(known_of_version_three()),
        version_three_replays::random_cases(),
    ]
    .concat()
}

/// The cases whose lines a person can say.
pub fn all_known() -> Vec<Known> {
    [
        known_of_version_one(),
        known_of_version_two(),
        known_of_version_three(),
    ]
    .concat()
}

fn known_of_version_three() -> Vec<Known> {
    [
        version_three_replays::all_known(),
        with_any_schedule(refused_of_three()),
    ]
    .concat()
}

fn known_of_version_two() -> Vec<Known> {
    [
        version_two_replays::all_known(),
        with_any_schedule(refused_about_versions()),
        with_any_schedule(refused_in_both()),
    ]
    .concat()
}

fn known_of_version_one() -> Vec<Known> {
    let groups = [
        listed(),
        goal_at_the_start(),
        beyond_the_last_step(),
        instructions(),
        waiting(),
        flushes(),
        ended(),
        each_flush_step(),
        long_schedules(),
        found(),
        with_any_schedule(refused_jobs()),
        with_any_schedule(blank_goals()),
        with_any_schedule(too_long_threads()),
        about_the_range_of_k(),
        to_each_long_end(),
        to_each_high_place(),
        at_the_last_place(),
        four_long_threads(),
        reason_cases::all_known(),
    ];
    groups.concat()
}

/// What each operation does and each step, in few words.
pub(crate) fn basics() -> Vec<Known> {
    [listed(), instructions(), waiting(), flushes(), ended()].concat()
}

/// How many cases have long threads, by class.
pub fn counts_of_long_threads() -> Counts {
    let classes = [&OF_JOBS[..], &[HIGH_END]].concat();
    let met = |case: &Case| {
        let ends_high = ends_high(&case.job, &case.schedule);
        [of_job(&case.job), vec![HIGH_END; usize::from(ends_high)]].concat()
    };
    let met: Vec<_> = all().iter().map(met).collect();
    Counts::new(&classes, &met)
}

/// How many cases are stuck by each reason under each model, and which of them could be taken for stuck by another.
pub fn counts_of_reasons() -> Counts {
    let met = |case: &Case| of_replay(&case.job, &case.schedule);
    let met: Vec<_> = all().iter().map(met).collect();
    Counts::new(&of_replays(), &met)
}

/// How many cases are of version 2, and what they meet, by class.
pub fn counts_of_version_two() -> Counts {
    let classes = [&version_two::of_jobs()[..], &version_two::OF_REPLAYS].concat();
    let met = |case: &Case| {
        let of_replay = version_two::of_replay(&case.job, &case.schedule);
        [version_two::of_job(&case.job), of_replay].concat()
    };
    let met: Vec<_> = all().iter().map(met).collect();
    Counts::new(&classes, &met)
}

/// How many cases are of version 3, and what they meet, by class.
pub fn counts_of_version_three() -> Counts {
    let classes = [version_three::of_jobs(), version_three::of_replays()].concat();
    let met = |case: &Case| {
        let of_replay = version_three::of_replay(&case.job, &case.schedule);
        [version_three::of_job(&case.job), of_replay].concat()
    };
    let met: Vec<_> = all().iter().map(met).collect();
    Counts::new(&classes, &met)
}

/// The schedules that the bench list names, P11 on each of its jobs.
fn listed() -> Vec<Known> {
    let jobs = accepted_list();
    let [p1, p3, p5, p6, p10] = [0, 2, 4, 5, 9].map(|index| &jobs[index]);
    let mut cases = vec![
        known(p1, &[0, 0, 1, 1], REACHES),
        known(p3, &[0, 0, 1, 1], FALLS_SHORT),
        known(p3, &[0, 0, 1, 1, 0x04, 0x0D], REACHES),
        known(p5, &[0, 0], REACHES),
        known(p6, &[0, 0, 5, 1, 1], REACHES),
        known(p10, &[0, 0], "STUCK 1 3"),
    ];
    cases.extend(jobs.iter().map(|job| known(job, &[0x24], "STUCK 0 1")));
    let refused = refused_line(P12_REFUSAL);
    cases.extend(p12().iter().map(|job| known(job, &[0x24], &refused)));
    cases
}

/// The empty schedule ends at the start.
fn goal_at_the_start() -> Vec<Known> {
    let programs = [vec![[5, 0, 0, 1], [3, 0, 0, 0]], vec![]];
    let holds = [[1, 0, 0, 0], [1, 1, 0, 0], [2, 1, 3, 0], [3, 0, 0, 7]];
    let mut cases = Vec::new();
    for memory in MEMORIES {
        for flag in [0, 1] {
            let job = |clauses: &[[u8; 4]]| file(memory, &[7], &programs, flag, clauses);
            cases.push(known(&job(&holds[..1]), &[], REACHES));
            cases.push(known(&job(&holds), &[], REACHES));
            for fails in [[1, 0, 0, 1], [2, 0, 0, 1], [3, 0, 0, 6]] {
                cases.push(known(&job(&[fails]), &[], FALLS_SHORT));
                // One clause that fails is enough, wherever it stands.
                cases.push(known(
                    &job(&[&[fails], &holds[..]].concat()),
                    &[],
                    FALLS_SHORT,
                ));
                cases.push(known(
                    &job(&[&holds[..], &[fails]].concat()),
                    &[],
                    FALLS_SHORT,
                ));
            }
            // The goal held at the start, but only the end counts.
            cases.push(known(&job(&holds), &[0], FALLS_SHORT));
        }
    }
    let listed = accepted_list();
    let (p1_to_p9, p10_and_p11) = listed.split_at(9);
    cases.extend(p1_to_p9.iter().map(|job| known(job, &[], FALLS_SHORT)));
    cases.extend(p10_and_p11.iter().map(|job| known(job, &[], REACHES)));
    cases.push(known(&at_the_limit(), &[], FALLS_SHORT));
    cases
}

/// Numbers that mean no step, some of which would be a step if bits of them were lost.
const NO_STEPS: [u8; 10] = [36, 37, 63, 64, 65, 127, 128, 192, 254, 255];

/// Such a number first, in the middle and last, and with others of its kind behind it.
fn beyond_the_last_step() -> Vec<Known> {
    let mut cases = Vec::new();
    for job in [&bench_list()[0], &bench_list()[2]] {
        for number in NO_STEPS {
            for at in 0..4 {
                let schedule = with_byte(&[0, 0, 1, 1], at, number);
                cases.push(known(job, &schedule, &stuck_at(at, NO_SUCH_STEP)));
                let more = [&schedule[..], &[255, 36]].concat();
                cases.push(known(job, &more, &stuck_at(at, NO_SUCH_STEP)));
            }
            cases.push(known(job, &[0, 0, 1, 1, number], "STUCK 4 1"));
        }
    }
    cases
}

/// What each operation does, shown by a goal that only it can bring about.
fn instructions() -> Vec<Known> {
    let mut cases = Vec::new();
    for memory in MEMORIES {
        let job = |program: &[[u8; 4]], goal: &[[u8; 4]]| {
            file(memory, &[7, 8], &[program.to_vec()], 0, goal)
        };
        let set = job(&[[1, 3, 0, 9]], &[[1, 0, 0, 1], [2, 0, 3, 9]]);
        let add = job(&[[1, 1, 0, 200], [2, 1, 0, 57]], &[[2, 0, 1, 1]]);
        let load = job(&[[3, 2, 1, 0]], &[[2, 0, 2, 8]]);
        let exchange = job(&[[1, 0, 0, 5], [7, 0, 1, 0]], &[[2, 0, 0, 8], [3, 1, 0, 5]]);
        let fence = job(&[[6, 0, 0, 0]], &[[1, 0, 0, 1]]);
        let jump = job(&[[9, 0, 2, 0], [6, 0, 0, 0]], &[[1, 0, 0, 2]]);
        let own_place = job(&[[9, 0, 0, 0]], &[[1, 0, 0, 0]]);
        let jump_taken = job(&[[8, 0, 2, 0], [6, 0, 0, 0]], &[[1, 0, 0, 2]]);
        let not_taken = job(&[[8, 0, 2, 1], [6, 0, 0, 0]], &[[1, 0, 0, 1]]);
        let jump_back = job(&[[2, 0, 0, 1], [8, 0, 0, 1]], &[[1, 0, 0, 0], [2, 0, 0, 1]]);
        cases.extend([
            known(&set, &[0], REACHES),
            known(&add, &[0], FALLS_SHORT),
            known(&add, &[0, 0], REACHES),
            known(&load, &[0], REACHES),
            known(&exchange, &[0], FALLS_SHORT),
            known(&exchange, &[0, 0], REACHES),
            known(&fence, &[0], REACHES),
            known(&jump, &[0], REACHES),
            known(&jump, &[0, 0], "STUCK 1 2"),
            known(&own_place, &[0; 300], REACHES),
            known(&jump_taken, &[0], REACHES),
            known(&jump_taken, &[0, 0], "STUCK 1 2"),
            known(&not_taken, &[0], REACHES),
            known(&not_taken, &[0, 0, 0], "STUCK 2 2"),
            known(&jump_back, &[0, 0], REACHES),
            // The second time round the register is 2, so the thread ends.
            known(&jump_back, &[0, 0, 0, 0, 0], "STUCK 4 2"),
        ]);
    }
    cases
}

/// A full buffer, and FENCE and XCHG before the own buffer is empty.
fn waiting() -> Vec<Known> {
    let mut cases = Vec::new();
    for model in [TSO, PSO] {
        for capacity in 1..=8 {
            cases.extend(full_buffer(model, capacity));
        }
        for barrier in [[6, 0, 0, 0], [7, 0, 0, 0]] {
            let first = vec![[5, 0, 0, 1], barrier];
            let second = vec![barrier, [5, 0, 1, 1]];
            let goal = [[1, 0, 0, 2]];
            let job = file([model, 2], &[0, 0], &[first, second], 0, &goal);
            cases.extend([
                known(&job, &[0, 0], "STUCK 1 4"),
                known(&job, &[0, 4], FALLS_SHORT),
                known(&job, &[0, 4, 0], REACHES),
                // Another thread's pending store keeps nobody waiting.
                known(&job, &[1, 1, 0, 4, 0], REACHES),
                known(&job, &[1, 1, 0, 0], "STUCK 3 4"),
                known(&job, &[0, 1, 4, 0], REACHES),
            ]);
        }
    }
    // Under SC nothing waits.
    for barrier in [[6, 0, 0, 0], [7, 0, 0, 0]] {
        let program = vec![[5, 0, 0, 1], [5, 0, 0, 2], barrier];
        let job = file(SC, &[0], &[program], 1, &[[1, 0, 0, 3]]);
        cases.push(known(&job, &[0, 0, 0], REACHES));
    }
    cases
}

/// One store more than the buffer holds, over two variables, with and without a flush before it.
fn full_buffer(model: u8, capacity: u8) -> Vec<Known> {
    let program = (0..=capacity).map(|k| [5, 0, k % 2, k + 1]).collect();
    let job = file(
        [model, capacity],
        &[0, 0],
        &[program],
        0,
        &[[1, 0, 0, capacity + 1]],
    );
    let fill = vec![0; usize::from(capacity)];
    let after = |more: &[u8]| [&fill[..], more].concat();
    vec![
        known(&job, &fill, FALLS_SHORT),
        known(&job, &after(&[0]), &stuck_at(fill.len(), BUFFER_FULL)),
        known(&job, &after(&[4, 0]), REACHES),
        // Full again, but there is no store left that could wait.
        known(
            &job,
            &after(&[4, 0, 0]),
            &stuck_at(fill.len() + 2, THREAD_ENDED),
        ),
    ]
}

/// Which pending store a flush may take, and what it leaves in memory.
fn flushes() -> Vec<Known> {
    let two_variables = [vec![[5, 0, 0, 1], [5, 0, 1, 2]]];
    let one_variable = [vec![[5, 0, 0, 1], [5, 0, 0, 2]]];
    let job = |model, programs: &[Program], flag, goal: &[[u8; 4]]| {
        let memory = if model == 0 { SC } else { [model, 2] };
        file(memory, &[0, 0], programs, flag, goal)
    };
    let both = [[3, 0, 0, 1], [3, 1, 0, 2]];
    let [tso, pso] = [TSO, PSO].map(|model| job(model, &two_variables, 1, &both));
    let second_only = job(PSO, &two_variables, 0, &[[3, 0, 0, 0], [3, 1, 0, 2]]);
    let mut cases = vec![
        known(&tso, &[0, 0, 4, 5], REACHES),
        known(&tso, &[0, 0, 5], "STUCK 2 6"),
        known(&tso, &[0, 0, 4], FALLS_SHORT),
        known(&pso, &[0, 0, 4, 5], REACHES),
        known(&pso, &[0, 0, 5, 4], REACHES),
        known(&pso, &[0, 0, 5, 5], "STUCK 3 5"),
        known(&second_only, &[0, 0, 5], REACHES),
        known(&second_only, &[0, 0, 4], FALLS_SHORT),
    ];
    for model in [TSO, PSO] {
        let oldest = job(model, &one_variable, 0, &[[3, 0, 0, 1]]);
        let newest = job(model, &one_variable, 1, &[[3, 0, 0, 2]]);
        let own_load = [
            vec![[5, 0, 0, 1], [5, 0, 0, 2], [3, 0, 0, 0]],
            vec![[3, 0, 0, 0]],
        ];
        let own = job(model, &own_load, 0, &[[2, 0, 0, 2], [3, 0, 0, 0]]);
        let another = job(
            model,
            &own_load,
            0,
            &[[2, 1, 0, 0], [1, 1, 0, 1], [1, 0, 0, 2]],
        );
        cases.extend([
            known(&oldest, &[0, 0, 4], REACHES),
            known(&oldest, &[0, 0, 4, 4], FALLS_SHORT),
            known(&newest, &[0, 0, 4, 4], REACHES),
            known(&newest, &[0, 0, 4, 4, 4], "STUCK 4 5"),
            known(&own, &[0, 0, 0], REACHES),
            known(&another, &[0, 0, 1], REACHES),
            known(&another, &[0, 0, 4, 1], FALLS_SHORT),
        ]);
    }
    let straight = job(0, &two_variables, 1, &both);
    cases.extend([
        known(&straight, &[0, 0], REACHES),
        known(&straight, &[0, 4], "STUCK 1 5"),
        known(&straight, &[4], "STUCK 0 5"),
    ]);
    cases
}

/// Threads at their end, threads of no instructions and threads that a job doesn't have.
fn ended() -> Vec<Known> {
    let mut cases = Vec::new();
    for model in [TSO, PSO] {
        let programs = [vec![[5, 0, 0, 1]], vec![]];
        let job = file(
            [model, 1],
            &[0],
            &programs,
            1,
            &[[3, 0, 0, 1], [1, 0, 0, 1]],
        );
        cases.extend([
            known(&job, &[0], FALLS_SHORT),
            // An ended thread still flushes.
            known(&job, &[0, 4], REACHES),
            known(&job, &[0, 0], "STUCK 1 2"),
            known(&job, &[0, 4, 0], "STUCK 2 2"),
            known(&job, &[0, 4, 4], "STUCK 2 5"),
            known(&job, &[1], "STUCK 0 2"),
            known(&job, &[0, 1], "STUCK 1 2"),
            // Thread 1 has ended and has nothing to flush to the one variable.
            known(&job, &[0, 12], "STUCK 1 5"),
        ]);
        // Threads 2 and 3 are absent, and so are all variables but the first.
        let absent = [2, 3].into_iter().chain(5..12).chain(13..36);
        cases.extend(absent.map(|step| known(&job, &[0, step], "STUCK 1 1")));
    }
    cases
}

/// Every thread's store to every variable, flushed by its own step and by the steps beside it.
fn each_flush_step() -> Vec<Known> {
    let mut cases = Vec::new();
    for thread in 0..4 {
        for variable in 0..8 {
            let mut programs = vec![vec![]; 4];
            programs[usize::from(thread)] = vec![[5, 0, variable, 9]];
            for model in [TSO, PSO] {
                let goal = [[3, variable, 0, 9]];
                let job = file([model, 8], &[0; 8], &programs, 1, &goal);
                let own = 4 + 8 * thread + variable;
                cases.push(known(&job, &[thread], FALLS_SHORT));
                cases.push(known(&job, &[thread, own], REACHES));
                // The variables beside it, and the same one of the threads beside; beyond the ends other numbers.
                for step in [own - 1, own + 1, own.wrapping_sub(8), own + 8] {
                    let reason = match step {
                        // The other threads have no instructions, and this one has run its only one.
                        0..=3 => THREAD_ENDED,
                        4..=35 => NOTHING_TO_FLUSH,
                        36..=255 => NO_SUCH_STEP,
                    };
                    cases.push(known(&job, &[thread, step], &stuck_at(1, reason)));
                }
            }
        }
    }
    cases
}

/// Loops that go on past 65,536 steps.
fn long_schedules() -> Vec<Known> {
    [endless_count(), endless_stores(), late_end()].concat()
}

/// Two steps a turn: after 70,000 the register is 35,000 mod 256 = 184.
fn endless_count() -> Vec<Known> {
    let programs = [vec![[2, 0, 0, 1], [9, 0, 0, 0]], vec![]];
    let job = |count| {
        file(
            [TSO, 1],
            &[0],
            &programs,
            0,
            &[[1, 0, 0, 0], [2, 0, 0, count]],
        )
    };
    let steps = vec![0; MOST_STEPS];
    let stuck = |at, step, reason| {
        let schedule = with_byte(&steps, at, step);
        known(&job(184), &schedule, &stuck_at(at, reason))
    };
    vec![
        known(&job(184), &steps, REACHES),
        known(&job(184), &steps[1..], FALLS_SHORT),
        known(&job(0), &steps[..65_536], REACHES),
        // Thread 1 has no instructions; 255 is no step.
        stuck(65_536, 1, THREAD_ENDED),
        stuck(69_999, 255, NO_SUCH_STEP),
    ]
}

/// Four steps a turn, one of them a flush: after 70,000 memory holds 17,500 mod 256 = 92.
fn endless_stores() -> Vec<Known> {
    let program = vec![[2, 0, 0, 1], [4, 0, 1, 0], [9, 0, 0, 0]];
    let job = file(
        [PSO, 1],
        &[0, 0],
        &[program],
        1,
        &[[3, 1, 0, 92], [1, 0, 0, 0]],
    );
    let steps = [0, 0, 5, 0].repeat(MOST_STEPS / 4);
    vec![
        known(&job, &steps, REACHES),
        // The buffer is empty before the store of this turn.
        known(
            &job,
            &with_byte(&steps, 65_537, 5)[..65_540],
            "STUCK 65537 5",
        ),
    ]
}

/// 770 steps for each 256 of one register, 86 times of another, but for the jump back at the last: it ends after 66,219.
fn late_end() -> Vec<Known> {
    let program = vec![
        [2, 0, 0, 1],
        [8, 0, 3, 0],
        [9, 0, 0, 0],
        [2, 1, 0, 1],
        [8, 1, 6, 86],
        [9, 0, 0, 0],
    ];
    let job = file(SC, &[0], &[program], 0, &[[1, 0, 0, 6], [2, 0, 1, 86]]);
    let steps = vec![0; 66_220];
    vec![
        known(&job, &steps[..66_219], REACHES),
        known(&job, &steps[..66_218], FALLS_SHORT),
        known(&job, &steps, "STUCK 66219 2"),
    ]
}

/// The jobs whose goal lies some steps away, each with the schedule that a search finds.
fn jobs_found() -> Vec<(Vec<u8>, Vec<u8>)> {
    let mut jobs = bench_list();
    jobs.extend(MEMORIES.into_iter().flat_map(classics));
    let with_schedule = jobs.into_iter().map(|job| {
        let schedule = found_schedule(&job);
        (job, schedule)
    });
    with_schedule
        .filter(|(_, schedule)| !schedule.is_empty())
        .collect()
}

/// A found schedule reaches the goal, and no shorter one does.
fn found() -> Vec<Known> {
    let mut cases = Vec::new();
    for (job, schedule) in jobs_found() {
        cases.push(known(&job, &schedule, REACHES));
        cases.push(known(&job, &schedule[..schedule.len() - 1], FALLS_SHORT));
        cases.push(known(
            &job,
            &[&schedule[..], &[36]].concat(),
            &stuck_at(schedule.len(), NO_SUCH_STEP),
        ));
    }
    cases
}

/// Each thread's step, and flushes of the first two.
const OTHER_STEPS: [u8; 8] = [0, 1, 2, 3, 4, 5, 12, 13];

/// Found schedules with one step changed, left out, done twice, and with one more.
fn changed_found() -> Vec<Case> {
    let mut cases = Vec::new();
    for (job, schedule) in jobs_found() {
        for (at, &step) in schedule.iter().enumerate() {
            let (before, rest) = schedule.split_at(at);
            for other in OTHER_STEPS {
                cases.push(case(&job, &with_byte(&schedule, at, other)));
            }
            cases.push(case(&job, &[before, &rest[1..]].concat()));
            cases.push(case(&job, &[before, &[step], rest].concat()));
        }
        cases.extend(OTHER_STEPS.map(|step| case(&job, &[&schedule[..], &[step]].concat())));
    }
    cases
}

/// Jobs that are refused themselves, whatever the schedule.
fn with_any_schedule(jobs: Vec<Refused>) -> Vec<Known> {
    let mut cases = Vec::new();
    for (job, refusal) in jobs {
        for schedule in [&[][..], &[0], &[0, 0, 1, 1], &[36], &[255; 300]] {
            cases.push(known(&job, schedule, &refused_line(refusal)));
        }
    }
    cases
}

fn about_the_range_of_k() -> Vec<Known> {
    let mut cases = Vec::new();
    for job in fewest_and_most_clauses() {
        cases.push(known(&job, &[], REACHES));
        cases.push(known(&job, &[0], FALLS_SHORT));
    }
    cases
}

/// Threads of each length that request 2 brought: to the end step by step and by a jump, and no step beyond.
fn to_each_long_end() -> Vec<Known> {
    let mut cases = Vec::new();
    for count in MOST_BEFORE + 1..=MOST_INSTRUCTIONS {
        let n = count as u8;
        let memory = MEMORIES[count % MEMORIES.len()];
        let program = vec![COUNT; count];
        let job = |program: &Program, counted| {
            let goal = [[1, 0, 0, n], [2, 0, 1, counted]];
            file(memory, &[0], slice::from_ref(program), 0, &goal)
        };
        let walked = job(&program, n);
        let steps = vec![0; count + 1];
        cases.extend([
            known(&walked, &steps[..count], REACHES),
            known(&walked, &steps[..count - 1], FALLS_SHORT),
            known(&walked, &steps, &stuck_at(count, THREAD_ENDED)),
        ]);
        for jump in [[9, 0, n, 0], [8, 0, n, 0]] {
            let mut program = program.clone();
            program[0] = jump;
            let jumped = job(&program, 0);
            cases.extend([
                known(&jumped, &[0], REACHES),
                known(&jumped, &[0, 0], "STUCK 1 2"),
            ]);
        }
    }
    cases
}

/// A jump to each place that request 2 brought, where the instruction of that place is then run.
fn to_each_high_place() -> Vec<Known> {
    let mut cases = Vec::new();
    for place in MOST_BEFORE..MOST_INSTRUCTIONS {
        let p = place as u8;
        let mut program: Program = (0..FURTHEST_PLACE).map(|own| [1, 2, 0, own]).collect();
        program[0] = if place % 2 == 0 {
            [9, 0, p, 0]
        } else {
            [8, 0, p, 0]
        };
        let memory = MEMORIES[place % MEMORIES.len()];
        let goal = [[1, 3, 0, p + 1], [2, 3, 2, p]];
        let job = file(memory, &[0], &[vec![], vec![], vec![], program], 0, &goal);
        cases.push(known(&job, &[3, 3], REACHES));
        cases.push(known(&job, &[3], FALLS_SHORT));
    }
    cases
}

/// Each kind of instruction at the last place of a thread of the most instructions, and what is left to do at its end.
fn at_the_last_place() -> Vec<Known> {
    let mut cases = Vec::new();
    let n = FURTHEST_PLACE;
    // So many executions, then these steps.
    let then = |count: usize, more: &[u8]| [&vec![0; count], more].concat();
    let [ended, last] = [MOST_INSTRUCTIONS, MOST_INSTRUCTIONS - 1];
    let store = [5, 0, 0, 9];
    for memory in MEMORIES {
        let job = |ending: &[[u8; 4]], flag, goal: &[[u8; 4]]| {
            let mut program = vec![COUNT; MOST_INSTRUCTIONS - ending.len()];
            program.extend(ending);
            file(memory, &[0], &[program], flag, goal)
        };
        let load = job(&[store, [3, 0, 0, 0]], 0, &[[1, 0, 0, n], [2, 0, 0, 9]]);
        let jump = job(&[[9, 0, 0, 0]], 1, &[[1, 0, 0, 0], [2, 0, 1, n - 1]]);
        let jump_taken = job(&[[8, 1, 0, n - 1]], 1, &[[1, 0, 0, 0]]);
        let not_taken = job(&[[8, 1, 0, n]], 1, &[[1, 0, 0, n]]);
        cases.extend([
            known(&load, &then(ended, &[]), REACHES),
            known(&load, &then(ended, &[0]), &stuck_at(ended, THREAD_ENDED)),
            known(&jump, &then(ended, &[]), REACHES),
            known(&jump, &then(ended, &[0]), FALLS_SHORT),
            known(&jump_taken, &then(ended, &[]), REACHES),
            known(&not_taken, &then(ended, &[]), REACHES),
            known(
                &not_taken,
                &then(ended, &[0]),
                &stuck_at(ended, THREAD_ENDED),
            ),
        ]);
        if memory == SC {
            continue;
        }
        let stores = job(&[store], 1, &[[1, 0, 0, n], [3, 0, 0, 9]]);
        let fence = job(&[store, [6, 0, 0, 0]], 1, &[[1, 0, 0, n]]);
        let exchange = job(&[store, [7, 0, 0, 0]], 1, &[[2, 0, 0, 9], [3, 0, 0, 0]]);
        cases.extend([
            known(&stores, &then(ended, &[]), FALLS_SHORT),
            known(&stores, &then(ended, &[4]), REACHES),
            known(
                &stores,
                &then(ended, &[4, 4]),
                &stuck_at(ended + 1, NOTHING_TO_FLUSH),
            ),
            known(
                &stores,
                &then(ended, &[4, 0]),
                &stuck_at(ended + 1, THREAD_ENDED),
            ),
        ]);
        for waits in [fence, exchange] {
            cases.extend([
                known(&waits, &then(last, &[0]), &stuck_at(last, BUFFER_NOT_EMPTY)),
                known(&waits, &then(last, &[4]), FALLS_SHORT),
                known(&waits, &then(last, &[4, 0]), REACHES),
                known(
                    &waits,
                    &then(last, &[4, 0, 0]),
                    &stuck_at(ended + 1, THREAD_ENDED),
                ),
            ]);
        }
    }
    cases
}

/// Four threads of the most instructions, run to their ends by turns.
fn four_long_threads() -> Vec<Known> {
    let mut cases = Vec::new();
    let goal = [0, 1, 2, 3].map(|thread| [1, thread, 0, FURTHEST_PLACE]);
    let steps = [0, 1, 2, 3].repeat(MOST_INSTRUCTIONS);
    for memory in MEMORIES {
        let job = file(
            memory,
            &[0],
            &vec![vec![COUNT; MOST_INSTRUCTIONS]; 4],
            1,
            &goal,
        );
        cases.push(known(&job, &steps, REACHES));
        cases.push(known(&job, &steps[..steps.len() - 1], FALLS_SHORT));
        for thread in 0..4 {
            let beyond = [&steps[..], &[thread]].concat();
            cases.push(known(&job, &beyond, &stuck_at(steps.len(), THREAD_ENDED)));
        }
    }
    cases
}

const RANDOM_JOBS: usize = 500;
const DAMAGED_JOBS: usize = 100;
const SEED: u64 = 2;

fn random_cases() -> Vec<Case> {
    let mut random = Random::new(SEED);
    let mut jobs = vec![at_the_limit(); 10];
    jobs.extend((0..RANDOM_JOBS).map(|_| sound_job_of(&mut random, 1)));
    jobs.extend((0..DAMAGED_JOBS).map(|_| damaged_job_of(&mut random, 1)));
    jobs.retain(|job| job.len() <= ROOM_FOR_JOB);
    let cases = jobs.into_iter().map(|job| Case {
        schedule: replay_schedule(&mut random, &job),
        job,
    });
    cases.collect()
}

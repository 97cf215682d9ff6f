//! The run cases: lines that a person says, and that every kind of case is among them.

use second::classes::Counts;
use second::dead_code::{
    ALARM_GONE, BY_A_FENCE, BY_A_JUMP_BACK, BY_JUMPING, BY_NOT_JUMPING, BY_THE_START, DEAD_STORE,
    DEAD_STORE_IN, LATER_PAIR, LIVE_THROUGH_FENCE, OPEN_TO_DEAD_LOAD, OPEN_TO_LIVE_LOAD,
};
use second::fences::{open_pairs, OpenPair};
use second::job::{Instruction, Job, Model};
use second::listed::{
    blank_goals, refused_jobs, too_long_threads, Refused, MEMORIES, P1, ROOM_FOR_JOB,
};
use second::long_threads::{
    FULL_SIZE, HELD_HIGH, HIGH_CLAUSE, HIGH_END, HIGH_EXCHANGE, HIGH_FENCE, HIGH_GOAL, HIGH_LOAD,
    HIGH_STORE, HIGH_TARGET, LONG_THREAD, ONE_TOO_MANY,
};
use second::machine::SLOT_BYTES;
use second::random::Sizes;
use second::reasons::{
    ABOVE_35, ABSENT_THREAD, ABSENT_THREAD_FLUSH, ABSENT_VARIABLE, BARRIER_AT_FULL, BOTH_ABSENT,
    ENDED_AT_FULL, FLUSH_BESIDE, FLUSH_OF_ENDED, FLUSH_OF_WAITING, NEVER, OTHER_STATE_BEFORE,
    STUCK,
};
use second::search_cases::{Case, Index};
use second::version_three_jobs::{raised, refused_of_three};
use second::version_two_jobs::{refused_about_versions, refused_in_both};
use second::{decode, fence_cases, index_cases, job_cases, replay_cases, search_cases};
use std::collections::{BTreeMap, BTreeSet};

#[test]
fn replays_answer_as_a_person_says() {
    for (case, line) in replay_cases::all_known() {
        let steps = &case.schedule[..case.schedule.len().min(20)];
        assert_eq!(replay_cases::line(&case), line, "{:?} {steps:?}", case.job);
    }
}

#[test]
fn fence_checks_answer_as_a_person_says() {
    for (job, line) in fence_cases::all_known() {
        assert_eq!(fence_cases::line(&job), line, "{job:?}");
    }
}

/// The line for memory that nothing was written to, worked out from its first contents.
const UNTOUCHED: &str = "SUMS 101856759 3514663550 1007328511\n";

#[test]
fn refused_jobs_are_decoded_and_searched_as_a_person_says() {
    let cases = search_cases::all();
    for (job, [number, offset]) in all_refused() {
        let line = format!("REFUSED {number} {offset}\n");
        assert_eq!(job_cases::line(&job), line, "{job:?}");
        let rooms: Vec<_> = cases.iter().filter(|case| case.job == job).collect();
        assert!(rooms.iter().any(|case| case.sizes.table == 0), "{job:?}");
        assert!(rooms.iter().any(|case| case.sizes.table > 0), "{job:?}");
        for case in rooms {
            let lines = search_cases::lines(case);
            let index = case.index.map_or(String::new(), untouched_index);
            assert_eq!(lines, format!("{line}{UNTOUCHED}{index}"), "{job:?}");
        }
    }
}

/// The line for an index that nothing was written to: its room has 1,024 numbers.
fn untouched_index(index: Index) -> String {
    untouched_behind(index, 0)
}

/// The line for an index of which so many numbers may be others than before.
fn untouched_behind(index: Index, count: u64) -> String {
    let first = u64::from(index.first);
    let sum = (count..1024).fold(0, |sum, i| {
        let number = (first + i) % 4_294_967_296;
        (31 * sum + number) % 4_294_967_291
    });
    format!("INDEX {sum}\n")
}

/// What is refused in any version.
fn all_refused() -> Vec<Refused> {
    let of_one = [refused_jobs(), blank_goals(), too_long_threads()].concat();
    [
        of_one,
        refused_about_versions(),
        refused_in_both(),
        refused_of_three(),
    ]
    .concat()
}

#[test]
fn what_is_refused_about_versions_is_among_the_cases_of_all_four() {
    for jobs in jobs_of_all_four() {
        let refused = [
            refused_about_versions(),
            refused_in_both(),
            refused_of_three(),
        ];
        for (refused, _) in refused.concat() {
            assert!(jobs.contains(&refused), "{refused:?}");
        }
    }
}

#[test]
fn blank_goals_are_among_the_cases_of_all_four() {
    for jobs in jobs_of_all_four() {
        for (blank, _) in blank_goals() {
            assert!(jobs.contains(&blank), "{blank:?}");
        }
    }
}

#[test]
fn threads_of_65_are_among_the_cases_of_all_four() {
    for jobs in jobs_of_all_four() {
        for (too_long, _) in too_long_threads() {
            assert!(jobs.contains(&too_long), "{too_long:?}");
        }
    }
}

/// The jobs of the decoder's, the search's, the replay's and the fence check's cases.
fn jobs_of_all_four() -> [Vec<Vec<u8>>; 4] {
    let searched = search_cases::all().into_iter().map(|case| case.job);
    let replayed = replay_cases::all().into_iter().map(|case| case.job);
    [
        job_cases::all(),
        searched.collect(),
        replayed.collect(),
        fence_cases::all(),
    ]
}

#[test]
fn every_long_length_is_among_the_cases_of_all_four() {
    for jobs in jobs_of_all_four() {
        let accepted = jobs.iter().filter_map(|job| decode(job).ok());
        let lengths: BTreeSet<usize> = accepted
            .flat_map(|job| job.programs.into_iter().map(|program| program.len()))
            .collect();
        assert!((33..=64).all(|length| lengths.contains(&length)));
    }
}

/// The bounds are somewhat below what there is, so that no class can shrink away unnoticed.
#[test]
fn long_threads_are_often_enough_among_the_cases_of_all_four() {
    assert_counts(
        job_cases::counts_of_long_threads(),
        2_000,
        &[
            (LONG_THREAD, 120),
            (FULL_SIZE, 10),
            (HIGH_FENCE, 60),
            (HIGH_EXCHANGE, 60),
            (HIGH_TARGET, 70),
            (HIGH_CLAUSE, 100),
            (ONE_TOO_MANY, 10),
        ],
    );
    assert_counts(
        search_cases::counts_of_long_threads(),
        1_200,
        &[
            (LONG_THREAD, 170),
            (FULL_SIZE, 7),
            (HIGH_FENCE, 20),
            (HIGH_EXCHANGE, 3),
            (HIGH_TARGET, 20),
            (HIGH_CLAUSE, 150),
            (ONE_TOO_MANY, 8),
            (HIGH_GOAL, 90),
        ],
    );
    assert_counts(
        replay_cases::counts_of_long_threads(),
        5_000,
        &[
            (LONG_THREAD, 450),
            (FULL_SIZE, 40),
            (HIGH_FENCE, 60),
            (HIGH_EXCHANGE, 60),
            (HIGH_TARGET, 200),
            (HIGH_CLAUSE, 350),
            (ONE_TOO_MANY, 20),
            (HIGH_END, 350),
        ],
    );
    assert_counts(
        fence_cases::counts_of_long_threads(),
        5_000,
        &[
            (LONG_THREAD, 1_000),
            (FULL_SIZE, 40),
            (HIGH_FENCE, 200),
            (HIGH_EXCHANGE, 150),
            (HIGH_TARGET, 600),
            (HIGH_CLAUSE, 500),
            (ONE_TOO_MANY, 5),
            (HIGH_STORE, 150),
            (HIGH_LOAD, 170),
            (HELD_HIGH, 150),
        ],
    );
}

/// As for long threads.
#[test]
fn dead_code_is_often_enough_among_the_fence_cases() {
    assert_counts(
        fence_cases::counts_of_dead_code(),
        7_500,
        &[
            (DEAD_STORE, 1_800),
            (DEAD_STORE_IN[0], 850),
            (DEAD_STORE_IN[1], 600),
            (DEAD_STORE_IN[2], 500),
            (DEAD_STORE_IN[3], 380),
            (OPEN_TO_DEAD_LOAD, 1_100),
            (OPEN_TO_LIVE_LOAD, 700),
            (LIVE_THROUGH_FENCE, 700),
            (ALARM_GONE, 1_000),
            (LATER_PAIR, 320),
            (BY_THE_START, 550),
            (BY_A_FENCE, 320),
            (BY_A_JUMP_BACK, 300),
            (BY_JUMPING, 100),
            (BY_NOT_JUMPING, 170),
        ],
    );
}

/// As for long threads.
#[test]
fn every_reason_is_often_enough_among_the_replay_cases_of_each_model() {
    let [sc, tso, pso] = STUCK;
    let counts = replay_cases::counts_of_reasons();
    let impossible = |class: &(&str, usize)| NEVER.contains(&class.0);
    let mut never = counts.of_classes.iter().copied().filter(impossible);
    assert!(never.all(|(_, count)| count == 0), "{counts:?}");
    assert_counts(
        counts,
        11_000,
        &[
            (sc[0], 1_700),
            (sc[1], 100),
            (sc[2], 0),
            (sc[3], 0),
            (sc[4], 250),
            (sc[5], 0),
            (tso[0], 2_300),
            (tso[1], 220),
            (tso[2], 70),
            (tso[3], 80),
            (tso[4], 600),
            (tso[5], 70),
            (pso[0], 2_200),
            (pso[1], 280),
            (pso[2], 70),
            (pso[3], 80),
            (pso[4], 700),
            (pso[5], 90),
            (ABOVE_35, 5_000),
            (ABSENT_THREAD, 400),
            (ABSENT_THREAD_FLUSH, 300),
            (ABSENT_VARIABLE, 450),
            (BOTH_ABSENT, 190),
            (ENDED_AT_FULL, 100),
            (BARRIER_AT_FULL, 80),
            (FLUSH_OF_ENDED, 700),
            (FLUSH_OF_WAITING, 190),
            (FLUSH_BESIDE, 550),
            (OTHER_STATE_BEFORE, 30),
        ],
    );
}

/// As for long threads: every class of the files, and what replays, slots and answers show.
#[test]
fn version_2_is_often_enough_among_the_cases_of_all_four() {
    assert_each_class(job_cases::counts_of_version_two(), 4_400, 4);
    assert_each_class(search_cases::counts_of_version_two(), 2_300, 13);
    assert_each_class(replay_cases::counts_of_version_two(), 16_500, 20);
    assert_each_class(fence_cases::counts_of_version_two(), 10_000, 8);
}

/// As for long threads.
#[test]
fn version_3_is_often_enough_among_the_cases_of_all_four() {
    assert_each_class(job_cases::counts_of_version_three(), 7_800, 6);
    assert_each_class(search_cases::counts_of_version_three(), 4_000, 3);
    assert_each_class(replay_cases::counts_of_version_three(), 26_000, 10);
    assert_each_class(fence_cases::counts_of_version_three(), 11_000, 2);
}

/// With each value times 256 a search has the answer, the links and the schedule that it had.
#[test]
fn searches_of_versions_1_and_2_have_the_same_answers_with_values_times_256() {
    let lines = |case: &Case| {
        let lines = search_cases::lines(case);
        let mut words: Vec<String> = lines.split_whitespace().map(str::to_string).collect();
        let sums = words.iter().position(|word| word == "SUMS");
        // The table's comes first.
        words.remove(sums.expect("each case has a line of sums") + 1);
        words
    };
    let mut compared = 0;
    for case in search_cases::all().iter().step_by(3) {
        let is_narrow = decode(&case.job).map_or(false, |job| job.version < 3);
        if is_narrow {
            let wide = Case {
                job: raised(&case.job),
                ..case.clone()
            };
            assert_eq!(lines(&wide), lines(case), "{:?}", case.job);
            compared += 1;
        }
    }
    assert!(compared > 500, "{compared}");
}

/// As for long threads.
#[test]
fn every_class_of_an_index_is_often_enough_among_the_search_cases() {
    assert_each_class(index_cases::counts(), 2_200, 20);
}

/// How many cases there were before some had an index.
const PLAIN_SEARCHES: usize = 4_120;

#[test]
fn searches_with_an_index_come_behind_the_plain_ones_which_stay_where_they_were() {
    let cases = search_cases::all();
    let (plain, indexed) = cases.split_at(PLAIN_SEARCHES);
    assert!(plain.iter().all(|case| case.index.is_none()));
    let lengths: BTreeSet<usize> = indexed
        .iter()
        .map(|case| case.index.expect("plain ones come first").count)
        .collect();
    assert!((0..=71).all(|length| lengths.contains(&length)));
    assert_eq!(lengths.iter().next_back(), Some(&1024));
}

/// With all the rest of the room.
fn with_index(job: &[u8], count: usize, first: u32) -> Case {
    Case {
        sizes: Sizes {
            table: 65_536,
            links: 1024,
            schedule: 1024,
        },
        index: Some(Index { count, first }),
        job: job.to_vec(),
    }
}

#[test]
fn p1_with_an_index_is_searched_as_a_person_says() {
    for first in [0, 1, 4_294_967_000, u32::MAX] {
        for (count, line) in [
            (0, "REFUSED 7 0"),
            (1, "REFUSED 7 0"),
            (2, "UNKNOWN 1"),
            (3, "UNKNOWN 1"),
            (4, "UNKNOWN 2"),
            (42, "UNKNOWN 21"),
            (43, "UNKNOWN 21"),
            (44, "REACHABLE 4 22"),
            (45, "REACHABLE 4 22"),
            (1024, "REACHABLE 4 22"),
        ] {
            let case = with_index(&P1, count, first);
            let lines = search_cases::lines(&case);
            let lines: Vec<String> = lines.lines().map(|line| format!("{line}\n")).collect();
            assert_eq!(lines[0], format!("{line}\n"), "{count}");
            let index = Index { count, first };
            let refused = lines[0].starts_with("REFUSED");
            assert_eq!(refused, lines[1] == UNTOUCHED);
            let open = if refused { 0 } else { count as u64 };
            assert_eq!(lines[2], untouched_behind(index, open));
            assert_eq!(lines.len(), 3);
        }
    }
}

const SUM_FROM_0: u64 = 1_366_231_906;
const SUM_THAT_WRAPS: u64 = 3_209_661_404;

/// Worked out apart from the checker, from what the room holds before: 0 to 1,023, and the same from 2^32 - 296 on.
#[test]
fn sums_of_an_index_that_nothing_was_written_to() {
    let bad: Vec<u8> = vec![0, 1, 0];
    for (first, sum) in [(0, SUM_FROM_0), (4_294_967_000, SUM_THAT_WRAPS)] {
        for count in [0, 1, 2, 1024] {
            let lines = search_cases::lines(&with_index(&bad, count, first));
            assert_eq!(lines, format!("REFUSED 2 2\n{UNTOUCHED}INDEX {sum}\n"));
        }
    }
    // All is lent and answered, so nothing is left to sum up.
    let whole = search_cases::lines(&with_index(&P1, 1024, 7));
    assert!(whole.ends_with("\nINDEX 0\n"), "{whole}");
    let but_one = search_cases::lines(&with_index(&P1, 1023, 7));
    assert!(but_one.ends_with("\nINDEX 1030\n"), "{but_one}");
}

fn assert_each_class(counts: Counts, cases: usize, least: usize) {
    assert!(counts.cases >= cases, "{counts:?}");
    for (class, count) in counts.of_classes {
        assert!(count >= least, "only {count} of {class}");
    }
}

#[test]
fn version_1_comes_first_in_all_four_then_version_2_and_both_stay_where_they_were() {
    let of_two = [2_148, 1_314, 11_925, 7_882];
    let of_three = [4_446, 2_404, 17_011, 10_051];
    for (jobs, firsts) in jobs_of_all_four()
        .into_iter()
        .zip(of_two.into_iter().zip(of_three))
    {
        let accepted = |jobs: &[Vec<u8>], version| {
            let accepted = jobs.iter().filter_map(|job| decode(job).ok());
            accepted.filter(|job| job.version == version).count()
        };
        // Only files that begin with the version byte 2 or 3 are new in their answers there.
        assert!(accepted(&jobs[..firsts.0], 2) <= 1);
        assert!(accepted(&jobs[firsts.0..firsts.1], 2) > 300);
        assert_eq!(accepted(&jobs[..firsts.1], 3), 0);
        assert!(accepted(&jobs[firsts.1..], 3) > 600);
    }
}

fn assert_counts(counts: Counts, cases: usize, least: &[(&str, usize)]) {
    assert!(counts.cases >= cases, "{counts:?}");
    assert_eq!(counts.of_classes.len(), least.len(), "{counts:?}");
    for (&(class, count), &(named, least)) in counts.of_classes.iter().zip(least) {
        assert_eq!(class, named);
        assert!(count >= least, "only {count} of {class}");
    }
}

#[test]
fn every_high_place_is_a_store_a_load_and_a_fence_that_decides() {
    let (mut stores, mut loads) = (BTreeSet::new(), BTreeSet::new());
    let mut closers = BTreeSet::new();
    for bytes in fence_cases::all() {
        if let Ok(job) = decode(&bytes) {
            // Of all open pairs the answer names the least.
            match open_pairs(&job).into_iter().next() {
                Some(OpenPair { store, load, .. }) => {
                    stores.insert(store);
                    loads.insert(load);
                }
                None => closers.extend(deciding_fences(&job)),
            }
        }
    }
    // Behind a store or a fence at place 63 there is only the end, so neither can decide.
    assert!((32..=62).all(|place| stores.contains(&place)), "{stores:?}");
    assert!((32..=63).all(|place| loads.contains(&place)), "{loads:?}");
    for barrier in ["FENCE", "XCHG", "CMPX"] {
        assert!((32..=62).all(|place| closers.contains(&(barrier, place))));
    }
    assert!(!stores.contains(&63) && !closers.contains(&("FENCE", 63)));
}

/// The barriers of a job without open pairs of which each alone keeps one closed.
fn deciding_fences(job: &Job) -> Vec<(&'static str, usize)> {
    let mut deciding = Vec::new();
    for (thread, program) in job.programs.iter().enumerate() {
        for (place, instruction) in program.iter().enumerate() {
            let name = match instruction {
                Instruction::Fence => "FENCE",
                Instruction::Exchange { .. } => "XCHG",
                Instruction::CompareExchange { .. } => "CMPX",
                _ => continue,
            };
            let mut without = job.clone();
            without.programs[thread][place] = Instruction::Set {
                register: 0,
                value: 0,
            };
            if !open_pairs(&without).is_empty() {
                deciding.push((name, place));
            }
        }
    }
    deciding
}

#[test]
fn the_longest_ways_are_searched_as_a_person_says() {
    for count in [51, 64] {
        for memory in MEMORIES {
            let job = search_cases::long_way(memory, count);
            let first_line = |slots: usize| {
                let sizes = Sizes {
                    table: slots * SLOT_BYTES,
                    links: slots,
                    schedule: slots,
                };
                let case = Case::plain(sizes, job.clone());
                let lines = search_cases::lines(&case);
                lines.lines().next().unwrap().to_string()
            };
            // One state a step, and the start.
            assert_eq!(first_line(count), format!("UNKNOWN {count}"));
            let found = format!("REACHABLE {count} {}", count + 1);
            assert_eq!(first_line(count + 1), found);
            assert_eq!(first_line(count + 2), found);
        }
    }
}

/// How often each line's first word, each refusal's number and each reason come up.
fn kinds(lines: impl Iterator<Item = String>) -> BTreeMap<String, usize> {
    let mut kinds = BTreeMap::new();
    for line in lines {
        let words: Vec<&str> = line.split(' ').collect();
        let kind = match words[..] {
            ["REFUSED", number, _] => format!("REFUSED {number}"),
            ["STUCK", _, reason] => format!("STUCK BY {reason}"),
            _ => words[0].to_string(),
        };
        *kinds.entry(kind).or_default() += 1;
    }
    kinds
}

fn assert_each(kinds: &BTreeMap<String, usize>, wanted: &[&str], least: usize) {
    for &kind in wanted {
        let count = kinds.get(kind).copied().unwrap_or(0);
        assert!(count >= least, "{kind} only {count} times in {kinds:?}");
    }
}

const STUCK_BY: [&str; 6] = [
    "STUCK BY 1",
    "STUCK BY 2",
    "STUCK BY 3",
    "STUCK BY 4",
    "STUCK BY 5",
    "STUCK BY 6",
];

const REFUSALS: [&str; 6] = [
    "REFUSED 1",
    "REFUSED 2",
    "REFUSED 3",
    "REFUSED 4",
    "REFUSED 5",
    "REFUSED 6",
];

#[test]
fn replay_cases_give_every_answer_in_the_room_there_is() {
    let cases = replay_cases::all();
    let kinds = kinds(cases.iter().map(replay_cases::line));
    assert_each(&kinds, &["REACHES", "FALLS"], 300);
    assert_each(&kinds, &STUCK_BY, 50);
    assert_each(&kinds, &REFUSALS, 5);
    assert_eq!(kinds.len(), 2 + STUCK_BY.len() + REFUSALS.len());
    assert!(cases.iter().all(|case| case.job.len() <= ROOM_FOR_JOB));
    let lengths: BTreeSet<usize> = cases.iter().map(|case| case.schedule.len()).collect();
    assert_eq!(lengths.iter().next_back(), Some(&replay_cases::MOST_STEPS));
    assert!(lengths.contains(&0) && lengths.contains(&65_536));
}

#[test]
fn fence_cases_give_every_answer_in_the_room_there_is() {
    let cases = fence_cases::all();
    let kinds = kinds(cases.iter().map(|job| fence_cases::line(job)));
    assert_each(&kinds, &["FENCED", "OPEN"], 300);
    assert_each(&kinds, &REFUSALS, 3);
    assert!(cases.iter().all(|job| job.len() <= ROOM_FOR_JOB));
}

#[test]
fn both_have_accepted_jobs_of_each_model() {
    let replayed = replay_cases::all()
        .into_iter()
        .map(|case| case.job)
        .collect();
    for jobs in [replayed, fence_cases::all()] {
        let accepted: Vec<_> = jobs.iter().filter_map(|job| decode(job).ok()).collect();
        for model in [Model::Sc, Model::Tso, Model::Pso] {
            let count = accepted.iter().filter(|job| job.model == model).count();
            assert!(count > 200, "only {count} of {model:?}");
        }
    }
}

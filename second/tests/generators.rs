//! The generators give what a comparison needs, and the same every time.

mod common;
use common::*;
use second::classes::Counts;
use second::job::{longest_file, width, LONGEST_FILE, MOST_INSTRUCTIONS, VERSIONS};
use second::long_threads::{
    of_fence_check, of_job, HELD_HIGH, OF_FENCE_CHECKS, OF_JOBS, ONE_TOO_MANY,
};
use second::random::{
    buffer_sizes, case, damaged_job, random_bytes, replay_schedule, sound_job, stuck_schedule,
    Random,
};
use second::{dead_code, decode, reason_cases, reasons, replay};
use second::{version_three, version_two, version_two_replays};
use std::collections::BTreeSet;

#[test]
fn the_same_seed_gives_the_same_cases() {
    let jobs = |seed| {
        let mut random = Random::new(seed);
        (0..50)
            .map(|_| case(&mut random))
            .map(|c| (c.job, c.schedule))
            .collect::<Vec<_>>()
    };
    assert_eq!(jobs(1), jobs(1));
    assert_ne!(jobs(1), jobs(2));
}

#[test]
fn sound_jobs_are_accepted_and_give_all_answers() {
    let mut random = Random::new(3);
    let (mut kinds, mut far) = ([0; 4], 0);
    for _ in 0..1_000 {
        let bytes = sound_job(&mut random);
        assert!(decode(&bytes).is_ok(), "{bytes:?}");
        let answer = run(&bytes, 300).answer;
        kinds[answer[0] as usize] += 1;
        far += usize::from(answer[0] == 1 && answer[1] >= 4);
    }
    assert!(
        kinds[1] > 300 && kinds[2] > 50 && kinds[3] > 50,
        "{kinds:?}"
    );
    assert!(
        far > 200,
        "only {far} of 1000 goals are four steps away or more"
    );
}

#[test]
fn sound_jobs_reach_the_edges_of_the_ranges() {
    let mut random = Random::new(4);
    let (mut lengths, mut shapes) = (BTreeSet::new(), BTreeSet::new());
    let mut longest = [0; 3];
    for _ in 0..5_000 {
        let bytes = sound_job(&mut random);
        let job = decode(&bytes).unwrap();
        lengths.extend(job.programs.iter().map(Vec::len));
        shapes.insert(("model", job.model as usize));
        shapes.insert(("capacity", job.capacity));
        shapes.insert(("threads", job.programs.len()));
        shapes.insert(("variables", job.initial.len()));
        shapes.insert(("clauses", job.goal.clauses.len()));
        shapes.insert(("flag", usize::from(job.goal.buffers_empty)));
        let of_version = &mut longest[usize::from(job.version) - 1];
        *of_version = bytes.len().max(*of_version);
    }
    assert_eq!(lengths, (0..=MOST_INSTRUCTIONS).collect());
    assert_eq!(shapes.len(), 3 + 9 + 4 + 8 + 16 + 2);
    assert!(!shapes.contains(&("clauses", 0)));
    assert_eq!(longest, [1, 2, 3].map(longest_file));
    assert_eq!(longest[2], LONGEST_FILE);
}

#[test]
fn sound_and_damaged_jobs_have_long_threads() {
    let mut random = Random::new(10);
    let met = |job: &[u8]| [of_job(job), of_fence_check(job)].concat();
    let sound: Vec<_> = (0..4_000).map(|_| met(&sound_job(&mut random))).collect();
    let classes = [&OF_JOBS[..], &OF_FENCE_CHECKS].concat();
    for (class, count) in Counts::new(&classes, &sound).of_classes {
        // A sound job isn't refused, and fences seldom close every pair of a random program.
        let least = match class {
            ONE_TOO_MANY => 0,
            HELD_HIGH => 1,
            _ => 20,
        };
        assert!(count >= least, "only {count} of {class}");
    }
    let damaged: Vec<_> = (0..4_000)
        .map(|_| of_job(&damaged_job(&mut random)))
        .collect();
    let counts = Counts::new(&[ONE_TOO_MANY], &damaged);
    assert!(counts.of_classes[0].1 >= 20, "{counts:?}");
}

#[test]
fn sound_jobs_have_dead_code() {
    let mut random = Random::new(13);
    let met = |job: &[u8]| [dead_code::of_job(job), dead_code::of_fence_check(job)].concat();
    let sound: Vec<_> = (0..4_000).map(|_| met(&sound_job(&mut random))).collect();
    let classes = [&dead_code::OF_JOBS[..], &dead_code::OF_FENCE_CHECKS].concat();
    for (class, count) in Counts::new(&classes, &sound).of_classes {
        assert!(count >= 10, "only {count} of {class}");
    }
}

#[test]
fn damaged_jobs_meet_every_refusal() {
    let mut random = Random::new(5);
    let mut refusals = [0; 8];
    let mut sizes = BTreeSet::new();
    for _ in 0..20_000 {
        let bytes = damaged_job(&mut random);
        sizes.insert(bytes.len());
        let number = decode(&bytes).err().map_or(0, |refusal| refusal.number);
        refusals[usize::from(number)] += 1;
    }
    assert!(
        refusals[..7].iter().all(|&count| count > 500),
        "{refusals:?}"
    );
    for longest in [1, 3].map(longest_file) {
        assert!(sizes.contains(&longest) && sizes.contains(&(longest + 1)));
    }
}

/// A job refused for a blank goal is accepted with one clause in its place; gives K's offset.
fn blank_goal(bytes: &[u8]) -> Option<usize> {
    let refusal = decode(bytes).err()?;
    let front = bytes.get(2..refusal.offset)?;
    let clause = &[1, 3, 0, 0, 0, 0][..1 + width(bytes[2]).item_bytes()];
    let counted = with_length(&[front, clause].concat());
    let is_blank = refusal.number == 5 && bytes[refusal.offset] == 0 && decode(&counted).is_ok();
    is_blank.then_some(refusal.offset)
}

#[test]
fn damaged_jobs_meet_blank_goals_of_each_kind() {
    let mut random = Random::new(9);
    let mut kinds = BTreeSet::new();
    for _ in 0..20_000 {
        let bytes = damaged_job(&mut random);
        if let Some(at) = blank_goal(&bytes) {
            kinds.insert((bytes[at - 1], bytes.len() > at + 1));
        }
    }
    // Both flags, with clauses behind and with none.
    assert_eq!(
        kinds,
        BTreeSet::from([(0, false), (0, true), (1, false), (1, true)])
    );
}

#[test]
fn random_bytes_get_past_the_first_checks() {
    let mut random = Random::new(6);
    let numbers: BTreeSet<u8> = (0..5_000)
        .filter_map(|_| decode(&random_bytes(&mut random)).err())
        .map(|refusal| refusal.number)
        .collect();
    assert_eq!(numbers, (1..=6).collect());
}

#[test]
fn sizes_hit_the_edges_of_n() {
    let mut random = Random::new(7);
    let mut edges = BTreeSet::new();
    for _ in 0..2_000 {
        let sizes = buffer_sizes(&mut random, &p1());
        edges.insert(run_sized(&p1(), sizes.table, sizes.links, sizes.schedule).answer);
    }
    for wanted in [[0, 7, 0, 0], [3, 1, 0, 0], [3, 21, 0, 0], [1, 4, 22, 0]] {
        assert!(edges.contains(&wanted), "{wanted:?}");
    }
}

#[test]
fn schedules_give_all_replay_answers() {
    let mut random = Random::new(8);
    let (mut kinds, mut steps) = ([0; 4], BTreeSet::new());
    let mut stuck = Vec::new();
    for _ in 0..2_000 {
        let bytes = sound_job(&mut random);
        let schedule = replay_schedule(&mut random, &bytes);
        kinds[replay(&bytes, &schedule)[0] as usize] += 1;
        stuck.push(reasons::of_replay(&bytes, &schedule));
        steps.extend(schedule);
    }
    assert!(kinds[1..].iter().all(|&count| count > 200), "{kinds:?}");
    assert!([36, 63, 64, 255].iter().all(|step| steps.contains(step)));
    assert_each_reason(&stuck, 5, &reasons::NEVER);
}

type MakeJob = fn(&mut Random) -> Vec<u8>;

#[test]
fn stuck_schedules_are_stuck_at_their_last_step_by_every_reason() {
    let mut random = Random::new(14);
    let in_version_one = [&reasons::NEVER[..], &[reasons::ONLY_IN_VERSION_TWO]].concat();
    let makers: [(MakeJob, &[&str]); 3] = [
        (sound_job, &reasons::NEVER),
        (reason_cases::random_job, &in_version_one),
        (version_two_replays::random_job, &reasons::NEVER),
    ];
    for (make, never) in makers {
        let mut stuck = Vec::new();
        for _ in 0..2_000 {
            let bytes = make(&mut random);
            let schedule = stuck_schedule(&mut random, &bytes);
            let last = schedule.len() as u64 - 1;
            assert_eq!(replay(&bytes, &schedule)[..2], [3, last]);
            stuck.push(reasons::of_replay(&bytes, &schedule));
        }
        assert_each_reason(&stuck, 20, never);
    }
    assert_eq!(stuck_schedule(&mut random, &[]), []);
}

/// `stuck` holds the classes of each replay.
fn assert_each_reason(stuck: &[Vec<&'static str>], least: usize, never: &[&str]) {
    for (class, count) in Counts::new(&reasons::STUCK.concat(), stuck).of_classes {
        let comes_up = !never.contains(&class);
        assert!(!comes_up || count >= least, "only {count} of {class}");
        assert!(comes_up || count == 0, "{count} of {class}");
    }
}

#[test]
fn sound_jobs_are_of_each_version_and_have_both_operations_under_every_model() {
    let mut random = Random::new(15);
    let sound: Vec<Vec<u8>> = (0..6_000).map(|_| sound_job(&mut random)).collect();
    for version in VERSIONS {
        let count = sound.iter().filter(|job| job[2] == version).count();
        assert!((1_700..2_300).contains(&count), "{count} of {version}");
    }
    let of_two =
        |job: &Vec<u8>| [version_two::of_job(job), version_two::of_fence_check(job)].concat();
    let of_three = |job: &Vec<u8>| {
        [
            version_three::of_job(job),
            version_three::of_fence_check(job),
        ]
        .concat()
    };
    let checks = version_two::OF_FENCE_CHECKS;
    let counts = [
        Counts::new(
            &[&version_two::of_jobs()[..], &checks].concat(),
            &sound.iter().map(of_two).collect::<Vec<_>>(),
        ),
        Counts::new(
            &[&version_three::of_jobs()[..], &checks].concat(),
            &sound.iter().map(of_three).collect::<Vec<_>>(),
        ),
    ];
    for (class, count) in counts.into_iter().flat_map(|counts| counts.of_classes) {
        let refused = class.starts_with("refused");
        assert!(refused || count >= 10, "only {count} of {class}");
        assert!(!refused || count == 0, "{count} of {class}");
    }
}

#[test]
fn damaged_jobs_are_refused_for_what_versions_2_and_3_have_more() {
    let mut random = Random::new(16);
    let jobs: Vec<Vec<u8>> = (0..12_000).map(|_| damaged_job(&mut random)).collect();
    let of_two: Vec<_> = jobs.iter().map(|job| version_two::of_job(job)).collect();
    let of_three: Vec<_> = jobs.iter().map(|job| version_three::of_job(job)).collect();
    let counts = [
        Counts::new(&version_two::of_jobs(), &of_two),
        Counts::new(&version_three::of_jobs(), &of_three),
    ];
    let mut counts = counts.map(|counts| counts.of_classes).concat();
    // Few of them are accepted, so capacities come up now and then.
    counts.retain(|(class, _)| !version_two::WITH_MEMORY.contains(class));
    for (class, count) in counts {
        assert!(count >= 4, "only {count} of {class}");
    }
}

#[test]
fn replays_and_searches_of_sound_jobs_meet_what_versions_2_and_3_have_more() {
    let mut random = Random::new(17);
    let (mut replays, mut searches) = ([vec![], vec![]], [vec![], vec![]]);
    for _ in 0..6_000 {
        let bytes = sound_job(&mut random);
        let schedule = replay_schedule(&mut random, &bytes);
        replays[0].push(version_two::of_replay(&bytes, &schedule));
        replays[1].push(version_three::of_replay(&bytes, &schedule));
        let run = run(&bytes, 400);
        let left = version_two::Searched {
            answer: run.answer,
            table: &run.table,
            schedule: &run.schedule,
        };
        searches[0].push(version_two::of_search(&bytes, left));
        searches[1].push(version_three::of_search(&bytes, left));
    }
    let counts = [
        Counts::new(&version_two::OF_REPLAYS, &replays[0]),
        Counts::new(&version_three::of_replays(), &replays[1]),
        Counts::new(&version_two::OF_SEARCHES, &searches[0]),
        Counts::new(&version_three::of_searches(), &searches[1]),
    ];
    for (class, count) in counts.into_iter().flat_map(|counts| counts.of_classes) {
        // These take a walk that fills a buffer with groups and stops just there, and two of three values that are alike.
        let seldom = [
            version_two::STUCK_BESIDE,
            version_two::STUCK_FULL,
            version_three::TAKES_NOT_BY_LOW,
        ];
        let least = if seldom.contains(&class) { 1 } else { 5 };
        assert!(count >= least, "only {count} of {class}");
    }
}

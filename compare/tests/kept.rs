//! The comparison with an archive from before request 10 notices what it is there for; a stand-in has the slots of before.

use compare::call::{Call, Checker, Kind, Second};
use compare::jobs;
use compare::kept::{hold_pair, one_job, KeptTally, Pair};
use compare::lent::Lent;
use compare::run::{run_each, Counts, Plan, Report};
use compare::slot::{widened, LAYOUT_BEFORE};
use second::listed::{in_version, P1};
use second::machine::SLOT_BYTES;
use second::random::{Random, Sizes};
use second::version_three_jobs::in_three;

const SLOT_BEFORE: usize = LAYOUT_BEFORE.slot_bytes();

/// The slot of before of the same state, if its values are as narrow.
fn narrowed(slot: &[u8]) -> Vec<u8> {
    // Each byte's number, from 1 on, where it stands in a wide slot.
    let numbers: Vec<u8> = (1..=SLOT_BEFORE as u8).collect();
    let mut before = vec![0; SLOT_BEFORE];
    for (&byte, number) in slot.iter().zip(widened(&numbers)) {
        match number {
            0 => assert_eq!(byte, 0, "a high byte"),
            _ => before[usize::from(number) - 1] = byte,
        }
    }
    before
}

/// Answers as the second checker does, with slots of before, and refuses version 3; then spoils what it left.
struct Before<F>(F);

impl<F: Fn(&mut Call) + Sync> Checker for Before<F> {
    fn run(&self, call: &mut Call) {
        let slots = call.table.count() / SLOT_BEFORE;
        let mut wide = Call {
            table: Lent::random(&mut Random::new(0), slots * SLOT_BYTES),
            ..call.clone()
        };
        if call.job.part().get(2) == Some(&3) {
            wide.answer.part_mut().copy_from_slice(&[0, 2, 2, 0]);
        } else {
            Second.run(&mut wide);
        }
        let states = counted(&wide);
        let filled = wide.table.part().chunks_exact(SLOT_BYTES).take(states);
        let table = call.table.part_mut().chunks_exact_mut(SLOT_BEFORE);
        for (slot, wide) in table.zip(filled) {
            slot.copy_from_slice(&narrowed(wide));
        }
        let table = call.table.clone();
        *call = Call { table, ..wide };
        (self.0)(call);
    }
}

/// Answers as the second checker does, and then spoils what it left.
struct Spoiling<F>(F);

impl<F: Fn(&mut Call) + Sync> Checker for Spoiling<F> {
    fn run(&self, call: &mut Call) {
        Second.run(call);
        (self.0)(call);
    }
}

fn counted(call: &Call) -> usize {
    match (call.kind, call.words()) {
        (Kind::Search, [1, _, states, _] | [2 | 3, states, ..]) => states as usize,
        _ => 0,
    }
}

fn report(library: &dyn Checker, before: &dyn Checker, jobs: u64) -> Report<KeptTally> {
    let plan = Plan {
        // The first job is by far the slowest, and not needed here.
        first: jobs::COUNTER + 1,
        jobs,
        seed: 7,
        threads: 2,
    };
    run_each(&one_job(library, before, plan.seed), plan, &|_, _| {})
}

const RIGHT: Before<fn(&mut Call)> = Before(|_| {});

#[test]
fn a_right_stand_in_has_no_difference_and_every_kind_of_answer() {
    let report = report(&Second, &RIGHT, 2000);
    assert_eq!(report.differences, 0, "{:?}", report.kept);
    assert_eq!(report.tally.empty_classes(), [""; 0]);
    assert_eq!(report.tally.jobs, 2000);
    assert!(report.tally.left_out > 500);
    for version in ["version 1", "version 2"] {
        for answer in [
            "refused by 4",
            "reachable",
            "unreachable",
            "unknown",
            "stuck",
        ] {
            let count = report.tally.counted(version, answer);
            assert!(count > 100, "only {count} of {version}: {answer}");
        }
    }
}

/// What is said first about a stand-in of before that spoils its calls so, and then about a library that does.
fn first_differences(spoil: fn(&mut Call)) -> [String; 2] {
    let reports = [
        report(&Second, &Before(spoil), 300),
        report(&Spoiling(spoil), &RIGHT, 300),
    ];
    reports.map(|report| {
        let first = report.kept.into_iter().next();
        first.expect("nothing was noticed").text
    })
}

fn notices(said: &str, spoil: fn(&mut Call)) {
    for text in first_differences(spoil) {
        assert!(text.contains(said), "'{said}' is not in\n{text}");
    }
}

#[test]
fn an_answer_that_is_another() {
    notices("answer: first difference at 3", |call| {
        if call.kind == Kind::Search {
            call.answer.part_mut()[3] += 1;
        }
    });
    notices("answer: first difference at 2", |call| {
        if let (Kind::Replay, [3, ..]) = (call.kind, call.words()) {
            call.answer.part_mut()[2] += 1;
        }
    });
    notices("answer: first difference at 0", |call| {
        if let (Kind::Fences, [1, ..]) = (call.kind, call.words()) {
            call.answer.part_mut()[0] = 2;
        }
    });
    notices("answer: first difference at 2", |call| {
        if let [0, ..] = call.words() {
            call.answer.part_mut()[2] += 1;
        }
    });
}

#[test]
fn a_link_or_a_step_that_is_another() {
    notices("links: first difference at", |call| {
        let states = counted(call);
        if states > 1 {
            call.links.part_mut()[states - 1] ^= 64;
        }
    });
    // Behind those that are counted.
    notices("links: first difference at", |call| {
        let states = counted(call);
        if let (Kind::Search, Some(link)) = (call.kind, call.links.part_mut().get_mut(states)) {
            *link ^= 1;
        }
    });
    notices("schedule: first difference at", |call| {
        if let (Kind::Search, [1, distance, ..]) = (call.kind, call.words()) {
            if let Some(last) = call.schedule.part_mut()[..distance as usize].last_mut() {
                *last ^= 1;
            }
        }
    });
    notices("schedule: first difference at", |call| {
        if let (Kind::Search, [2, ..]) = (call.kind, call.words()) {
            call.schedule.part_mut()[0] ^= 1;
        }
    });
    notices("job: first difference at", |call| {
        if let Some(byte) = call.job.part_mut().last_mut() {
            *byte ^= 1;
        }
    });
}

#[test]
fn a_table_that_is_written_behind_the_counted_slots() {
    let spoils: [fn(&mut Call); 2] = [
        |call| {
            if let (Kind::Search, Some(last)) = (call.kind, call.table.whole_mut().last_mut()) {
                *last ^= 1;
            }
        },
        // Within what was lent, also by a call that is refused.
        |call| {
            if let (Kind::Search, [0, ..]) = (call.kind, call.words()) {
                if let Some(last) = call.table.part_mut().last_mut() {
                    *last ^= 1;
                }
            }
        },
    ];
    for spoil in spoils {
        let [before, library] = first_differences(spoil);
        assert!(before.contains("before wrote outside of its"), "{before}");
        assert!(
            library.contains("library wrote outside of its"),
            "{library}"
        );
    }
}

/// A search of P1 in this version, in 22 slots, which it takes all, and as much beside them.
fn search_of_p1(version: u8) -> Pair {
    let sizes = Sizes {
        table: 22 * SLOT_BYTES + 151,
        links: 25,
        schedule: 23,
    };
    let mut random = Random::new(1);
    let call = Call::search(&mut random, &in_version(&P1, version), sizes);
    Pair::new(&mut random, call)
}

#[test]
fn every_byte_of_a_slot_is_held_to_that_of_before() {
    assert_eq!(search_of_p1(1).before.table.count(), 22 * 96 + 95);
    for version in [1, 2] {
        let right = hold_pair(&Second, &RIGHT, search_of_p1(version));
        assert_eq!(right.difference, None);
        assert_eq!(right.found.call.words(), [1, 4, 22, 0]);
        for at in 0..SLOT_BYTES {
            // High bytes too, which are 0.
            let liar = Spoiling(move |call: &mut Call| {
                call.table.part_mut()[21 * SLOT_BYTES + at] ^= 1;
            });
            let text = hold_pair(&liar, &RIGHT, search_of_p1(version)).difference;
            let said = format!("table: slot 21 first differs at its byte {at}: library");
            assert!(text.map_or(false, |text| text.contains(&said)), "{at}");
        }
        for at in 0..SLOT_BEFORE {
            let liar = Before(move |call: &mut Call| {
                call.table.part_mut()[21 * SLOT_BEFORE + at] ^= 1;
            });
            let text = hold_pair(&Second, &liar, search_of_p1(version)).difference;
            assert!(
                text.map_or(false, |text| text.contains("table: slot 21 first differs")),
                "{at}"
            );
        }
    }
}

#[test]
fn version_3_has_no_answer_of_before_to_keep() {
    let sizes = Sizes {
        table: SLOT_BYTES,
        links: 1,
        schedule: 1,
    };
    let mut random = Random::new(1);
    let call = Call::search(&mut random, &in_three(&P1), sizes);
    let pair = Pair::new(&mut random, call);
    let text = hold_pair(&Second, &RIGHT, pair).difference;
    let said = "  library 3 1 0 0\n  before 0 2 2 0\n";
    assert!(text.map_or(false, |text| text.contains(said)));
}

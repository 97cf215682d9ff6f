//! The comparison notices what it is there for: stand-ins that err in one place each.

use compare::blank::{self, Blank};
use compare::call::{Call, Checker, Kind, Second};
use compare::fill::{Fill, FILLS};
use compare::hold::{hold, hold_over_left, hold_plain, hold_refilled, hold_versions};
use compare::lent::Lent;
use compare::pieces::{decides_alone, PIECES};
use compare::run::{run, Counts, Plan, Report};
use compare::slot::LAYOUT;
use compare::tally::Tally;
use compare::{groups, jobs, lengths, sums};
use second::dead_code::{fences_shut, jeq_always_jumps, jeq_never_jumps, live_if, never_back};
use second::fences::{live_places, open_run_or_not, OpenPair};
use second::job::{item, longest_file, width, Clause, Instruction, Item, Model, Value};
use second::listed::{in_version, settled, with_byte, Parts, P1};
use second::long_threads::{
    ends_high, of_job, FULL_SIZE, HIGH_END, HIGH_GOAL, LONG_THREAD, ONE_TOO_MANY,
};
use second::machine::{reason, step, Reason, State, Step, Thread, REASONS, SLOT_BYTES};
use second::random::{Random, Sizes};
use second::replay::{follow, follow_until_stuck};
use second::version_three::{self, WIDE_CLAUSE, WIDE_K};
use second::version_three_jobs::{FENCE, WFENCE};
use second::version_two::{self, is_compare_exchange, is_wfence, Searched};
use second::{dead_code, decode, index, long_threads, reasons, Job, Refusal};
use std::collections::BTreeSet;
use std::ops::Range;
use std::rc::Rc;
use std::sync::Mutex;

/// Answers as the second checker does, and then spoils what it left.
struct Spoiling<F>(F);

impl<F: Fn(&mut Call) + Sync> Checker for Spoiling<F> {
    fn run(&self, call: &mut Call) {
        Second.run(call);
        (self.0)(call);
    }
}

fn report(library: &dyn Checker, jobs: u64, threads: usize) -> Report {
    report_from(library, 0, jobs, threads)
}

fn report_from(library: &dyn Checker, first: u64, jobs: u64, threads: usize) -> Report {
    let plan = Plan {
        // The first job is by far the slowest, and not needed here.
        first: jobs::COUNTER + 1 + first,
        jobs,
        seed: 7,
        threads,
    };
    run(library, plan, &|_, _| {})
}

/// Jobs that every class of the summary is met in, but for two.
const MANY: u64 = 8000;

/// The tally of so many, which several tests look at.
fn many() -> Tally {
    static TALLY: Mutex<Option<Tally>> = Mutex::new(None);
    let mut tally = TALLY.lock().expect("no test fails while it holds this");
    tally
        .get_or_insert_with(|| report(&Second, MANY, 2).tally)
        .clone()
}

/// What a run of a few jobs says first about a stand-in that spoils its calls so.
fn first_difference(spoil: impl Fn(&mut Call) + Sync) -> String {
    first_difference_of(200, spoil)
}

fn first_difference_of(jobs: u64, spoil: impl Fn(&mut Call) + Sync) -> String {
    first_difference_by(jobs, &Spoiling(spoil))
}

fn first_difference_by(jobs: u64, liar: &dyn Checker) -> String {
    // A part at a time, because most are noticed soon.
    let mut parts = (0..jobs).step_by(100);
    let differences =
        parts.find_map(|first| report_from(liar, first, 100, 1).kept.into_iter().next());
    differences.expect("nothing was noticed").text
}

fn set_answer(call: &mut Call, words: [u64; 4]) {
    call.answer.part_mut().copy_from_slice(&words);
}

fn slots(call: &Call) -> usize {
    match call.words() {
        [1, _, states, _] | [2, states, ..] | [3, states, ..] => states as usize,
        [0, ..] => 0,
        answer => panic!("the second checker answered {answer:?}"),
    }
}

fn flip(cell: Option<&mut u8>) {
    if let Some(byte) = cell {
        *byte ^= 1;
    }
}

#[test]
fn an_honest_stand_in_has_no_difference_on_any_number_of_threads() {
    let alone = report(&Second, 600, 1);
    assert_eq!(alone.differences, 0, "{:?}", alone.kept);
    assert_eq!(report(&Second, 600, 2), alone);
    assert_eq!(report(&Second, 600, 5), alone);
}

#[test]
fn differences_are_the_same_on_any_number_of_threads() {
    let liar = Spoiling(|call: &mut Call| {
        if call.kind == Kind::Fences {
            set_answer(call, [1, 0, 0, 0]);
        }
    });
    let alone = report(&liar, 400, 1);
    assert!(alone.differences > 20 && alone.kept.len() == 20);
    assert_eq!(report(&liar, 400, 3), alone);
}

#[test]
fn unknown_given_as_unreachable() {
    let text = first_difference(|call| {
        if call.kind == Kind::Search && call.words()[0] == 3 {
            let states = call.words()[1];
            set_answer(call, [2, states, 0, 0]);
        }
    });
    assert!(
        text.contains("answer: first difference at 0: library 2, second checker 3"),
        "{text}"
    );
}

#[test]
fn a_wrong_count_of_states() {
    first_difference(|call| {
        if call.kind == Kind::Search && call.words()[0] == 1 {
            call.answer.part_mut()[2] += 1;
        }
    });
}

#[test]
fn a_refusal_at_another_offset() {
    first_difference(|call| {
        if call.words()[0] == 0 {
            call.answer.part_mut()[2] += 4;
        }
    });
}

/// What a call that was refused has to do with a blank goal.
fn blank(call: &Call) -> Option<Blank> {
    match call.words() {
        [0, number, offset, _] if number < 7 => {
            let refusal = Refusal {
                number: number as u8,
                offset: offset as usize,
            };
            blank::met(call.job.part(), refusal)
        }
        _ => None,
    }
}

#[test]
fn a_blank_goal_that_one_of_the_three_accepts() {
    for kind in [Kind::Search, Kind::Replay, Kind::Fences] {
        for empty in [false, true] {
            let text = first_difference(|call| match blank(call) {
                Some(Blank::Goal { buffers_empty, .. })
                    if call.kind == kind && buffers_empty == empty =>
                {
                    set_answer(call, [1, 0, u64::from(kind == Kind::Search), 0])
                }
                _ => {}
            });
            assert!(
                text.contains("answer: first difference at 0: library 1, second checker 0"),
                "{text}"
            );
        }
    }
}

#[test]
fn bytes_left_over_told_before_a_blank_goal() {
    first_difference_of(FOR_TWO_FAULTS, |call| {
        let behind = matches!(
            blank(call),
            Some(Blank::Goal {
                bytes_behind: true,
                ..
            })
        );
        if behind {
            let k = call.words()[2];
            set_answer(call, [0, 6, k + 1, 0]);
        }
    });
}

/// Jobs enough to meet a blank goal together with another fault.
const FOR_TWO_FAULTS: u64 = 1000;

#[test]
fn no_slot_told_before_a_blank_goal() {
    first_difference_of(FOR_TWO_FAULTS, |call| {
        let is_blank = matches!(blank(call), Some(Blank::Goal { .. }));
        if call.kind == Kind::Search && call.has_no_slot() && is_blank {
            set_answer(call, [0, 7, 0, 0]);
        }
    });
}

#[test]
fn a_blank_goal_told_before_a_bad_flag() {
    first_difference_of(FOR_TWO_FAULTS, |call| {
        if blank(call) == Some(Blank::BehindBadFlag) {
            let flag = call.words()[2];
            set_answer(call, [0, 5, flag + 1, 0]);
        }
    });
}

#[test]
fn a_missing_k_taken_for_a_blank_goal() {
    first_difference_of(FOR_TWO_FAULTS, |call| {
        if blank(call) == Some(Blank::CutBeforeK) {
            let k = call.words()[2];
            set_answer(call, [0, 5, k, 0]);
        }
    });
}

/// Jobs enough to meet what is rare even among long threads.
const FOR_LONG_THREADS: u64 = 2000;

const ADD: Item = item(2, 0, 0, 0);

/// An accepted job with other instructions; `change` gets each with its place.
fn with_instructions(job: &[u8], change: impl Fn(usize, Item) -> Item) -> Vec<u8> {
    let mut parts = Parts::of(job);
    for program in &mut parts.programs {
        for (place, instruction) in program.iter_mut().enumerate() {
            *instruction = change(place, *instruction);
        }
    }
    parts.file()
}

/// Where n and the instructions of each thread of an accepted job stand.
fn threads(job: &[u8]) -> Vec<(usize, Range<usize>)> {
    let width = width(job[2]);
    let mut at = 7 + width.bytes() * usize::from(job[6]);
    let mut threads = Vec::new();
    for _ in 0..job[5] {
        let end = at + 1 + width.item_bytes() * usize::from(job[at]);
        threads.push((at, at + 1..end));
        at = end;
    }
    threads
}

/// Where each instruction of an accepted job begins.
fn instructions(job: &[u8]) -> impl Iterator<Item = usize> {
    let bytes = width(job[2]).item_bytes();
    let threads = threads(job).into_iter();
    threads.flat_map(move |(_, instructions)| instructions.step_by(bytes))
}

/// A fence check that reads the instructions of an accepted job wrongly.
fn misreading(change: impl Fn(usize, Item) -> Item + Sync) -> impl Fn(&mut Call) + Sync {
    move |call| {
        if call.kind == Kind::Fences && call.words()[0] != 0 {
            let read = with_instructions(call.job.part(), &change);
            set_answer(call, second::fences(&read));
        }
    }
}

#[test]
fn a_fence_check_that_errs_only_above_place_32() {
    let store = |op: u8| matches!(op, 4 | 5);
    let load = |op: u8| op == 3;
    let jump = |op: u8| matches!(op, 8 | 9);
    let barrier = |op: u8| matches!(op, 6 | 7);
    let overlooked: [fn(u8) -> bool; 4] = [store, load, jump, barrier];
    for is_overlooked in overlooked {
        first_difference_of(
            FOR_LONG_THREADS,
            misreading(move |place, there| {
                if place > 32 && is_overlooked(there.first) {
                    ADD
                } else {
                    there
                }
            }),
        );
    }
    // A fence seen where there is none.
    first_difference_of(
        FOR_LONG_THREADS,
        misreading(|place, there| {
            if place > 32 && there.first < 3 {
                FENCE
            } else {
                there
            }
        }),
    );
}

#[test]
fn an_open_pair_not_told_above_place_32() {
    for part in [2, 3] {
        let text = first_difference_of(FOR_LONG_THREADS, |call| {
            if call.kind == Kind::Fences && call.words()[0] == 2 && call.words()[part] > 32 {
                set_answer(call, [1, 0, 0, 0]);
            }
        });
        assert!(
            text.contains("answer: first difference at 0: library 1, second checker 2"),
            "{text}"
        );
    }
}

#[test]
fn a_fence_check_that_errs_only_at_place_63() {
    for overlooked in [3, 8, 9] {
        first_difference_of(
            FOR_LONG_THREADS,
            misreading(move |place, there| {
                if place == 63 && there.first == overlooked {
                    ADD
                } else {
                    there
                }
            }),
        );
    }
    // A jump to place 63 that is lost, and one to the end that comes out at place 0, as bit 64 of a word would.
    for (target, met) in [(63, 64), (64, 0)] {
        first_difference_of(
            FOR_LONG_THREADS,
            misreading(move |_, there| match there.first {
                8 | 9 if there.b == target => Item { b: met, ..there },
                _ => there,
            }),
        );
    }
}

/// Jobs enough to meet what is rare even among dead code.
const FOR_DEAD_CODE: u64 = 1000;

/// A fence check that answers an accepted job so.
fn checking(check: impl Fn(&Job) -> Option<OpenPair> + Sync) -> impl Fn(&mut Call) + Sync {
    move |call| {
        if let (Kind::Fences, Ok(job)) = (call.kind, decode(call.job.part())) {
            let words = check(&job).map_or([1, 0, 0, 0], |pair| {
                [2, pair.thread, pair.store, pair.load].map(|word| word as u64)
            });
            set_answer(call, words);
        }
    }
}

/// The least pair whose store is live as `live` has it; it gets a thread's number and program.
fn least(job: &Job, live: impl Fn(usize, &[Instruction]) -> BTreeSet<usize>) -> Option<OpenPair> {
    let programs = job.programs.iter().enumerate();
    let live: Vec<_> = programs.map(|(at, program)| live(at, program)).collect();
    let mut pairs = open_run_or_not(job).into_iter();
    pairs.find(|pair| live[pair.thread].contains(&pair.store))
}

#[test]
fn a_right_stand_in_for_the_fence_check_has_no_difference() {
    let right = Spoiling(checking(|job| {
        least(job, |_, program| live_places(program))
    }));
    assert_eq!(report(&right, 1000, 1).differences, 0);
}

#[test]
fn a_dead_store_that_counts() {
    let gone = first_difference(checking(|job| open_run_or_not(job).into_iter().next()));
    assert!(gone.contains("fence check"), "{gone}");
    // In all threads but the first, and above place 32 alone.
    first_difference_of(
        FOR_DEAD_CODE,
        checking(|job| {
            least(job, |thread, program| match thread {
                0 => live_places(program),
                _ => (0..=64).collect(),
            })
        }),
    );
    first_difference_of(
        FOR_DEAD_CODE,
        checking(|job| {
            least(job, |_, program| {
                live_places(program).into_iter().chain(33..=64).collect()
            })
        }),
    );
}

#[test]
fn a_dead_store_that_counts_because_something_else_is_live() {
    // Its load.
    first_difference_of(
        FOR_DEAD_CODE,
        checking(|job| {
            let mut pairs = open_run_or_not(job).into_iter();
            pairs.find(|pair| live_places(&job.programs[pair.thread]).contains(&pair.load))
        }),
    );
    // The same place of thread 0.
    first_difference_of(
        FOR_DEAD_CODE,
        checking(|job| least(job, |_, _| live_places(&job.programs[0]))),
    );
}

#[test]
fn a_live_pair_that_a_dead_one_hides() {
    first_difference_of(
        FOR_DEAD_CODE,
        checking(|job| {
            let least = open_run_or_not(job).into_iter().next()?;
            let live = live_places(&job.programs[least.thread]);
            live.contains(&least.store).then_some(least)
        }),
    );
}

#[test]
fn a_live_store_that_does_not_count() {
    // Behind a fence, behind a jump back, and on either way of a JEQ.
    for change in [fences_shut, never_back, jeq_always_jumps, jeq_never_jumps] {
        first_difference_of(
            FOR_DEAD_CODE,
            checking(move |job| least(job, |_, program| live_if(program, change))),
        );
    }
    // At place 0, to which no move leads.
    first_difference(checking(|job| {
        let mut pairs = open_run_or_not(job).into_iter();
        pairs.find(|pair| {
            pair.store > 0 && live_places(&job.programs[pair.thread]).contains(&pair.store)
        })
    }));
    // Above place 32.
    first_difference_of(
        FOR_LONG_THREADS,
        checking(|job| {
            least(job, |_, program| {
                live_places(program)
                    .into_iter()
                    .filter(|&place| place <= 32)
                    .collect()
            })
        }),
    );
}

#[test]
fn a_thread_of_65_that_one_of_the_three_accepts() {
    for kind in [Kind::Search, Kind::Replay, Kind::Fences] {
        let text = first_difference_of(FOR_LONG_THREADS, |call| {
            if call.kind == kind && of_job(call.job.part()).contains(&ONE_TOO_MANY) {
                set_answer(call, [1, 0, u64::from(kind == Kind::Search), 0]);
            }
        });
        assert!(
            text.contains("answer: first difference at 0: library 1, second checker 0"),
            "{text}"
        );
    }
}

#[test]
fn what_is_missing_told_before_a_thread_of_65() {
    first_difference_of(FOR_LONG_THREADS, |call| {
        if of_job(call.job.part()).contains(&ONE_TOO_MANY) {
            let n = call.words()[2];
            let bytes = width(call.job.part()[2]).item_bytes();
            let whole = n as usize + 1 + bytes * 65;
            if whole > call.job.count() {
                set_answer(call, [0, 6, n + 1, 0]);
            }
        }
    });
}

/// A decoder that refuses an accepted job at this offset, if it gives one.
fn refusing(number: u64, at: impl Fn(&[u8]) -> Option<usize> + Sync) -> impl Fn(&mut Call) + Sync {
    move |call| {
        if second::decode(call.job.part()).is_ok() {
            if let Some(offset) = at(call.job.part()) {
                set_answer(call, [0, number, offset as u64, 0]);
            }
        }
    }
}

/// Where the first n of this value stands.
fn thread_of(length: u8, job: &[u8]) -> Option<usize> {
    let mut counts = threads(job).into_iter().map(|(n, _)| n);
    counts.find(|&n| job[n] == length)
}

#[test]
fn a_decoder_that_refuses_a_long_thread() {
    for length in [33, 51, 64] {
        first_difference_of(
            FOR_LONG_THREADS,
            refusing(4, move |job| thread_of(length, job)),
        );
    }
}

#[test]
fn a_decoder_that_refuses_a_file_over_597_bytes() {
    for version in [1, 2, 3] {
        first_difference_of(
            FOR_LONG_THREADS,
            refusing(1, move |job| {
                (job[2] == version && job.len() > 597).then_some(0)
            }),
        );
    }
}

#[test]
fn a_decoder_that_refuses_a_jump_to_place_64() {
    for op in [8, 9] {
        first_difference_of(
            FOR_LONG_THREADS,
            refusing(4, move |job| {
                instructions(job).find(|&at| job[at] == op && job[at + 2] == 64)
            }),
        );
    }
}

/// Where each clause of an accepted job begins.
fn clauses(job: &[u8]) -> impl Iterator<Item = usize> {
    let threads = threads(job);
    let flag = threads.last().map_or(0, |(_, thread)| thread.end);
    (flag + 2..job.len()).step_by(width(job[2]).item_bytes())
}

#[test]
fn a_decoder_that_refuses_place_64_in_a_clause() {
    first_difference_of(
        FOR_LONG_THREADS,
        refusing(5, |job| {
            let at_64 = |clause: &Item| clause.first == 1 && clause.k == 64;
            let number = Parts::of(job).clauses.iter().position(at_64)?;
            clauses(job).nth(number)
        }),
    );
}

#[test]
fn a_slot_with_a_wrong_place_above_32() {
    let misplaced: [fn(u8) -> u8; 4] = [
        |place| place.min(32),
        |place| place % 32,
        |place| place % 64,
        |place| if place == 63 { 62 } else { place },
    ];
    for wrong in misplaced {
        let text = first_difference_of(FOR_LONG_THREADS, move |call| {
            if call.kind == Kind::Search {
                let counted = slots(call) * SLOT_BYTES;
                let places = call.table.part_mut()[..counted]
                    .chunks_exact_mut(SLOT_BYTES)
                    .flat_map(|slot| &mut slot[..4]);
                for place in places {
                    if *place > 32 {
                        *place = wrong(*place);
                    }
                }
            }
        });
        assert!(text.contains("table: first difference at"), "{text}");
    }
}

#[test]
fn a_replay_that_errs_only_above_place_32() {
    for kind in [1, 3] {
        first_difference_of(FOR_LONG_THREADS, move |call| {
            if call.kind == Kind::Replay && call.words()[0] == kind {
                let high = ends_high(call.job.part(), call.schedule.part());
                if high {
                    set_answer(call, [2, 0, 0, 0]);
                }
            }
        });
    }
}

#[test]
fn a_wrong_byte_in_the_last_slot() {
    let text = first_difference(|call| {
        let end = slots(call) * SLOT_BYTES;
        if call.kind == Kind::Search && end > 0 {
            flip(call.table.part_mut().get_mut(end - 1));
        }
    });
    assert!(text.contains("table: first difference at"), "{text}");
}

#[test]
fn a_byte_behind_the_last_counted_slot() {
    first_difference(|call| {
        let end = slots(call) * SLOT_BYTES;
        if call.kind == Kind::Search && end > 0 {
            flip(call.table.part_mut().get_mut(end));
        }
    });
}

#[test]
fn a_wrong_link() {
    let text = first_difference(|call| {
        let count = slots(call);
        if call.kind == Kind::Search && count > 1 {
            call.links.part_mut()[count - 1] ^= 64;
        }
    });
    assert!(text.contains("links: first difference at"), "{text}");
}

#[test]
fn a_link_behind_the_counted_ones() {
    first_difference(|call| {
        let count = slots(call);
        if let (Kind::Search, Some(link)) = (call.kind, call.links.part_mut().get_mut(count)) {
            *link = 0;
        }
    });
}

#[test]
fn a_wrong_last_step() {
    first_difference(|call| {
        if let (Kind::Search, [1, distance, ..]) = (call.kind, call.words()) {
            flip(call.schedule.part_mut()[..distance as usize].last_mut());
        }
    });
}

#[test]
fn a_schedule_although_nothing_is_reachable() {
    first_difference(|call| {
        if call.kind == Kind::Search && call.words()[0] == 2 {
            flip(call.schedule.part_mut().first_mut());
        }
    });
}

#[test]
fn a_touched_guard() {
    let after = first_difference(|call| flip(call.table.whole_mut().last_mut()));
    assert!(after.contains("(outside of what was lent)"), "{after}");
    let before = first_difference(|call| flip(call.schedule.whole_mut().first_mut()));
    assert!(
        before.contains("schedule: first difference at -"),
        "{before}"
    );
    first_difference(|call| call.links.whole_mut()[0] ^= 1);
    first_difference(|call| call.answer.whole_mut()[0] ^= 1);
}

#[test]
fn a_write_after_a_refusal() {
    let refused = |call: &Call| call.kind == Kind::Search && call.words()[0] == 0;
    first_difference(|call| {
        if refused(call) {
            flip(call.table.part_mut().last_mut());
        }
    });
    first_difference(|call| {
        if let (true, Some(link)) = (refused(call), call.links.part_mut().first_mut()) {
            *link = u32::MAX;
        }
    });
    first_difference(|call| {
        if refused(call) {
            flip(call.schedule.part_mut().first_mut());
        }
    });
}

#[test]
fn a_changed_job_or_replayed_schedule() {
    first_difference(|call| flip(call.job.part_mut().first_mut()));
    first_difference(|call| {
        if call.kind == Kind::Replay {
            flip(call.schedule.part_mut().last_mut());
        }
    });
}

#[test]
fn a_replay_that_always_reaches_or_is_stuck_elsewhere() {
    first_difference(|call| {
        if call.kind == Kind::Replay && call.words()[0] == 2 {
            set_answer(call, [1, 0, 0, 0]);
        }
    });
    first_difference(|call| {
        if let (Kind::Replay, [3, at, reason, _]) = (call.kind, call.words()) {
            set_answer(call, [3, at + 1, reason, 0]);
        }
    });
}

/// Jobs enough to meet each reason under each model, and what is rare among them.
const FOR_REASONS: u64 = 1000;

const MODELS: [Model; 3] = [Model::Sc, Model::Tso, Model::Pso];

/// The reasons that can come up under a model.
fn reasons_under(model: Model) -> &'static [u64] {
    match model {
        Model::Sc => &[1, 2, 5],
        Model::Tso | Model::Pso => &[1, 2, 3, 4, 5, 6],
    }
}

/// Where a replay is stuck.
struct Stuck<'a> {
    job: &'a Job,
    state: &'a State,
    schedule: &'a [u8],
    at: usize,
    reason: Reason,
}

impl Stuck<'_> {
    fn number(&self) -> u8 {
        self.schedule[self.at]
    }

    fn is_by(&self, model: Model, reason: u64) -> bool {
        self.job.model == model && u64::from(self.reason.number()) == reason
    }

    fn flushes(&self) -> Option<(usize, usize)> {
        match Step::from_number(self.number()) {
            Some(Step::Flush { thread, variable }) => Some((thread, variable)),
            Some(Step::Execute { .. }) | None => None,
        }
    }

    fn executes(&self) -> Option<usize> {
        match Step::from_number(self.number()) {
            Some(Step::Execute { thread }) => Some(thread),
            Some(Step::Flush { .. }) | None => None,
        }
    }

    /// How many stores of the thread are pending, if it is there.
    fn pending(&self, thread: usize) -> usize {
        let own = self.state.threads.get(thread);
        own.map_or(0, |own| own.pending())
    }

    /// Whether C stores of the thread that is to execute are pending.
    fn is_full(&self) -> bool {
        let pending = self.executes().map(|thread| self.pending(thread));
        self.job.model != Model::Sc && pending == Some(self.job.capacity)
    }

    fn has_thread(&self, thread: usize) -> bool {
        thread < self.job.programs.len()
    }

    fn has_variable(&self, variable: usize) -> bool {
        variable < self.job.initial.len()
    }
}

/// A replay that answers so where it is stuck, and as it should where `answer` gives nothing.
fn where_stuck(answer: impl Fn(&Stuck) -> Option<[u64; 4]> + Sync) -> impl Fn(&mut Call) + Sync {
    move |call| {
        if let (Kind::Replay, Ok(job)) = (call.kind, decode(call.job.part())) {
            let schedule = call.schedule.part();
            if let (state, Some(found)) = follow_until_stuck(&job, schedule) {
                let wrong = answer(&Stuck {
                    job: &job,
                    state: &state,
                    schedule,
                    at: found.at,
                    reason: found.reason,
                });
                if let Some(words) = wrong {
                    set_answer(call, words);
                }
            }
        }
    }
}

/// A replay that says the right place of a stuck step, and this for its reason.
fn saying(wrong: impl Fn(&Stuck) -> Option<u64> + Sync) -> impl Fn(&mut Call) + Sync {
    where_stuck(move |stuck| wrong(stuck).map(|said| [3, stuck.at as u64, said, 0]))
}

/// A wrong reason is noticed as such: in the third word, and by the right one beside it.
fn notices_reason(wrong: impl Fn(&Stuck) -> Option<u64> + Sync) -> String {
    let text = first_difference_of(FOR_REASONS, saying(wrong));
    assert!(
        text.contains("answer: first difference at 2: library"),
        "{text}"
    );
    text
}

#[test]
fn a_right_stand_in_for_the_reasons_has_no_difference() {
    let right = Spoiling(saying(|stuck| Some(u64::from(stuck.reason.number()))));
    assert_eq!(report(&right, 1000, 1).differences, 0);
}

/// Says this for that reason under that model, and is right elsewhere.
fn notices_said_for(said: u64, right: u64, model: Model) {
    let text = notices_reason(|stuck| stuck.is_by(model, right).then_some(said));
    let words = format!("library {said}, second checker {right}");
    assert!(text.contains(&words), "{text}");
}

#[test]
fn a_neighbouring_reason() {
    for model in MODELS {
        for &right in reasons_under(model) {
            notices_said_for(right - 1, right, model);
            notices_said_for(right + 1, right, model);
        }
    }
}

#[test]
fn no_reason_where_the_replay_is_stuck() {
    for model in MODELS {
        for &right in reasons_under(model) {
            notices_said_for(0, right, model);
        }
    }
}

#[test]
fn one_reason_for_all() {
    for said in 0..=7 {
        notices_reason(|_| Some(said));
    }
}

#[test]
fn two_reasons_exchanged() {
    for first in REASONS {
        for second in REASONS.into_iter().filter(|&second| second > first) {
            notices_reason(|stuck| match stuck.reason {
                reason if reason == first => Some(u64::from(second.number())),
                reason if reason == second => Some(u64::from(first.number())),
                _ => None,
            });
        }
    }
}

#[test]
fn reasons_5_and_6_exchanged_where_stores_are_pending() {
    // Said to be behind another where it isn't pending, and the other way round.
    for model in [Model::Tso, Model::Pso] {
        for right in [5, 6] {
            notices_reason(|stuck| {
                let (thread, _) = stuck.flushes()?;
                let beside = stuck.is_by(model, right) && stuck.pending(thread) > 0;
                beside.then_some(11 - right)
            });
        }
    }
}

#[test]
fn the_reason_of_the_step_before() {
    let number = |reason: Reason| u64::from(reason.number());
    // What the same step would have had for a reason in the state before.
    notices_reason(|stuck| {
        let (before, _) = follow(stuck.job, &stuck.schedule[..stuck.at.checked_sub(1)?]);
        reason(stuck.job, &before, stuck.number()).map(number)
    });
    // That one, or none where it could have been taken then.
    notices_reason(|stuck| {
        let (before, _) = follow(stuck.job, &stuck.schedule[..stuck.at.checked_sub(1)?]);
        Some(reason(stuck.job, &before, stuck.number()).map_or(0, number))
    });
    // What the number before it has for a reason here, and what the number behind it has.
    notices_reason(|stuck| {
        let before = stuck.schedule[stuck.at.checked_sub(1)?];
        reason(stuck.job, stuck.state, before).map(number)
    });
    notices_reason(|stuck| {
        let behind = *stuck.schedule.get(stuck.at + 1)?;
        reason(stuck.job, stuck.state, behind).map(number)
    });
    // What the step has for a reason at the start.
    notices_reason(|stuck| {
        let start = State::start(stuck.job);
        reason(stuck.job, &start, stuck.number()).map(number)
    });
}

#[test]
fn an_absent_step_with_another_reason() {
    for model in MODELS {
        // An absent thread for an ended one.
        notices_reason(|stuck| {
            let absent = !stuck.has_thread(stuck.executes()?);
            (stuck.job.model == model && absent).then_some(2)
        });
        // A thread without instructions for an absent one.
        notices_reason(|stuck| {
            let program = stuck.job.programs.get(stuck.executes()?)?;
            (stuck.job.model == model && program.is_empty()).then_some(1)
        });
        // Nothing to flush, where the thread, the variable or both are absent.
        for there in [[false, true], [true, false], [false, false]] {
            notices_reason(|stuck| {
                let (thread, variable) = stuck.flushes()?;
                let found = [stuck.has_thread(thread), stuck.has_variable(variable)];
                (stuck.job.model == model && found == there).then_some(5)
            });
        }
        // Nothing to flush, or an ended thread, by a number above 35.
        for said in [2, 5] {
            notices_reason(|stuck| {
                (stuck.job.model == model && stuck.number() > 35).then_some(said)
            });
        }
    }
    // Every flush under SC for no step at all.
    notices_reason(|stuck| {
        let (thread, variable) = stuck.flushes()?;
        let there = stuck.has_thread(thread) && stuck.has_variable(variable);
        (stuck.job.model == Model::Sc && there).then_some(1)
    });
}

#[test]
fn a_number_above_35_with_the_reason_of_its_low_bits() {
    for bits in [63, 31] {
        notices_reason(|stuck| match stuck.number() {
            0..=35 => None,
            number => reason(stuck.job, stuck.state, number & bits)
                .map(|reason| u64::from(reason.number())),
        });
    }
}

#[test]
fn a_full_buffer_where_something_else_is_the_reason() {
    for model in [Model::Tso, Model::Pso] {
        // FENCE, XCHG or CMPX and the end at a full buffer.
        for right in [4, 2] {
            notices_reason(|stuck| (stuck.is_by(model, right) && stuck.is_full()).then_some(3));
        }
        // The end with any stores pending.
        notices_reason(|stuck| {
            let pending = stuck.pending(stuck.executes()?);
            (stuck.is_by(model, 2) && pending > 0).then_some(4)
        });
        // A store at a full buffer.
        for said in [2, 4] {
            notices_reason(|stuck| stuck.is_by(model, 3).then_some(said));
        }
    }
}

#[test]
fn a_flush_with_the_reason_of_its_thread() {
    for model in MODELS {
        let model_reasons = reasons_under(model).iter();
        for &said in model_reasons.filter(|said| (2..5).contains(*said)) {
            // Of an ended thread, of one that waits for room and of one that waits for an empty buffer.
            notices_reason(|stuck| {
                let (thread, _) = stuck.flushes()?;
                let own = reason(stuck.job, stuck.state, thread as u8)?;
                let is_so = u64::from(own.number()) == said;
                (stuck.is_by(model, 5) && is_so).then_some(said)
            });
        }
    }
}

#[test]
fn a_step_that_cannot_be_taken_and_is_not_told() {
    for model in MODELS {
        for &right in reasons_under(model) {
            for answer in [[1, 0, 0, 0], [2, 0, 0, 0]] {
                let silent = where_stuck(move |stuck| stuck.is_by(model, right).then_some(answer));
                let text = first_difference_of(FOR_REASONS, silent);
                let words = format!("library {}, second checker 3", answer[0]);
                assert!(text.contains(&words), "{text}");
            }
        }
    }
}

#[test]
fn a_reason_where_the_replay_is_not_stuck() {
    for kind in [1, 2] {
        for said in 1..=6 {
            let text = first_difference(|call| {
                if call.kind == Kind::Replay && call.words()[0] == kind {
                    set_answer(call, [kind, 0, said, 0]);
                }
            });
            let words = format!("answer: first difference at 2: library {said}, second checker 0");
            assert!(text.contains(&words), "{text}");
        }
        // Stuck at the end, where no step stands, and at the last step.
        for back in [0, 1] {
            first_difference(|call| {
                if call.kind == Kind::Replay && call.words()[0] == kind {
                    let steps = call.schedule.count() as u64;
                    set_answer(call, [3, steps.saturating_sub(back), 5, 0]);
                }
            });
        }
    }
}

#[test]
fn a_reason_in_the_wrong_word() {
    let misplaced: [fn(u64, u64) -> [u64; 4]; 4] = [
        |at, reason| [3, reason, at, 0],
        |at, reason| [3, at, 0, reason],
        |at, reason| [3, at, reason, reason],
        |at, reason| [3, at + reason, 0, 0],
    ];
    for wrong in misplaced {
        first_difference(move |call| {
            if let (Kind::Replay, [3, at, reason, _]) = (call.kind, call.words()) {
                set_answer(call, wrong(at, reason));
            }
        });
    }
}

#[test]
fn a_fence_check_that_always_says_the_same() {
    for words in [[1, 0, 0, 0], [2, 0, 0, 1]] {
        first_difference(|call| {
            if call.kind == Kind::Fences && call.words()[0] != 0 {
                set_answer(call, words);
            }
        });
    }
}

// ---- version 2 ----

/// Jobs enough to meet what is rare even in one of the versions.
const FOR_VERSIONS: u64 = 4000;

/// Those that have CMPX and WFENCE.
const NEWER: [u8; 2] = [2, 3];

/// The version that an accepted or refused file says.
fn version(call: &Call) -> Option<u8> {
    call.job.part().get(2).copied()
}

/// Reads another job than it is given in calls of one kind, and is right about that.
struct Misreading<F> {
    kind: Kind,
    read: F,
}

impl<F: Fn(&[u8]) -> Vec<u8> + Sync> Checker for Misreading<F> {
    fn run(&self, call: &mut Call) {
        let job = call.job.clone();
        if call.kind == self.kind {
            let read = (self.read)(job.part());
            call.job = Lent::holding(&mut Random::new(0), &read);
        }
        Second.run(call);
        call.job = job;
    }
}

fn notices_misreading(kind: Kind, read: impl Fn(&[u8]) -> Vec<u8> + Sync) -> String {
    let liar = Misreading { kind, read };
    let mut parts = (0..FOR_VERSIONS).step_by(100);
    let found = parts.find_map(|first| report_from(&liar, first, 100, 1).kept.into_iter().next());
    found.expect("nothing was noticed").text
}

/// Accepted jobs of this version with another instruction in place of each of this operation.
fn reading(version: u8, operation: u8, other: impl Fn(Item) -> Item) -> impl Fn(&[u8]) -> Vec<u8> {
    move |job| match decode(job) {
        Ok(accepted) if accepted.version == version => with_instructions(job, |_, there| {
            if there.first == operation {
                other(there)
            } else {
                there
            }
        }),
        _ => job.to_vec(),
    }
}

const EACH_KIND: [Kind; 3] = [Kind::Search, Kind::Replay, Kind::Fences];

#[test]
fn a_stand_in_that_reads_what_is_there_has_no_difference() {
    for kind in EACH_KIND {
        let read = |job: &[u8]| job.to_vec();
        let right = Misreading { kind, read };
        assert_eq!(report(&right, 300, 1).differences, 0);
    }
}

#[test]
fn a_decoder_that_does_not_know_a_version() {
    for refused in [1, 2, 3] {
        let text = first_difference(refusing(2, move |job| (job[2] == refused).then_some(2)));
        assert!(text.contains("answer: first difference at"), "{text}");
    }
}

#[test]
fn a_version_that_there_is_not_and_one_of_the_three_accepts() {
    for kind in EACH_KIND {
        // Taken for one of the versions, as a decoder that does not look would.
        for taken_for in [1, 2, 3] {
            notices_misreading(kind, |job| match decode(job) {
                Err(Refusal { number: 2, .. }) => in_version(job, taken_for),
                _ => job.to_vec(),
            });
        }
    }
}

#[test]
fn an_operation_of_version_2_that_version_1_accepts() {
    for kind in EACH_KIND {
        for operation in [10, 11] {
            notices_misreading(kind, |job| match decode(job) {
                Err(Refusal { number: 4, offset }) if job[2] == 1 && job[offset] == operation => {
                    in_version(job, 2)
                }
                _ => job.to_vec(),
            });
        }
    }
}

#[test]
fn an_operation_of_versions_2_and_3_that_is_refused_there() {
    for (version, operation) in [(2, 10), (2, 11), (3, 10), (3, 11)] {
        first_difference_of(
            FOR_VERSIONS,
            refusing(4, move |job| {
                let is_new = |&at: &usize| job[2] == version && job[at] == operation;
                instructions(job).find(is_new)
            }),
        );
    }
}

#[test]
fn a_bad_operand_of_cmpx_or_wfence_that_is_accepted() {
    // Register and variable of CMPX, and each byte of WFENCE, taken for 0.
    let in_two = [(10, 1), (10, 2), (11, 1), (11, 2), (11, 3)].map(|operand| (2, operand));
    let in_three = [(10, 1), (11, 3), (11, 4)].map(|operand| (3, operand));
    for (version, (operation, part)) in in_two.into_iter().chain(in_three) {
        notices_misreading(EACH_KIND[part % 3], |job| match decode(job) {
            Err(Refusal { number: 4, offset }) if job[2] == version && job[offset] == operation => {
                with_byte(job, offset + part, 0)
            }
            _ => job.to_vec(),
        });
    }
}

#[test]
fn a_wfence_that_does_nothing_or_waits() {
    for version in NEWER {
        for kind in [Kind::Search, Kind::Replay] {
            for other in [ADD, FENCE] {
                notices_misreading(kind, reading(version, 11, move |_| other));
            }
        }
    }
}

const STORE: Item = item(5, 0, 0, 1);
const LOAD: Item = item(3, 0, 0, 0);

#[test]
fn a_cmpx_taken_for_something_else() {
    // It always writes, and what the register held; never; the register stays; it only waits.
    let others: [fn(Item) -> Item; 4] = [
        |cmpx| item(7, cmpx.a, cmpx.b, 0),
        |cmpx| item(3, cmpx.a, cmpx.b, 0),
        |cmpx| item(5, 0, cmpx.b, cmpx.k),
        |_| FENCE,
    ];
    for version in NEWER {
        for kind in [Kind::Search, Kind::Replay] {
            for other in others {
                notices_misreading(kind, reading(version, 10, other));
            }
        }
    }
}

#[test]
fn a_fence_check_that_takes_wfence_or_cmpx_for_something_else() {
    let kind = Kind::Fences;
    for version in NEWER {
        // WFENCE for a fence, for a store and for a load.
        for other in [FENCE, STORE, LOAD] {
            let text = notices_misreading(kind, reading(version, 11, move |_| other));
            assert!(text.contains("fence check"), "{text}");
        }
        // CMPX for no fence, for a store and for a load.
        for other in [ADD, WFENCE, STORE, LOAD] {
            notices_misreading(kind, reading(version, 10, move |_| other));
        }
    }
}

/// All counted slots of a search in one of these versions are changed so.
fn notices_slots(versions: &[u8], change: impl Fn(&mut [u8]) + Sync) {
    let text = first_difference_of(FOR_VERSIONS, |call| {
        if let (Kind::Search, Ok(job)) = (call.kind, decode(call.job.part())) {
            if versions.contains(&job.version) {
                let counted = slots(call) * SLOT_BYTES;
                let table = &mut call.table.part_mut()[..counted];
                table.chunks_exact_mut(SLOT_BYTES).for_each(&change);
            }
        }
    });
    assert!(text.contains("table: first difference at"), "{text}");
}

/// The buffers of all these slots, in each version that has groups.
fn notices_buffers(change: impl Fn(&mut [u8]) + Sync) {
    for version in NEWER {
        notices_slots(&[version], |slot| {
            let buffers = slot[LAYOUT.buffers_at()..].chunks_exact_mut(LAYOUT.buffer_bytes());
            buffers.for_each(&change);
        });
    }
}

/// Variable and value of each pending store, as they stand in a buffer.
type Store = [u8; 3];

fn stores(buffer: &[u8]) -> Vec<Store> {
    let count = usize::from(buffer[0] % 128);
    let stores = buffer[1..].chunks_exact(LAYOUT.store_bytes()).take(count);
    stores.map(|store| [store[0], store[1], store[2]]).collect()
}

fn put_stores(buffer: &mut [u8], stores: &[Store]) {
    let bytes = stores.concat();
    buffer[1..1 + bytes.len()].copy_from_slice(&bytes);
}

#[test]
fn a_slot_with_wrong_groups() {
    let newest = |stores: &[Store]| stores.last().map_or(0, |store| store[0] / 16);
    // None; numbers that count the WFENCEs before; from the newest; from 1, as if they had not been renumbered.
    let numbered: [fn(u8, u8) -> u8; 4] = [
        |_, _| 0,
        |group, _| 2 * group,
        |group, newest| newest - group,
        |group, _| group + 1,
    ];
    for number in numbered {
        notices_buffers(|buffer| {
            let mut stores = stores(buffer);
            let newest = newest(&stores);
            for store in &mut stores {
                store[0] = store[0] % 16 + 16 * number(store[0] / 16, newest);
            }
            put_stores(buffer, &stores);
        });
    }
    // By variable and then by group.
    notices_buffers(|buffer| {
        let mut stores = stores(buffer);
        stores.sort_by_key(|store| (store[0] % 16, store[0] / 16));
        put_stores(buffer, &stores);
    });
}

#[test]
fn a_slot_with_a_wrong_wfence() {
    // Not told; told of another number; told of an empty buffer; still told when a store has joined.
    notices_buffers(|buffer| buffer[0] %= 128);
    notices_buffers(|buffer| buffer[0] = buffer[0] % 128 + 64 * (buffer[0] / 128));
    notices_buffers(|buffer| {
        if buffer[0] == 0 {
            buffer[0] = 128;
        }
    });
    notices_buffers(|buffer| {
        let in_groups = stores(buffer).iter().any(|store| store[0] >= 16);
        if in_groups && buffer[0] < 128 {
            buffer[0] += 128;
        }
    });
}

/// The instruction that a thread is stuck at.
fn next<'a>(stuck: &'a Stuck) -> Option<&'a Instruction> {
    let thread = stuck.executes()?;
    let place = stuck.state.threads.get(thread)?.place;
    stuck.job.programs.get(thread)?.get(place)
}

/// Whether a thread is stuck at a CMPX, and whether that would take.
fn waiting_cmpx(stuck: &Stuck) -> Option<bool> {
    match (*next(stuck)?, stuck.executes()?) {
        (
            Instruction::CompareExchange {
                register, variable, ..
            },
            thread,
        ) => {
            let wanted = stuck.state.threads[thread].registers[register];
            Some(stuck.state.memory[variable] == wanted)
        }
        _ => None,
    }
}

#[test]
fn a_cmpx_that_does_not_wait() {
    for version in NEWER {
        // Whatever it would do, and only if it would not take.
        let waits: [fn(bool) -> bool; 2] = [|_| true, |takes| !takes];
        for does_not_wait in waits {
            first_difference_of(
                FOR_VERSIONS,
                where_stuck(move |stuck| {
                    let takes = waiting_cmpx(stuck)?;
                    let is_taken = stuck.job.version == version && does_not_wait(takes);
                    is_taken.then_some([2, 0, 0, 0])
                }),
            );
        }
        // It waits for room, not for an empty buffer.
        let text = first_difference_of(
            FOR_VERSIONS,
            saying(move |stuck| {
                let waits = waiting_cmpx(stuck).filter(|_| stuck.job.version == version);
                waits.map(|_| 3)
            }),
        );
        assert!(text.contains("library 3, second checker 4"), "{text}");
    }
}

/// A replay that errs only where it is in this class, if it is of this version.
fn notices_replays_of(version: u8, class: &'static str) {
    first_difference_of(FOR_VERSIONS, |call| {
        if call.kind == Kind::Replay && call.words()[0] != 0 {
            let [job, schedule] = [call.job.part(), call.schedule.part()];
            let met = match version {
                3 => version_three::of_replay(job, schedule),
                _ => version_two::of_replay_in(version, job, schedule),
            };
            if met.contains(&class) {
                set_answer(call, [3, 0, 7, 0]);
            }
        }
    });
}

#[test]
fn a_replay_that_is_stuck_where_a_wfence_runs() {
    for version in NEWER {
        for class in [
            version_two::ON_EMPTY,
            version_two::ON_FULL,
            version_two::IN_A_ROW,
            version_two::DOES_NOTHING,
        ] {
            notices_replays_of(version, class);
        }
    }
}

#[test]
fn a_flush_of_a_later_group_that_is_taken() {
    for version in NEWER {
        first_difference_of(
            FOR_VERSIONS,
            where_stuck(move |stuck| {
                let is_behind = stuck.job.version == version && stuck.is_by(Model::Pso, 6);
                is_behind.then_some([2, 0, 0, 0])
            }),
        );
    }
}

/// A search of P1 in this version, in room enough.
fn search_of_p1(version: u8) -> Call {
    let sizes = Sizes {
        table: 3400,
        links: 25,
        schedule: 23,
    };
    Call::search(&mut Random::new(1), &in_version(&P1, version), sizes)
}

/// What is said about the same call in the other version, if anything.
fn between_versions(library: &dyn Checker, call: Call) -> Option<String> {
    let other = 3 - version(&call).expect("the file says its version");
    let found = hold(library, call.clone()).found;
    hold_versions(library, call, other, &found)
}

#[test]
fn a_file_that_both_versions_can_say_answers_alike() {
    for version in [1, 2] {
        assert_eq!(between_versions(&Second, search_of_p1(version)), None);
    }
}

type Spoil = fn(&mut Call);

#[test]
fn a_file_that_answers_otherwise_in_its_other_version() {
    let spoils: [(Spoil, &str); 5] = [
        (
            |call| call.answer.part_mut()[1] += 1,
            "answer: first difference at 1: version 1 has 4, version 2 has 5",
        ),
        (
            |call| call.table.part_mut()[153] = 9,
            "table: first difference at 153: version 1 has 0, version 2 has 9",
        ),
        (
            |call| call.links.part_mut()[1] = 9,
            "links: first difference at 1: version 1 has 0, version 2 has 9",
        ),
        (
            |call| call.schedule.part_mut()[3] = 9,
            "schedule: first difference at 3: version 1 has 1, version 2 has 9",
        ),
        (
            |call| call.job.part_mut()[2] = 9,
            "job: first difference at 2: version 1 has",
        ),
    ];
    for (spoil, said) in spoils {
        let liar = Spoiling(move |call: &mut Call| {
            if version(call) == Some(2) {
                spoil(call);
            }
        });
        for version in [1, 2] {
            let text = between_versions(&liar, search_of_p1(version)).expect("the spoil shows");
            assert!(text.contains(said), "'{said}' is not in\n{text}");
        }
    }
}

#[test]
fn a_run_holds_files_to_themselves_in_the_other_version() {
    for kind in EACH_KIND {
        // Version 2 is right about CMPX and WFENCE, and about nothing else.
        let liar = Spoiling(move |call: &mut Call| {
            let accepted = decode(call.job.part()).ok();
            let plain = accepted.filter(|job| {
                let mut instructions = job.programs.iter().flatten();
                let is_new = |&one: &Instruction| is_compare_exchange(one) || is_wfence(one);
                job.version == 2 && !instructions.any(is_new)
            });
            if call.kind == kind && plain.is_some() {
                call.answer.part_mut()[3] += 1;
            }
        });
        let kept = report(&liar, 300, 1).kept;
        let between = kept
            .iter()
            .filter(|kept| kept.text.contains("version 1 has"));
        assert!(between.count() > 0, "{kept:?}");
    }
}

// ---- version 3: values of two bytes ----

/// Whether it is an accepted job of version 3.
fn is_wide(job: &[u8]) -> bool {
    decode(job).map_or(false, |job| job.version == 3)
}

/// Accepted jobs of version 3 with other values, read so where `wanted` says, in searches and in replays.
fn notices_values(wanted: fn(&mut Parts) -> Vec<&mut Value>, read: fn(Value) -> Value) {
    for kind in [Kind::Search, Kind::Replay] {
        notices_misreading(kind, |job| {
            if !is_wide(job) {
                return job.to_vec();
            }
            let mut parts = Parts::of(job);
            for value in wanted(&mut parts) {
                *value = read(*value);
            }
            parts.file()
        });
    }
}

/// A byte is lost, the other one is, or they change places.
const MISREAD: [fn(Value) -> Value; 3] = [
    |value| value & 0x00FF,
    |value| value & 0xFF00,
    Value::swap_bytes,
];

fn k_of(parts: &mut Parts, operation: u8) -> Vec<&mut Value> {
    let instructions = parts.programs.iter_mut().flatten();
    let of_it = instructions.filter(|instruction| instruction.first == operation);
    of_it.map(|instruction| &mut instruction.k).collect()
}

fn asked_by(parts: &mut Parts, kind: u8) -> Vec<&mut Value> {
    let clauses = parts.clauses.iter_mut();
    let of_it = clauses.filter(|clause| clause.first == kind);
    of_it.map(|clause| &mut clause.k).collect()
}

#[test]
fn a_value_of_the_file_of_which_a_byte_is_lost() {
    let each: [fn(&mut Parts) -> Vec<&mut Value>; 8] = [
        |parts| parts.initial.iter_mut().collect(),
        |parts| k_of(parts, 1),
        |parts| k_of(parts, 2),
        |parts| k_of(parts, 5),
        |parts| k_of(parts, 8),
        |parts| k_of(parts, 10),
        |parts| asked_by(parts, 2),
        |parts| asked_by(parts, 3),
    ];
    for wanted in each {
        for read in MISREAD {
            notices_values(wanted, read);
        }
    }
    // A place has its bytes in the same order.
    notices_values(|parts| asked_by(parts, 1), Value::swap_bytes);
}

/// Refused jobs of this class of `version_three` are read so instead.
fn notices_accepted(class: &'static str, read: impl Fn(&[u8], usize) -> Vec<u8> + Sync) {
    for kind in EACH_KIND {
        notices_misreading(kind, |job| match decode(job) {
            Err(refusal) if version_three::of_job(job).contains(&class) => {
                read(job, refusal.offset)
            }
            _ => job.to_vec(),
        });
    }
}

/// Refused jobs of this class are refused by another number, or at another offset.
fn notices_refused(class: &'static str, other: impl Fn(&[u8], u64) -> [u64; 2] + Sync) {
    first_difference_of(FOR_VERSIONS, |call| {
        let [_, _, offset, _] = call.words();
        let job = call.job.part();
        if version_three::of_job(job).contains(&class) {
            let [number, offset] = other(job, offset);
            set_answer(call, [0, number, offset, 0]);
        }
    });
}

#[test]
fn a_byte_of_k_that_must_be_0_and_is_not_looked_at() {
    for (class, byte) in [
        (version_three::HIGH_NOT_0, 3),
        (version_three::LOW_NOT_0, 4),
        // A place of which the low byte alone is looked at.
        (version_three::HIGH_PLACE, 3),
    ] {
        notices_accepted(class, |job, offset| with_byte(job, offset + byte, 0));
    }
    // One that there is not.
    notices_accepted(version_three::LOW_PLACE, |job, offset| {
        with_byte(job, offset + 4, 0)
    });
}

#[test]
fn half_a_value_that_is_taken_for_one_or_refused_elsewhere() {
    // As if it was there, with 0 for its other byte: what is missing then begins behind it.
    notices_refused(version_three::HALF_A_VALUE, |job, _| [6, job.len() as u64]);
    notices_refused(version_three::HALF_A_VALUE, |_, offset| [6, offset + 2]);
    // Where the values begin, as if they were one field.
    notices_refused(version_three::HALF_A_VALUE, |_, _| [6, 7]);
    notices_accepted(version_three::HALF_A_VALUE, |job, _| {
        settled([job, &[0]].concat())
    });
}

#[test]
fn half_a_k_that_is_taken_for_one_or_judged_too_soon() {
    notices_refused(version_three::HALF_A_K, |job, _| [6, job.len() as u64]);
    // By what the item holds, before it is wholly there.
    notices_refused(version_three::HALF_A_K, |_, offset| [4, offset]);
    notices_refused(version_three::HALF_A_K, |_, offset| [5, offset]);
    notices_accepted(version_three::HALF_A_K, |job, _| {
        settled([job, &[0]].concat())
    });
}

#[test]
fn a_wrong_limit_of_length() {
    // The limit of version 3 for all of them, and none at all: then something else is at fault.
    for class in [
        version_three::TOO_LONG_BEFORE,
        version_three::TOO_LONG,
        version_three::TOO_LONG_OTHERWISE,
    ] {
        notices_accepted(class, |job, _| {
            settled(job[..longest_file(job[2])].to_vec())
        });
    }
    // The version is judged first.
    notices_refused(version_three::TOO_LONG_OTHERWISE, |_, _| [2, 2]);
    // The limit of the others for version 3; one byte less; and for each version.
    let [narrow, wide] = [1, 3].map(longest_file);
    for (version, most) in [(3, narrow), (3, wide - 1), (2, narrow - 1), (1, narrow - 1)] {
        first_difference_of(
            FOR_VERSIONS,
            refusing(1, move |job| {
                (job[2] == version && job.len() > most).then_some(0)
            }),
        );
    }
}

#[test]
fn every_length_about_a_limit_is_compared() {
    for class in lengths::OF_FILES {
        for kind in EACH_KIND {
            first_difference_of(FOR_VERSIONS, |call| {
                if call.kind == kind && lengths::of_file(call.job.part()) == Some(class) {
                    call.answer.part_mut()[3] += 1;
                }
            });
        }
    }
}

// ---- wide values at run ----

/// Follows a schedule with steps that lead elsewhere: `wrong` gets job, state and step, and the state that it should lead to.
fn replaying(wrong: impl Fn(&Job, &State, u8, State) -> State + Sync) -> impl Fn(&mut Call) + Sync {
    move |call| {
        if let (Kind::Replay, Ok(job)) = (call.kind, decode(call.job.part())) {
            let mut state = State::start(&job);
            for (at, &number) in call.schedule.part().iter().enumerate() {
                match step(&job, &state, number) {
                    Ok(next) => state = wrong(&job, &state, number, next),
                    Err(reason) => {
                        let words = [3, at as u64, u64::from(reason.number()), 0];
                        return set_answer(call, words);
                    }
                }
            }
            let kind = if state.is_goal(&job) { 1 } else { 2 };
            set_answer(call, [kind, 0, 0, 0]);
        }
    }
}

#[test]
fn a_right_stand_in_for_the_steps_has_no_difference() {
    let right = Spoiling(replaying(|_, _, _, next| next));
    assert_eq!(report(&right, 1000, 1).differences, 0);
}

/// The instruction that a step executes, with its thread.
fn executed(job: &Job, state: &State, number: u8) -> Option<(usize, Instruction)> {
    match Step::from_number(number)? {
        Step::Execute { thread } => {
            let place = state.threads[thread].place;
            Some((thread, job.programs[thread][place]))
        }
        Step::Flush { .. } => None,
    }
}

fn own(state: &mut State, thread: usize) -> &mut Thread {
    Rc::make_mut(&mut state.threads[thread])
}

/// Sums that another way of adding has, in jobs of this version.
fn notices_sums(version: u8, sum: fn(Value, Value) -> Value) {
    first_difference_of(
        FOR_VERSIONS,
        replaying(move |job, state, number, mut next| {
            if let Some((thread, Instruction::Add { register, value })) =
                executed(job, state, number).filter(|_| job.version == version)
            {
                let augend = state.threads[thread].registers[register];
                own(&mut next, thread).registers[register] = sum(augend, value);
            }
            next
        }),
    );
}

#[test]
fn a_sum_of_another_width() {
    // Modulo 256; without a carry; as much as there is, in place of a sum that wraps; modulo 65,535; one byte of it.
    let wrong: [fn(Value, Value) -> Value; 6] = [
        |a, b| a.wrapping_add(b) & 0x00FF,
        |a, b| {
            let low = (a & 0x00FF).wrapping_add(b & 0x00FF) & 0x00FF;
            (a & 0xFF00).wrapping_add(b & 0xFF00) | low
        },
        Value::saturating_add,
        |a, b| ((u32::from(a) + u32::from(b)) % 65_535) as Value,
        |a, b| a & 0xFF00 | a.wrapping_add(b) & 0x00FF,
        |a, b| a.wrapping_add(b) & 0xFF00 | a & 0x00FF,
    ];
    for sum in wrong {
        notices_sums(3, sum);
    }
    // In the others a sum goes on behind 255, or stays there.
    for version in [1, 2] {
        notices_sums(version, Value::wrapping_add);
        notices_sums(version, |a, b| (a + b).min(255));
        notices_sums(version, |a, b| (a + b) % 255);
    }
}

/// What is left of a value if one of its bytes is not looked at.
const HALVES: [fn(Value) -> Value; 2] = [|value| value & 0x00FF, |value| value & 0xFF00];

#[test]
fn a_jeq_that_looks_at_one_byte() {
    for half in HALVES {
        first_difference_of(
            FOR_VERSIONS,
            replaying(move |job, state, number, mut next| {
                if let Some((
                    thread,
                    Instruction::JumpIfEqual {
                        register,
                        target,
                        value,
                    },
                )) = executed(job, state, number)
                {
                    let held = state.threads[thread].registers[register];
                    if half(held) == half(value) {
                        own(&mut next, thread).place = target;
                    }
                }
                next
            }),
        );
    }
}

#[test]
fn a_cmpx_that_looks_at_one_byte() {
    for half in HALVES {
        first_difference_of(
            FOR_VERSIONS,
            replaying(move |job, state, number, mut next| {
                if let Some((
                    thread,
                    Instruction::CompareExchange {
                        register,
                        variable,
                        value,
                    },
                )) = executed(job, state, number)
                {
                    let held = state.threads[thread].registers[register];
                    if half(held) == half(state.memory[variable]) {
                        next.memory[variable] = value;
                    }
                }
                next
            }),
        );
    }
}

#[test]
fn a_clause_that_looks_at_one_byte() {
    for half in HALVES {
        for of_memory in [false, true] {
            first_difference_of(FOR_VERSIONS, |call| {
                if let (Kind::Replay, [2, ..], Ok(mut job)) =
                    (call.kind, call.words(), decode(call.job.part()))
                {
                    let (state, _) = follow(&job, call.schedule.part());
                    for clause in &mut job.goal.clauses {
                        match clause {
                            Clause::Register {
                                thread,
                                register,
                                value,
                            } if !of_memory => {
                                let held = state.threads[*thread].registers[*register];
                                if half(held) == half(*value) {
                                    *value = held;
                                }
                            }
                            Clause::Memory { variable, value } if of_memory => {
                                let held = state.memory[*variable];
                                if half(held) == half(*value) {
                                    *value = held;
                                }
                            }
                            _ => {}
                        }
                    }
                    if state.is_goal(&job) {
                        set_answer(call, [1, 0, 0, 0]);
                    }
                }
            });
        }
    }
}

#[test]
fn a_byte_that_is_lost_on_its_way() {
    for half in HALVES {
        // From memory to a register; from an own pending store to a register.
        for from_buffer in [false, true] {
            first_difference_of(
                FOR_VERSIONS,
                replaying(move |job, state, number, mut next| {
                    if let Some((thread, Instruction::Load { register, variable })) =
                        executed(job, state, number).filter(|_| job.version == 3)
                    {
                        let pending = state.threads[thread].buffer.newest(variable);
                        if pending.is_some() == from_buffer {
                            let loaded = &mut own(&mut next, thread).registers[register];
                            *loaded = half(*loaded);
                        }
                    }
                    next
                }),
            );
        }
        // From a register to memory or into a buffer.
        first_difference_of(
            FOR_VERSIONS,
            replaying(move |job, state, number, next| {
                match executed(job, state, number).filter(|_| job.version == 3) {
                    Some((thread, Instruction::StoreRegister { register, .. })) => {
                        let held = state.threads[thread].registers[register];
                        let mut lost = state.clone();
                        own(&mut lost, thread).registers[register] = half(held);
                        let mut stored = step(job, &lost, number).expect("it can be taken");
                        own(&mut stored, thread).registers[register] = held;
                        stored
                    }
                    _ => next,
                }
            }),
        );
        // Either way of an exchange.
        for into_memory in [false, true] {
            first_difference_of(
                FOR_VERSIONS,
                replaying(move |job, state, number, mut next| {
                    if let Some((thread, Instruction::Exchange { register, variable })) =
                        executed(job, state, number).filter(|_| job.version == 3)
                    {
                        let got = if into_memory {
                            &mut next.memory[variable]
                        } else {
                            &mut own(&mut next, thread).registers[register]
                        };
                        *got = half(*got);
                    }
                    next
                }),
            );
        }
        // From a buffer to memory.
        first_difference_of(
            FOR_VERSIONS,
            replaying(move |job, _, number, mut next| {
                if let (3, Some(Step::Flush { variable, .. })) =
                    (job.version, Step::from_number(number))
                {
                    next.memory[variable] = half(next.memory[variable]);
                }
                next
            }),
        );
    }
}

/// Where the values of a slot begin: those of registers, of memory and of buffers.
fn values_in_slot() -> [Vec<usize>; 3] {
    let [registers, memory] = [
        LAYOUT.registers_at()..LAYOUT.memory_at(),
        LAYOUT.memory_at()..LAYOUT.buffers_at(),
    ]
    .map(|values| values.step_by(2).collect());
    let buffers = (LAYOUT.buffers_at()..SLOT_BYTES).step_by(LAYOUT.buffer_bytes());
    let stores = buffers.flat_map(|count| {
        let first = count + 1;
        let stores = (first..first + 8 * LAYOUT.store_bytes()).step_by(LAYOUT.store_bytes());
        stores.map(|variable| variable + 1)
    });
    [registers, memory, stores.collect()]
}

#[test]
fn a_slot_with_a_wrong_byte_of_a_value() {
    for values in values_in_slot() {
        // Lost, taken for the other, both exchanged: in version 3.
        let wrong: [fn([u8; 2]) -> [u8; 2]; 4] = [
            |[_, low]| [0, low],
            |[high, _]| [high, 0],
            |[_, low]| [low, low],
            |[high, low]| [low, high],
        ];
        for wrong in wrong {
            notices_slots(&[3], |slot| {
                for &at in &values {
                    let put = wrong([slot[at], slot[at + 1]]);
                    slot[at..at + 2].copy_from_slice(&put);
                }
            });
        }
        // In the others the high byte is 0, and the low one is the value.
        let narrow: [fn([u8; 2]) -> [u8; 2]; 3] = [
            |[_, low]| [low, low],
            |[high, low]| [low, high],
            |[_, low]| [1, low],
        ];
        for wrong in narrow {
            for version in [1, 2] {
                notices_slots(&[version], |slot| {
                    for &at in &values {
                        let put = wrong([slot[at], slot[at + 1]]);
                        slot[at..at + 2].copy_from_slice(&put);
                    }
                });
            }
        }
    }
}

#[test]
fn a_search_that_errs_only_where_values_are_wide() {
    for class in version_three::OF_WIDE_SEARCHES {
        first_difference_of(FOR_VERSIONS, |call| {
            if call.kind == Kind::Search && is_wide(call.job.part()) && call.words()[0] != 0 {
                let searched = Searched {
                    answer: call.words(),
                    table: call.table.part(),
                    schedule: call.schedule.part(),
                };
                if version_three::of_search(call.job.part(), searched).contains(&class) {
                    call.answer.part_mut()[3] += 1;
                }
            }
        });
    }
}

#[test]
fn a_replay_that_errs_only_where_values_are_wide() {
    for class in version_three::OF_WIDE_REPLAYS {
        notices_replays_of(3, class);
    }
}

// ---- the search with an index ----

/// Searches with an index by the second checker at an N that is given, and spoils nothing else.
struct InSlots<F>(F);

impl<F: Fn(index::Lent) -> usize + Sync> Checker for InSlots<F> {
    fn run(&self, call: &mut Call) {
        if call.kind != Kind::Indexed {
            return Second.run(call);
        }
        let lent = call.lent();
        let slots = (self.0)(lent).min(lent.slots_without_index());
        // As many links as slots make the plain search have this N.
        let words = second::search(
            call.job.part(),
            call.table.part_mut(),
            &mut call.links.part_mut()[..slots],
            call.schedule.part_mut(),
        );
        set_answer(call, words);
    }
}

/// A spoil of searches with an index alone.
fn indexed(spoil: impl Fn(&mut Call) + Sync) -> impl Fn(&mut Call) + Sync {
    move |call| {
        if call.kind == Kind::Indexed {
            spoil(call);
        }
    }
}

#[test]
fn a_right_stand_in_for_the_index_has_no_difference() {
    let right = InSlots(|lent: index::Lent| lent.index / 2);
    assert_eq!(report(&right, 1000, 1).differences, 0);
    // What stands in the index after an answer is open.
    let writes = Spoiling(indexed(|call| {
        if !call.is_refused() {
            call.index.part_mut().fill(12_345);
        }
    }));
    assert_eq!(report(&writes, 1000, 1).differences, 0);
}

#[test]
fn an_index_that_makes_another_n() {
    let wrong: [fn(index::Lent) -> usize; 6] = [
        |lent| lent.index,
        |lent| (lent.index + 1) / 2,
        |lent| lent.slots_without_index(),
        |lent| lent.index / 4,
        |lent| (lent.index / 2).saturating_sub(1),
        // An index of length 0 taken for none.
        |lent| match lent.index {
            0 => lent.slots_without_index(),
            index => index / 2,
        },
    ];
    for slots in wrong {
        let text = first_difference_by(200, &InSlots(slots));
        assert!(text.contains("and an index of"), "{text}");
        assert!(text.contains("  answer: first difference at"), "{text}");
    }
}

/// Whose first difference is in the index, and where.
fn notices_index(at: &str, jobs: u64, spoil: impl Fn(&mut Call) + Sync) {
    let text = first_difference_of(jobs, indexed(spoil));
    let said = format!("  index: first difference at {at}");
    assert!(text.contains(&said), "'{said}' is not in\n{text}");
}

fn change(number: Option<&mut u32>) {
    if let Some(number) = number {
        *number ^= 1;
    }
}

#[test]
fn an_index_written_on_a_refusal() {
    for number in 1..=7 {
        let refused = |call: &Call| call.words()[..2] == [0, number];
        notices_index("0: library", 1000, |call| {
            if refused(call) {
                change(call.index.part_mut().first_mut());
            }
        });
        notices_index("", 1000, |call| {
            if refused(call) {
                change(call.index.part_mut().last_mut());
            }
        });
        // Cleared before the refusal is known.
        notices_index("", 1000, |call| {
            if refused(call) {
                call.index.part_mut().fill(0);
            }
        });
    }
}

#[test]
fn a_touched_guard_of_an_index() {
    for kind in 0..=3 {
        let of_kind = |call: &Call| call.words()[0] == kind;
        notices_index("-", 200, |call| {
            if of_kind(call) {
                change(call.index.whole_mut().first_mut());
            }
        });
        let text = first_difference(indexed(|call| {
            if of_kind(call) {
                change(call.index.whole_mut().last_mut());
            }
        }));
        assert!(text.contains("index: first difference at"), "{text}");
        assert!(text.contains("(outside of what was lent)"), "{text}");
        // The number next behind those lent, and the one before the first.
        for beside in [-1, 0] {
            notices_index("", 200, |call| {
                if of_kind(call) {
                    let count = call.index.count();
                    let at = if beside < 0 { -1 } else { count as isize };
                    // SAFETY: the pointer may reach the guards, which are longer than this.
                    unsafe { *call.index.pointer().offset(at) ^= 1 };
                }
            });
        }
    }
}

#[test]
fn what_is_wrong_with_an_index_alone() {
    let table = first_difference(indexed(|call| {
        let end = slots(call) * SLOT_BYTES;
        if end > 0 {
            flip(call.table.part_mut().get_mut(end - 1));
        }
    }));
    assert!(table.contains("table: first difference at"), "{table}");
    let behind = first_difference(indexed(|call| {
        let end = slots(call) * SLOT_BYTES;
        if end > 0 {
            flip(call.table.part_mut().get_mut(end));
        }
    }));
    assert!(behind.contains("table: first difference at"), "{behind}");
    let links = first_difference(indexed(|call| {
        let count = slots(call);
        if count > 1 {
            call.links.part_mut()[count - 1] ^= 64;
        }
    }));
    assert!(links.contains("links: first difference at"), "{links}");
    let schedule = first_difference(indexed(|call| {
        if let [1, distance, ..] = call.words() {
            flip(call.schedule.part_mut()[..distance as usize].last_mut());
        }
    }));
    assert!(
        schedule.contains("schedule: first difference at"),
        "{schedule}"
    );
    let unknown = first_difference(indexed(|call| {
        if let [3, states, ..] = call.words() {
            set_answer(call, [2, states, 0, 0]);
        }
    }));
    assert!(unknown.contains("library 2, second checker 3"), "{unknown}");
}

#[test]
fn no_slot_by_the_index_told_before_another_refusal() {
    for number in 1..=6 {
        let text = first_difference_of(
            1000,
            indexed(|call| {
                let [kind, refused_by, ..] = call.words();
                if [kind, refused_by] == [0, number] && call.has_no_slot() {
                    set_answer(call, [0, 7, 0, 0]);
                }
            }),
        );
        let said = format!("answer: first difference at 1: library 7, second checker {number}");
        assert!(text.contains(&said), "{text}");
    }
}

/// A search with an index in a thousand slots of which P1 takes 22, with this before in the index.
fn indexed_search_of_p1(index: usize, fill: Fill) -> Call {
    let lent = index::Lent {
        sizes: Sizes {
            table: 40 * SLOT_BYTES,
            links: 30,
            schedule: 50,
        },
        index,
    };
    Call::indexed(&mut Random::new(1), &P1, lent, fill)
}

/// The answers of a stand-in that has to be right where it is held to the second checker.
fn found_by(library: &dyn Checker, call: &Call) -> Call {
    let held = hold(library, call.clone());
    assert_eq!(held.difference, None);
    held.found
}

#[test]
fn a_search_with_an_index_is_held_to_the_plain_one() {
    // N is 0, unknown, just enough, and by the links.
    for (index, answer) in [
        (0, [0, 7, 0, 0]),
        (1, [0, 7, 0, 0]),
        (43, [3, 21, 0, 0]),
        (44, [1, 4, 22, 0]),
        (1000, [1, 4, 22, 0]),
    ] {
        let call = indexed_search_of_p1(index, Fill::Small);
        let found = found_by(&Second, &call);
        assert_eq!(found.words(), answer, "{index}");
        assert_eq!(hold_plain(&Second, &call, &found), None);
    }
    let call = indexed_search_of_p1(45, Fill::Small);
    let found = found_by(&Second, &call);
    let of_plain = |spoil: fn(&mut Call)| {
        let liar = Spoiling(move |call: &mut Call| {
            if call.kind == Kind::Search {
                spoil(call);
            }
        });
        let text = hold_plain(&liar, &call, &found);
        text.expect("this is noticed")
    };
    let answer = of_plain(|call| call.answer.part_mut()[2] += 1);
    for line in [
        "search with 6080 table bytes, 30 links, 50 schedule bytes and an index of 45",
        "  without an index 1 4 23 0",
        "  with an index 1 4 22 0",
        "answer: first difference at 2: without an index 23, with an index 22",
    ] {
        assert!(answer.contains(line), "'{line}' is not in\n{answer}");
    }
    assert!(of_plain(|call| call.table.part_mut()[0] ^= 1).contains("table: first difference at 0"));
    assert!(
        of_plain(|call| call.links.part_mut()[21] ^= 1).contains("links: first difference at 21")
    );
    assert!(of_plain(|call| call.schedule.part_mut()[4] ^= 1)
        .contains("schedule: first difference at 4"));
    // A link behind those that the plain search is lent.
    let behind = of_plain(|call| {
        let last = call.links.whole_mut().last_mut();
        change(last);
    });
    assert!(behind.contains("links: first difference at"), "{behind}");
}

#[test]
fn an_answer_that_hangs_on_what_stands_in_the_index() {
    // Such as could be taken for slots, for nothing, or for the end.
    for met in [0, 1, u32::MAX] {
        let text = first_difference_by(200, &MisledBy(met));
        assert!(text.contains("and an index of"), "{text}");
    }
    // Held to another fill alone.
    let call = indexed_search_of_p1(44, Fill::Ones);
    let found = found_by(&MisledBy(0), &call);
    let refilled = |numbers: &[u32]| hold_refilled(&MisledBy(0), &call, numbers, &found);
    assert_eq!(refilled(&[u32::MAX; 44]), None);
    assert_eq!(refilled(&[7; 44]), None);
    let text = refilled(&[0; 44]).expect("this is noticed");
    assert!(
        text.contains("answer: first difference at 2: with another index 21, with one index 22"),
        "{text}"
    );
}

/// Takes this number of the index for a state's if it is there, and so counts one too few.
struct MisledBy(u32);

impl Checker for MisledBy {
    fn run(&self, call: &mut Call) {
        let is_met = call.index.part().contains(&self.0);
        Second.run(call);
        if let ([1, ..], true) = (call.words(), is_met) {
            call.answer.part_mut()[2] -= 1;
        }
    }
}

/// Puts a number into the index, and is misled by it when it finds it there.
struct MisledByItself;

const OWN: u32 = 77_777;

impl Checker for MisledByItself {
    fn run(&self, call: &mut Call) {
        MisledBy(OWN).run(call);
        if let (false, Some(number)) = (call.is_refused(), call.index.part_mut().first_mut()) {
            *number = OWN;
        }
    }
}

#[test]
fn an_answer_that_hangs_on_what_the_search_has_left() {
    let text = first_difference_by(200, &MisledByItself);
    assert!(text.contains("  once more 1 "), "{text}");
    let call = indexed_search_of_p1(44, Fill::Any);
    let found = found_by(&MisledByItself, &call);
    assert_eq!(hold_over_left(&Second, &found), None);
    let text = hold_over_left(&MisledByItself, &found).expect("this is noticed");
    assert!(
        text.contains("answer: first difference at 2: once more 21, once 22"),
        "{text}"
    );
}

#[test]
fn an_index_written_on_a_refusal_is_noticed_when_the_call_is_made_again() {
    let call = indexed_search_of_p1(1, Fill::Any);
    let found = found_by(&Second, &call);
    assert_eq!(found.words(), [0, 7, 0, 0]);
    let writes = Spoiling(|call: &mut Call| change(call.index.part_mut().first_mut()));
    for text in [
        hold_refilled(&writes, &call, &[5], &found),
        hold_over_left(&writes, &found),
    ] {
        let text = text.expect("this is noticed");
        assert!(text.contains("  index: first difference at 0"), "{text}");
    }
    assert_eq!(hold_refilled(&Second, &call, &[5], &found), None);
}

#[test]
fn every_fill_is_what_its_name_says() {
    let mut random = Random::new(5);
    let [any, small, zeros, ones] = FILLS.map(|fill| fill.numbers(&mut random, 100));
    assert!(any.iter().any(|&number| number > 1 << 31));
    assert!(small.iter().all(|&number| number <= 100));
    let like_slots = small.iter().filter(|&&number| number < 50).count();
    assert!((30..70).contains(&like_slots), "{like_slots}");
    assert_eq!(zeros, [0; 100]);
    assert_eq!(ones, [u32::MAX; 100]);
}

#[test]
fn a_search_with_an_index_is_told_in_full() {
    let call = indexed_search_of_p1(45, Fill::Zeros);
    let liar = Spoiling(|call: &mut Call| {
        call.table.part_mut()[153] = 9;
        call.answer.part_mut()[1] = 5;
    });
    let text = hold(&liar, call).difference.expect("both spoils show");
    for line in [
        "search with 6080 table bytes, 30 links, 50 schedule bytes and an index of 45",
        "job 00 2B 01 01 01 02 02",
        "library 1 5 22 0",
        "second checker 1 4 22 0",
        "table: first difference at 153: library 9, second checker 0",
    ] {
        assert!(text.contains(line), "'{line}' is not in\n{text}");
    }
}

#[test]
fn no_class_of_an_index_is_met_by_chance_alone() {
    let tally = many();
    let met_more_than = |floor: u64, section: &'static str, classes: &[&'static str]| {
        for class in classes {
            let count = tally.counted(section, class);
            assert!(count > floor, "only {count} of {section}: {class}");
        }
    };
    let fills = FILLS.map(Fill::name);
    met_more_than(400, "index, lengths", &index::OF_LENGTHS);
    met_more_than(400, "index, N", &index::DECIDING);
    met_more_than(2000, "index, fills", &fills);
    met_more_than(2000, "index, other fills", &fills);
    met_more_than(150, "index, answers", &index::OF_ANSWERS);
    met_more_than(100, "index, kept at", &index::REFUSED_WITH_NUMBERS);
    let found = ["reachable", "unreachable", "unknown"];
    for model in ["index, SC", "index, TSO", "index, PSO"] {
        met_more_than(100, model, &found);
    }
    for version in ["index, version 1", "index, version 2", "index, version 3"] {
        met_more_than(100, version, &found);
    }
}

#[test]
fn every_search_with_an_index_is_held_to_the_others() {
    let tally = many();
    let all = tally.counted("calls", "search with an index");
    let held = |class| tally.counted("index, held to", class);
    assert_eq!(held("itself with another fill"), all);
    assert_eq!(held("itself over what it left"), all);
    // All but those in thousands of slots.
    let large = tally.counted("index, rooms", "thousands of slots");
    let plain = held("the plain search");
    assert!(plain < all && plain + large >= all, "{plain} of {all}");
}

/// Jobs enough to meet two states that differ in any one piece alone.
const FOR_PIECES: u64 = 8000;

#[test]
fn a_look_up_that_skips_a_piece() {
    for piece in 0..PIECES {
        first_difference_of(FOR_PIECES, |call| {
            if call.kind == Kind::Search {
                let counted = slots(call) * SLOT_BYTES;
                if decides_alone(&call.table.part()[..counted], piece) {
                    // Two of the states are taken for one.
                    let [kind, ..] = call.words();
                    call.answer.part_mut()[if kind == 1 { 2 } else { 1 }] -= 1;
                }
            }
        });
    }
}

#[test]
fn a_difference_is_told_in_full() {
    let sizes = Sizes {
        table: 3400,
        links: 25,
        schedule: 23,
    };
    let call = Call::search(&mut Random::new(1), &P1, sizes);
    let liar = Spoiling(|call: &mut Call| {
        call.table.part_mut()[153] = 9;
        call.answer.part_mut()[1] = 5;
    });
    let text = hold(&liar, call).difference.expect("both spoils show");
    for line in [
        "search with 3400 table bytes, 25 links, 23 schedule bytes",
        "job 00 2B 01 01 01 02 02",
        "library 1 5 22 0",
        "second checker 1 4 22 0",
        "table: first difference at 153: library 9, second checker 0",
    ] {
        assert!(text.contains(line), "'{line}' is not in\n{text}");
    }
}

#[test]
fn a_refused_job_is_answered_alike_by_all_three() {
    let job = with_byte(&P1, 10, 10);
    let mut random = Random::new(2);
    let sizes = Sizes {
        table: SLOT_BYTES,
        links: 1,
        schedule: 1,
    };
    for call in [
        Call::search(&mut random, &job, sizes),
        Call::replay(&mut random, &job, &[0, 0]),
        Call::fences(&mut random, &job),
    ] {
        assert_eq!(hold(&Second, call).expected.words(), [0, 4, 10, 0]);
    }
}

#[test]
fn a_run_over_few_jobs_names_what_it_has_not_met() {
    let few = report(&Second, 40, 2).tally.empty_classes();
    assert!(
        few.contains(&"replays: over 65,536 steps".to_string()),
        "{few:?}"
    );
}

#[test]
fn a_run_without_blank_goals_is_said_to_lack_them() {
    // The first eleven are P1 to P11.
    let lacking = report(&Second, 11, 1).tally.empty_classes();
    let blank: Vec<&str> = lacking
        .iter()
        .filter_map(|class| class.strip_prefix("blank goals: "))
        .collect();
    assert_eq!(
        blank,
        [
            "any buffers",
            "empty buffers",
            "bytes behind",
            "behind a bad flag",
            "cut before K",
            "searches",
            "searches without a slot",
            "replays",
            "fence checks",
        ]
    );
}

#[test]
fn a_run_without_long_threads_is_said_to_lack_them() {
    // The first eleven are P1 to P11.
    let lacking = report(&Second, 11, 1).tally.empty_classes();
    let classes = |section: &str, classes: &[&str]| -> Vec<String> {
        let named = classes.iter().map(|class| format!("{section}: {class}"));
        named.collect()
    };
    for class in [
        classes("long threads", &long_threads::OF_JOBS),
        classes("long threads, checks", &long_threads::OF_FENCE_CHECKS),
        classes("long threads, runs", &[HIGH_GOAL, HIGH_END]),
    ]
    .concat()
    {
        assert!(lacking.contains(&class), "{class} not in {lacking:?}");
    }
}

#[test]
fn a_run_without_dead_code_is_said_to_lack_it() {
    // The first eleven are P1 to P11, of which four are open by a store at place 0.
    let tally = report(&Second, 11, 1).tally;
    assert_eq!(
        tally.counted("dead code, checks", dead_code::BY_THE_START),
        4
    );
    let lacking = tally.empty_classes();
    for class in dead_code::OF_JOBS {
        let named = format!("dead code: {class}");
        assert!(lacking.contains(&named), "{named} not in {lacking:?}");
    }
    for class in dead_code::OF_FENCE_CHECKS {
        let named = format!("dead code, checks: {class}");
        let met = class == dead_code::BY_THE_START;
        assert_eq!(lacking.contains(&named), !met, "{named} in {lacking:?}");
    }
}

/// The sections that count stuck replays of a model: by reason, and where another reason could be taken for the right one.
fn stuck_sections(model: Model) -> [&'static str; 2] {
    match model {
        Model::Sc => ["stuck under SC by", "stuck under SC"],
        Model::Tso => ["stuck under TSO by", "stuck under TSO"],
        Model::Pso => ["stuck under PSO by", "stuck under PSO"],
    }
}

const NUMBERS: [&str; PIECES] = [
    "0", "1", "2", "3", "4", "5", "6", "7", "8", "9", "10", "11", "12", "13", "14", "15", "16",
    "17", "18",
];

#[test]
fn a_run_without_buffers_is_said_to_lack_the_reasons_of_buffers() {
    // P5 alone, which is under SC: the fifth.
    let lacking = report_from(&Second, 4, 1, 1).tally.empty_classes();
    for model in [Model::Tso, Model::Pso] {
        let [by, beside] = stuck_sections(model);
        let by_reason = reasons_under(model).iter();
        let mut named: Vec<String> = by_reason.map(|reason| format!("{by}: {reason}")).collect();
        let beside = |class: &str| format!("{beside}: {class}");
        named.extend(neighbours_under(model).iter().map(|class| beside(class)));
        for class in named {
            assert!(lacking.contains(&class), "{class} not in {lacking:?}");
        }
    }
    for capacity in 1..=8 {
        let class = format!("buffer full at C: {capacity}");
        assert!(lacking.contains(&class), "{class} not in {lacking:?}");
    }
}

/// The classes in which another reason could be taken for the right one under a model.
fn neighbours_under(model: Model) -> Vec<&'static str> {
    let of_buffers = [
        reasons::ENDED_AT_FULL,
        reasons::BARRIER_AT_FULL,
        reasons::FLUSH_OF_WAITING,
        reasons::FLUSH_BESIDE,
    ];
    let all = reasons::NEIGHBOURS.into_iter();
    all.filter(|class| match model {
        // One step turns a reason into another only where a store comes to stand behind one to another variable.
        Model::Sc => !of_buffers.contains(class) && *class != reasons::OTHER_STATE_BEFORE,
        Model::Tso | Model::Pso => true,
    })
    .collect()
}

#[test]
fn every_stuck_replay_is_counted_by_its_reason() {
    let tally = many();
    let mut all = 0;
    for model in MODELS {
        let [by, beside] = stuck_sections(model);
        for (reason, number) in (0..).zip(NUMBERS) {
            let count = tally.counted(by, number);
            all += count;
            // Each that can come up does so often, and the others never.
            if reasons_under(model).contains(&reason) {
                assert!(count > 60, "only {count} of {by} {reason}");
            } else {
                assert_eq!(count, 0, "{by} {reason}");
            }
        }
        for class in reasons::NEIGHBOURS {
            let count = tally.counted(beside, class);
            if neighbours_under(model).contains(&class) {
                assert!(count > 12, "only {count} of {beside} {class}");
            } else {
                assert_eq!(count, 0, "{beside} {class}");
            }
        }
    }
    assert_eq!(all, tally.counted("replays", "stuck"));
    let full = [Model::Tso, Model::Pso].map(|model| tally.counted(stuck_sections(model)[0], "3"));
    let by_capacity = NUMBERS.map(|capacity| tally.counted("buffer full at C", capacity));
    assert_eq!(by_capacity.iter().sum::<u64>(), full.iter().sum());
}

#[test]
fn a_good_share_of_the_jobs_has_dead_code() {
    let tally = many();
    assert!(tally.counted("dead code", dead_code::DEAD_STORE) > 1200);
    for class in [dead_code::ALARM_GONE, dead_code::LATER_PAIR] {
        let moved = tally.counted("dead code, checks", class);
        assert!(moved > 160, "only {moved} of {class}");
    }
}

#[test]
fn the_longest_of_the_listed_jobs_is_counted_once() {
    // Behind P1 to P12 and four refused ones.
    let listed = report(&Second, 18, 1).tally;
    for (class, count) in [(LONG_THREAD, 1), (FULL_SIZE, 1), (ONE_TOO_MANY, 0)] {
        assert_eq!(listed.counted("long threads", class), count, "{class}");
    }
}

#[test]
fn every_call_of_a_blank_goal_is_counted_once() {
    // P12 with either flag, the twelfth and the thirteenth.
    let two = report(&Second, 13, 1).tally;
    let counted = |class| two.counted("blank goals", class);
    assert_eq!((counted("any buffers"), counted("empty buffers")), (1, 1));
    assert_eq!(counted("bytes behind"), 0);
    assert!(counted("searches") >= 2);
    assert_eq!((counted("replays"), counted("fence checks")), (2, 2));
}

#[test]
fn a_run_without_version_2_is_said_to_lack_it() {
    // The first eleven are P1 to P11.
    let lacking = report(&Second, 11, 1).tally.empty_classes();
    let classes = |section: &str, classes: &[&str]| -> Vec<String> {
        let named = classes.iter().map(|class| format!("{section}: {class}"));
        named.collect()
    };
    let (under, others): (Vec<&str>, Vec<&str>) = version_two::of_jobs()
        .into_iter()
        .partition(|class| version_two::WITH_MEMORY.contains(class));
    for class in [
        classes("versions", &["2"]),
        classes("version 2 under", &under),
        classes("version 2", &others),
        classes("version 2, searches", &version_two::OF_SEARCHES),
        classes("version 2, slots", &groups::OF_SLOTS),
        classes("version 2, replays", &version_two::OF_REPLAYS),
        classes("version 2, checks", &version_two::OF_FENCE_CHECKS),
        classes(
            "searches, version 2",
            &["reachable", "unreachable", "unknown"],
        ),
    ]
    .concat()
    {
        assert!(lacking.contains(&class), "{class} not in {lacking:?}");
    }
}

const WIDE_REFUSALS: [&str; 9] = [
    version_three::TOO_LONG,
    version_three::TOO_LONG_BEFORE,
    version_three::TOO_LONG_OTHERWISE,
    version_three::HALF_A_VALUE,
    version_three::HALF_A_K,
    version_three::HIGH_NOT_0,
    version_three::LOW_NOT_0,
    version_three::HIGH_PLACE,
    version_three::LOW_PLACE,
];

#[test]
fn a_run_without_version_3_is_said_to_lack_it() {
    // The first eleven are P1 to P11.
    let lacking = report(&Second, 11, 1).tally.empty_classes();
    let classes = |section: &str, classes: &[&str]| -> Vec<String> {
        let named = classes.iter().map(|class| format!("{section}: {class}"));
        named.collect()
    };
    let with_operations = [&version_two::WITH_CMPX[..], &version_two::WITH_WFENCE].concat();
    for class in [
        classes("versions", &["3"]),
        classes("bytes", &lengths::OF_FILES),
        classes("version 3 under", &version_two::WITH_MEMORY),
        classes("version 3", &with_operations),
        classes(
            "version 3",
            &[version_two::NEITHER, version_two::BAD_OPERAND],
        ),
        classes("version 3, searches", &version_two::OF_SEARCHES),
        classes("version 3, slots", &groups::OF_SLOTS),
        classes("version 3, replays", &version_two::OF_REPLAYS),
        classes("version 3, checks", &version_two::OF_FENCE_CHECKS),
        classes("wide values", &[&WIDE_K[..], &WIDE_CLAUSE].concat()),
        classes("wide values", &[version_three::WIDE_INITIAL]),
        classes("wide values", &[version_three::AT_MOST]),
        classes("wide values", &[version_three::LONG_FILE]),
        classes("wide values, refused", &WIDE_REFUSALS),
        classes("wide values, slots", &version_three::OF_WIDE_SEARCHES),
        classes("wide values, replays", &version_three::OF_WIDE_REPLAYS),
        classes("narrow values", &sums::OVER_255[1..]),
        classes(
            "searches, version 3",
            &["reachable", "unreachable", "unknown"],
        ),
    ]
    .concat()
    {
        assert!(lacking.contains(&class), "{class} not in {lacking:?}");
    }
}

#[test]
fn every_class_of_version_3_is_one_of_the_summary() {
    let lacking = Tally::default().empty_classes();
    let named = |class: &str| {
        lacking
            .iter()
            .any(|name| name.ends_with(&format!(": {class}")))
    };
    for class in [
        version_three::of_jobs(),
        version_three::of_replays(),
        version_three::of_searches(),
        version_three::OF_FENCE_CHECKS.to_vec(),
    ]
    .concat()
    {
        assert!(named(class), "{class}");
    }
}

#[test]
fn a_third_of_the_jobs_is_of_each_version() {
    let tally = many();
    for version in ["1", "2", "3"] {
        let count = tally.counted("versions", version);
        assert!(count > 1500, "only {count} of version {version}");
    }
    let alike: u64 = ["refused", "reachable", "reaches", "stuck", "FENCED", "OPEN"]
        .iter()
        .map(|class| tally.counted("in both versions", class))
        .sum();
    assert!(alike > 4000, "only {alike} calls in both versions");
}

#[test]
fn no_class_of_a_version_is_met_by_chance_alone() {
    let tally = many();
    let met_more_than = |floor: u64, section: &'static str, classes: &[&'static str]| {
        for class in classes {
            let count = tally.counted(section, class);
            assert!(count > floor, "only {count} of {section}: {class}");
        }
    };
    met_more_than(30, "version 2 under", &version_two::WITH_MEMORY);
    met_more_than(30, "version 3 under", &version_two::WITH_MEMORY);
    met_more_than(4, "version 2, replays", &version_two::OF_REPLAYS);
    met_more_than(4, "version 3, replays", &version_two::OF_REPLAYS);
    met_more_than(20, "wide values", &[&WIDE_K[..], &WIDE_CLAUSE].concat());
    met_more_than(4, "wide values, refused", &WIDE_REFUSALS);
    met_more_than(100, "wide values, slots", &version_three::OF_WIDE_SEARCHES);
    met_more_than(20, "wide values, replays", &version_three::OF_WIDE_REPLAYS);
    met_more_than(100, "narrow values", &sums::OVER_255);
    met_more_than(4, "one piece apart", &NUMBERS);
}

#[test]
fn a_run_over_many_jobs_meets_every_class() {
    // Only the job that is left out here has so much room.
    assert_eq!(
        many().empty_classes(),
        [
            "rooms: over 65,536 slots",
            "index, rooms: over 65,536 slots"
        ]
    );
}

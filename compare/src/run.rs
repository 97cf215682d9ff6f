//! A whole run over many jobs, on all cores.

use crate::call::Checker;
use crate::one_job::{compare_job, Difference};
use crate::tally::Tally;
use std::sync::atomic::{AtomicU64, Ordering};
use std::sync::Mutex;
use std::thread;

/// Jobs that a thread takes at once.
const BLOCK: u64 = 16;

/// More differences than this are counted and not kept.
const KEPT_DIFFERENCES: usize = 20;

const USUAL_JOBS: u64 = 20_000;
const USUAL_SEED: u64 = 1;

/// A run of so many jobs from job 0 on has to meet every class of its summary.
const JOBS_FOR_ALL_CLASSES: u64 = 20_000;

#[derive(Clone, Copy, Debug)]
pub struct Plan {
    /// The number of the first job; a job's number and the seed are all that it depends on.
    pub first: u64,
    pub jobs: u64,
    pub seed: u64,
    pub threads: usize,
}

/// What a person may give a program that makes a run, after its name.
pub const OPTIONS: &str = "[--jobs N] [--seed S] [--first J]
  --jobs N   how many jobs to compare on (20000 if not given)
  --seed S   a number below 2^64; the same seed gives the same jobs (1 if not given)
  --first J  the number of the first job, to see one again (0 if not given)";

impl Plan {
    /// By `OPTIONS`, or what is wrong with them.
    pub fn from_options(options: &[String]) -> Result<Plan, String> {
        let mut plan = Plan {
            first: 0,
            jobs: USUAL_JOBS,
            seed: USUAL_SEED,
            threads: thread::available_parallelism().map_or(1, usize::from),
        };
        let mut rest = options.iter();
        while let Some(option) = rest.next() {
            let place = match option.as_str() {
                "--jobs" => &mut plan.jobs,
                "--seed" => &mut plan.seed,
                "--first" => &mut plan.first,
                other => return Err(format!("'{other}' is no option")),
            };
            let value = rest
                .next()
                .ok_or(format!("{option} needs a number after it"))?;
            *place = value
                .parse()
                .map_err(|_| format!("'{value}' after {option} is no number below 2^64"))?;
        }
        if plan.jobs == 0 {
            return Err("a comparison on no job shows nothing; give --jobs 1 or more".to_string());
        }
        Ok(plan)
    }

    /// Whether the run has to meet every class.
    pub fn is_whole(&self) -> bool {
        self.first == 0 && self.jobs >= JOBS_FOR_ALL_CLASSES
    }
}

/// What a run was made of.
pub trait Counts: Default + Send {
    fn add(&mut self, other: &Self);

    /// Classes of the summary that the run never met.
    fn empty_classes(&self) -> Vec<String>;

    /// Its lines.
    fn summary(&self) -> String;
}

/// The same for every number of threads.
#[derive(Clone, Debug, Default, PartialEq, Eq)]
pub struct Report<T = Tally> {
    pub tally: T,
    pub differences: u64,
    /// Those of the lowest job numbers.
    pub kept: Vec<Difference>,
}

impl<T: Counts> Report<T> {
    fn add(&mut self, other: Report<T>) {
        self.tally.add(&other.tally);
        self.differences += other.differences;
        self.kept.extend(other.kept);
        // A stable order: those of one job stay as they were met.
        self.kept.sort_by_key(|difference| difference.job);
        self.kept.truncate(KEPT_DIFFERENCES);
    }
}

/// Compares so many jobs from the first on; after each block `progress` is told how many jobs and differences there were.
pub fn run(library: &dyn Checker, plan: Plan, progress: Progress) -> Report {
    let compare = |number: u64, tally: &mut Tally| compare_job(library, plan.seed, number, tally);
    run_each(&compare, plan, progress)
}

pub type Progress<'a> = &'a (dyn Fn(u64, u64) + Sync);

/// Finds what differs in the job of this number, and counts what it was made of.
pub type OneJob<'a, T> = &'a (dyn Fn(u64, &mut T) -> Vec<Difference> + Sync);

/// The same for anything that can be done with one job.
pub fn run_each<T: Counts>(one_job: OneJob<T>, plan: Plan, progress: Progress) -> Report<T> {
    let next = AtomicU64::new(0);
    let done = AtomicU64::new(0);
    let total = Mutex::new(Report::default());
    let worker = || loop {
        let begin = next.fetch_add(BLOCK, Ordering::Relaxed);
        if begin >= plan.jobs {
            return;
        }
        let end = plan.jobs.min(begin + BLOCK);
        let numbers = (begin..end).map(|place| plan.first.wrapping_add(place));
        let report = run_block(one_job, numbers);
        // A thread that panicked has ended the run, so what it left behind doesn't matter.
        let mut total = total
            .lock()
            .unwrap_or_else(|poisoned| poisoned.into_inner());
        total.add(report);
        let jobs = done.fetch_add(end - begin, Ordering::Relaxed) + end - begin;
        progress(jobs, total.differences);
    };
    thread::scope(|scope| {
        for _ in 0..plan.threads.max(1) {
            scope.spawn(worker);
        }
    });
    total
        .into_inner()
        .unwrap_or_else(|poisoned| poisoned.into_inner())
}

fn run_block<T: Counts>(one_job: OneJob<T>, numbers: impl Iterator<Item = u64>) -> Report<T> {
    let mut report = Report::default();
    for number in numbers {
        let differences = one_job(number, &mut report.tally);
        report.differences += differences.len() as u64;
        report.kept.extend(differences);
        report.kept.truncate(KEPT_DIFFERENCES);
    }
    report
}

//! A program that makes a run: its options, its progress and what it prints in the end.

use crate::one_job::Difference;
use crate::run::{Counts, Plan, Progress, Report, OPTIONS};
use std::io::{self, Write};
use std::process::ExitCode;
use std::sync::Mutex;
use std::time::{Duration, Instant};

/// Makes the run that the program's options ask for. The exit status is 1 if something differs, or if a whole run has not met a class.
pub fn main<T: Counts>(name: &str, run: &dyn Fn(Plan, Progress) -> Report<T>) -> ExitCode {
    let options: Vec<String> = std::env::args().skip(1).collect();
    match Plan::from_options(&options) {
        Ok(plan) => told(name, plan, run),
        Err(message) => {
            eprintln!("{name}: {message}\nuse: {name} {OPTIONS}");
            ExitCode::from(2)
        }
    }
}

fn told<T: Counts>(name: &str, plan: Plan, run: &dyn Fn(Plan, Progress) -> Report<T>) -> ExitCode {
    let begin = Instant::now();
    let shown = Mutex::new(begin);
    let on_terminal = errors_on_terminal();
    let progress = |jobs: u64, differences: u64| {
        if on_terminal {
            show_progress(&shown, plan.jobs, jobs, differences);
        }
    };
    let report = run(plan, &progress);
    if on_terminal {
        eprint!("\r\x1b[K");
    }
    for difference in &report.kept {
        let Difference { job, text } = difference;
        let again = format!("{name} --seed {} --first {job} --jobs 1", plan.seed);
        print!("DIFFERENCE in job {job}, to be seen again by: {again}\n{text}");
    }
    let left = report.differences - report.kept.len() as u64;
    if left > 0 {
        println!("and {left} differences more");
    }
    println!(
        "{} jobs from {} on, seed {}",
        plan.jobs, plan.first, plan.seed
    );
    print!("{}", report.tally.summary());
    println!("{:.1} seconds", begin.elapsed().as_secs_f64());
    let empty = report.tally.empty_classes();
    let too_plain = plan.is_whole() && !empty.is_empty();
    if too_plain {
        println!(
            "NEVER MET: {}; the jobs or schedules of this run are too much of one kind, see jobs.rs and schedules.rs in compare/src",
            empty.join("; ")
        );
    }
    println!("{} differences", report.differences);
    if report.differences > 0 || too_plain {
        ExitCode::FAILURE
    } else {
        ExitCode::SUCCESS
    }
}

// Of the C library that std links; std itself has the question since Rust 1.70.
extern "C" {
    fn isatty(file: i32) -> i32;
}

fn errors_on_terminal() -> bool {
    // SAFETY: it takes any number, and only looks what is open there.
    unsafe { isatty(2) != 0 }
}

/// What is being done, in one line that the next takes the place of: a sign of life where a person looks.
pub fn say(what: &str) {
    if errors_on_terminal() {
        eprint!("\r\x1b[K{what}");
        // A terminal that can't be written to only loses its line.
        let _ = io::stderr().flush();
    }
}

/// At most twice a second, and always in the same line.
fn show_progress(shown: &Mutex<Instant>, all: u64, jobs: u64, differences: u64) {
    let mut last = match shown.lock() {
        Ok(last) => last,
        _ => return,
    };
    if last.elapsed() > Duration::from_millis(500) {
        *last = Instant::now();
        eprint!("\r{jobs} of {all} jobs, {differences} differences");
        // A terminal that can't be written to only loses its progress line.
        let _ = io::stderr().flush();
    }
}

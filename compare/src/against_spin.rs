//! The library's search with an index beside SPIN's breadth-first search of the same job: which jobs, and both measured and compared.

use crate::library;
use crate::ring::{never_met, ring_with_end};
use crate::timing::{timed, Memories};
use crate::work::work;
use second::job::Model;
use second::listed::{Memory, PSO, SC, TSO};
use second::random::{sound_job_of, Random};
use second::{decode, Job};
use std::path::{Path, PathBuf};
use std::process::Command;
use std::time::{Duration, Instant};
use std::{fs, io};

/// The most that a search takes, so that nothing is left out of a job that ends.
pub const MOST_SLOTS: usize = 65_536;

/// Neither deadlocks nor unreached code are asked for.
const PAN_OPTIONS: [&str; 2] = ["-E", "-n"];

/// As many chains as the library has with so many slots, and twice as many; what is faster differs from row to row.
const PAN_CHAINS: [&str; 2] = ["-w16", "-w17"];

/// A program that SPIN has made, with its chains.
pub struct Way {
    program: PathBuf,
    /// The number of the program.
    number: usize,
    chains: &'static str,
}

impl Way {
    /// NAME.pan1, NAME.pan2 and so on, the same model compiled with other options, each with both numbers of chains.
    pub fn all(folder: &Path, name: &str, programs: usize) -> Vec<Way> {
        let ways = (1..=programs).flat_map(|number| {
            let program = folder.join(name).with_extension(format!("pan{number}"));
            PAN_CHAINS.map(|chains| Way {
                program: program.clone(),
                number,
                chains,
            })
        });
        ways.collect()
    }

    /// As the table shows it.
    pub fn shown(&self) -> String {
        format!("{} {}", self.number, self.chains)
    }
}

/// A job file by its name.
pub struct Named {
    pub name: String,
    pub job: Vec<u8>,
}

// ---- the rows of the table ----

/// Rings that end, by the rounds of each thread, and of nearly as many states as a search takes.
const RINGS: [(Memory, &[u8]); 11] = [
    (SC, &[2, 2]),
    (SC, &[2, 1, 1, 1]),
    (SC, &[4, 3, 3]),
    (SC, &[24, 23]),
    ([TSO, 2], &[2, 2]),
    ([TSO, 2], &[2, 1, 1]),
    ([TSO, 2], &[7, 6]),
    ([PSO, 2], &[2, 2]),
    ([PSO, 2], &[4, 4]),
    ([PSO, 2], &[1, 1, 1]),
    ([PSO, 3], &[3, 3]),
];

/// Of the folder jobs, all of them unreachable.
const CLASSICS: [&str; 7] = [
    "dekker-fenced-tso",
    "peterson-fenced-tso",
    "szymanski-fenced-tso",
    "lamport-fenced-sc",
    "lamport-fenced-tso",
    "sequencer-fenced-tso",
    "cmpx-lock-wfence-pso",
];

/// The jobs of the table; `jobs` is the folder of the classics.
pub fn rows(jobs: &Path) -> io::Result<Vec<Named>> {
    let mut rows = Vec::new();
    for name in CLASSICS {
        rows.push(Named {
            name: name.to_string(),
            job: fs::read(jobs.join(name).with_extension("job"))?,
        });
    }
    for (memory, rounds) in RINGS {
        let model = ["sc", "tso", "pso"][usize::from(memory[0])];
        let each: Vec<String> = rounds.iter().map(u8::to_string).collect();
        rows.push(Named {
            name: format!("ring-{}-{model}", each.join("-")),
            job: ring_with_end(memory, rounds),
        });
    }
    Ok(rows)
}

// ---- jobs to check the translation on ----

/// Of each version under each model.
const RANDOM_EACH: usize = 5;
/// Fewer would show little.
const LEAST_STATES: u64 = 20;

/// The accepted jobs of the folder and random ones, all with a goal that is never met, so that all of their states are counted;
/// and how many were left out because they have more states than a search takes.
pub fn checks(jobs: &Path) -> io::Result<(Vec<Named>, usize)> {
    let mut files: Vec<PathBuf> = fs::read_dir(jobs)?
        .map(|entry| entry.map(|entry| entry.path()))
        .collect::<io::Result<_>>()?;
    files.retain(|file| file.extension().map_or(false, |kind| kind == "job"));
    files.sort();
    let mut checks = Vec::new();
    let mut too_large = 0;
    for file in files {
        let job = fs::read(&file)?;
        if decode(&job).is_ok() {
            let job = never_met(&job);
            match states_of(&job) {
                Ok(_) => checks.push(Named {
                    name: file
                        .file_stem()
                        .unwrap_or_default()
                        .to_string_lossy()
                        .into(),
                    job,
                }),
                Err(_) => too_large += 1,
            }
        }
    }
    let mut random = Random::new(6);
    for version in 1..=3 {
        for (model, name) in [(Model::Sc, "sc"), (Model::Tso, "tso"), (Model::Pso, "pso")] {
            for number in 0..RANDOM_EACH {
                checks.push(Named {
                    name: format!("random-{version}-{name}-{number}"),
                    job: random_that_ends(&mut random, version, model),
                });
            }
        }
    }
    Ok((checks, too_large))
}

fn random_that_ends(random: &mut Random, version: u8, model: Model) -> Vec<u8> {
    loop {
        let job = never_met(&sound_job_of(random, version));
        let is_of_model = decode(&job).map_or(false, |decoded| decoded.model == model);
        if is_of_model && states_of(&job).map_or(false, |states| states >= LEAST_STATES) {
            return job;
        }
    }
}

// ---- the library ----

/// All states of a job that ends and whose goal is never met.
pub fn states_of(job: &[u8]) -> Result<u64, String> {
    searched(job, &mut Memories::new(MOST_SLOTS))
}

fn searched(job: &[u8], lent: &mut Memories) -> Result<u64, String> {
    let answer = library::search_indexed(
        job,
        &mut lent.table,
        &mut lent.links,
        &mut lent.schedule,
        &mut lent.index,
    );
    match answer {
        [2, states, _, _] => Ok(states),
        _ => Err(format!(
            "the search answered {answer:?}, and only an unreachable goal has all states counted"
        )),
    }
}

// ---- SPIN ----

/// What a run of pan tells.
#[derive(Clone, Debug, PartialEq)]
pub struct Pan {
    /// Of the whole process.
    pub time: Duration,
    pub states: u64,
    pub transitions: u64,
    /// As it says itself, in seconds.
    pub elapsed: String,
}

/// One run, which has to be a whole breadth-first search without an error.
pub fn run_pan(way: &Way) -> Result<Pan, String> {
    let mut command = Command::new(&way.program);
    command.arg(way.chains).args(PAN_OPTIONS);
    let begin = Instant::now();
    let output = command.output();
    let time = begin.elapsed();
    let program = way.program.display();
    let output = output.map_err(|error| format!("{program}: {error}"))?;
    let text = String::from_utf8_lossy(&output.stdout);
    told(&text, time).ok_or_else(|| {
        format!("{program}: not the report of a whole breadth-first search:\n{text}")
    })
}

fn told(text: &str, time: Duration) -> Option<Pan> {
    let number_before = |words: &str| -> Option<u64> {
        let line = text.lines().find(|line| line.contains(words))?;
        line.split_whitespace().next()?.parse().ok()
    };
    let elapsed = text.lines().find_map(|line| {
        let rest = line.strip_prefix("pan: elapsed time ")?;
        rest.split_whitespace().next()
    })?;
    let is_whole = text.contains("Breadth-First Search")
        && text.contains("errors: 0")
        && !text.contains("not completed");
    is_whole.then_some(Pan {
        time,
        states: number_before(" states, stored")?,
        transitions: number_before(" transitions (= stored+matched)")?,
        elapsed: elapsed.to_string(),
    })
}

// ---- both ----

const LEAST_RUNS: usize = 20;
const LEAST_TIME: Duration = Duration::from_millis(1500);

/// A row: the states of both, and the best times in seconds.
pub struct Row {
    pub states: u64,
    pub ours: f64,
    /// For each way, in their order.
    pub pans: Vec<Pan>,
}

/// Both by turns; that one counts other states than the other is an error.
pub fn measured(job: &[u8], ways: &[Way]) -> Result<Row, String> {
    let mut lent = Memories::new(MOST_SLOTS);
    let mut ours = Duration::MAX;
    let mut best: Vec<Option<Pan>> = vec![None; ways.len()];
    let mut states = 0;
    let begin = Instant::now();
    let mut runs = 0;
    while runs < LEAST_RUNS || begin.elapsed() < LEAST_TIME {
        let (answer, time) = timed(runs, || searched(job, &mut lent));
        ours = ours.min(time);
        states = answer?;
        for (best, way) in best.iter_mut().zip(ways) {
            let run = run_pan(way)?;
            if run.states != states {
                return Err(differ(&run, states));
            }
            if best.as_ref().map_or(true, |best| run.time < best.time) {
                *best = Some(run);
            }
        }
        runs += 1;
    }
    Ok(Row {
        states,
        ours: ours.as_secs_f64(),
        pans: best.into_iter().flatten().collect(),
    })
}

fn differ(pan: &Pan, states: u64) -> String {
    format!(
        "SPIN stored {} states and the search counted {states}; look at what compare/src/promela.rs makes of the job",
        pan.states
    )
}

/// The best time with a model of one state, which is what starting pan takes.
pub fn start_of(way: &Way) -> Result<f64, String> {
    let mut best = Duration::MAX;
    for _ in 0..2 * LEAST_RUNS {
        best = best.min(run_pan(way)?.time);
    }
    Ok(best.as_secs_f64())
}

/// Whether both count the same states, and pan takes one transition for each step: its sum has the start beside them.
pub fn checked(job: &[u8], way: &Way) -> Result<u64, String> {
    let states = states_of(job)?;
    let decoded = decoded(job)?;
    let run = run_pan(way)?;
    if run.states != states {
        return Err(differ(&run, states));
    }
    let steps = work(&decoded, MOST_SLOTS).steps;
    if run.transitions != steps + 1 {
        return Err(format!(
            "SPIN took {} transitions, and the job has {steps} steps",
            run.transitions - 1
        ));
    }
    Ok(states)
}

pub fn decoded(job: &[u8]) -> Result<Job, String> {
    decode(job).map_err(|refusal| {
        let second::Refusal { number, offset } = refusal;
        format!("the job is refused: {number} at {offset}")
    })
}

#[cfg(test)]
mod tests {
    use super::*;

    const REPORT: &str = "\
(Spin Version 6.5.2 -- 6 December 2019)
\t+ Breadth-First Search

State-vector 52 byte, depth reached 20, errors: 0
      133 states, stored
\t     133 nominal states (stored-atomic)
      140 states, matched
      273 transitions (= stored+matched)

pan: elapsed time 0.01 seconds
";

    #[test]
    fn a_report_is_read() {
        let expected = Pan {
            time: Duration::from_millis(3),
            states: 133,
            transitions: 273,
            elapsed: "0.01".to_string(),
        };
        assert_eq!(told(REPORT, Duration::from_millis(3)), Some(expected));
    }

    #[test]
    fn every_program_runs_with_both_numbers_of_chains() {
        let ways = Way::all(Path::new("made"), "ring-2-2-sc", 2);
        let shown: Vec<String> = ways.iter().map(Way::shown).collect();
        assert_eq!(shown, ["1 -w16", "1 -w17", "2 -w16", "2 -w17"]);
        assert_eq!(ways[3].program, Path::new("made/ring-2-2-sc.pan2"));
    }

    #[test]
    fn a_report_of_less_is_none() {
        for (words, others) in [
            ("Breadth-First Search", "Depth-First Search"),
            ("errors: 0", "errors: 1"),
            ("states, stored", "states"),
            ("+ Breadth", "Warning: Search not completed\n+ Breadth"),
        ] {
            let report = REPORT.replace(words, others);
            assert_eq!(told(&report, Duration::ZERO), None, "{others}");
        }
    }
}

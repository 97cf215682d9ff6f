//! The speed tables: the proved searches, the second checker's and a Rust twin of the indexed one, on the same jobs in one run;
//! with the feature `before` the plain search of an earlier commit too.

use compare::chains::comparisons_each;
use compare::picture::{picture, Line, Panel};
use compare::program::say;
use compare::ring::{ending, ring, GROWTH_SLOTS, INDEXED_SLOTS, MODELS, SLOTS, THREADS};
use compare::timing::{best_times, Memories, Side, LEAST_RUNS};
use compare::work::{work, Work};
use compare::{library, twin};
use second::decode;
use std::fs::{self, OpenOptions};
use std::io;
use std::path::{Path, PathBuf};
use std::process::ExitCode;

const USAGE: &str = "use: speed [--only plain|indexed|growth] [--picture FILE] (all three tables take about three minutes)";

/// More than the job for a step's cost has states, so that its search ends with every step tried.
const SLOTS_FOR_STEPS: usize = 64;

// ---- the sides ----

const WITH_BEFORE: bool = cfg!(feature = "before");

/// The proved searches whose steps and look-ups are told apart.
#[cfg(not(feature = "before"))]
const PLAIN_SIDES: [Side; 1] = [LIBRARY];
#[cfg(feature = "before")]
const PLAIN_SIDES: [Side; 2] = [
    LIBRARY,
    Side {
        name: "before",
        search: |job, lent| {
            library::search_before(job, &mut lent.table, &mut lent.links, &mut lent.schedule)
        },
    },
];

const LIBRARY: Side = Side {
    name: "library",
    search: |job, lent| library::search(job, &mut lent.table, &mut lent.links, &mut lent.schedule),
};

const INDEXED: Side = Side {
    name: "indexed",
    search: |job, lent| {
        library::search_indexed(
            job,
            &mut lent.table,
            &mut lent.links,
            &mut lent.schedule,
            &mut lent.index,
        )
    },
};

const SECOND: Side = Side {
    name: "second",
    search: |job, lent| second::search(job, &mut lent.table, &mut lent.links, &mut lent.schedule),
};

const TWIN: Side = Side {
    name: "twin",
    search: |job, lent| {
        twin::search_indexed(
            job,
            &mut lent.table,
            &mut lent.links,
            &mut lent.schedule,
            &mut lent.index,
        )
    },
};

// ---- the program ----

#[derive(Clone, Copy, PartialEq, Eq)]
enum Table {
    Plain,
    Indexed,
    Growth,
}

#[derive(Default)]
struct Options {
    /// All of them without.
    only: Option<Table>,
    picture: Option<PathBuf>,
}

impl Options {
    fn of(arguments: &[String]) -> Result<Options, String> {
        let mut options = Options::default();
        let mut left = arguments.iter();
        while let Some(argument) = left.next() {
            match argument.as_str() {
                "--only" => {
                    options.only = Some(match left.next().map(String::as_str) {
                        Some("plain") => Table::Plain,
                        Some("indexed") => Table::Indexed,
                        Some("growth") => Table::Growth,
                        Some(other) => return Err(format!("'{other}' is none of the tables")),
                        None => return Err("--only takes the name of a table".to_string()),
                    });
                }
                "--picture" => {
                    let file = left.next().ok_or("--picture takes the name of a file")?;
                    options.picture = Some(PathBuf::from(file));
                }
                other => return Err(format!("'{other}' is not understood")),
            }
        }
        if options.picture.is_some() && !options.asks_for(Table::Growth) {
            return Err(
                "--picture draws the growth table: leave --only out, or say --only growth"
                    .to_string(),
            );
        }
        Ok(options)
    }

    fn asks_for(&self, table: Table) -> bool {
        self.only.map_or(true, |only| only == table)
    }
}

fn main() -> ExitCode {
    let arguments: Vec<String> = std::env::args().skip(1).collect();
    let options = match Options::of(&arguments) {
        Ok(options) => options,
        Err(message) => {
            eprintln!("speed: {message}; {USAGE}");
            return ExitCode::from(2);
        }
    };
    match tables(&options) {
        Ok(()) => ExitCode::SUCCESS,
        Err(message) => {
            say("");
            eprintln!("speed: {message}");
            ExitCode::FAILURE
        }
    }
}

fn tables(options: &Options) -> Result<(), String> {
    if let Some(file) = &options.picture {
        may_be_written(file)?;
    }
    println!("One search each, seconds, best of at least {LEAST_RUNS} runs, the sides by turns in the same memory.");
    println!("Jobs: {THREADS} threads in a ring that never ends, so every slot is filled (states = slots) and the answer is unknown.");
    if options.asks_for(Table::Plain) {
        println!();
        plain_table()?;
    }
    if options.asks_for(Table::Indexed) {
        println!();
        indexed_table()?;
    }
    if options.asks_for(Table::Growth) {
        println!();
        let panels = growth_table()?;
        if let Some(file) = &options.picture {
            write_picture(file, &panels)?;
        }
    }
    Ok(())
}

fn measured(
    sides: &[Side],
    name: &str,
    job: &[u8],
    slots: usize,
    answer: [u64; 4],
) -> Result<Vec<f64>, String> {
    say(&format!("measuring {slots} slots under {name}"));
    let times = best_times(sides, job, slots, answer);
    say("");
    times
}

/// An unknown answer says that as many states as slots were counted.
fn unknown(slots: usize) -> [u64; 4] {
    [3, slots as u64, 0, 0]
}

fn work_of(job: &[u8], slots: usize) -> Result<Work, String> {
    Ok(work(&decoded(job)?, slots))
}

fn decoded(job: &[u8]) -> Result<second::Job, String> {
    decode(job).map_err(|refusal| format!("the job of the table is refused: {refusal:?}"))
}

// ---- the plain search ----

const BEFORE_HEAD: &str = "     before  before/library  looking up before/library";

fn plain_table() -> Result<(), String> {
    println!("Without an index: 'library' is the proved search, 'second' the second checker, which has a hash map.");
    println!();
    print!("model states    library     second  library/second     steps  comparisons  stepping  looking up");
    println!("{}", if WITH_BEFORE { BEFORE_HEAD } else { "" });
    let mut costs = Vec::new();
    for (name, memory) in MODELS {
        let job = ring(memory);
        let step_costs = step_costs(name, &ending(memory))?;
        for slots in SLOTS {
            print_plain(name, &job, slots, &step_costs)?;
        }
        for (side, cost) in PLAIN_SIDES.iter().zip(&step_costs) {
            let of = if WITH_BEFORE {
                format!(" ({})", side.name)
            } else {
                String::new()
            };
            costs.push(format!("{:.0} ns under {name}{of}", cost * 1e9));
        }
    }
    println!();
    println!("Where the library's time goes: steps, and comparisons of a slot to look a state up, are counted exactly by following");
    println!("crates/search on the same job. A step's cost is the time of a search that ends, of two threads and at most 34 states,");
    println!(
        "where little is compared, by its steps: {}.",
        costs.join(", ")
    );
    println!("'Stepping' is steps by that cost, with reading and writing slots and the test for a goal; 'looking up' is the rest.");
    if WITH_BEFORE {
        println!("'Before' is the earlier archive: its time, its time by the library's, and the same of looking up alone.");
    }
    Ok(())
}

fn print_plain(name: &str, job: &[u8], slots: usize, step_costs: &[f64]) -> Result<(), String> {
    let work = work_of(job, slots)?;
    let mut sides = PLAIN_SIDES.to_vec();
    sides.push(SECOND);
    let mut times = measured(&sides, name, job, slots, unknown(slots))?;
    let second = times.pop().expect("the second checker was timed");
    let looking_up = |side: usize| times[side] - step_costs[side] * work.steps as f64;
    let library = times[0];
    let share = 100.0 * looking_up(0) / library;
    print!(
        "{name:5} {slots:6} {library:10.6} {second:10.6} {:15.2} {:9} {:12} {:8.0}% {share:10.0}%",
        library / second,
        work.steps,
        work.comparisons,
        100.0 - share
    );
    for (side, before) in times.iter().enumerate().skip(1) {
        let ratio = looking_up(side) / looking_up(0);
        print!(" {before:10.6} {:15.2} {ratio:26.2}", before / library);
    }
    println!();
    Ok(())
}

/// Seconds for one step of each side.
fn step_costs(name: &str, job: &[u8]) -> Result<Vec<f64>, String> {
    let work = work_of(job, SLOTS_FOR_STEPS)?;
    let unreachable = [2, work.states, 0, 0];
    let times = measured(&PLAIN_SIDES, name, job, SLOTS_FOR_STEPS, unreachable)?;
    Ok(times.iter().map(|time| time / work.steps as f64).collect())
}

// ---- with an index ----

fn indexed_table() -> Result<(), String> {
    println!("With an index: 'indexed' is the proved search that is lent one, 'second' the second checker, and 'twin' an ordinary Rust");
    println!("search of the same structure as 'indexed' (compare/src/twin.rs). 'Compared' are the slots that a look-up is compared with,");
    println!("on average, told by the chains that each of the two leaves in its index.");
    println!();
    println!("model states    indexed     second       twin  indexed/second  indexed/twin     steps  compared  by the twin");
    for (name, memory) in MODELS {
        let job = ring(memory);
        for slots in INDEXED_SLOTS {
            print_indexed(name, &job, slots)?;
        }
    }
    Ok(())
}

fn print_indexed(name: &str, job: &[u8], slots: usize) -> Result<(), String> {
    let sides = [INDEXED, SECOND, TWIN];
    let times = measured(&sides, name, job, slots, unknown(slots))?;
    say(&format!("counting at {slots} slots under {name}"));
    let decoded = decoded(job)?;
    let indexes = [INDEXED, TWIN].map(|side| {
        let mut memories = Memories::new(slots);
        (side.search)(job, &mut memories);
        memories.index
    });
    let compared = comparisons_each(&decoded, slots, &[&indexes[0], &indexes[1]]);
    let steps = work(&decoded, slots).steps;
    say("");
    let [indexed, second, twin] = [times[0], times[1], times[2]];
    println!(
        "{name:5} {slots:6} {indexed:10.6} {second:10.6} {twin:10.6} {:15.2} {:13.2} {steps:9} {:9.2} {:12.2}",
        indexed / second,
        indexed / twin,
        compared[0],
        compared[1]
    );
    Ok(())
}

// ---- how cost grows ----

/// The same for all models, in the order of the picture's lines.
const GROWTH_SIDES: [(Side, &str); 3] = [
    (LIBRARY, "plain search"),
    (SECOND, "second checker"),
    (INDEXED, "search with an index"),
];

fn growth_table() -> Result<Vec<Panel>, String> {
    println!("How cost grows: each row has twice the slots of the one before. Seconds, and the same by slots in nanoseconds.");
    println!();
    println!("model states      plain  ns a slot     second  ns a slot    indexed  ns a slot  plain/indexed");
    let mut panels = Vec::new();
    for (name, memory) in MODELS {
        let mut lines = GROWTH_SIDES.map(|(_, name)| Line {
            name,
            points: Vec::new(),
        });
        let job = ring(memory);
        for slots in GROWTH_SLOTS {
            let times = growth_row(name, &job, slots)?;
            for (line, time) in lines.iter_mut().zip(times) {
                line.points.push((slots, time));
            }
        }
        panels.push(Panel {
            title: format!("under {name}"),
            lines: lines.into(),
        });
    }
    Ok(panels)
}

fn growth_row(name: &str, job: &[u8], slots: usize) -> Result<Vec<f64>, String> {
    let sides = GROWTH_SIDES.map(|(side, _)| side);
    let times = measured(&sides, name, job, slots, unknown(slots))?;
    print!("{name:5} {slots:6}");
    for time in &times {
        print!(" {time:10.6} {:10.0}", time * 1e9 / slots as f64);
    }
    println!(" {:14.1}", times[0] / times[2]);
    Ok(times)
}

// ---- the picture ----

/// Found out before the long work; what stands there is kept until the new picture is.
fn may_be_written(file: &Path) -> Result<(), String> {
    let opened = OpenOptions::new().append(true).create(true).open(file);
    opened.map(|_| ()).map_err(|error| no_picture(file, &error))
}

fn write_picture(file: &Path, panels: &[Panel]) -> Result<(), String> {
    let title = "How the time of one search grows with its slots";
    let across = "slots, all of them filled (a tick is twice the one before it, a line ten times the time of the one below it)";
    fs::write(file, picture(title, across, panels)).map_err(|error| no_picture(file, &error))?;
    println!();
    println!("The picture of this table is in {}.", file.display());
    Ok(())
}

fn no_picture(file: &Path, error: &io::Error) -> String {
    format!(
        "{}: {error}; give --picture a file that can be written",
        file.display()
    )
}

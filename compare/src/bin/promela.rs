//! What compare/spin/run has done in Rust: jobs and their Promela models written, both searches measured and compared.

use compare::against_spin::{checked, checks, decoded, measured, rows, start_of, Named, Way};
use compare::program::say;
use compare::promela::model;
use second::job::Model;
use std::fs;
use std::path::Path;
use std::process::ExitCode;

const USAGE: &str = "use: promela model JOB | rows JOBS FOLDER | checks JOBS FOLDER | table FOLDER PROGRAMS | check FOLDER (compare/spin/run does all of it)";

fn main() -> ExitCode {
    let arguments: Vec<String> = std::env::args().skip(1).collect();
    let words: Vec<&str> = arguments.iter().map(String::as_str).collect();
    let done = match words[..] {
        ["model", job] => print_model(Path::new(job)),
        ["rows", jobs, folder] => rows_written(jobs, folder),
        ["checks", jobs, folder] => checks_written(jobs, folder),
        ["table", folder, programs] => match programs.parse() {
            Ok(programs) => table(Path::new(folder), programs),
            Err(_) => Err(format!("'{programs}' is no number of programs")),
        },
        ["check", folder] => check(Path::new(folder)),
        _ => {
            eprintln!("promela: {USAGE}");
            return ExitCode::from(2);
        }
    };
    match done {
        Ok(()) => ExitCode::SUCCESS,
        Err(message) => {
            eprintln!("promela: {message}");
            ExitCode::FAILURE
        }
    }
}

fn print_model(file: &Path) -> Result<(), String> {
    let job = read(file)?;
    print!("{}", model(&decoded(&job)?));
    Ok(())
}

fn read(file: &Path) -> Result<Vec<u8>, String> {
    fs::read(file).map_err(|error| format!("{}: {error}", file.display()))
}

// ---- jobs and their models ----

fn rows_written(jobs: &str, folder: &str) -> Result<(), String> {
    let rows = rows(Path::new(jobs)).map_err(|error| format!("{jobs}: {error}"))?;
    written(rows, folder)
}

fn checks_written(jobs: &str, folder: &str) -> Result<(), String> {
    let (checks, too_large) =
        checks(Path::new(jobs)).map_err(|error| format!("{jobs}: {error}"))?;
    let count = checks.len();
    eprintln!("{count} jobs to check; left out of {jobs} for more than 65,536 states: {too_large}");
    written(checks, folder)
}

/// Each as NAME.job and NAME.pml in the folder; their names are printed, in the order of the table.
fn written(named: Vec<Named>, folder: &str) -> Result<(), String> {
    for Named { name, job } in named {
        let file = Path::new(folder).join(&name);
        let model = model(&decoded(&job)?);
        fs::write(file.with_extension("job"), &job)
            .and_then(|()| fs::write(file.with_extension("pml"), model))
            .map_err(|error| format!("{folder}: {error}"))?;
        println!("{name}");
    }
    Ok(())
}

fn names(folder: &Path) -> Result<Vec<String>, String> {
    let names = read(&folder.join("names"))?;
    let names = String::from_utf8_lossy(&names);
    Ok(names.lines().map(String::from).collect())
}

// ---- the table ----

fn table(folder: &Path, programs: usize) -> Result<(), String> {
    say("measuring how long SPIN's programs take to start");
    let ways = Way::all(folder, "start", programs);
    let starts = ways
        .iter()
        .map(start_of)
        .collect::<Result<Vec<f64>, String>>()?;
    say("");
    println!("job                    model  C  states       ours       SPIN  SPIN/ours  without its start  pan     pan: elapsed");
    for name in names(folder)? {
        print_row(folder, &name, programs, &starts)
            .map_err(|message| format!("{name}: {message}"))?;
    }
    println!();
    let least = starts.iter().copied().fold(f64::INFINITY, f64::min);
    let most = starts.iter().copied().fold(0.0, f64::max);
    println!("Starting pan takes {least:.6} to {most:.6} seconds, told by a model of one state.");
    Ok(())
}

fn print_row(folder: &Path, name: &str, programs: usize, starts: &[f64]) -> Result<(), String> {
    let job = read(&folder.join(name).with_extension("job"))?;
    let decoded = decoded(&job)?;
    let model = match decoded.model {
        Model::Sc => "SC",
        Model::Tso => "TSO",
        Model::Pso => "PSO",
    };
    say(&format!("measuring {name}"));
    let ways = Way::all(folder, name, programs);
    let row = measured(&job, &ways);
    say("");
    let row = row?;
    let (best, pan) = (row.pans.iter().enumerate())
        .min_by_key(|(_, pan)| pan.time)
        .ok_or("no program of SPIN to run")?;
    let spin = pan.time.as_secs_f64();
    println!(
        "{name:22} {model:5} {:2} {:7} {:10.6} {spin:10.6} {:10.2} {:18.2}  {:6} {:>13}",
        decoded.capacity,
        row.states,
        row.ours,
        spin / row.ours,
        (spin - starts[best]) / row.ours,
        ways[best].shown(),
        pan.elapsed
    );
    Ok(())
}

// ---- the check ----

fn check(folder: &Path) -> Result<(), String> {
    let names = names(folder)?;
    let mut differ = 0;
    let mut states = 0;
    for name in &names {
        let job = read(&folder.join(name).with_extension("job"))?;
        say(&format!("checking {name}"));
        let counted = checked(&job, &Way::all(folder, name, 1)[0]);
        say("");
        match counted {
            Ok(counted) => states += counted,
            Err(message) => {
                differ += 1;
                println!("{name}: {message}");
            }
        }
    }
    let jobs = names.len();
    println!(
        "{jobs} jobs, {differ} differ; {states} states, and the steps between them, were counted by both"
    );
    if differ > 0 || names.is_empty() {
        return Err("the translation does not mean the same, see above".to_string());
    }
    Ok(())
}

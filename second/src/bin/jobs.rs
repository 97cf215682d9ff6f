//! Makes the job files of a folder from their texts, and checks that texts, jobs and outputs agree.

use second::job_folder::{check, make};
use std::path::Path;
use std::process::ExitCode;

const USAGE: &str = "use one of:
  jobs make DIR     write each DIR/NAME.job that is not what DIR/NAME.txt says
  jobs check DIR    fail unless NAME.txt, NAME.job and NAME.out are all there and agree";

fn main() -> ExitCode {
    let arguments: Vec<String> = std::env::args().skip(1).collect();
    let (command, folder) = match &arguments[..] {
        [command, folder] => (command, folder),
        _ => return misused(),
    };
    let folder = Path::new(folder);
    let report = match command.as_str() {
        "make" => make(folder).map(|(texts, written)| {
            for job in &written {
                println!("wrote {}", job.display());
            }
            format!("{texts} texts, {} jobs written", written.len())
        }),
        "check" => check(folder).map(|jobs| format!("{jobs} jobs: texts, jobs and outputs agree")),
        _ => return misused(),
    };
    match report {
        Ok(line) => {
            println!("{line}");
            ExitCode::SUCCESS
        }
        Err(faults) => {
            for fault in &faults {
                eprintln!("{fault}");
            }
            eprintln!("jobs: faults found: {}", faults.len());
            ExitCode::FAILURE
        }
    }
}

fn misused() -> ExitCode {
    eprintln!("jobs: {USAGE}");
    ExitCode::from(2)
}

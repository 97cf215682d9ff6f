//! Writes the cases that a proved program is run on, and the output that this checker expects of it.

use second::classes::counts_line;
use second::random::Sizes;
use second::search_cases::Index;
use second::{fence_cases, index_cases, job_cases, replay_cases, search_cases};
use std::path::Path;
use std::process::ExitCode;
use std::{env, fs, io};

const USAGE: &str = "use one of (each writes DIR/stdin and DIR/stdout, and prints how many cases have long threads, how many are of version 2 and how many of version 3, search also how many have an index, replay how many are stuck by which reason, fences how many have dead code):
  cases job DIR
  cases search DIR
  cases replay DIR
  cases fences DIR";

fn main() -> ExitCode {
    let arguments: Vec<String> = env::args().skip(1).collect();
    let (kind, folder) = match &arguments[..] {
        [kind, folder] => (kind, folder),
        _ => return fail(USAGE),
    };
    let kind = match kind.as_str() {
        "job" => of_decoder(),
        "search" => of_search(),
        "replay" => of_replay(),
        "fences" => of_fence_check(),
        _ => return fail(USAGE),
    };
    match write_both(Path::new(folder), &kind) {
        Ok(()) => {
            println!("{}", kind.counts);
            ExitCode::SUCCESS
        }
        Err(fault) => fail(&format!("cannot write into {folder}: {fault}")),
    }
}

/// All cases of one kind.
struct Kind {
    cases: Vec<u8>,
    /// What the program under test has to print.
    lines: String,
    /// A line for each thing that the cases are counted by.
    counts: String,
}

fn fail(message: &str) -> ExitCode {
    eprintln!("cases: {message}");
    ExitCode::from(2)
}

fn write_both(folder: &Path, kind: &Kind) -> io::Result<()> {
    fs::write(folder.join("stdin"), &kind.cases)?;
    fs::write(folder.join("stdout"), &kind.lines)
}

fn of_decoder() -> Kind {
    let cases = job_cases::all();
    Kind {
        cases: cases.iter().flat_map(|job| counted(job)).collect(),
        lines: cases.iter().map(|job| job_cases::line(job)).collect(),
        counts: [
            counts_line("job_cases", &job_cases::counts_of_long_threads()),
            counts_line("job_cases, version 2", &job_cases::counts_of_version_two()),
            counts_line(
                "job_cases, version 3",
                &job_cases::counts_of_version_three(),
            ),
        ]
        .join("\n"),
    }
}

fn of_search() -> Kind {
    let cases = search_cases::all();
    Kind {
        cases: cases.iter().flat_map(sized).collect(),
        lines: cases.iter().map(search_cases::lines).collect(),
        counts: [
            counts_line("search_cases", &search_cases::counts_of_long_threads()),
            counts_line(
                "search_cases, version 2",
                &search_cases::counts_of_version_two(),
            ),
            counts_line(
                "search_cases, version 3",
                &search_cases::counts_of_version_three(),
            ),
            counts_line("search_cases, index", &index_cases::counts()),
        ]
        .join("\n"),
    }
}

fn of_replay() -> Kind {
    let cases = replay_cases::all();
    let lines = cases.iter().map(|case| replay_cases::line(case) + "\n");
    let long_threads = replay_cases::counts_of_long_threads();
    let reasons = replay_cases::counts_of_reasons();
    let version_two = replay_cases::counts_of_version_two();
    let version_three = replay_cases::counts_of_version_three();
    Kind {
        cases: cases.iter().flat_map(scheduled).collect(),
        lines: lines.collect(),
        counts: [
            counts_line("replay_cases", &long_threads),
            counts_line("replay_cases, reasons", &reasons),
            counts_line("replay_cases, version 2", &version_two),
            counts_line("replay_cases, version 3", &version_three),
        ]
        .join("\n"),
    }
}

fn of_fence_check() -> Kind {
    let cases = fence_cases::all();
    let lines = cases.iter().map(|job| fence_cases::line(job) + "\n");
    let long_threads = fence_cases::counts_of_long_threads();
    let dead_code = fence_cases::counts_of_dead_code();
    let version_two = fence_cases::counts_of_version_two();
    let version_three = fence_cases::counts_of_version_three();
    Kind {
        cases: cases.iter().flat_map(|job| counted(job)).collect(),
        lines: lines.collect(),
        counts: [
            counts_line("fence_cases", &long_threads),
            counts_line("fence_cases, dead code", &dead_code),
            counts_line("fence_cases, version 2", &version_two),
            counts_line("fence_cases, version 3", &version_three),
        ]
        .join("\n"),
    }
}

/// A job as a case holds it: a count of two bytes, and the job.
fn counted(job: &[u8]) -> Vec<u8> {
    [&(job.len() as u16).to_be_bytes()[..], job].concat()
}

/// Says in place of an index's length that there is none: the plain search.
const NO_INDEX: u32 = u32::MAX;

/// A case of the search: the three sizes, the index's length and the first number of its fill, four bytes each, and the job.
fn sized(case: &search_cases::Case) -> Vec<u8> {
    let Sizes {
        table,
        links,
        schedule,
    } = case.sizes;
    let index = match case.index {
        None => [NO_INDEX, 0],
        Some(Index { count, first }) => [count as u32, first],
    };
    let sizes = [table, links, schedule].map(|size| size as u32);
    let numbers = sizes.into_iter().chain(index);
    let mut bytes: Vec<u8> = numbers.flat_map(u32::to_be_bytes).collect();
    bytes.extend(counted(&case.job));
    bytes
}

/// A case of replay: the number of steps, four bytes, then the job and the steps.
fn scheduled(case: &replay_cases::Case) -> Vec<u8> {
    let mut bytes = (case.schedule.len() as u32).to_be_bytes().to_vec();
    bytes.extend(counted(&case.job));
    bytes.extend(&case.schedule);
    bytes
}

#[cfg(test)]
mod tests {
    use super::*;
    use second::search_cases::Case;

    #[test]
    fn a_case_says_whether_it_has_an_index() {
        let sizes = Sizes {
            table: 0x0001_0203,
            links: 4,
            schedule: 5,
        };
        let mut case = Case::plain(sizes, vec![7, 8, 9]);
        let sized_so = [0, 1, 2, 3, 0, 0, 0, 4, 0, 0, 0, 5];
        let no_index = [255, 255, 255, 255, 0, 0, 0, 0];
        let job = [0, 3, 7, 8, 9];
        let plain = [&sized_so[..], &no_index, &job].concat();
        assert_eq!(sized(&case), plain);
        case.index = Some(Index {
            count: 0x0304,
            first: 0xFEDC_BA98,
        });
        let index = [0, 0, 3, 4, 0xFE, 0xDC, 0xBA, 0x98];
        let with_index = [&sized_so[..], &index, &job].concat();
        assert_eq!(sized(&case), with_index);
    }
}

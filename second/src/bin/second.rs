//! Command line over the second checker.

use second::hex::{from_hex, to_hex};
use second::job::LONGEST_FILE;
use second::machine::SLOT_BYTES;
use std::io::{self, Read, Write};
use std::process::ExitCode;

const USAGE: &str = "use one of:
  second bench < JOBFILE
  second decode HEX...
  second search SLOTS HEX...
  second replay HEX SCHEDULEHEX
  second fences HEX...";

/// More slots than this never change an answer.
const MOST_SLOTS: usize = 65_536;

fn main() -> ExitCode {
    let arguments: Vec<String> = std::env::args().skip(1).collect();
    match run(&arguments) {
        Ok(text) => match io::stdout().write_all(text.as_bytes()) {
            Ok(()) => ExitCode::SUCCESS,
            Err(fault) => fail(&format!(
                "cannot write the answer ({fault}); check standard output"
            )),
        },
        Err(message) => fail(&message),
    }
}

fn fail(message: &str) -> ExitCode {
    eprintln!("second: {message}");
    ExitCode::from(2)
}

fn run(arguments: &[String]) -> Result<String, String> {
    let (command, rest) = arguments
        .split_first()
        .ok_or(format!("no command given; {USAGE}"))?;
    match command.as_str() {
        "bench" => run_bench(rest),
        "decode" => run_decode(rest),
        "search" => run_search(rest),
        "replay" => run_replay(rest),
        "fences" => Ok(words_line(second::fences(&job_from(rest)?))),
        other => Err(format!("'{other}' is no command; {USAGE}")),
    }
}

fn run_bench(rest: &[String]) -> Result<String, String> {
    if !rest.is_empty() {
        return Err("bench takes no argument; give the job on standard input".to_string());
    }
    let mut job = Vec::new();
    // One byte more than any file may have is enough to refuse it, whatever else there is to read.
    let most = LONGEST_FILE as u64 + 1;
    let read = io::stdin().take(most).read_to_end(&mut job);
    read.map_err(|fault| format!("cannot read the job ({fault}); check standard input"))?;
    Ok(second::bench_lines(&job))
}

fn run_decode(rest: &[String]) -> Result<String, String> {
    Ok(match second::decode(&job_from(rest)?) {
        Ok(job) => format!("{job:?}\n"),
        Err(refusal) => words_line(refusal.words()),
    })
}

fn run_search(rest: &[String]) -> Result<String, String> {
    let (slots, rest) = rest
        .split_first()
        .ok_or("search needs SLOTS and then the job in hex")?;
    let slots: usize = slots.parse().map_err(|_| {
        format!("'{slots}' is no number of slots; write SLOTS in decimal before the job")
    })?;
    let job = job_from(rest)?;
    let slots = slots.min(MOST_SLOTS);
    let mut table = vec![0; slots * SLOT_BYTES];
    let mut links = vec![0; slots];
    let mut schedule = vec![0; slots];
    let answer = second::search(&job, &mut table, &mut links, &mut schedule);
    let mut text = words_line(answer);
    if answer[0] == 1 {
        text += &format!("{}\n", to_hex(&schedule[..answer[1] as usize]));
    }
    Ok(text)
}

fn run_replay(rest: &[String]) -> Result<String, String> {
    let (job, schedule) = match rest {
        [job, schedule] => (job, schedule),
        _ => {
            return Err(
                "replay takes two arguments; quote the job and the schedule each".to_string(),
            )
        }
    };
    Ok(words_line(second::replay(
        &from_hex(job)?,
        &from_hex(schedule)?,
    )))
}

/// The job may be spread over several arguments, so a pasted listing works unquoted.
fn job_from(rest: &[String]) -> Result<Vec<u8>, String> {
    if rest.is_empty() {
        return Err("no job given; write its bytes in hex (\"\" for the empty job)".to_string());
    }
    from_hex(&rest.concat())
}

fn words_line([a, b, c, d]: [u64; 4]) -> String {
    format!("{a} {b} {c} {d}\n")
}

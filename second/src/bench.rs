//! The lines of the bench program.

use crate::fences::fences;
use crate::hex::to_hex;
use crate::job::{decode, Job, Model};
use crate::machine::SLOT_BYTES;
use crate::search::search;

pub const BENCH_SLOTS: usize = 400;

/// Exactly what the bench program prints when this is its standard input.
pub fn bench_lines(job: &[u8]) -> String {
    let lines = match decode(job) {
        Err(refusal) => {
            vec![
                format!("REFUSED {} {}", refusal.number, refusal.offset),
                "HOLD".to_string(),
            ]
        }
        Ok(decoded) => accepted_lines(job, &decoded),
    };
    lines.iter().map(|line| format!("{line}\n")).collect()
}

fn accepted_lines(bytes: &[u8], job: &Job) -> Vec<String> {
    let mut table = vec![0; BENCH_SLOTS * SLOT_BYTES];
    let mut links = vec![0; BENCH_SLOTS];
    let mut schedule = vec![0; BENCH_SLOTS];
    let answer = search(bytes, &mut table, &mut links, &mut schedule);
    let fence_answer = fences(bytes);
    let mut lines = search_lines(answer, &schedule);
    lines.push(fence_line(fence_answer));
    lines.push(verdict_line(job, answer[0] == 2, fence_answer[0] == 1));
    lines
}

fn search_lines(answer: [u64; 4], schedule: &[u8]) -> Vec<String> {
    let [kind, first, second, _] = answer;
    match kind {
        // The schedule line stands there even when it is empty.
        1 => vec![
            format!("REACHABLE {first} {second}"),
            to_hex(&schedule[..first as usize]),
        ],
        2 => vec![format!("UNREACHABLE {first}")],
        3 => vec![format!("UNKNOWN {first}")],
        0 | 4.. => panic!("the search of an accepted job answered {answer:?}"),
    }
}

fn fence_line(answer: [u64; 4]) -> String {
    let [kind, thread, store, load] = answer;
    match kind {
        1 => "FENCED".to_string(),
        2 => format!("OPEN {thread} {store} {load}"),
        0 | 3.. => panic!("the fence check of an accepted job answered {answer:?}"),
    }
}

fn verdict_line(job: &Job, unreachable: bool, fenced: bool) -> String {
    // An SC result speaks for buffered machines only for fenced programs and empty buffers.
    let carries_over = job.model != Model::Sc || (job.goal.buffers_empty && fenced);
    let verdict = if unreachable && carries_over {
        "RELEASE"
    } else {
        "HOLD"
    };
    verdict.to_string()
}

//! Reasons, which request 5 brought: why replays are stuck and what else holds there, told once for the run cases and for the comparison.

use crate::classes::those_met;
use crate::job::{decode, Job, Model};
use crate::machine::{reason, Reason, State, Step};
use crate::replay::{follow, follow_until_stuck, Stuck};

/// By model and reason, both in the order of their numbers; those of `NEVER` are counted too, to show that they are.
pub const STUCK: [[&str; 6]; 3] = [
    ["SC, 1", "SC, 2", "SC, 3", "SC, 4", "SC, 5", "SC, 6"],
    ["TSO, 1", "TSO, 2", "TSO, 3", "TSO, 4", "TSO, 5", "TSO, 6"],
    ["PSO, 1", "PSO, 2", "PSO, 3", "PSO, 4", "PSO, 5", "PSO, 6"],
];

/// Those that cannot come up: SC has no buffers.
pub const NEVER: [&str; 3] = [STUCK[0][2], STUCK[0][3], STUCK[0][5]];

/// Under PSO only a WFENCE puts a store behind others to other variables.
pub const ONLY_IN_VERSION_TWO: &str = STUCK[2][5];

pub const ABOVE_35: &str = "a number above 35";
pub const ABSENT_THREAD: &str = "an absent thread to execute";
pub const ABSENT_THREAD_FLUSH: &str = "an absent thread to flush";
pub const ABSENT_VARIABLE: &str = "an absent variable to flush";
pub const BOTH_ABSENT: &str = "an absent variable of an absent thread";
pub const ENDED_AT_FULL: &str = "ended with a full buffer";
pub const BARRIER_AT_FULL: &str = "FENCE, XCHG or CMPX at a full buffer";
pub const FLUSH_OF_ENDED: &str = "an ended thread with nothing to flush";
pub const FLUSH_OF_WAITING: &str = "a waiting thread with nothing to flush";
pub const FLUSH_BESIDE: &str = "nothing to flush beside other stores";
pub const OTHER_STATE_BEFORE: &str = "another reason a step before";

/// Where another reason could be taken for the right one.
pub const NEIGHBOURS: [&str; 11] = [
    ABOVE_35,
    ABSENT_THREAD,
    ABSENT_THREAD_FLUSH,
    ABSENT_VARIABLE,
    BOTH_ABSENT,
    ENDED_AT_FULL,
    BARRIER_AT_FULL,
    FLUSH_OF_ENDED,
    FLUSH_OF_WAITING,
    FLUSH_BESIDE,
    OTHER_STATE_BEFORE,
];

/// All classes, those of `STUCK` first.
pub fn of_replays() -> Vec<&'static str> {
    [&STUCK.concat()[..], &NEIGHBOURS].concat()
}

/// The classes that a replay is in: none unless it is stuck.
pub fn of_replay(job: &[u8], schedule: &[u8]) -> Vec<&'static str> {
    let job = match decode(job) {
        Ok(job) => job,
        Err(_) => return Vec::new(),
    };
    match follow_until_stuck(&job, schedule) {
        (_, None) => Vec::new(),
        (state, Some(stuck)) => {
            let mut classes = vec![by_model(job.model, stuck.reason)];
            classes.extend(neighbours(&job, &state, schedule, stuck));
            classes
        }
    }
}

fn by_model(model: Model, reason: Reason) -> &'static str {
    let of_model = match model {
        Model::Sc => STUCK[0],
        Model::Tso => STUCK[1],
        Model::Pso => STUCK[2],
    };
    of_model[usize::from(reason.number()) - 1]
}

fn neighbours(job: &Job, state: &State, schedule: &[u8], stuck: Stuck) -> Vec<&'static str> {
    let number = schedule[stuck.at];
    let mut classes = match Step::from_number(number) {
        None => vec![ABOVE_35],
        Some(Step::Execute { thread }) => of_execute(job, state, thread, stuck.reason),
        Some(Step::Flush { thread, variable }) => {
            of_flush(job, state, thread, variable, stuck.reason)
        }
    };
    if let Some(last) = stuck.at.checked_sub(1) {
        let (before, _) = follow(job, &schedule[..last]);
        let reason_before = reason(job, &before, number);
        let is_another = reason_before.map_or(false, |before| before != stuck.reason);
        classes.extend(those_met(&[(OTHER_STATE_BEFORE, is_another)]));
    }
    classes
}

fn of_execute(job: &Job, state: &State, thread: usize, reason: Reason) -> Vec<&'static str> {
    match state.threads.get(thread) {
        None => vec![ABSENT_THREAD],
        Some(own) => {
            let is_full = job.model != Model::Sc && own.pending() == job.capacity;
            those_met(&[
                (ENDED_AT_FULL, is_full && reason == Reason::ThreadEnded),
                (BARRIER_AT_FULL, is_full && reason == Reason::BufferNotEmpty),
            ])
        }
    }
}

fn of_flush(
    job: &Job,
    state: &State,
    thread: usize,
    variable: usize,
    flush_reason: Reason,
) -> Vec<&'static str> {
    match (state.threads.get(thread), variable < job.initial.len()) {
        (None, true) => vec![ABSENT_THREAD_FLUSH],
        (None, false) => vec![BOTH_ABSENT],
        (Some(_), false) => vec![ABSENT_VARIABLE],
        (Some(own), true) if flush_reason == Reason::NothingToFlush => {
            let to_execute = reason(job, state, thread as u8);
            let waits = [Reason::BufferFull, Reason::BufferNotEmpty].map(Some);
            those_met(&[
                (FLUSH_OF_ENDED, to_execute == Some(Reason::ThreadEnded)),
                (FLUSH_OF_WAITING, waits.contains(&to_execute)),
                (FLUSH_BESIDE, own.pending() > 0),
            ])
        }
        (Some(_), true) => Vec::new(),
    }
}

#[cfg(test)]
mod tests {
    use super::*;
    use crate::listed::{file, Memory, AT_THE_START, PSO, SC, TSO};
    use crate::machine::REASONS;

    const STORE: [u8; 4] = [5, 0, 0, 1];
    const STORE_OTHER: [u8; 4] = [5, 0, 1, 1];
    const FENCE: [u8; 4] = [6, 0, 0, 0];

    /// The first stores twice and stops at a fence, the second stores once and ends; two variables.
    fn classes(memory: Memory, schedule: &[u8]) -> Vec<&'static str> {
        let programs = [vec![STORE, STORE_OTHER, FENCE], vec![STORE]];
        let job = file(memory, &[0, 0], &programs, 0, &[AT_THE_START]);
        of_replay(&job, schedule)
    }

    #[test]
    fn the_names_say_model_and_reason() {
        for (model, names) in ["SC", "TSO", "PSO"].into_iter().zip(STUCK) {
            for (reason, name) in REASONS.into_iter().zip(names) {
                assert_eq!(name, format!("{model}, {}", reason.number()));
            }
        }
    }

    #[test]
    fn a_replay_that_is_not_stuck_has_no_class() {
        assert_eq!(classes(SC, &[0, 0, 0, 1]), [""; 0]);
        assert_eq!(classes([TSO, 2], &[0, 0, 4]), [""; 0]);
        assert_eq!(of_replay(&[], &[0]), [""; 0]);
    }

    #[test]
    fn absent_steps() {
        for (memory, names) in [(SC, STUCK[0]), ([TSO, 2], STUCK[1]), ([PSO, 2], STUCK[2])] {
            assert_eq!(classes(memory, &[36]), [names[0], ABOVE_35]);
            assert_eq!(classes(memory, &[2]), [names[0], ABSENT_THREAD]);
            assert_eq!(classes(memory, &[20]), [names[0], ABSENT_THREAD_FLUSH]);
            assert_eq!(classes(memory, &[14]), [names[0], ABSENT_VARIABLE]);
            assert_eq!(classes(memory, &[22]), [names[0], BOTH_ABSENT]);
        }
    }

    #[test]
    fn ended_and_waiting_threads() {
        let [_, tso, pso] = STUCK;
        assert_eq!(classes(SC, &[1, 1]), ["SC, 2"]);
        assert_eq!(classes([TSO, 1], &[1, 1]), [tso[1], ENDED_AT_FULL]);
        assert_eq!(classes([TSO, 2], &[1, 1]), [tso[1]]);
        assert_eq!(classes([PSO, 1], &[0, 0]), [pso[2]]);
        assert_eq!(classes([PSO, 2], &[0, 0, 0]), [pso[3], BARRIER_AT_FULL]);
        assert_eq!(classes([PSO, 3], &[0, 0, 0]), [pso[3]]);
    }

    #[test]
    fn flushes() {
        let [sc, tso, pso] = STUCK;
        assert_eq!(classes(SC, &[4]), [sc[4]]);
        assert_eq!(classes(SC, &[1, 12]), [sc[4], FLUSH_OF_ENDED]);
        let ended = classes([TSO, 2], &[1, 13]);
        assert_eq!(ended, [tso[4], FLUSH_OF_ENDED, FLUSH_BESIDE]);
        let waiting = classes([PSO, 1], &[0, 5]);
        assert_eq!(waiting, [pso[4], FLUSH_OF_WAITING, FLUSH_BESIDE]);
        // Before its store there was nothing to flush, and now there is, but behind another.
        assert_eq!(classes([TSO, 2], &[0, 0, 5]), [tso[5], OTHER_STATE_BEFORE]);
        assert_eq!(classes([TSO, 2], &[0, 0, 1, 5]), [tso[5]]);
    }
}

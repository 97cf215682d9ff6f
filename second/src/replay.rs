//! Replay: follows a given schedule as far as it is enabled.

use crate::job::{decode, Job};
use crate::machine::{step, Reason, State};

/// Answers 0,number,offset,0 | 1,0,0,0 reaches | 2,0,0,0 falls short | 3,i,reason,0 stuck at i.
pub fn replay(job: &[u8], schedule: &[u8]) -> [u64; 4] {
    let job = match decode(job) {
        Ok(job) => job,
        Err(refusal) => return refusal.words(),
    };
    match follow_until_stuck(&job, schedule) {
        (_, Some(Stuck { at, reason })) => [3, at as u64, u64::from(reason.number()), 0],
        (state, None) if state.is_goal(&job) => [1, 0, 0, 0],
        (_, None) => [2, 0, 0, 0],
    }
}

/// The first step of a schedule that cannot be taken, counted from 0, and why.
#[derive(Clone, Copy, Debug, PartialEq, Eq)]
pub struct Stuck {
    pub at: usize,
    pub reason: Reason,
}

/// The state behind the steps as far as they are enabled, and what stops them if they don't get to the end.
pub fn follow_until_stuck(job: &Job, schedule: &[u8]) -> (State, Option<Stuck>) {
    let mut state = State::start(job);
    for (at, &number) in schedule.iter().enumerate() {
        match step(job, &state, number) {
            Ok(next) => state = next,
            Err(reason) => return (state, Some(Stuck { at, reason })),
        }
    }
    (state, None)
}

/// The state behind the steps as far as they are enabled, and how many that are.
pub fn follow(job: &Job, schedule: &[u8]) -> (State, usize) {
    let (state, stuck) = follow_until_stuck(job, schedule);
    (state, stuck.map_or(schedule.len(), |stuck| stuck.at))
}

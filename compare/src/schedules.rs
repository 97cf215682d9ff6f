//! Schedules to replay.

use crate::walk::walk;
use second::job::MOST_INSTRUCTIONS;
use second::machine::{reason, step, Reason, State};
use second::random::{stuck_schedule, Random};
use second::Job;
use std::collections::BTreeMap;

/// Long enough that a 16-bit count of steps wraps.
pub const LONG: usize = 65_536;

/// Just above the last step, and numbers that turn into steps when bits are lost.
const NO_STEPS: [u8; 6] = [36, 63, 64, 100, 128, 255];

/// For a job that is refused whatever is replayed.
pub fn for_refused(random: &mut Random) -> Vec<Vec<u8>> {
    vec![if random.percent(30) {
        Vec::new()
    } else {
        any_bytes(random)
    }]
}

/// Walks, damaged walks and walks into a step that can't be taken, and the schedule that a search has found, whole and damaged.
pub fn for_accepted(
    random: &mut Random,
    bytes: &[u8],
    job: &Job,
    found: Option<&[u8]>,
) -> Vec<Vec<u8>> {
    let most_steps = random.between(0, 50);
    let (steps, _) = walk(random, job, most_steps);
    let mut schedules = vec![stuck(random, bytes, job)];
    if let Some(found) = found {
        schedules.push(found.to_vec());
        schedules.push(with_other_step(random, found));
        schedules.push(longer_or_shorter(random, found));
    }
    match random.below(10) {
        0 => schedules.push(Vec::new()),
        1 => schedules.push(any_bytes(random)),
        2..=4 => schedules.push(with_no_step(random, &steps)),
        5 => schedules.push(with_other_step(random, &steps)),
        _ => {}
    }
    // A walk this long hardly ever stays in a program that can end.
    if steps.len() == most_steps && random.below(150) == 0 {
        let (mut long, state) = walk(random, job, LONG + 64);
        // Being stuck at the very end shows that no step was lost or left out.
        if random.percent(70) {
            long.push(withheld_step(random, job, &state, 0..36));
        }
        schedules.push(long);
    }
    schedules.push(steps);
    schedules
}

/// Into a step that has a reason, and now and then some more behind it, which has no part in the answer.
fn stuck(random: &mut Random, bytes: &[u8], job: &Job) -> Vec<u8> {
    let mut schedule = if random.percent(60) {
        stuck_schedule(random, bytes)
    } else {
        stuck_alone(random, job)
    };
    if random.percent(30) {
        schedule.extend(any_bytes(random));
    }
    schedule
}

/// One thread alone to where it waits or has ended, and a step that can't be taken there.
fn stuck_alone(random: &mut Random, job: &Job) -> Vec<u8> {
    let threads = 0..job.programs.len() as u8;
    let mut runs: Vec<(Vec<u8>, State)> = threads.map(|thread| alone(job, thread)).collect();
    if random.percent(60) {
        // Where a buffer is fullest, most reasons meet.
        let most = runs.iter().map(|(_, state)| most_pending(state)).max();
        runs.retain(|(_, state)| Some(most_pending(state)) == most);
    }
    let (mut schedule, state) = runs.swap_remove(random.below(runs.len()));
    let step = match schedule.last() {
        Some(&thread) if random.percent(75) => {
            let own = (0..8).map(|variable| 4 + 8 * thread + variable);
            withheld_step(random, job, &state, own.chain([thread]))
        }
        _ => withheld_step(random, job, &state, 0..36),
    };
    schedule.push(step);
    schedule
}

/// The thread's own steps as far as they are enabled; some threads would never stop.
fn alone(job: &Job, thread: u8) -> (Vec<u8>, State) {
    let mut state = State::start(job);
    let mut steps = Vec::new();
    while steps.len() < 2 * MOST_INSTRUCTIONS {
        state = match step(job, &state, thread) {
            Ok(next) => next,
            Err(_) => break,
        };
        steps.push(thread);
    }
    (steps, state)
}

fn most_pending(state: &State) -> usize {
    let pending = state.threads.iter().map(|thread| thread.pending());
    pending.max().unwrap_or(0)
}

/// One of these steps, or a number above 35, that can't be taken in this state; a reason of many steps counts no more than one of few.
fn withheld_step(
    random: &mut Random,
    job: &Job,
    state: &State,
    steps: impl Iterator<Item = u8>,
) -> u8 {
    let mut withheld: BTreeMap<Reason, Vec<u8>> = BTreeMap::new();
    for number in steps.chain(NO_STEPS) {
        if let Some(reason) = reason(job, state, number) {
            withheld.entry(reason).or_default().push(number);
        }
    }
    // Most other stuck schedules are so because there is no such step.
    if withheld.len() > 1 && random.percent(75) {
        withheld.remove(&Reason::NoSuchStep);
    }
    let by_reason: Vec<Vec<u8>> = withheld.into_values().collect();
    let numbers = &by_reason[random.below(by_reason.len())];
    random.pick(numbers)
}

fn any_bytes(random: &mut Random) -> Vec<u8> {
    let bound = random.pick(&[4, 40, 256]);
    let count = random.between(1, 12);
    (0..count).map(|_| random.below(bound) as u8).collect()
}

fn with_other_step(random: &mut Random, schedule: &[u8]) -> Vec<u8> {
    let step = random.below(36) as u8;
    with_step(random, schedule, step)
}

fn with_no_step(random: &mut Random, schedule: &[u8]) -> Vec<u8> {
    let step = random.pick(&NO_STEPS);
    with_step(random, schedule, step)
}

fn with_step(random: &mut Random, schedule: &[u8], step: u8) -> Vec<u8> {
    let mut changed = schedule.to_vec();
    match changed.len() {
        0 => changed.push(step),
        count => changed[random.below(count)] = step,
    }
    changed
}

fn longer_or_shorter(random: &mut Random, schedule: &[u8]) -> Vec<u8> {
    let mut changed = schedule.to_vec();
    if random.percent(50) {
        changed.pop();
    } else {
        changed.push(random.below(37) as u8);
    }
    changed
}

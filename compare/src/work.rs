//! How much work a search is, counted and not timed: steps taken, and slots compared to look states up.

use second::machine::{successors, State};
use second::Job;
use std::collections::HashMap;

#[derive(Clone, Copy, Debug, PartialEq, Eq)]
pub struct Work {
    pub states: u64,
    pub steps: u64,
    pub comparisons: u64,
}

/// The work of a search for a goal that is never met, as `crates/search` goes about it:
/// each state that a step leads to is compared with the counted slots, from the newest back.
pub fn work(job: &Job, slots: usize) -> Work {
    let (mut steps, mut comparisons) = (0, 0);
    let states = looked_up(job, slots, |counted, _, known| {
        steps += 1;
        comparisons += (counted.len() - known.unwrap_or(0)) as u64;
    });
    Work {
        states,
        steps,
        comparisons,
    }
}

/// Each state that a step leads to, with the states counted by then and the slot of the one that it is, if it is known;
/// how many states there are in the end.
pub fn looked_up(
    job: &Job,
    slots: usize,
    mut see: impl FnMut(&[State], &State, Option<usize>),
) -> u64 {
    let start = State::start(job);
    let mut slot_of = HashMap::from([(start.clone(), 0)]);
    let mut states = vec![start];
    let mut expanded = 0;
    // The search stops at the first state for which no slot is left.
    'search: while expanded < states.len() {
        for (_, next) in successors(job, &states[expanded]) {
            let known = slot_of.get(&next).copied();
            see(&states, &next, known);
            if known.is_none() {
                if states.len() == slots {
                    break 'search;
                }
                slot_of.insert(next.clone(), states.len());
                states.push(next);
            }
        }
        expanded += 1;
    }
    states.len() as u64
}

#[cfg(test)]
mod tests {
    use super::*;
    use second::decode;
    use second::listed::{bench_list, file, AT_THE_START, SC};

    fn work_of(job: &[u8], slots: usize) -> Work {
        work(&decode(job).expect("the job is sound"), slots)
    }

    #[test]
    fn one_thread_compares_with_all_that_were_before() {
        let job = file(SC, &[0], &[vec![[1, 0, 0, 7]; 4]], 0, &[AT_THE_START]);
        let whole = Work {
            states: 5,
            steps: 4,
            comparisons: 1 + 2 + 3 + 4,
        };
        assert_eq!(work_of(&job, 9), whole);
        // The fourth state is looked up and then left out.
        let short = Work {
            states: 3,
            steps: 3,
            comparisons: 1 + 2 + 3,
        };
        assert_eq!(work_of(&job, 3), short);
    }

    #[test]
    fn a_state_that_is_known_costs_those_behind_it_and_itself() {
        // From place 2 back to place 0: three slots are compared.
        let back = vec![[1, 0, 0, 0], [1, 0, 0, 0], [9, 0, 0, 0]];
        let job = file(SC, &[0], &[back], 0, &[AT_THE_START]);
        let whole = Work {
            states: 3,
            steps: 3,
            comparisons: 1 + 2 + 3,
        };
        assert_eq!(work_of(&job, 9), whole);
        // From place 2 to its own place: the newest alone.
        let own = vec![[1, 0, 0, 0], [1, 0, 0, 0], [9, 0, 2, 0]];
        let job = file(SC, &[0], &[own], 0, &[AT_THE_START]);
        let whole = Work {
            states: 3,
            steps: 3,
            comparisons: 1 + 2 + 1,
        };
        assert_eq!(work_of(&job, 9), whole);
    }

    #[test]
    fn all_states_of_an_unreachable_goal_are_counted() {
        assert_eq!(work_of(&bench_list()[1], 20).states, 13);
    }
}

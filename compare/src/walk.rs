//! Random walks of the second checker's machine.

use second::machine::{successors, State};
use second::random::Random;
use second::Job;

/// Takes up to so many steps, each time any that is enabled; gives them and where they lead.
pub fn walk(random: &mut Random, job: &Job, most_steps: usize) -> (Vec<u8>, State) {
    let mut state = State::start(job);
    let mut steps = Vec::new();
    while steps.len() < most_steps {
        let mut moves: Vec<(u8, State)> = successors(job, &state).into_iter().collect();
        if moves.is_empty() {
            break;
        }
        let (step, next) = moves.swap_remove(random.below(moves.len()));
        steps.push(step);
        state = next;
    }
    (steps, state)
}

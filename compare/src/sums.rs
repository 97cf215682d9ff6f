//! Sums that wrap at 256, as they do where values have one byte: the same sums go on in version 3.

use second::job::{Instruction, Job};
use second::machine::{step, State, Step};

/// By version.
pub const OVER_255: [&str; 2] = [
    "an ADD over 255 in version 1",
    "an ADD over 255 in version 2",
];

/// The class that a replay is in, if it is in one.
pub fn of_replay(job: &Job, schedule: &[u8]) -> Option<&'static str> {
    let class = OVER_255.get(usize::from(job.version) - 1)?;
    let mut state = State::start(job);
    for &number in schedule {
        if adds_over_255(job, &state, number) {
            return Some(class);
        }
        state = step(job, &state, number).ok()?;
    }
    None
}

fn adds_over_255(job: &Job, state: &State, number: u8) -> bool {
    let thread = match Step::from_number(number) {
        Some(Step::Execute { thread }) => thread,
        Some(Step::Flush { .. }) | None => return false,
    };
    let next = state.threads.get(thread).and_then(|own| {
        let instruction = job.programs[thread].get(own.place)?;
        Some((own, *instruction))
    });
    match next {
        Some((own, Instruction::Add { register, value })) => own.registers[register] + value > 255,
        _ => false,
    }
}

#[cfg(test)]
mod tests {
    use super::*;
    use second::decode;
    use second::listed::{bench_list, in_version};
    use second::version_three_jobs::in_three;

    #[test]
    fn p5_wraps_with_its_second_step() {
        let p5 = bench_list().swap_remove(4);
        let met =
            |job: &[u8], schedule: &[u8]| of_replay(&decode(job).expect("P5 is sound"), schedule);
        for (version, class) in (1..).zip(OVER_255) {
            let job = in_version(&p5, version);
            assert!(class.ends_with(&format!("version {version}")));
            assert_eq!(met(&job, &[0, 0]), Some(class));
            assert_eq!(met(&job, &[0, 0, 0]), Some(class));
            // One step is not enough, and another that can't be taken stops it.
            assert_eq!(met(&job, &[0]), None);
            assert_eq!(met(&job, &[0, 1, 0]), None);
        }
        assert_eq!(met(&in_three(&p5), &[0, 0]), None);
    }
}

//! Blank goals among refused jobs: which they are, and which have a fault that is judged before.

use crate::versions::VERSION_AT;
use second::job::{item, width};
use second::listed::settled;
use second::{decode, Refusal};

#[derive(Clone, Copy, Debug, PartialEq, Eq)]
pub enum Blank {
    /// Refused because K is 0.
    Goal {
        buffers_empty: bool,
        /// Left over, if K = 0 were allowed.
        bytes_behind: bool,
    },
    /// K is 0, but the flag before it is refused.
    BehindBadFlag,
    /// The file ends where K would begin.
    CutBeforeK,
}

/// What the refused job has to do with a blank goal, if anything.
pub fn met(job: &[u8], refusal: Refusal) -> Option<Blank> {
    let (front, rest) = job.split_at(refusal.offset);
    match (refusal.number, rest) {
        (5, [0, behind @ ..]) if k_stands_behind(front) => Some(Blank::Goal {
            buffers_empty: front.last() == Some(&1),
            bytes_behind: !behind.is_empty(),
        }),
        (5, [_, 0, ..]) if k_stands_behind(&[front, &[0]].concat()) => Some(Blank::BehindBadFlag),
        (6, []) if k_stands_behind(front) => Some(Blank::CutBeforeK),
        _ => None,
    }
}

/// Whether K is what comes next: with one clause that any job may have, the file is then whole.
/// A bad clause of kind 0 is refused by 5 at a zero byte, too, and this tells it apart.
fn k_stands_behind(front: &[u8]) -> bool {
    let clause = item(3, 0, 0, 0).in_file(width(front[VERSION_AT]));
    decode(&settled([front, &[1], &clause].concat())).is_ok()
}

#[cfg(test)]
mod tests {
    use super::*;
    use second::listed::{with_byte, P1};
    use second::version_three_jobs::in_three;

    fn blank(job: Vec<u8>) -> Option<Blank> {
        let job = settled(job);
        met(&job, decode(&job).expect_err("the job is refused"))
    }

    /// P1 with these bytes for a goal.
    fn with_goal(goal: &[u8]) -> Vec<u8> {
        [&P1[..27], goal].concat()
    }

    #[test]
    fn blank_goals_are_told_by_flag_and_by_what_stands_behind() {
        for (flag, buffers_empty) in [(0, false), (1, true)] {
            for behind in [&[][..], &[0], &[1, 0, 0, 0]] {
                let goal = Blank::Goal {
                    buffers_empty,
                    bytes_behind: !behind.is_empty(),
                };
                assert_eq!(
                    blank(with_goal(&[&[flag, 0][..], behind].concat())),
                    Some(goal)
                );
            }
        }
    }

    #[test]
    fn faults_that_are_judged_before_a_blank_goal() {
        for flag in [2, 255] {
            assert_eq!(blank(with_goal(&[flag, 0])), Some(Blank::BehindBadFlag));
        }
        for flag in [0, 1] {
            assert_eq!(blank(with_goal(&[flag])), Some(Blank::CutBeforeK));
        }
    }

    #[test]
    fn other_refusals_are_no_blank_goals() {
        // Clauses of kind 0, first and last: refusal 5 at a zero byte.
        for clause in [29, 41] {
            assert_eq!(blank(with_byte(&P1, clause, 0)), None);
        }
        // A bad clause before one that begins with 0.
        assert_eq!(blank(with_goal(&[0, 2, 9, 0, 0, 0, 0, 0, 0, 0])), None);
        // A bad flag before a K that is none, and a file cut before the flag.
        assert_eq!(blank(with_goal(&[2, 1, 1, 0, 0, 0])), None);
        assert_eq!(blank(with_goal(&[])), None);
        assert_eq!(blank(with_goal(&[0, 17])), None);
        // An earlier fault in front of a blank goal.
        assert_eq!(blank(with_byte(&with_goal(&[0, 0]), 10, 10)), None);
    }

    #[test]
    fn blank_goals_where_items_are_longer() {
        // Flag and K stand at 33 and 34.
        let p1 = in_three(&P1);
        let with_goal = |goal: &[u8]| [&p1[..33], goal].concat();
        for (goal, bytes_behind) in [(&[1, 0][..], false), (&[1, 0, 1, 0, 0, 0, 0], true)] {
            let met = Blank::Goal {
                buffers_empty: true,
                bytes_behind,
            };
            assert_eq!(blank(with_goal(goal)), Some(met));
        }
        assert_eq!(blank(with_goal(&[2, 0])), Some(Blank::BehindBadFlag));
        assert_eq!(blank(with_goal(&[0])), Some(Blank::CutBeforeK));
        // Half an initial value, half an instruction, and half a clause.
        for count in [10, 14, 37] {
            assert_eq!(blank(p1[..count].to_vec()), None);
        }
        assert_eq!(blank(with_byte(&p1, 35, 0)), None);
    }
}

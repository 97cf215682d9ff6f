//! The search with an index, which request 6 brought: what its calls are about, told once for the run cases and for the comparison.

use crate::classes::those_met;
use crate::job::{decode, Model};
use crate::random::Sizes;
use crate::search::{room, room_of_index};

/// How much is lent of everything.
#[derive(Clone, Copy, Debug, PartialEq, Eq)]
pub struct Lent {
    pub sizes: Sizes,
    pub index: usize,
}

impl Lent {
    /// N.
    pub fn slots(&self) -> usize {
        self.slots_without_index().min(room_of_index(self.index))
    }

    /// What N would be by the other three.
    pub fn slots_without_index(&self) -> usize {
        let Sizes {
            table,
            links,
            schedule,
        } = self.sizes;
        room(table, links, schedule)
    }
}

// ---- how much is lent ----

pub const NO_NUMBER: &str = "an index of 0";
pub const ONE_NUMBER: &str = "an index of 1";
pub const ODD: &str = "an odd index from 3 on";
pub const EVEN: &str = "an even index from 2 on";

pub const OF_LENGTHS: [&str; 4] = [NO_NUMBER, ONE_NUMBER, ODD, EVEN];

pub fn of_length(index: usize) -> &'static str {
    match index {
        0 => NO_NUMBER,
        1 => ONE_NUMBER,
        _ if index % 2 == 1 => ODD,
        _ => EVEN,
    }
}

pub const BY_INDEX: &str = "N by the index";
pub const BY_TABLE: &str = "N by the table";
pub const BY_LINKS: &str = "N by the links";
pub const BY_SCHEDULE: &str = "N by the schedule";
pub const BY_SEVERAL: &str = "N by several alike";

pub const DECIDING: [&str; 5] = [BY_INDEX, BY_TABLE, BY_LINKS, BY_SCHEDULE, BY_SEVERAL];

/// Which of the four alone is the smallest; more slots than there ever are decide nothing.
pub fn deciding(lent: &Lent) -> &'static str {
    let none = usize::MAX;
    let Sizes {
        table,
        links,
        schedule,
    } = lent.sizes;
    let by = [
        (BY_INDEX, room_of_index(lent.index)),
        (BY_TABLE, room(table, none, none)),
        (BY_LINKS, links),
        (BY_SCHEDULE, schedule),
    ];
    let mut smallest = by.iter().filter(|(_, slots)| *slots == lent.slots());
    match (smallest.next(), smallest.next()) {
        (Some((class, _)), None) => class,
        _ => BY_SEVERAL,
    }
}

// ---- what stands in it before ----

pub const SLOT_NUMBERS: &str = "a fill with numbers of slots";
pub const GARBAGE: &str = "a fill without a number of a slot";
pub const WRAPS: &str = "a fill that goes on at 0";

pub const OF_FILLS: [&str; 3] = [SLOT_NUMBERS, GARBAGE, WRAPS];

/// What the lent index could be taken for, where there are slots.
pub fn of_fill(index: &[u32], slots: usize) -> Vec<&'static str> {
    let like_slot = |&number: &u32| (number as usize) < slots;
    let is_like = index.iter().any(like_slot);
    let mut pairs = index.windows(2);
    those_met(&[
        (SLOT_NUMBERS, is_like),
        (GARBAGE, slots > 0 && !is_like),
        (WRAPS, slots > 0 && pairs.any(|pair| pair == [u32::MAX, 0])),
    ])
}

// ---- what is answered ----

pub const REFUSED: [&str; 7] = [
    "refused by 1",
    "refused by 2",
    "refused by 3",
    "refused by 4",
    "refused by 5",
    "refused by 6",
    "refused by 7",
];
/// By number, with a number of the index that has to stay.
pub const REFUSED_WITH_NUMBERS: [&str; 7] = [
    "refused by 1 with numbers",
    "refused by 2 with numbers",
    "refused by 3 with numbers",
    "refused by 4 with numbers",
    "refused by 5 with numbers",
    "refused by 6 with numbers",
    "refused by 7 with numbers",
];
pub const NO_SLOT: &str = "refused by 7 for the index alone";
pub const FAULT_FIRST: &str = "refused by 1 to 6, else by 7 for the index alone";
pub const REACHABLE: &str = "reachable";
pub const UNREACHABLE: &str = "unreachable";
pub const UNKNOWN: &str = "unknown";
pub const UNKNOWN_BY_INDEX: &str = "unknown by the index alone";
pub const NUMBER_SHORT: &str = "unknown by one number too few";
pub const NONE_TO_SPARE: &str = "known with no number to spare";
pub const ONE_TO_SPARE: &str = "known with one number to spare";

pub const OF_ANSWERS: [&str; 9] = [
    NO_SLOT,
    FAULT_FIRST,
    REACHABLE,
    UNREACHABLE,
    UNKNOWN,
    UNKNOWN_BY_INDEX,
    NUMBER_SHORT,
    NONE_TO_SPARE,
    ONE_TO_SPARE,
];

/// The classes of an answer; `needed` is how many slots it takes not to be unknown, if that is known.
pub fn of_answer(lent: &Lent, answer: [u64; 4], needed: Option<usize>) -> Vec<&'static str> {
    let by_index = deciding(lent) == BY_INDEX;
    if let [0, number, ..] = answer {
        let at = number as usize - 1;
        return those_met(&[
            (REFUSED[at], true),
            (REFUSED_WITH_NUMBERS[at], lent.index > 0),
            (NO_SLOT, number == 7 && lent.slots_without_index() > 0),
            (
                FAULT_FIRST,
                number < 7 && lent.slots() == 0 && lent.slots_without_index() > 0,
            ),
        ]);
    }
    let is = |kind| answer[0] == kind;
    let states = match answer {
        [1, _, states, _] | [2, states, ..] => Some(states as usize),
        _ => None,
    };
    let is_enough = |slots: usize| needed.map_or(false, |needed| slots >= needed);
    let to_spare = states.map(|states| lent.index - 2 * states);
    those_met(&[
        (REACHABLE, is(1)),
        (UNREACHABLE, is(2)),
        (UNKNOWN, is(3)),
        (
            UNKNOWN_BY_INDEX,
            is(3) && is_enough(lent.slots_without_index()),
        ),
        (
            NUMBER_SHORT,
            is(3) && by_index && is_enough(room_of_index(lent.index + 1)),
        ),
        (NONE_TO_SPARE, to_spare == Some(0)),
        (ONE_TO_SPARE, to_spare == Some(1)),
    ])
}

// ---- of which jobs ----

/// Of accepted ones.
pub const VERSIONS: [&str; 3] = ["version 1", "version 2", "version 3"];
pub const MODELS: [&str; 3] = ["SC", "TSO", "PSO"];

pub fn of_job(job: &[u8]) -> Vec<&'static str> {
    let job = match decode(job) {
        Ok(job) => job,
        Err(_) => return Vec::new(),
    };
    let model = match job.model {
        Model::Sc => 0,
        Model::Tso => 1,
        Model::Pso => 2,
    };
    vec![VERSIONS[usize::from(job.version) - 1], MODELS[model]]
}

#[cfg(test)]
mod tests {
    use super::*;
    use crate::listed::P1;

    fn lent(table: usize, links: usize, schedule: usize, index: usize) -> Lent {
        Lent {
            sizes: Sizes {
                table,
                links,
                schedule,
            },
            index,
        }
    }

    #[test]
    fn one_of_four_decides_or_several() {
        for (lent, slots, class) in [
            (lent(9 * 152, 9, 9, 16), 8, BY_INDEX),
            (lent(9 * 152, 9, 9, 17), 8, BY_INDEX),
            (lent(9 * 152, 9, 9, 18), 9, BY_SEVERAL),
            (lent(9 * 152 - 1, 9, 9, 18), 8, BY_TABLE),
            (lent(9 * 152, 8, 9, 18), 8, BY_LINKS),
            (lent(9 * 152, 9, 8, 19), 8, BY_SCHEDULE),
            (lent(9 * 152, 9, 8, 17), 8, BY_SEVERAL),
            (lent(152, 1, 1, 1), 0, BY_INDEX),
            (lent(151, 1, 1, 1), 0, BY_SEVERAL),
        ] {
            assert_eq!((lent.slots(), deciding(&lent)), (slots, class), "{lent:?}");
        }
    }

    #[test]
    fn lengths_and_fills() {
        let lengths = [0, 1, 2, 3, 4, 45].map(of_length);
        assert_eq!(lengths, [NO_NUMBER, ONE_NUMBER, EVEN, ODD, EVEN, ODD]);
        assert_eq!(of_fill(&[u32::MAX, 0], 0), [""; 0]);
        assert_eq!(of_fill(&[9, 2], 3), [SLOT_NUMBERS]);
        assert_eq!(of_fill(&[3, u32::MAX], 3), [GARBAGE]);
        assert_eq!(of_fill(&[u32::MAX, 0, 1], 3), [SLOT_NUMBERS, WRAPS]);
    }

    #[test]
    fn answers_at_both_sides_of_what_p1_needs() {
        let of = |index, answer| of_answer(&lent(9152, 50, 50, index), answer, Some(22));
        assert_eq!(of(0, [0, 7, 0, 0]), ["refused by 7", NO_SLOT]);
        let numbered = ["refused by 7", "refused by 7 with numbers", NO_SLOT];
        assert_eq!(of(1, [0, 7, 0, 0]), numbered);
        assert_eq!(of(0, [0, 4, 10, 0]), ["refused by 4", FAULT_FIRST]);
        let numbered = ["refused by 4", "refused by 4 with numbers"];
        assert_eq!(of(2, [0, 4, 10, 0]), numbered);
        let short = [UNKNOWN, UNKNOWN_BY_INDEX];
        assert_eq!(of(42, [3, 21, 0, 0]), short);
        assert_eq!(
            of(43, [3, 21, 0, 0]),
            [&short[..], &[NUMBER_SHORT]].concat()
        );
        assert_eq!(of(44, [1, 4, 22, 0]), [REACHABLE, NONE_TO_SPARE]);
        assert_eq!(of(45, [1, 4, 22, 0]), [REACHABLE, ONE_TO_SPARE]);
        assert_eq!(of(46, [2, 22, 0, 0]), [UNREACHABLE]);
        // By the table.
        let by_table = lent(21 * 152, 50, 50, 44);
        assert_eq!(of_answer(&by_table, [3, 21, 0, 0], Some(22)), [UNKNOWN]);
    }

    #[test]
    fn jobs_by_version_and_model() {
        assert_eq!(of_job(&P1), ["version 1", "TSO"]);
        assert_eq!(of_job(&[0, 1, 1]), [""; 0]);
    }
}

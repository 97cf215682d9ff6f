//! Everything that is compared for one job.

use crate::blank::{self, Blank};
use crate::call::{Call, Checker, Kind};
use crate::calls::{every_call, every_indexed_call, random_for, Caller, First};
use crate::fill::Fill;
use crate::hold::{hold, hold_over_left, hold_plain, hold_refilled, hold_versions};
use crate::jobs;
use crate::rooms::{IndexedRoom, Room};
use crate::tally::Tally;
use crate::versions::other_version;
use second::random::Random;
use second::{decode, Job};

/// Differences are kept with the job's number, so that they can be put in order.
#[derive(Clone, Debug, PartialEq, Eq, PartialOrd, Ord)]
pub struct Difference {
    pub job: u64,
    pub text: String,
}

/// Compares the calls of one job and counts them; the same seed and number give the same calls.
pub fn compare_job(
    library: &dyn Checker,
    seed: u64,
    number: u64,
    tally: &mut Tally,
) -> Vec<Difference> {
    let mut random = random_for(seed, number);
    let job = jobs::job(&mut random, number);
    tally.of_requests(&job);
    let (accepted, blank) = match decode(&job) {
        Ok(accepted) => {
            tally.accepted_job(&accepted);
            (Some(accepted), None)
        }
        Err(refusal) => {
            let blank = blank::met(&job, refusal);
            tally.refused_job(refusal.number, blank);
            (None, blank)
        }
    };
    let mut comparison = Comparison {
        library,
        number,
        accepted,
        blank,
        // The job that is by far the slowest is searched in one version alone.
        other_version: match number {
            jobs::COUNTER => None,
            _ => other_version(&job),
        },
        needed: None,
        // Its own numbers, so that those of the calls hang on nothing else.
        fills: Random::new(random.clone().word()),
        tally,
        differences: Vec::new(),
    };
    let levels = every_call(&mut random, number, &job, &mut comparison);
    let levels = levels.as_ref();
    every_indexed_call(&mut random, number, &job, levels, &mut comparison);
    comparison.differences
}

/// Slots in which the look-up without an index does not take too long.
const MOST_FOR_PLAIN: usize = 4200;

struct Comparison<'a> {
    library: &'a dyn Checker,
    number: u64,
    /// The job, if it is accepted.
    accepted: Option<Job>,
    /// Of a refused job.
    blank: Option<Blank>,
    /// In which each call is made again, if it is to be.
    other_version: Option<u8>,
    /// Slots that a search takes for an answer other than unknown, once they are known.
    needed: Option<usize>,
    /// For other numbers in the same index.
    fills: Random,
    tally: &'a mut Tally,
    differences: Vec<Difference>,
}

impl Comparison<'_> {
    /// A search with an index against what the library leaves without one, with other numbers in it, and where it has been before.
    fn hold_indexed(&mut self, call: &Call, found: &Call) -> Vec<String> {
        let library = self.library;
        let fill = Fill::some(&mut self.fills);
        let numbers = fill.numbers(&mut self.fills, call.index.count());
        self.tally.indexed_again(fill);
        let mut differences = vec![
            hold_refilled(library, call, &numbers, found),
            hold_over_left(library, found),
        ];
        if call.lent().slots() <= MOST_FOR_PLAIN {
            self.tally.indexed_and_plain();
            differences.push(hold_plain(library, call, found));
        }
        differences.into_iter().flatten().collect()
    }
}

impl Caller for Comparison<'_> {
    fn make(&mut self, call: Call) -> Call {
        let given = call.clone();
        let held = hold(self.library, call);
        self.tally
            .call(&held.expected, self.accepted.as_ref(), self.needed);
        if let Some(Blank::Goal { .. }) = self.blank {
            self.tally.call_with_blank_goal(&held.expected);
        }
        let mut texts: Vec<String> = held.difference.into_iter().collect();
        if given.kind == Kind::Indexed {
            texts.extend(self.hold_indexed(&given, &held.found));
        }
        if let Some(version) = self.other_version {
            self.tally.call_in_both_versions(&held.expected);
            texts.extend(hold_versions(self.library, given, version, &held.found));
        }
        let job = self.number;
        let differences = texts.into_iter().map(|text| Difference { job, text });
        self.differences.extend(differences);
        held.expected
    }

    fn next_in(&mut self, room: &Room) {
        self.tally.room(room);
    }

    fn next_in_indexed(&mut self, room: &IndexedRoom) {
        self.tally.indexed_room(room, self.accepted.is_some());
    }

    fn first_search(&mut self, first: &First) {
        self.needed = match first.search.words() {
            [1, _, states, _] | [2, states, ..] => Some(states as usize),
            _ => None,
        };
        self.tally.first_search(first);
    }
}

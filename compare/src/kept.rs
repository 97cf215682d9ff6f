//! What request 10 leaves as it was: every answer of versions 1 and 2 in as many slots, from an archive of before and from the library.
//!
//! The slots' bytes move: those of before have values of one byte, and a table of as many slots has fewer bytes.

use crate::call::{Call, Checker, Kind, Second};
use crate::calls::{every_call, random_for, Caller};
use crate::hold::{described, Names};
use crate::jobs;
use crate::lent::Lent;
use crate::one_job::Difference;
use crate::run::Counts;
use crate::slot::{widened, LAYOUT, LAYOUT_BEFORE};
use crate::tally::answer_class;
use crate::versions::VERSION_AT;
use second::random::Random;
use std::collections::BTreeMap;

/// The version that request 10 brought: before, there was no such version.
const NEW_VERSION: u8 = 3;

const NAMES: Names = ["library", "before"];

// ---- one call ----

/// A call as the library is given it, and as the archive of before is: the same but for the table, which has as many slots.
#[derive(Clone, Debug)]
pub struct Pair {
    pub call: Call,
    pub before: Call,
}

impl Pair {
    pub fn new(random: &mut Random, call: Call) -> Pair {
        let table = table_before(call.table.count());
        let before = Call {
            table: Lent::random(random, table),
            ..call.clone()
        };
        Pair { call, before }
    }
}

/// As many slots as in so many bytes, and as much beside them: none, a byte, or all but a byte of a slot.
fn table_before(table: usize) -> usize {
    let [slot, slot_before] = [LAYOUT, LAYOUT_BEFORE].map(|layout| layout.slot_bytes());
    let beside = (table % slot).min(slot_before - 1);
    table / slot * slot_before + beside
}

/// Both sides' calls as they leave them, and what a person needs to see a difference, if there is one.
pub struct HeldPair {
    pub found: Pair,
    pub difference: Option<String>,
}

/// Words, links, schedule and job have to be the same, guards included, and each slot of the library the widened one of before.
pub fn hold_pair(library: &dyn Checker, before: &dyn Checker, given: Pair) -> HeldPair {
    let mut found = given.clone();
    library.run(&mut found.call);
    before.run(&mut found.before);
    let Pair {
        call: here,
        before: there,
    } = &found;
    let parts = [
        ("answer", here.answer.difference(&there.answer, NAMES)),
        ("job", here.job.difference(&there.job, NAMES)),
        ("links", here.links.difference(&there.links, NAMES)),
        ("schedule", here.schedule.difference(&there.schedule, NAMES)),
        ("table", tables_differ(&given, &found)),
    ];
    let difference = described(here, there, NAMES, &parts);
    HeldPair { found, difference }
}

/// Where the tables differ by more than the width of their values, or one was written where no counted state has its slot.
fn tables_differ(given: &Pair, found: &Pair) -> Option<String> {
    let [slot, slot_before] = [LAYOUT, LAYOUT_BEFORE].map(|layout| layout.slot_bytes());
    let states = counted(&found.call);
    let sides = [
        (&given.call, &found.call, slot, NAMES[0]),
        (&given.before, &found.before, slot_before, NAMES[1]),
    ];
    for (given, found, slot, name) in sides {
        let written = (states * slot).min(found.table.count());
        if !found.table.is_alike_behind(&given.table, written) {
            return Some(format!("{name} wrote outside of its {states} slots"));
        }
    }
    let slots = found.call.table.part().chunks_exact(slot);
    let before = found.before.table.part().chunks_exact(slot_before);
    let mut pairs = slots.zip(before.map(widened)).take(states).enumerate();
    pairs.find_map(|(number, (slot, wanted))| {
        let at = slot.iter().zip(&wanted).position(|(a, b)| a != b)?;
        Some(format!(
            "slot {number} first differs at its byte {at}: library {}, before (widened) {}",
            slot[at], wanted[at]
        ))
    })
}

/// How many states a search has counted.
fn counted(call: &Call) -> usize {
    match (call.kind, call.words()) {
        (Kind::Search, [1, _, states, _] | [2 | 3, states, ..]) => states as usize,
        _ => 0,
    }
}

// ---- all calls of one job that there were before ----

/// Compares the calls of one job that doesn't say version 3; the same seed and number give the same calls.
pub fn one_job<'a>(
    library: &'a dyn Checker,
    before: &'a dyn Checker,
    seed: u64,
) -> impl Fn(u64, &mut KeptTally) -> Vec<Difference> + Sync + 'a {
    move |number, tally| {
        let mut random = random_for(seed, number);
        let mut job = jobs::job(&mut random, number);
        while says_new_version(&job) {
            tally.left_out += 1;
            job = jobs::random_job(&mut random);
        }
        let mut caller = Keeping {
            library,
            before,
            random: Random::new(random.word()),
            number,
            tally,
            differences: Vec::new(),
        };
        every_call(&mut random, number, &job, &mut caller);
        caller.tally.jobs += 1;
        caller.differences
    }
}

fn says_new_version(job: &[u8]) -> bool {
    job.get(VERSION_AT) == Some(&NEW_VERSION)
}

struct Keeping<'a> {
    library: &'a dyn Checker,
    before: &'a dyn Checker,
    /// For the tables of before.
    random: Random,
    number: u64,
    tally: &'a mut KeptTally,
    differences: Vec<Difference>,
}

impl Caller for Keeping<'_> {
    fn make(&mut self, call: Call) -> Call {
        let mut expected = call.clone();
        let pair = Pair::new(&mut self.random, call);
        let HeldPair { found, difference } = hold_pair(self.library, self.before, pair);
        match difference {
            None => {
                self.tally.call(&found.call);
                found.call
            }
            Some(text) => {
                let job = self.number;
                self.differences.push(Difference { job, text });
                Second.run(&mut expected);
                expected
            }
        }
    }
}

// ---- what a run was made of ----

const VERSIONS: [&str; 3] = ["version 1", "version 2", "no version"];

#[derive(Clone, Debug, Default, PartialEq, Eq)]
pub struct KeptTally {
    pub jobs: u64,
    /// Jobs that say version 3, in place of each of which another was drawn.
    pub left_out: u64,
    /// By version and answer.
    calls: BTreeMap<(&'static str, &'static str), u64>,
    /// That were held to those of before.
    slots: u64,
    steps: u64,
}

impl Counts for KeptTally {
    fn add(&mut self, other: &KeptTally) {
        self.jobs += other.jobs;
        self.left_out += other.left_out;
        for (&class, count) in &other.calls {
            *self.calls.entry(class).or_default() += count;
        }
        self.slots += other.slots;
        self.steps += other.steps;
    }

    fn empty_classes(&self) -> Vec<String> {
        let classes = VERSIONS.into_iter().flat_map(|version| {
            answers_in(version)
                .iter()
                .map(move |&answer| (version, answer))
        });
        classes
            .filter(|&(version, answer)| self.counted(version, answer) == 0)
            .map(|(version, answer)| format!("{version}: {answer}"))
            .collect()
    }

    /// A line a version, and how much was the same.
    fn summary(&self) -> String {
        let mut text = String::new();
        for version in VERSIONS {
            let counts: Vec<String> = answers_in(version)
                .iter()
                .map(|&answer| format!("{answer} {}", self.counted(version, answer)))
                .collect();
            text += &format!("{version:20} {}\n", counts.join(", "));
        }
        text += &format!(
            "{:20} slots {} with a link each, steps of found schedules {}\n{:20} {} jobs that say version 3\n",
            "the same", self.slots, self.steps, "left out", self.left_out
        );
        text
    }
}

impl KeptTally {
    fn call(&mut self, call: &Call) {
        let version = match call.job.part().get(VERSION_AT) {
            Some(1) => VERSIONS[0],
            Some(2) => VERSIONS[1],
            _ => VERSIONS[2],
        };
        let answer = match call.words() {
            [0, number, ..] => REFUSED[number as usize - 1],
            _ => answer_class(call),
        };
        *self.calls.entry((version, answer)).or_default() += 1;
        self.slots += counted(call) as u64;
        if let (Kind::Search, [1, distance, ..]) = (call.kind, call.words()) {
            self.steps += distance;
        }
    }

    pub fn counted(&self, version: &'static str, answer: &'static str) -> u64 {
        self.calls.get(&(version, answer)).copied().unwrap_or(0)
    }
}

const REFUSED: [&str; 7] = [
    "refused by 1",
    "refused by 2",
    "refused by 3",
    "refused by 4",
    "refused by 5",
    "refused by 6",
    "refused by 7",
];

/// What can be answered to a file that says so.
fn answers_in(version: &str) -> &'static [&'static str] {
    if version == VERSIONS[2] {
        &["refused by 1", "refused by 2"]
    } else {
        &[
            "refused by 1",
            "refused by 3",
            "refused by 4",
            "refused by 5",
            "refused by 6",
            "refused by 7",
            "reachable",
            "unreachable",
            "unknown",
            "reaches",
            "falls short",
            "stuck",
            "FENCED",
            "OPEN",
        ]
    }
}

#[cfg(test)]
mod tests {
    use super::*;

    #[test]
    fn as_many_slots_and_as_much_beside_them() {
        for (table, before) in [
            (0, 0),
            (1, 1),
            (151, 95),
            (152, 96),
            (153, 97),
            (2 * 152 - 1, 2 * 96 - 1),
            (400 * 152, 400 * 96),
        ] {
            assert_eq!(table_before(table), before, "{table}");
        }
    }
}

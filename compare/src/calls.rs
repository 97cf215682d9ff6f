//! All calls of one job: searches in several rooms, replays of several schedules, the fence check, and searches with an index.

use crate::call::Call;
use crate::rooms::{IndexedRoom, Room};
use crate::{jobs, rooms, schedules};
use second::machine::SLOT_BYTES;
use second::random::Random;
use second::{decode, Job};

/// Whoever makes the calls.
pub trait Caller {
    /// Makes the call and gives it as it should be left, so that one wrong answer doesn't lead to others.
    fn make(&mut self, call: Call) -> Call;

    /// The next call is a search of an accepted job in this room.
    fn next_in(&mut self, _: &Room) {}

    /// The next call is a search with an index, in this room.
    fn next_in_indexed(&mut self, _: &IndexedRoom) {}

    /// The first search of an accepted job has been made.
    fn first_search(&mut self, _: &First) {}
}

/// The first search of an accepted job, as it should be left.
pub struct First<'a> {
    pub job: &'a Job,
    pub search: &'a Call,
    /// Of the states that it has counted.
    pub slots: &'a [u8],
    pub links: &'a [u32],
}

/// Each job has numbers of its own, whichever jobs were made before.
pub fn random_for(seed: u64, number: u64) -> Random {
    let start = Random::new(seed).word() ^ number;
    Random::new(Random::new(start).word())
}

/// The calls that there were before request 6; what they show is for those that it brought.
pub fn every_call(
    random: &mut Random,
    number: u64,
    job: &[u8],
    caller: &mut dyn Caller,
) -> Option<Levels> {
    let mut calls = Calls {
        random,
        number,
        job,
        caller,
    };
    calls.run()
}

/// The searches with an index; `levels` is there if the job is accepted.
pub fn every_indexed_call(
    random: &mut Random,
    number: u64,
    job: &[u8],
    levels: Option<&Levels>,
    caller: &mut dyn Caller,
) {
    let rooms = match levels {
        None => rooms::with_index_for_refused(random),
        Some(_) if number == jobs::COUNTER => vec![rooms::over_most_with_index(random)],
        Some(Levels { ends, are_all }) => rooms::with_index(random, ends, *are_all),
    };
    for room in rooms {
        caller.next_in_indexed(&room);
        let call = Call::indexed(random, job, room.lent, room.fill);
        caller.make(call);
    }
}

/// What the first search of an accepted job has counted.
pub struct Levels {
    /// How many states there are up to the end of each level.
    ends: Vec<usize>,
    /// Whether there is nothing more to count.
    are_all: bool,
}

struct Calls<'a> {
    random: &'a mut Random,
    number: u64,
    job: &'a [u8],
    caller: &'a mut dyn Caller,
}

impl Calls<'_> {
    fn run(&mut self) -> Option<Levels> {
        let levels = match decode(self.job) {
            Ok(decoded) => Some(self.accepted(&decoded)),
            Err(_) => {
                self.refused();
                None
            }
        };
        let call = Call::fences(self.random, self.job);
        self.caller.make(call);
        levels
    }

    fn refused(&mut self) {
        for room in rooms::for_refused(self.random) {
            self.search(&room);
        }
        for schedule in schedules::for_refused(self.random) {
            self.replay(&schedule);
        }
    }

    fn accepted(&mut self, decoded: &Job) -> Levels {
        let roomy = match self.number {
            jobs::COUNTER => rooms::over_most(),
            _ => rooms::roomy(self.random),
        };
        self.caller.next_in(&roomy);
        let first = self.search(&roomy);
        let (found, states) = match first.words() {
            [1, distance, states, _] => {
                let schedule = &first.schedule.part()[..distance as usize];
                (Some(schedule), states as usize)
            }
            [2 | 3, states, ..] => (None, states as usize),
            answer => panic!("a search of an accepted job should not answer {answer:?}"),
        };
        let links = &first.links.part()[..states];
        self.caller.first_search(&First {
            job: decoded,
            search: &first,
            slots: &first.table.part()[..states * SLOT_BYTES],
            links,
        });
        let levels = Levels {
            ends: level_ends(links),
            are_all: first.words()[0] != 3,
        };
        let more_rooms = if levels.are_all {
            rooms::about(self.random, &levels.ends)
        } else {
            rooms::within(self.random, &levels.ends)
        };
        for room in more_rooms {
            self.caller.next_in(&room);
            self.search(&room);
        }
        for schedule in schedules::for_accepted(self.random, self.job, decoded, found) {
            self.replay(&schedule);
        }
        levels
    }

    fn search(&mut self, room: &Room) -> Call {
        let call = Call::search(self.random, self.job, room.sizes);
        self.caller.make(call)
    }

    fn replay(&mut self, schedule: &[u8]) {
        let call = Call::replay(self.random, self.job, schedule);
        self.caller.make(call);
    }
}

/// How many states there are up to the end of each level, by the links of the counted states.
fn level_ends(links: &[u32]) -> Vec<usize> {
    let mut levels: Vec<usize> = Vec::new();
    let mut ends = Vec::new();
    for (slot, link) in links.iter().enumerate() {
        let before = levels.get((link / 64) as usize);
        let level = before.map_or(0, |level| level + 1);
        if levels.last().map_or(false, |&last| last < level) {
            ends.push(slot);
        }
        levels.push(level);
    }
    ends.push(links.len());
    ends
}

//! How much memory to lend for a search, and what to put into its index.

use crate::fill::Fill;
use second::index::Lent;
use second::machine::SLOT_BYTES;
use second::random::{Random, Sizes};

/// Sizes, and which edge of N they are at.
#[derive(Clone, Copy, Debug)]
pub struct Room {
    pub edge: &'static str,
    pub sizes: Sizes,
}

/// The same for a search with an index.
#[derive(Clone, Copy, Debug)]
pub struct IndexedRoom {
    pub edge: &'static str,
    pub lent: Lent,
    pub fill: Fill,
}

pub const NO_SLOT: &str = "no slot";
pub const ONE_SLOT: &str = "one slot";
pub const ONE_SHORT: &str = "one slot short";
pub const BYTE_SHORT: &str = "one byte short";
pub const JUST_ENOUGH: &str = "just enough";
pub const ONE_MORE: &str = "one slot more";
pub const LEVEL_END: &str = "whole levels";
pub const WITHIN: &str = "some of the states";
pub const ROOMY: &str = "roomy";
pub const OVER_MOST: &str = "over 65,536 slots";
pub const FEW_NUMBERS: &str = "few numbers";
pub const MANY_SLOTS: &str = "thousands of slots";

/// Searches of jobs that are never done in these slots would take too long.
const MOST_WITHIN: usize = 1024;

/// For the first search of a job, which shows how many states there are to count.
pub fn roomy(random: &mut Random) -> Room {
    let slots = match random.below(1000) {
        0..=24 => 4096,
        25..=399 => 1024,
        400..=899 => 256,
        _ => 64,
    };
    let slots = slots + random.below(8);
    Room {
        edge: ROOMY,
        sizes: sizes_for(random, slots),
    }
}

/// More than a search ever uses.
pub fn over_most() -> Room {
    let slots = 65_536;
    Room {
        edge: OVER_MOST,
        sizes: Sizes {
            table: (slots + 3) * SLOT_BYTES,
            links: slots + 1,
            schedule: slots + 2,
        },
    }
}

/// Rooms about the number of states that a search counts when it has room enough, which is the last level's end.
pub fn about(random: &mut Random, level_ends: &[usize]) -> Vec<Room> {
    let mut rooms = within(random, level_ends);
    let states = level_ends.last().copied().unwrap_or(0);
    let short = states.saturating_sub(1);
    let edges = [
        (JUST_ENOUGH, sizes_for(random, states)),
        (ONE_SHORT, sizes_for(random, short)),
        (BYTE_SHORT, byte_short(random, states)),
        (ONE_MORE, sizes_for(random, states + 1)),
    ];
    // Large searches take long, so they get fewer rooms.
    let chance = if states > 300 { 40 } else { 75 };
    for (edge, sizes) in edges {
        if random.percent(chance) {
            rooms.push(Room { edge, sizes });
        }
    }
    rooms
}

/// Rooms that hold a part of the states, or none.
pub fn within(random: &mut Random, level_ends: &[usize]) -> Vec<Room> {
    let mut rooms = Vec::new();
    if random.percent(25) {
        rooms.push(no_slot(random));
    }
    if random.percent(25) {
        rooms.push(Room {
            edge: ONE_SLOT,
            sizes: sizes_for(random, 1),
        });
    }
    if random.percent(40) {
        let states = level_ends.last().copied().unwrap_or(1);
        let slots = random.between(1, states.clamp(1, MOST_WITHIN));
        rooms.push(Room {
            edge: WITHIN,
            sizes: sizes_for(random, slots),
        });
    }
    if random.percent(40) && !level_ends.is_empty() {
        // A full table at the end of a level must not pass for the end of the search.
        let slots = random.pick(level_ends).min(MOST_WITHIN);
        rooms.push(Room {
            edge: LEVEL_END,
            sizes: sizes_for(random, slots),
        });
    }
    rooms
}

/// Any small room, none included: a refused job leaves it as it is.
pub fn for_refused(random: &mut Random) -> Vec<Room> {
    let slots = random.between(1, 30);
    let sizes = sizes_for(random, slots);
    let mut rooms = vec![Room { edge: ROOMY, sizes }];
    if random.percent(30) {
        rooms.push(no_slot(random));
    }
    rooms
}

// ---- with an index ----

/// More than a search ever uses, in the index too.
pub fn over_most_with_index(random: &mut Random) -> IndexedRoom {
    let Room { edge, sizes } = over_most();
    let lent = Lent {
        sizes,
        index: 2 * 65_536 + 3,
    };
    filled(random, edge, lent)
}

/// Rooms with an index, about the states of the levels, which may be all that there are to count.
pub fn with_index(random: &mut Random, level_ends: &[usize], are_all: bool) -> Vec<IndexedRoom> {
    let mut rooms = Vec::new();
    let states = level_ends.last().copied().unwrap_or(1);
    // Large searches take long, so they get fewer rooms.
    let chance = if states > 300 { 40 } else { 75 };
    if are_all && random.percent(chance) {
        let (edge, slots) = random.pick(&[
            (ONE_SHORT, states - 1),
            (JUST_ENOUGH, states),
            (JUST_ENOUGH, states),
            (ONE_MORE, states + 1),
        ]);
        let lent = lent_for(random, slots);
        rooms.push(filled(random, edge, lent));
    }
    if random.percent(40) {
        let slots = random.between(1, states.clamp(1, MOST_WITHIN));
        let lent = lent_for(random, slots);
        rooms.push(filled(random, WITHIN, lent));
    }
    if random.percent(40) && !level_ends.is_empty() {
        let slots = random.pick(level_ends).min(MOST_WITHIN);
        let lent = lent_for(random, slots);
        rooms.push(filled(random, LEVEL_END, lent));
    }
    if random.percent(20) {
        let slots = random.between(1, 30);
        let lent = Lent {
            sizes: sizes_for(random, slots),
            index: random.below(6),
        };
        rooms.push(filled(random, FEW_NUMBERS, lent));
    }
    if !are_all && random.below(150) == 0 {
        let slots = match random.below(100) {
            0 => 65_536,
            _ => random.between(2_000, 6_000),
        };
        let lent = lent_for(random, slots);
        rooms.push(filled(random, MANY_SLOTS, lent));
    }
    if random.percent(10) {
        rooms.push(no_slot_with_index(random));
    }
    rooms
}

/// Any small room with an index: a refused job leaves that as it is, too.
pub fn with_index_for_refused(random: &mut Random) -> Vec<IndexedRoom> {
    let slots = random.between(1, 30);
    let lent = Lent {
        sizes: sizes_for(random, slots),
        index: random.pick(&[0, 1, 2, 3, slots, 2 * slots, 2 * slots + 1, 4 * slots]),
    };
    let mut rooms = vec![filled(random, ROOMY, lent)];
    if random.percent(20) {
        rooms.push(no_slot_with_index(random));
    }
    rooms
}

/// No slot, but not by the index alone.
fn no_slot_with_index(random: &mut Random) -> IndexedRoom {
    let Room { edge, sizes } = no_slot(random);
    let lent = Lent {
        sizes,
        index: random.between(0, 12),
    };
    filled(random, edge, lent)
}

fn filled(random: &mut Random, edge: &'static str, lent: Lent) -> IndexedRoom {
    let fill = Fill::some(random);
    IndexedRoom { edge, lent, fill }
}

/// Makes N equal `slots`, by the index alone, by others or by all.
fn lent_for(random: &mut Random, slots: usize) -> Lent {
    let spare = random.pick(&[1, 1, 7, slots + 1]);
    // A number that is half of what a slot takes.
    let beside = random.below(2);
    let numbers = |slots: usize| 2 * slots + beside;
    match random.below(10) {
        0..=4 => Lent {
            sizes: sizes_for(random, slots + spare),
            index: numbers(slots),
        },
        5..=7 => Lent {
            sizes: sizes_for(random, slots),
            index: numbers(slots + spare),
        },
        _ => Lent {
            sizes: sizes_for(random, slots),
            index: numbers(slots),
        },
    }
}

// ---- sizes ----

/// Less than a slot, or no link, or no schedule byte.
fn no_slot(random: &mut Random) -> Room {
    let roomy = random.between(0, 5);
    let mut sizes = Sizes {
        table: roomy * SLOT_BYTES,
        links: roomy,
        schedule: roomy,
    };
    match random.below(3) {
        0 => sizes.table = random.pick(&[0, 1, SLOT_BYTES - 1]),
        1 => sizes.links = 0,
        _ => sizes.schedule = 0,
    }
    Room {
        edge: NO_SLOT,
        sizes,
    }
}

/// Makes N equal `slots`, with any of the three the shortest or all alike.
fn sizes_for(random: &mut Random, slots: usize) -> Sizes {
    let spare = random.pick(&[1, 1, 7, slots]);
    let shortest = random.below(4);
    let room = |which: usize| match shortest {
        3 => slots,
        _ if shortest == which => slots,
        _ => slots + spare,
    };
    let part_of_a_slot = random.pick(&[0, 0, 1, SLOT_BYTES - 1]);
    Sizes {
        table: room(0) * SLOT_BYTES + part_of_a_slot,
        links: room(1),
        schedule: room(2),
    }
}

fn byte_short(random: &mut Random, states: usize) -> Sizes {
    let spare = random.pick(&[0, 1, 7]);
    Sizes {
        table: (states * SLOT_BYTES).saturating_sub(1),
        links: states + spare,
        schedule: states + spare,
    }
}

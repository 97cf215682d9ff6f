//! The search: whole levels as sets, ordered by first shortest schedules.

use crate::job::{decode, Job, Refusal};
use crate::machine::{successors, State, SLOT_BYTES};
use std::collections::{BTreeMap, HashMap, HashSet};
use std::rc::Rc;

const MOST_SLOTS: usize = 65_536;
const START_LINK: u32 = u32::MAX;
const STEPS_PER_SLOT: usize = 64;
/// Of the index.
const NUMBERS_PER_SLOT: usize = 2;

/// One step between a state of one level and a state of the next.
#[derive(Clone, Copy, Debug, PartialEq, Eq, PartialOrd, Ord)]
struct Arrival {
    /// Slot of the state before; slots of a level are in order of first shortest schedules.
    from: usize,
    step: u8,
}

/// A counted state with every shortest way into it; the start has none.
struct Entry {
    state: Rc<State>,
    arrivals: Vec<Arrival>,
}

enum Verdict {
    Reachable { schedule: Vec<u8> },
    Unreachable,
    Unknown,
}

/// Answers 0,number,offset,0 | 1,d,states,0 | 2,states,0,0 | 3,N,0,0 and fills the lent buffers.
pub fn search(job: &[u8], table: &mut [u8], links: &mut [u32], schedule: &mut [u8]) -> [u64; 4] {
    let room = room(table.len(), links.len(), schedule.len());
    search_in(room, job, table, links, schedule)
}

/// The same with an index, half of whose length N is then also at most; how states are looked up here needs none, so its contents stay.
pub fn search_indexed(
    job: &[u8],
    table: &mut [u8],
    links: &mut [u32],
    schedule: &mut [u8],
    index: &[u32],
) -> [u64; 4] {
    let room = room(table.len(), links.len(), schedule.len());
    let room = room.min(room_of_index(index.len()));
    search_in(room, job, table, links, schedule)
}

/// N of the paper without an index, by how long the others are.
pub fn room(table: usize, links: usize, schedule: usize) -> usize {
    let sizes = [table / SLOT_BYTES, links, schedule, MOST_SLOTS];
    sizes.into_iter().min().unwrap_or(0)
}

/// What N is at most with an index of this length.
pub fn room_of_index(index: usize) -> usize {
    index / NUMBERS_PER_SLOT
}

/// The search at this N, which none of the buffers is too small for.
fn search_in(
    room: usize,
    job: &[u8],
    table: &mut [u8],
    links: &mut [u32],
    schedule: &mut [u8],
) -> [u64; 4] {
    let job = match decode(job) {
        Ok(job) => job,
        Err(refusal) => return refusal.words(),
    };
    if room == 0 {
        return Refusal {
            number: 7,
            offset: 0,
        }
        .words();
    }
    let (entries, verdict) = explore(&job, room);
    write_slots(&entries, table);
    write_links(&entries, links);
    let states = entries.len() as u64;
    match verdict {
        Verdict::Reachable { schedule: steps } => {
            schedule[..steps.len()].copy_from_slice(&steps);
            [1, steps.len() as u64, states, 0]
        }
        Verdict::Unreachable => [2, states, 0, 0],
        Verdict::Unknown => [3, room as u64, 0, 0],
    }
}

/// The counted states in slot order, never more than `room`, and what they show.
fn explore(job: &Job, room: usize) -> (Vec<Entry>, Verdict) {
    let start = Rc::new(State::start(job));
    let mut slot_of = HashMap::from([(Rc::clone(&start), 0)]);
    let mut entries = vec![Entry {
        state: Rc::clone(&start),
        arrivals: Vec::new(),
    }];
    let mut level = HashSet::from([start]);
    loop {
        // A level is asked for a goal only once it is counted in full.
        let goals = goal_slots(job, &level, &slot_of);
        if !goals.is_empty() {
            let schedule = first_schedule(&entries, goals);
            return (entries, Verdict::Reachable { schedule });
        }
        let fresh = in_schedule_order(next_level(job, &level, &slot_of));
        if fresh.is_empty() {
            return (entries, Verdict::Unreachable);
        }
        if entries.len() + fresh.len() > room {
            let free = room - entries.len();
            entries.extend(fresh.into_iter().take(free));
            return (entries, Verdict::Unknown);
        }
        level = fresh.iter().map(|entry| Rc::clone(&entry.state)).collect();
        for entry in fresh {
            slot_of.insert(Rc::clone(&entry.state), entries.len());
            entries.push(entry);
        }
    }
}

fn goal_slots(
    job: &Job,
    level: &HashSet<Rc<State>>,
    slot_of: &HashMap<Rc<State>, usize>,
) -> HashSet<usize> {
    level
        .iter()
        .filter(|state| state.is_goal(job))
        .map(|state| slot_of[state])
        .collect()
}

/// Every state one step behind the level that no earlier level holds, with all ways into it.
fn next_level(
    job: &Job,
    level: &HashSet<Rc<State>>,
    slot_of: &HashMap<Rc<State>, usize>,
) -> HashMap<State, Vec<Arrival>> {
    let mut found: HashMap<State, Vec<Arrival>> = HashMap::new();
    for state in level {
        let from = slot_of[state];
        for (step, next) in successors(job, state) {
            if !slot_of.contains_key(&next) {
                found.entry(next).or_default().push(Arrival { from, step });
            }
        }
    }
    found
}

/// A first shortest schedule is the one of its least state before, then the least last step.
fn in_schedule_order(found: HashMap<State, Vec<Arrival>>) -> Vec<Entry> {
    let mut fresh: Vec<Entry> = Vec::new();
    for (state, mut arrivals) in found {
        // The set of states came in no order, so the ways are put in theirs here.
        arrivals.sort();
        fresh.push(Entry {
            state: Rc::new(state),
            arrivals,
        });
    }
    fresh.sort_by_key(|entry| entry.arrivals[0]);
    fresh
}

/// The first of all shortest schedules to one of the goals, which are all at one distance.
fn first_schedule(entries: &[Entry], goals: HashSet<usize>) -> Vec<u8> {
    // Backward: which moves of each level still lead to a goal in the steps left.
    let mut useful_moves: Vec<HashMap<usize, BTreeMap<u8, usize>>> = Vec::new();
    let mut wanted = goals;
    while !wanted.contains(&0) {
        let mut moves: HashMap<usize, BTreeMap<u8, usize>> = HashMap::new();
        for &to in &wanted {
            for arrival in &entries[to].arrivals {
                moves
                    .entry(arrival.from)
                    .or_default()
                    .insert(arrival.step, to);
            }
        }
        wanted = moves.keys().copied().collect();
        useful_moves.push(moves);
    }
    // Forward: the least useful step each time gives the first schedule.
    let mut slot = 0;
    let mut schedule = Vec::new();
    for moves in useful_moves.iter().rev() {
        let (&step, &to) = moves[&slot]
            .iter()
            .next()
            .expect("useful states have a move");
        schedule.push(step);
        slot = to;
    }
    schedule
}

fn write_slots(entries: &[Entry], table: &mut [u8]) {
    // Only the counted slots are visited, so later ones keep their contents.
    for (entry, slot) in entries.iter().zip(table.chunks_exact_mut(SLOT_BYTES)) {
        slot.copy_from_slice(&entry.state.slot());
    }
}

fn write_links(entries: &[Entry], links: &mut [u32]) {
    for (entry, link) in entries.iter().zip(links) {
        *link = match entry.arrivals.first() {
            None => START_LINK,
            Some(first) => (first.from * STEPS_PER_SLOT + usize::from(first.step)) as u32,
        };
    }
}

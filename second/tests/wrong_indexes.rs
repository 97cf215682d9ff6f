//! A search with an index written otherwise agrees with the checker, and the cases tell each of many wrong ones from it.

use second::decode;
use second::job::Job;
use second::machine::{successors, State, SLOT_BYTES};
use second::search_cases::{self, lines, lines_by, Case, Contents, ROOM_FOR_INDEX};

/// What a search gets wrong about its index.
#[derive(Clone, Copy, Debug, PartialEq, Eq)]
enum Fault {
    // N
    WholeLength,
    HalfRoundedUp,
    IndexIgnored,
    IndexOf0IsNoIndex,
    HalfOfTheSmallest,
    QuarterOfTheLength,
    OneSlotLess,
    BytesForNumbers,
    UnknownTellsTheLength,
    UnknownTellsNWithoutIndex,
    // refusals
    NoSlotFirst,
    NoSlotBeforeTheGoal,
    NoSlotHasAnOffset,
    ClearedBeforeTheJobIsJudged,
    ClearedBeforeTheSlotsAreJudged,
    StartEnteredBeforeTheSlotsAreJudged,
    // what stands there before
    NeverCleared,
    NeverClearedAndMostIsFree,
    QuarterCleared,
    TakenWithoutComparing,
    StartNotEntered,
    // what was not lent
    ClearsTheWholeRoom,
    ClearsOneTooMany,
    LooksInTheWholeRoom,
    WritesTheLastOfTheRoom,
}

const FAULTS: [Fault; 25] = [
    Fault::WholeLength,
    Fault::HalfRoundedUp,
    Fault::IndexIgnored,
    Fault::IndexOf0IsNoIndex,
    Fault::HalfOfTheSmallest,
    Fault::QuarterOfTheLength,
    Fault::OneSlotLess,
    Fault::BytesForNumbers,
    Fault::UnknownTellsTheLength,
    Fault::UnknownTellsNWithoutIndex,
    Fault::NoSlotFirst,
    Fault::NoSlotBeforeTheGoal,
    Fault::NoSlotHasAnOffset,
    Fault::ClearedBeforeTheJobIsJudged,
    Fault::ClearedBeforeTheSlotsAreJudged,
    Fault::StartEnteredBeforeTheSlotsAreJudged,
    Fault::NeverCleared,
    Fault::NeverClearedAndMostIsFree,
    Fault::QuarterCleared,
    Fault::TakenWithoutComparing,
    Fault::StartNotEntered,
    Fault::ClearsTheWholeRoom,
    Fault::ClearsOneTooMany,
    Fault::LooksInTheWholeRoom,
    Fault::WritesTheLastOfTheRoom,
];

// ---- a search by its index ----

/// What a number of the index says.
#[derive(Clone, Copy, Debug, PartialEq, Eq)]
enum Cell {
    Free,
    /// That there is such a slot is another question.
    Slot(usize),
}

/// States by slot, with the link of each; where a state has its slot, the index says.
struct Table<'a> {
    fault: Option<Fault>,
    states: Vec<State>,
    links: Vec<u32>,
    index: &'a mut [u32],
}

impl Table<'_> {
    fn has(&self, fault: Fault) -> bool {
        self.fault == Some(fault)
    }

    /// Slots are entered from 1 on, so that 0 is free; or from 0 on, and the greatest number is.
    fn cell(&self, number: u32) -> Cell {
        match (self.has(Fault::NeverClearedAndMostIsFree), number) {
            (true, u32::MAX) | (false, 0) => Cell::Free,
            (true, slot) => Cell::Slot(slot as usize),
            (false, number) => Cell::Slot(number as usize - 1),
        }
    }

    fn number(&self, slot: usize) -> u32 {
        match self.has(Fault::NeverClearedAndMostIsFree) {
            true => slot as u32,
            false => slot as u32 + 1,
        }
    }

    /// Whether the state has a slot, and else where it can be entered; nowhere if all is taken.
    fn look_up(&self, state: &State) -> Result<(), Option<usize>> {
        let bytes = state.slot();
        let digits = bytes.iter();
        let mixed = digits.fold(0, |sum: usize, &byte| {
            (31 * sum + usize::from(byte)) % 1_000_003
        });
        let count = self.index.len();
        for beside in 0..count {
            let at = (mixed + beside) % count;
            match self.cell(self.index[at]) {
                Cell::Free => return Err(Some(at)),
                Cell::Slot(slot) => {
                    let there = self.states.get(slot);
                    let is_it = self.has(Fault::TakenWithoutComparing) || there == Some(state);
                    if there.is_some() && is_it {
                        return Ok(());
                    }
                }
            }
        }
        Err(None)
    }

    fn put(&mut self, state: State, link: u32, at: Option<usize>) {
        let is_start = self.states.is_empty();
        if let Some(at) = at {
            if !(is_start && self.has(Fault::StartNotEntered)) {
                self.index[at] = self.number(self.states.len());
            }
        }
        self.states.push(state);
        self.links.push(link);
    }

    /// What a search of the job at this N answers, and its schedule where there is one.
    fn fill(&mut self, job: &Job, room: usize) -> ([u64; 4], Vec<u8>) {
        let start = State::start(job);
        let at = self.look_up(&start).err().flatten();
        self.put(start, u32::MAX, at);
        let mut level = 0..1;
        loop {
            let goal = level.clone().find(|&slot| self.states[slot].is_goal(job));
            if let Some(slot) = goal {
                let schedule = self.way_to(slot);
                let counted = self.states.len() as u64;
                return ([1, schedule.len() as u64, counted, 0], schedule);
            }
            for slot in level.clone() {
                for (step, next) in successors(job, &self.states[slot]) {
                    if let Err(at) = self.look_up(&next) {
                        if self.states.len() == room {
                            return ([3, room as u64, 0, 0], Vec::new());
                        }
                        self.put(next, 64 * slot as u32 + u32::from(step), at);
                    }
                }
            }
            level = level.end..self.states.len();
            if level.is_empty() {
                return ([2, self.states.len() as u64, 0, 0], Vec::new());
            }
        }
    }

    fn way_to(&self, slot: usize) -> Vec<u8> {
        let mut way = Vec::new();
        let mut slot = slot;
        while slot > 0 {
            way.push((self.links[slot] % 64) as u8);
            slot = (self.links[slot] / 64) as usize;
        }
        way.reverse();
        way
    }
}

fn room(case: &Case, length: usize, fault: Option<Fault>) -> usize {
    let sizes = case.sizes;
    let smallest = (sizes.table / SLOT_BYTES)
        .min(sizes.links)
        .min(sizes.schedule);
    let by_index = match fault {
        Some(Fault::WholeLength) => length,
        Some(Fault::HalfRoundedUp) => (length + 1) / 2,
        Some(Fault::IndexIgnored) => usize::MAX,
        Some(Fault::IndexOf0IsNoIndex) if length == 0 => usize::MAX,
        Some(Fault::HalfOfTheSmallest) => return smallest.min(length) / 2,
        Some(Fault::QuarterOfTheLength) => length / 4,
        Some(Fault::OneSlotLess) => (length / 2).saturating_sub(1),
        Some(Fault::BytesForNumbers) => 4 * length / 2,
        _ => length / 2,
    };
    smallest.min(by_index)
}

fn answered(case: &Case, contents: &mut Contents, fault: Option<Fault>) -> [u64; 4] {
    let length = case.index.expect("these cases have an index").count;
    let has = |other| fault == Some(other);
    let room = room(case, length, fault);
    let no_slot = [0, 7, u64::from(has(Fault::NoSlotHasAnOffset)), 0];
    if has(Fault::ClearedBeforeTheJobIsJudged) {
        contents.index[..length].fill(0);
    }
    if has(Fault::NoSlotFirst) && room == 0 {
        return no_slot;
    }
    let job = match decode(&case.job) {
        // The goal is what is judged last of a job.
        Err(refusal) if refusal.number == 5 && room == 0 && has(Fault::NoSlotBeforeTheGoal) => {
            return no_slot;
        }
        Err(refusal) => return refusal.words(),
        Ok(job) => job,
    };
    if has(Fault::ClearedBeforeTheSlotsAreJudged) {
        contents.index[..length].fill(0);
    }
    if has(Fault::StartEnteredBeforeTheSlotsAreJudged) {
        if let Some(number) = contents.index[..length].first_mut() {
            *number = 1;
        }
    }
    if room == 0 {
        return no_slot;
    }
    let (mut answer, table, schedule) = {
        let cleared = match fault {
            Some(Fault::NeverCleared | Fault::NeverClearedAndMostIsFree) => 0..0,
            Some(Fault::QuarterCleared) => 0..length / 4,
            Some(Fault::ClearsTheWholeRoom) => 0..ROOM_FOR_INDEX,
            Some(Fault::ClearsOneTooMany) => 0..(length + 1).min(ROOM_FOR_INDEX),
            _ => 0..length,
        };
        contents.index[cleared].fill(0);
        if has(Fault::WritesTheLastOfTheRoom) {
            contents.index[ROOM_FOR_INDEX - 1] = 0;
        }
        // One who takes the index to be longer has to have some.
        let looked_in = match fault {
            Some(Fault::LooksInTheWholeRoom) => ROOM_FOR_INDEX,
            Some(Fault::IndexIgnored | Fault::IndexOf0IsNoIndex) => length.max(1),
            _ => length,
        };
        let mut table = Table {
            fault,
            states: Vec::new(),
            links: Vec::new(),
            index: &mut contents.index[..looked_in],
        };
        let (answer, schedule) = table.fill(&job, room);
        (answer, (table.states, table.links), schedule)
    };
    let (states, links) = table;
    let slots = contents.table.chunks_exact_mut(SLOT_BYTES);
    for (slot, state) in slots.zip(&states) {
        slot.copy_from_slice(&state.slot());
    }
    contents.links[..links.len()].copy_from_slice(&links);
    contents.schedule[..schedule.len()].copy_from_slice(&schedule);
    if answer[0] == 3 {
        answer[1] = match fault {
            Some(Fault::UnknownTellsTheLength) => length as u64,
            Some(Fault::UnknownTellsNWithoutIndex) => {
                let ignored = Some(Fault::IndexIgnored);
                self::room(case, length, ignored) as u64
            }
            _ => answer[1],
        };
    }
    answer
}

// ---- cases and what is told by them ----

/// A case with an index, and its lines by the checker.
type Known = (Case, String);

fn known() -> Vec<Known> {
    let mut cases = search_cases::all();
    cases.retain(|case| case.index.is_some());
    let known = cases.into_iter().map(|case| {
        let lines = lines(&case);
        (case, lines)
    });
    known.collect()
}

/// Those with an answer that begins so.
fn answered_by(known: &[Known], front: &str) -> Vec<Known> {
    let mut answered = known.to_vec();
    answered.retain(|(_, lines)| lines.starts_with(front));
    answered
}

const ANSWERS: [&str; 4] = ["REFUSED", "REACHABLE", "UNREACHABLE", "UNKNOWN"];

/// Whether so many of the cases have other lines by this search.
fn are_told(
    most: usize,
    cases: &[Known],
    search: impl Fn(&Case, &mut Contents) -> [u64; 4],
) -> bool {
    let cases = cases.iter();
    let wrong = cases.filter(|(case, right)| lines_by(case, &search) != *right);
    wrong.take(most).count() == most
}

#[test]
fn the_other_search_agrees_with_the_checker() {
    let right = |case: &Case, contents: &mut Contents| answered(case, contents, None);
    assert!(!are_told(1, &known(), right));
}

#[test]
fn the_cases_tell_every_wrong_search() {
    let cases = known();
    for fault in FAULTS {
        let wrong = |case: &Case, contents: &mut Contents| answered(case, contents, Some(fault));
        assert!(are_told(10, &cases, wrong), "{fault:?}");
    }
}

/// Answers as the checker does, and then spoils what it left.
fn spoiling(
    spoil: impl Fn(&Case, &mut Contents, [u64; 4]),
) -> impl Fn(&Case, &mut Contents) -> [u64; 4] {
    move |case, contents| {
        let answer = search_cases::answer(case, contents);
        spoil(case, contents, answer);
        answer
    }
}

/// The same, where the index is spoiled: all the room for one, and how much of it was lent.
fn spoiling_index(spoil: impl Fn(&mut [u32], usize)) -> impl Fn(&Case, &mut Contents) -> [u64; 4] {
    spoiling(move |case, contents, _| {
        let index = case.index.expect("these cases have an index");
        spoil(&mut contents.index, index.count);
    })
}

fn change(number: Option<&mut u32>) {
    if let Some(number) = number {
        *number ^= 1;
    }
}

#[test]
fn the_cases_tell_an_index_that_is_changed_on_a_refusal() {
    let cases = known();
    type Spoil = fn(&mut [u32]);
    let spoils: [(&str, Spoil); 4] = [
        ("the first number", |lent| change(lent.first_mut())),
        ("the last number", |lent| change(lent.last_mut())),
        ("all to 0", |lent| lent.fill(0)),
        ("all to the most", |lent| lent.fill(u32::MAX)),
    ];
    for number in 1..=7 {
        let refused = answered_by(&cases, &format!("REFUSED {number} "));
        for (name, spoil) in spoils {
            let wrong = spoiling_index(move |room, count| spoil(&mut room[..count]));
            assert!(are_told(20, &refused, wrong), "{name} by {number}");
        }
    }
}

#[test]
fn the_cases_tell_a_number_that_is_written_behind_those_lent() {
    let cases = known();
    for kind in ANSWERS {
        let answered = answered_by(&cases, kind);
        let next = spoiling_index(|room, count| change(room.get_mut(count)));
        let last = spoiling_index(|room, count| change(room[count..].last_mut()));
        assert!(are_told(200, &answered, next), "the next of {kind}");
        assert!(are_told(200, &answered, last), "the last of {kind}");
    }
}

#[test]
fn what_an_answer_leaves_in_the_index_is_open() {
    let cases = known();
    for kind in &ANSWERS[1..] {
        let answered = answered_by(&cases, kind);
        let other = spoiling_index(|room, count| room[..count].fill(12_345));
        assert!(!are_told(1, &answered, other), "{kind}");
    }
}

#[test]
fn the_cases_tell_wrong_slots_links_and_schedules_with_an_index() {
    let cases = known();
    type Spoil = fn(&mut Contents, [u64; 4]);
    let spoils: [(&str, Spoil); 4] = [
        ("the last slot", |contents, answer| {
            contents.table[SLOT_BYTES * counted(answer) - 1] ^= 1;
        }),
        ("the slot behind", |contents, answer| {
            contents.table[SLOT_BYTES * counted(answer)] ^= 1;
        }),
        ("the last link", |contents, answer| {
            contents.links[counted(answer) - 1] ^= 1;
        }),
        ("the step behind", |contents, answer| {
            let steps = if answer[0] == 1 { answer[1] } else { 0 };
            contents.schedule[steps as usize] ^= 1;
        }),
    ];
    for kind in &ANSWERS[1..] {
        let answered = answered_by(&cases, kind);
        for (name, spoil) in spoils {
            let wrong = spoiling(move |_, contents, answer| spoil(contents, answer));
            assert!(are_told(200, &answered, wrong), "{name} of {kind}");
        }
    }
}

fn counted(answer: [u64; 4]) -> usize {
    match answer {
        [1, _, states, _] | [2 | 3, states, ..] => states as usize,
        _ => 0,
    }
}

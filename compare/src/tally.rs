//! What a run was made of, so that a run over jobs of one kind doesn't pass for a test.

use crate::blank::Blank;
use crate::call::{Call, Kind};
use crate::calls::First;
use crate::fill::{Fill, FILLS};
use crate::pieces::{decides_alone, PIECES};
use crate::rooms::{self, IndexedRoom, Room};
use crate::run::Counts;
use crate::schedules::LONG;
use crate::{groups, lengths, sums};
use second::job::Instruction;
use second::long_threads::{ends_high, HIGH_END, HIGH_GOAL};
use second::machine::{Reason, SLOT_BYTES};
use second::version_three::{self, WIDE_CLAUSE, WIDE_K};
use second::version_two::{self, Searched, WITH_CMPX, WITH_WFENCE};
use second::{dead_code, index, long_threads, reasons, Job};
use std::collections::BTreeMap;

type Class = (&'static str, &'static str);

const NUMBERS: [&str; PIECES] = [
    "0", "1", "2", "3", "4", "5", "6", "7", "8", "9", "10", "11", "12", "13", "14", "15", "16",
    "17", "18",
];
const JOBS: &str = "jobs";
const REFUSED: &str = "jobs refused by";
const ROOM: &str = "rooms";
const SHORTEST: &str = "the shortest";
const REFUSED_SEARCHES: &str = "searches refused by";
const MODELS: [&str; 3] = ["searches, SC", "searches, TSO", "searches, PSO"];
const DISTANCE: &str = "distances";
const REPLAYS: &str = "replays";
const STUCK_BY: [&str; 3] = [
    "stuck under SC by",
    "stuck under TSO by",
    "stuck under PSO by",
];
const FULL_AT: &str = "buffer full at C";
const STUCK: [&str; 3] = ["stuck under SC", "stuck under TSO", "stuck under PSO"];
const FENCES: &str = "fence checks";
const THREADS: &str = "threads";
const VARIABLES: &str = "variables";
const CAPACITY: &str = "capacities";
const PROGRAMS: &str = "jobs with";
const GOALS: &str = "goals";
const BLANK: &str = "blank goals";
const LONG_THREADS: &str = "long threads";
const LONG_THREAD_CHECKS: &str = "long threads, checks";
const LONG_THREAD_RUNS: &str = "long threads, runs";
const DEAD_CODE: &str = "dead code";
const DEAD_CODE_CHECKS: &str = "dead code, checks";
const VERSIONS: &str = "versions";
const VERSION_SEARCHES: [&str; 3] = [
    "searches, version 1",
    "searches, version 2",
    "searches, version 3",
];
const IN_BOTH_VERSIONS: &str = "in both versions";
const LENGTHS: &str = "bytes";
const NARROW: &str = "narrow values";
const WIDE: &str = "wide values";
const WIDE_REFUSED: &str = "wide values, refused";
const WIDE_SLOTS: &str = "wide values, slots";
const WIDE_REPLAYS: &str = "wide values, replays";
const PIECE_ALONE: &str = "one piece apart";
const INDEX_ROOM: &str = "index, rooms";
const INDEX_LENGTH: &str = "index, lengths";
const INDEX_DECIDING: &str = "index, N";
const INDEX_FILL: &str = "index, fills";
const INDEX_REFILL: &str = "index, other fills";
const INDEX_ANSWER: &str = "index, answers";
const INDEX_REFUSED: &str = "index, refused by";
const INDEX_KEPT: &str = "index, kept at";
const INDEX_MODELS: [&str; 3] = ["index, SC", "index, TSO", "index, PSO"];
const INDEX_VERSIONS: [&str; 3] = ["index, version 1", "index, version 2", "index, version 3"];
const INDEX_HELD: &str = "index, held to";
const INDEX_IN_BOTH: &str = "index, in both";
const TO_PLAIN: &str = "the plain search";
const TO_ITSELF: &str = "itself over what it left";
const TO_REFILLED: &str = "itself with another fill";
const FOUND: [&str; 3] = ["reachable", "unreachable", "unknown"];

/// The sections of a version that has CMPX and WFENCE.
struct Newer {
    version: u8,
    under: &'static str,
    jobs: &'static str,
    searches: &'static str,
    slots: &'static str,
    replays: &'static str,
    checks: &'static str,
}

const TWO: Newer = Newer {
    version: 2,
    under: "version 2 under",
    jobs: "version 2",
    searches: "version 2, searches",
    slots: "version 2, slots",
    replays: "version 2, replays",
    checks: "version 2, checks",
};

const THREE: Newer = Newer {
    version: 3,
    under: "version 3 under",
    jobs: "version 3",
    searches: "version 3, searches",
    slots: "version 3, slots",
    replays: "version 3, replays",
    checks: "version 3, checks",
};

/// Every class that is named in the summary, in its order.
const SECTIONS: [(&str, &[&str]); 70] = [
    (JOBS, &["accepted", "refused"]),
    (VERSIONS, &["1", "2", "3"]),
    (LENGTHS, &lengths::OF_FILES),
    (REFUSED, &["1", "2", "3", "4", "5", "6"]),
    (THREADS, &["1", "2", "3", "4"]),
    (VARIABLES, &["1", "2", "3", "4", "5", "6", "7", "8"]),
    (CAPACITY, &["0", "1", "2", "3", "4", "5", "6", "7", "8"]),
    (
        PROGRAMS,
        &[
            "a jump back",
            "a jump to its own place",
            "a jump to place n",
            "a thread of no instructions",
        ],
    ),
    (LONG_THREADS, &long_threads::OF_JOBS),
    (LONG_THREAD_CHECKS, &long_threads::OF_FENCE_CHECKS),
    (LONG_THREAD_RUNS, &[HIGH_GOAL, HIGH_END]),
    (DEAD_CODE, &dead_code::OF_JOBS),
    (DEAD_CODE_CHECKS, &dead_code::OF_FENCE_CHECKS),
    (TWO.under, &version_two::WITH_MEMORY),
    (
        TWO.jobs,
        &[
            WITH_CMPX[0],
            WITH_CMPX[1],
            WITH_CMPX[2],
            WITH_WFENCE[0],
            WITH_WFENCE[1],
            WITH_WFENCE[2],
            version_two::NEITHER,
            version_two::IN_VERSION_ONE,
            version_two::BAD_OPERAND,
            version_two::NO_VERSION,
        ],
    ),
    (TWO.searches, &version_two::OF_SEARCHES),
    (TWO.slots, &groups::OF_SLOTS),
    (TWO.replays, &version_two::OF_REPLAYS),
    (TWO.checks, &version_two::OF_FENCE_CHECKS),
    (THREE.under, &version_two::WITH_MEMORY),
    (
        THREE.jobs,
        &[
            WITH_CMPX[0],
            WITH_CMPX[1],
            WITH_CMPX[2],
            WITH_WFENCE[0],
            WITH_WFENCE[1],
            WITH_WFENCE[2],
            version_two::NEITHER,
            version_two::BAD_OPERAND,
        ],
    ),
    (THREE.searches, &version_two::OF_SEARCHES),
    (THREE.slots, &groups::OF_SLOTS),
    (THREE.replays, &version_two::OF_REPLAYS),
    (THREE.checks, &version_two::OF_FENCE_CHECKS),
    (
        WIDE,
        &[
            version_three::WIDE_INITIAL,
            WIDE_K[0],
            WIDE_K[1],
            WIDE_K[2],
            WIDE_K[3],
            WIDE_K[4],
            WIDE_CLAUSE[0],
            WIDE_CLAUSE[1],
            version_three::AT_MOST,
            version_three::LONG_FILE,
        ],
    ),
    (
        WIDE_REFUSED,
        &[
            version_three::TOO_LONG,
            version_three::TOO_LONG_BEFORE,
            version_three::TOO_LONG_OTHERWISE,
            version_three::HALF_A_VALUE,
            version_three::HALF_A_K,
            version_three::HIGH_NOT_0,
            version_three::LOW_NOT_0,
            version_three::HIGH_PLACE,
            version_three::LOW_PLACE,
        ],
    ),
    (WIDE_SLOTS, &version_three::OF_WIDE_SEARCHES),
    (WIDE_REPLAYS, &version_three::OF_WIDE_REPLAYS),
    (NARROW, &sums::OVER_255),
    (IN_BOTH_VERSIONS, &ANSWERS),
    (
        GOALS,
        &["any buffers", "empty buffers", "1 clause", "16 clauses"],
    ),
    (
        BLANK,
        &[
            "any buffers",
            "empty buffers",
            "bytes behind",
            "behind a bad flag",
            "cut before K",
            "searches",
            "searches without a slot",
            "replays",
            "fence checks",
        ],
    ),
    (
        ROOM,
        &[
            rooms::ROOMY,
            rooms::OVER_MOST,
            rooms::WITHIN,
            rooms::LEVEL_END,
            rooms::NO_SLOT,
            rooms::ONE_SLOT,
            rooms::ONE_SHORT,
            rooms::BYTE_SHORT,
            rooms::JUST_ENOUGH,
            rooms::ONE_MORE,
        ],
    ),
    (SHORTEST, &["table", "links", "schedule"]),
    (REFUSED_SEARCHES, &["1", "2", "3", "4", "5", "6", "7"]),
    (MODELS[0], &["reachable", "unreachable", "unknown"]),
    (MODELS[1], &["reachable", "unreachable", "unknown"]),
    (MODELS[2], &["reachable", "unreachable", "unknown"]),
    (
        VERSION_SEARCHES[0],
        &["reachable", "unreachable", "unknown"],
    ),
    (
        VERSION_SEARCHES[1],
        &["reachable", "unreachable", "unknown"],
    ),
    (
        VERSION_SEARCHES[2],
        &["reachable", "unreachable", "unknown"],
    ),
    (PIECE_ALONE, &NUMBERS),
    (
        DISTANCE,
        &["0", "1 to 4", "5 to 9", "10 to 19", "20 or more"],
    ),
    (
        REPLAYS,
        &[
            "refused",
            "reaches",
            "falls short",
            "stuck",
            "over 65,536 steps",
            "stuck behind 65,536",
        ],
    ),
    // Without buffers no thread waits.
    (STUCK_BY[0], &["1", "2", "5"]),
    (STUCK_BY[1], &["1", "2", "3", "4", "5", "6"]),
    (STUCK_BY[2], &["1", "2", "3", "4", "5", "6"]),
    (FULL_AT, &["1", "2", "3", "4", "5", "6", "7", "8"]),
    (
        STUCK[0],
        &[
            reasons::ABOVE_35,
            reasons::ABSENT_THREAD,
            reasons::ABSENT_THREAD_FLUSH,
            reasons::ABSENT_VARIABLE,
            reasons::BOTH_ABSENT,
            reasons::FLUSH_OF_ENDED,
        ],
    ),
    (STUCK[1], &reasons::NEIGHBOURS),
    (STUCK[2], &reasons::NEIGHBOURS),
    (FENCES, &["refused", "FENCED", "OPEN"]),
    (
        INDEX_ROOM,
        &[
            rooms::OVER_MOST,
            rooms::MANY_SLOTS,
            rooms::WITHIN,
            rooms::LEVEL_END,
            rooms::NO_SLOT,
            rooms::FEW_NUMBERS,
            rooms::ONE_SHORT,
            rooms::JUST_ENOUGH,
            rooms::ONE_MORE,
        ],
    ),
    (INDEX_LENGTH, &index::OF_LENGTHS),
    (INDEX_DECIDING, &index::DECIDING),
    (
        INDEX_FILL,
        &[
            FILLS[0].name(),
            FILLS[1].name(),
            FILLS[2].name(),
            FILLS[3].name(),
        ],
    ),
    (
        INDEX_REFILL,
        &[
            FILLS[0].name(),
            FILLS[1].name(),
            FILLS[2].name(),
            FILLS[3].name(),
        ],
    ),
    (INDEX_ANSWER, &index::OF_ANSWERS),
    (INDEX_REFUSED, &["1", "2", "3", "4", "5", "6", "7"]),
    (INDEX_KEPT, &index::REFUSED_WITH_NUMBERS),
    (INDEX_MODELS[0], &FOUND),
    (INDEX_MODELS[1], &FOUND),
    (INDEX_MODELS[2], &FOUND),
    (INDEX_VERSIONS[0], &FOUND),
    (INDEX_VERSIONS[1], &FOUND),
    (INDEX_VERSIONS[2], &FOUND),
    (INDEX_HELD, &[TO_PLAIN, TO_REFILLED, TO_ITSELF]),
    (
        INDEX_IN_BOTH,
        &["refused", "reachable", "unreachable", "unknown"],
    ),
    (
        "calls",
        &["search", "replay", "fence check", "search with an index"],
    ),
];

/// Sections whose classes are numbers themselves, or end in one.
const NUMBERED: [&str; 19] = [
    VERSIONS,
    LENGTHS,
    TWO.under,
    THREE.under,
    REFUSED,
    REFUSED_SEARCHES,
    THREADS,
    VARIABLES,
    CAPACITY,
    DISTANCE,
    PIECE_ALONE,
    STUCK_BY[0],
    STUCK_BY[1],
    STUCK_BY[2],
    FULL_AT,
    INDEX_LENGTH,
    INDEX_REFUSED,
    INDEX_FILL,
    INDEX_REFILL,
];

#[derive(Clone, Debug, Default, PartialEq, Eq)]
pub struct Tally {
    counts: BTreeMap<Class, u64>,
    pub greatest_distance: u64,
    pub most_states: u64,
}

impl Counts for Tally {
    fn add(&mut self, other: &Tally) {
        for (&class, count) in &other.counts {
            *self.counts.entry(class).or_default() += count;
        }
        self.greatest_distance = self.greatest_distance.max(other.greatest_distance);
        self.most_states = self.most_states.max(other.most_states);
    }

    fn empty_classes(&self) -> Vec<String> {
        let classes = SECTIONS
            .iter()
            .flat_map(|&(section, classes)| classes.iter().map(move |&class| (section, class)));
        classes
            .filter(|&(section, class)| self.counted(section, class) == 0)
            .map(|(section, class)| format!("{section}: {class}"))
            .collect()
    }

    /// One line a section, and the greatest numbers.
    fn summary(&self) -> String {
        let mut text = String::new();
        for (section, classes) in SECTIONS {
            let counts: Vec<String> = classes
                .iter()
                .map(|&class| {
                    let count = self.counted(section, class);
                    if NUMBERED.contains(&section) {
                        format!("{class}: {count}")
                    } else {
                        format!("{class} {count}")
                    }
                })
                .collect();
            text += &format!("{section:20} {}\n", counts.join(", "));
        }
        let far: u64 = ["5 to 9", "10 to 19", "20 or more"]
            .iter()
            .map(|class| self.counted(DISTANCE, class))
            .sum();
        text += &format!(
            "{:20} the greatest distance {}, {far} of 5 or more; the largest search counted {} states\n",
            "", self.greatest_distance, self.most_states
        );
        text
    }
}

impl Tally {
    fn count(&mut self, section: &'static str, class: &'static str) {
        *self.counts.entry((section, class)).or_default() += 1;
    }

    /// Counts those of the classes that the section names.
    fn count_those_of(&mut self, section: &'static str, classes: &[&'static str]) {
        let mut sections = SECTIONS.iter();
        let named = sections.find(|(name, _)| *name == section);
        let (_, named) = named.expect("only a section of the summary is counted");
        for class in classes.iter().filter(|class| named.contains(class)) {
            self.count(section, class);
        }
    }

    pub fn counted(&self, section: &'static str, class: &'static str) -> u64 {
        self.counts.get(&(section, class)).copied().unwrap_or(0)
    }

    pub fn refused_job(&mut self, number: u8, blank: Option<Blank>) {
        self.count(JOBS, "refused");
        self.count(REFUSED, NUMBERS[usize::from(number)]);
        if let Some(blank) = blank {
            self.count_blank(blank);
        }
    }

    fn count_blank(&mut self, blank: Blank) {
        match blank {
            Blank::Goal {
                buffers_empty,
                bytes_behind,
            } => {
                self.count(BLANK, buffers_class(buffers_empty));
                if bytes_behind {
                    self.count(BLANK, "bytes behind");
                }
            }
            Blank::BehindBadFlag => self.count(BLANK, "behind a bad flag"),
            Blank::CutBeforeK => self.count(BLANK, "cut before K"),
        }
    }

    /// What the requests have made new about a job, accepted or refused: long threads, dead code, and versions 2 and 3.
    pub fn of_requests(&mut self, job: &[u8]) {
        self.count_those_of(LONG_THREADS, &long_threads::of_job(job));
        self.count_those_of(LONG_THREAD_CHECKS, &long_threads::of_fence_check(job));
        self.count_those_of(DEAD_CODE, &dead_code::of_job(job));
        self.count_those_of(DEAD_CODE_CHECKS, &dead_code::of_fence_check(job));
        if let Some(class) = lengths::of_file(job) {
            self.count(LENGTHS, class);
        }
        let of_two = version_two::of_job(job);
        let of_three = version_three::of_job(job);
        for (newer, classes) in [(TWO, &of_two), (THREE, &of_three)] {
            self.count_those_of(newer.under, classes);
            self.count_those_of(newer.jobs, classes);
            let checks = version_two::of_fence_check_in(newer.version, job);
            self.count_those_of(newer.checks, &checks);
        }
        self.count_those_of(WIDE, &of_three);
        self.count_those_of(WIDE_REFUSED, &of_three);
    }

    pub fn accepted_job(&mut self, job: &Job) {
        self.count(JOBS, "accepted");
        self.count(VERSIONS, NUMBERS[usize::from(job.version)]);
        self.count(THREADS, NUMBERS[job.programs.len()]);
        self.count(VARIABLES, NUMBERS[job.initial.len()]);
        self.count(CAPACITY, NUMBERS[job.capacity]);
        self.count_goal(job);
        self.count_programs(job);
    }

    fn count_goal(&mut self, job: &Job) {
        self.count(GOALS, buffers_class(job.goal.buffers_empty));
        match job.goal.clauses.len() {
            1 => self.count(GOALS, "1 clause"),
            16 => self.count(GOALS, "16 clauses"),
            _ => {}
        }
    }

    fn count_programs(&mut self, job: &Job) {
        let (mut back, mut own, mut end) = (false, false, false);
        for program in &job.programs {
            for (place, instruction) in program.iter().enumerate() {
                if let Instruction::Jump { target } | Instruction::JumpIfEqual { target, .. } =
                    *instruction
                {
                    back |= target < place;
                    own |= target == place;
                    end |= target == program.len();
                }
            }
        }
        let shapes = [
            ("a jump back", back),
            ("a jump to its own place", own),
            ("a jump to place n", end),
            (
                "a thread of no instructions",
                job.programs.iter().any(Vec::is_empty),
            ),
        ];
        for (shape, _) in shapes.into_iter().filter(|(_, met)| *met) {
            self.count(PROGRAMS, shape);
        }
    }

    /// A search of an accepted job.
    pub fn room(&mut self, room: &Room) {
        self.count(ROOM, room.edge);
        let slots = room.sizes.table / SLOT_BYTES;
        let (links, schedule) = (room.sizes.links, room.sizes.schedule);
        if slots < links.min(schedule) {
            self.count(SHORTEST, "table");
        } else if links < slots.min(schedule) {
            self.count(SHORTEST, "links");
        } else if schedule < slots.min(links) {
            self.count(SHORTEST, "schedule");
        }
    }

    /// What the first search of a job shows: the goal's distance, which pieces alone tell two of the states apart, what groups do and what wide values do.
    pub fn first_search(&mut self, first: &First) {
        let First { search, slots, .. } = *first;
        if let [1, distance, ..] = search.words() {
            self.distance(distance);
        }
        for (piece, class) in NUMBERS.iter().enumerate() {
            if decides_alone(slots, piece) {
                self.count(PIECE_ALONE, class);
            }
        }
        let job = search.job.part();
        let searched = Searched {
            answer: search.words(),
            table: slots,
            schedule: search.schedule.part(),
        };
        match first.job.version {
            1 => {}
            2 => self.of_newer_search(TWO, first, &version_two::of_search(job, searched)),
            _ => {
                let classes = version_three::of_search(job, searched);
                self.count_those_of(WIDE_SLOTS, &classes);
                self.of_newer_search(THREE, first, &classes);
            }
        }
    }

    fn of_newer_search(&mut self, newer: Newer, first: &First, classes: &[&'static str]) {
        self.count_those_of(newer.searches, classes);
        self.count_those_of(newer.slots, &groups::of_slots(first.slots, first.links));
    }

    /// The least distance of a goal, once for each job.
    fn distance(&mut self, distance: u64) {
        self.greatest_distance = self.greatest_distance.max(distance);
        let class = match distance {
            0 => "0",
            1..=4 => "1 to 4",
            5..=9 => "5 to 9",
            10..=19 => "10 to 19",
            20.. => "20 or more",
        };
        self.count(DISTANCE, class);
    }

    /// A search with an index, of a job that is accepted or is not.
    pub fn indexed_room(&mut self, room: &IndexedRoom, is_accepted: bool) {
        if is_accepted {
            self.count(INDEX_ROOM, room.edge);
            self.count(INDEX_DECIDING, index::deciding(&room.lent));
        }
        self.count(INDEX_LENGTH, index::of_length(room.lent.index));
        self.count(INDEX_FILL, room.fill.name());
    }

    /// A search with an index that was made again with another fill, and over what it left.
    pub fn indexed_again(&mut self, fill: Fill) {
        self.count(INDEX_REFILL, fill.name());
        self.count(INDEX_HELD, TO_REFILLED);
        self.count(INDEX_HELD, TO_ITSELF);
    }

    /// A search with an index that was made again without one.
    pub fn indexed_and_plain(&mut self) {
        self.count(INDEX_HELD, TO_PLAIN);
    }

    /// What was answered; the job is there when it was accepted, and how many slots it takes not to be unknown when that is known.
    pub fn call(&mut self, call: &Call, job: Option<&Job>, needed: Option<usize>) {
        match call.kind {
            Kind::Search => self.search(call.words(), job),
            Kind::Indexed => self.indexed(call, job, needed),
            Kind::Replay => self.replay(call, job),
            Kind::Fences => self.fences(call.words()),
        }
        self.high_end(call);
    }

    /// What was answered to a call that the library was given in both versions.
    pub fn call_in_both_versions(&mut self, call: &Call) {
        let section = match call.kind {
            Kind::Indexed => INDEX_IN_BOTH,
            Kind::Search | Kind::Replay | Kind::Fences => IN_BOTH_VERSIONS,
        };
        self.count(section, answer_class(call));
    }

    /// A search that finds a way, or a replay, which ends above place 32.
    fn high_end(&mut self, call: &Call) {
        let (class, steps) = match (call.kind, call.words()) {
            (Kind::Search, [1, distance, ..]) => (HIGH_GOAL, distance as usize),
            (Kind::Replay, [1..=3, ..]) => (HIGH_END, call.schedule.count()),
            _ => return,
        };
        if ends_high(call.job.part(), &call.schedule.part()[..steps]) {
            self.count(LONG_THREAD_RUNS, class);
        }
    }

    /// A call of a job that is refused for its blank goal.
    pub fn call_with_blank_goal(&mut self, call: &Call) {
        match call.kind {
            Kind::Search => {
                self.count(BLANK, "searches");
                if call.has_no_slot() {
                    self.count(BLANK, "searches without a slot");
                }
            }
            // Those are counted with the other refusals of such searches.
            Kind::Indexed => {}
            Kind::Replay => self.count(BLANK, "replays"),
            Kind::Fences => self.count(BLANK, "fence checks"),
        }
    }

    fn search(&mut self, [kind, first, second, _]: [u64; 4], job: Option<&Job>) {
        self.count("calls", "search");
        if kind == 0 {
            return self.count(REFUSED_SEARCHES, NUMBERS[first as usize]);
        }
        let states = if kind == 1 { second } else { first };
        self.most_states = self.most_states.max(states);
        if let Some(job) = job {
            let class = search_class(kind);
            self.count(MODELS[job.model as usize], class);
            self.count(VERSION_SEARCHES[usize::from(job.version) - 1], class);
        }
    }

    fn indexed(&mut self, call: &Call, job: Option<&Job>, needed: Option<usize>) {
        self.count("calls", "search with an index");
        let words = call.words();
        let classes = index::of_answer(&call.lent(), words, needed);
        self.count_those_of(INDEX_ANSWER, &classes);
        self.count_those_of(INDEX_KEPT, &classes);
        match (words, job) {
            ([0, number, ..], _) => self.count(INDEX_REFUSED, NUMBERS[number as usize]),
            ([kind, ..], Some(job)) => {
                let class = search_class(kind);
                self.count(INDEX_MODELS[job.model as usize], class);
                self.count(INDEX_VERSIONS[usize::from(job.version) - 1], class);
            }
            (_, None) => {}
        }
    }

    fn replay(&mut self, call: &Call, job: Option<&Job>) {
        let [kind, first, reason, _] = call.words();
        self.count("calls", "replay");
        self.count(REPLAYS, replay_class(kind));
        let steps = call.schedule.count() as u64;
        let taken = if kind == 3 { first } else { steps };
        if kind != 0 && taken > LONG as u64 {
            self.count(REPLAYS, "over 65,536 steps");
            if kind == 3 {
                self.count(REPLAYS, "stuck behind 65,536");
            }
        }
        if let (3, Some(job)) = (kind, job) {
            self.stuck(call, job, reason);
        }
        if let Some(job) = job {
            self.of_versions(call, job);
        }
    }

    /// What a replay meets that only one of the versions has.
    fn of_versions(&mut self, call: &Call, job: &Job) {
        let [bytes, schedule] = [call.job.part(), call.schedule.part()];
        if let Some(class) = sums::of_replay(job, schedule) {
            self.count(NARROW, class);
        }
        match job.version {
            1 => {}
            2 => self.count_those_of(TWO.replays, &version_two::of_replay(bytes, schedule)),
            _ => {
                let classes = version_three::of_replay(bytes, schedule);
                self.count_those_of(THREE.replays, &classes);
                self.count_those_of(WIDE_REPLAYS, &classes);
            }
        }
    }

    /// A stuck replay: its reason, and where another could be taken for it.
    fn stuck(&mut self, call: &Call, job: &Job, reason: u64) {
        let model = job.model as usize;
        self.count(STUCK_BY[model], NUMBERS[reason as usize]);
        if reason == u64::from(Reason::BufferFull.number()) {
            self.count(FULL_AT, NUMBERS[job.capacity]);
        }
        for class in reasons::of_replay(call.job.part(), call.schedule.part()) {
            let too_new = job.version == 1 && class == reasons::ONLY_IN_VERSION_TWO;
            let never = too_new || reasons::NEVER.contains(&class);
            assert!(!never, "{class} can't come up in version {}", job.version);
            if reasons::NEIGHBOURS.contains(&class) {
                self.count(STUCK[model], class);
            }
        }
    }

    fn fences(&mut self, [kind, ..]: [u64; 4]) {
        self.count("calls", "fence check");
        self.count(FENCES, fences_class(kind));
    }
}

/// What kind of answer a call has, whichever kind of call it is.
pub fn answer_class(call: &Call) -> &'static str {
    let [kind, ..] = call.words();
    match (call.kind, kind) {
        (_, 0) => "refused",
        (Kind::Search | Kind::Indexed, _) => search_class(kind),
        (Kind::Replay, _) => replay_class(kind),
        (Kind::Fences, _) => fences_class(kind),
    }
}

/// Every class of `answer_class`.
pub const ANSWERS: [&str; 9] = [
    "refused",
    "reachable",
    "unreachable",
    "unknown",
    "reaches",
    "falls short",
    "stuck",
    "FENCED",
    "OPEN",
];

fn search_class(kind: u64) -> &'static str {
    match kind {
        1 => "reachable",
        2 => "unreachable",
        3 => "unknown",
        0 | 4.. => panic!("{kind} is no kind of answer to a search that is not refused"),
    }
}

fn replay_class(kind: u64) -> &'static str {
    match kind {
        0 => "refused",
        1 => "reaches",
        2 => "falls short",
        3 => "stuck",
        4.. => panic!("{kind} is no kind of answer to a replay"),
    }
}

fn fences_class(kind: u64) -> &'static str {
    match kind {
        0 => "refused",
        1 => "FENCED",
        2 => "OPEN",
        3.. => panic!("{kind} is no kind of answer to a fence check"),
    }
}

fn buffers_class(buffers_empty: bool) -> &'static str {
    if buffers_empty {
        "empty buffers"
    } else {
        "any buffers"
    }
}

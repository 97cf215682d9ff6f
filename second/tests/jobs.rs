//! The jobs that a person can try: the bench list as 01 and request 8 give it, and that the handshakes are not empty shells.

use second::bench::BENCH_SLOTS;
use second::fences::{open_pairs, open_run_or_not};
use second::job::{decode, Instruction, Item, Model};
use second::job_folder::check;
use second::listed::{bench_list, every_memory, in_version, with_byte, Parts, P1, PSO, SC};
use second::machine::SLOT_BYTES;
use second::version_three_jobs::{add, in_three, jump, jump_if, FENCE, WFENCE};
use second::{bench_lines, fences, search};
use std::collections::BTreeMap;
use std::fs;
use std::path::{Path, PathBuf};

const REACHABLE: u64 = 1;
const UNREACHABLE: u64 = 2;
/// More than any of the handshakes has states.
const PLENTY: usize = 65_536;

/// The algorithms as published, and the shortened forms beside the three that outgrow the bench.
const CLASSICS: [&str; 9] = [
    "dekker",
    "peterson",
    "peterson-short",
    "szymanski",
    "szymanski-short",
    "szymanski-shorter",
    "lamport",
    "lamport-short",
    "lamport-shorter",
];

/// The sequencer with the words of 16 bits that request 10 brought.
const WORDS: &str = "sequencer-words";

/// All that stand here plain and fenced, under SC and TSO: the classics, and the sequencers of requests 2 and 10.
fn handshakes() -> impl Iterator<Item = &'static str> {
    CLASSICS.into_iter().chain(["sequencer", WORDS])
}

fn folder() -> PathBuf {
    Path::new(env!("CARGO_MANIFEST_DIR")).join("../jobs")
}

fn stored(name: &str) -> Vec<u8> {
    fs::read(folder().join(format!("{name}.job"))).unwrap()
}

fn names() -> Vec<String> {
    let files = fs::read_dir(folder()).unwrap();
    let paths = files.map(|entry| entry.unwrap().path());
    let jobs = paths.filter(|path| {
        path.extension()
            .map_or(false, |extension| extension == "job")
    });
    let mut names: Vec<String> = jobs
        .map(|path| path.file_stem().unwrap().to_string_lossy().into())
        .collect();
    names.sort();
    names
}

/// The kind of answer with so many slots that it is never unknown.
fn answer(job: &[u8]) -> u64 {
    let mut table = vec![0; PLENTY * SLOT_BYTES];
    search(job, &mut table, &mut vec![0; PLENTY], &mut vec![0; PLENTY])[0]
}

fn parts(name: &str) -> Parts {
    Parts::of(&stored(name))
}

fn programs(name: &str) -> Vec<Vec<Instruction>> {
    decode(&stored(name)).unwrap().programs
}

/// The place of a thread's critical section, as the goal names it.
fn critical(parts: &Parts, thread: usize) -> usize {
    let clause = parts.clauses[thread];
    assert_eq!((clause.first, usize::from(clause.a)), (1, thread));
    clause.k.into()
}

fn variants(handshake: &str) -> [String; 4] {
    ["plain-sc", "plain-tso", "fenced-sc", "fenced-tso"]
        .map(|variant| format!("{handshake}-{variant}"))
}

/// What the bench prints as one line; the schedule is hex digits alone, or empty, and is left out.
fn printed(output: &str) -> String {
    let lines = output.lines();
    let words = lines.filter(|line| line.chars().any(|letter| letter > 'F'));
    words.collect::<Vec<&str>>().join(", ")
}

#[test]
fn texts_jobs_and_outputs_agree() {
    assert_eq!(check(&folder()), Ok(names().len()));
}

#[test]
fn the_bench_list_is_there() {
    let listed: Vec<Vec<u8>> = names()
        .iter()
        .filter(|name| name.starts_with('p') && name.as_bytes()[1].is_ascii_digit())
        .map(|name| stored(name))
        .collect();
    assert_eq!(listed, bench_list());
    assert_eq!(stored("refused-empty"), []);
    // A byte that is no version in later requests either.
    let version = stored("refused-version");
    assert!(matches!(version[..], [0, 1, 0 | 4..=255]), "{version:?}");
    assert_eq!(stored("refused-ends-early"), [0, 1, 1]);
    assert_eq!(stored("refused-ends-early-two"), [0, 1, 2]);
    assert_eq!(stored("refused-ends-early-three"), [0, 1, 3]);
    assert_eq!(stored("refused-operation"), with_byte(&P1, 10, 0x0A));
}

#[test]
fn the_table_names_every_job_with_its_answer() {
    let page = fs::read_to_string(folder().join("README.md")).unwrap();
    let rows = page.lines().filter_map(|line| line.strip_prefix("| `"));
    let said: BTreeMap<String, String> = rows
        .map(|row| {
            let cells: Vec<&str> = row.split(" | ").collect();
            (cells[0].replace('`', ""), cells[3].to_string())
        })
        .collect();
    let expected: BTreeMap<String, String> = names()
        .into_iter()
        .map(|name| {
            let output = bench_lines(&stored(&name));
            (name, printed(&output))
        })
        .collect();
    assert_eq!(said, expected);
}

#[test]
fn the_handshakes_answer_as_published_when_there_is_room() {
    for handshake in handshakes() {
        let answers = variants(handshake).map(|name| answer(&stored(&name)));
        let published = [UNREACHABLE, REACHABLE, UNREACHABLE, UNREACHABLE];
        assert_eq!(answers, published, "{handshake}");
    }
}

#[test]
fn each_classic_shows_its_violation_on_the_bench_in_some_form() {
    for classic in ["dekker", "peterson", "szymanski", "lamport", "sequencer"] {
        let forms = names().into_iter().filter(|name| {
            name.starts_with(classic) && name.ends_with("-plain-tso") && !name.starts_with(WORDS)
        });
        let shown = forms.filter(|name| bench_lines(&stored(name)).starts_with("REACHABLE "));
        assert!(shown.count() >= 1, "{classic}");
    }
}

#[test]
fn what_has_from_401_to_640_states_is_unknown_now() {
    let states = |name: &str| {
        let mut table = vec![0; 640 * SLOT_BYTES];
        let bytes = stored(name);
        match search(&bytes, &mut table, &mut vec![0; 640], &mut vec![0; 640]) {
            [1, _, states, _] | [2, states, ..] => states as usize,
            _ => 0,
        }
    };
    let moved = names()
        .into_iter()
        .filter(|name| states(name) > BENCH_SLOTS);
    let moved: Vec<String> = moved.collect();
    let expected = [
        "lamport-plain-sc",
        "lamport-short-fenced-tso",
        "lamport-short-plain-tso",
        "peterson-plain-tso",
        "sequencer-longest-fenced-tso",
        "sequencer-longest-plain-tso",
        "sequencer-plain-tso",
        "szymanski-short-plain-tso",
    ];
    assert_eq!(moved, expected);
    for name in expected {
        assert!(bench_lines(&stored(name)).starts_with("UNKNOWN 400\n"));
    }
}

#[test]
fn model_and_fences_are_all_that_differs() {
    for name in handshakes() {
        let names = variants(name);
        let [plain_programs, _, fenced_programs, _] = names.clone().map(|name| programs(&name));
        let [plain, plain_tso, fenced, fenced_tso] = names.map(|name| parts(&name));
        for (sc, tso) in [(&plain, &plain_tso), (&fenced, &fenced_tso)] {
            assert_eq!((sc.memory, tso.memory[0]), (SC, 1), "{name}");
            assert_eq!(sc.initial, tso.initial, "{name}");
            assert_eq!(sc.programs, tso.programs, "{name}");
            assert_eq!(sc.clauses, tso.clauses, "{name}");
        }
        assert_eq!(plain.initial, fenced.initial, "{name}");
        for (without, with) in plain_programs.iter().zip(&fenced_programs) {
            assert_eq!(without, &without_fences(with), "{name}");
        }
        for (thread, program) in fenced_programs.iter().enumerate() {
            let place = critical(&fenced, thread);
            let moved = place - fences_before(program, place);
            assert_eq!(critical(&plain, thread), moved, "{name}");
        }
    }
}

fn fences_before(program: &[Instruction], place: usize) -> usize {
    let before = program[..place].iter();
    before
        .filter(|&&instruction| instruction == Instruction::Fence)
        .count()
}

/// The program with its fences taken out and its jumps led to the same instructions.
fn without_fences(program: &[Instruction]) -> Vec<Instruction> {
    let moved = |target: usize| target - fences_before(program, target);
    let kept = program
        .iter()
        .filter(|&&instruction| instruction != Instruction::Fence);
    kept.map(|&instruction| match instruction {
        Instruction::Jump { target } => Instruction::Jump {
            target: moved(target),
        },
        Instruction::JumpIfEqual {
            register,
            target,
            value,
        } => Instruction::JumpIfEqual {
            register,
            target: moved(target),
            value,
        },
        other => other,
    })
    .collect()
}

#[test]
fn each_thread_gets_in_alone_and_beside_the_other() {
    let names = handshakes().flat_map(variants);
    let others = LONGEST.into_iter().chain(WARM).chain(PARKED).chain(REVIVED);
    for name in names.chain(others.map(str::to_string)) {
        for thread in 0..2 {
            let mut parts = parts(&name);
            assert_eq!(parts.flag, 1, "{name}");
            parts.clauses = vec![parts.clauses[thread]];
            assert_eq!(answer(&parts.file()), REACHABLE, "{name} {thread}");
            // Alone: the other thread is empty and has not announced itself; a word that counts requests stays as it was.
            parts.programs[1 - thread].clear();
            if !name.starts_with(WORDS) {
                parts.initial.fill(0);
            }
            assert_eq!(answer(&parts.file()), REACHABLE, "{name} {thread} alone");
        }
    }
}

#[test]
fn without_its_guard_a_classic_fails_under_sc() {
    for classic in CLASSICS {
        for variant in ["plain-sc", "fenced-sc"] {
            let name = format!("{classic}-{variant}");
            let mut parts = parts(&name);
            let mut dropped = 0;
            for thread in 0..2 {
                let critical = critical(&parts, thread) as u8;
                for item in parts.programs[thread].iter_mut() {
                    // The test that lets a thread in now lets it in whatever was loaded.
                    if item.first == 8 && item.b == critical {
                        *item = jump(critical);
                        dropped += 1;
                    }
                }
            }
            // Full Szymanski waits by jumps back, so there the last wait is passed over.
            if dropped == 0 {
                let critical = critical(&parts, 1);
                parts.programs[1][critical - 3] = jump(critical as u8);
            }
            assert_eq!(answer(&parts.file()), REACHABLE, "{name}");
        }
    }
}

#[test]
fn no_fence_of_a_fenced_handshake_is_idle() {
    let names = handshakes().map(|handshake| format!("{handshake}-fenced-tso"));
    for name in names.chain([LONGEST[1], PARKED[0], PARKED[1]].map(str::to_string)) {
        assert_eq!(fences(&stored(&name))[0], 1, "{name}");
        let whole = parts(&name);
        for thread in 0..2 {
            for place in 0..whole.programs[thread].len() {
                if whole.programs[thread][place] == FENCE {
                    let mut parts = whole.clone();
                    parts.programs[thread][place] = NOTHING;
                    assert_eq!(fences(&parts.file())[0], 2, "{name} {thread} {place}");
                }
            }
        }
    }
}

const NOTHING: Item = add(3, 0);

/// The sequencers that fill a thread.
const LONGEST: [&str; 2] = [
    "sequencer-longest-plain-tso",
    "sequencer-longest-fenced-tso",
];

/// Their states fit the bench, where those of `sequencer-plain-tso` and of the first that fills a thread do not.
const WARM: [&str; 2] = [
    "sequencer-warm-plain-tso",
    "sequencer-longest-warm-plain-tso",
];

#[test]
fn a_warm_start_is_one_jump_over_the_first_steps() {
    for (warm, whole) in WARM.into_iter().zip(["sequencer-plain-tso", LONGEST[0]]) {
        let mut parts = parts(whole);
        parts.programs[0][0] = jump(17);
        assert_eq!(stored(warm), parts.file());
        // Whatever the steps passed over have left in registers and cards, the rest goes on: alone it comes to the engine from either start.
        parts.programs[1].clear();
        parts.clauses.truncate(1);
        assert_eq!(answer(&parts.file()), REACHABLE, "{warm}");
    }
}

#[test]
fn the_longest_fenced_sequencer_is_signed_from_sc() {
    let mut parts = parts(LONGEST[1]);
    parts.memory = SC;
    assert_eq!(stored("sequencer-longest-fenced-sc"), parts.file());
    assert_eq!(answer(&stored(LONGEST[1])), UNREACHABLE);
}

#[test]
fn the_sequencers_have_the_lengths_that_their_names_and_request_2_say() {
    let length = |name: &str| parts(name).programs[0].len();
    for model in ["sc", "tso"] {
        assert_eq!(length(&format!("sequencer-plain-{model}")), 51);
        assert_eq!(length(&format!("sequencer-fenced-{model}")), 52);
    }
    assert_eq!(LONGEST.map(length), [64, 64]);
    assert_eq!(LONGEST.map(|name| critical(&parts(name), 0)), [64, 64]);
}

#[test]
fn without_its_guard_a_sequencer_or_a_parked_store_fails_under_sc() {
    let names = [
        "sequencer-plain-sc",
        "sequencer-fenced-sc",
        "sequencer-words-plain-sc",
        "sequencer-words-fenced-sc",
    ];
    let others = LONGEST.into_iter().chain(WARM).chain(PARKED);
    for name in names.into_iter().chain(others) {
        for thread in 0..2 {
            let mut parts = parts(name);
            parts.memory = SC;
            // The JEQ before the owning place leads away from it while the other asks.
            let guard = critical(&parts, thread) - 1;
            assert_eq!(parts.programs[thread][guard].first, 8, "{name} {thread}");
            parts.programs[thread][guard] = NOTHING;
            assert_eq!(answer(&parts.file()), REACHABLE, "{name} {thread}");
        }
    }
}

#[test]
fn what_is_signed_from_sc_holds_for_every_capacity() {
    for capacity in 1..=8 {
        for name in ["sequencer-fenced-tso", "sequencer-words-fenced-tso"] {
            let mut parts = parts(name);
            parts.memory[1] = capacity;
            assert_eq!(answer(&parts.file()), UNREACHABLE, "{name} C {capacity}");
        }
    }
}

#[test]
fn where_no_fence_has_room_an_exchange_takes_the_place_of_the_store() {
    let [plain, fenced] = LONGEST.map(parts);
    let stores = plain.programs[0].iter().enumerate();
    let stores: Vec<usize> = stores
        .filter(|(_, item)| matches!(item.first, 4 | 5))
        .map(|(place, _)| place)
        .collect();
    assert_eq!(stores, [61]);
    let mut exchanged = plain.programs[0].clone();
    exchanged[61].first = 7;
    assert_eq!(exchanged, fenced.programs[0]);
    let [plain, fenced] = LONGEST.map(programs);
    assert_eq!(plain[1], without_fences(&fenced[1]));
    let answers = LONGEST.map(|name| (answer(&stored(name)), fences(&stored(name))));
    assert_eq!(answers[0], (REACHABLE, [2, 0, 61, 62]));
    assert_eq!(answers[1], (UNREACHABLE, [1, 0, 0, 0]));
}

#[test]
fn the_thread_of_65_is_the_longest_sequencer_with_a_fence_put_in() {
    let mut parts = parts(LONGEST[0]);
    // Behind the store at 61; what lies above it moves by one, in the jump and in the clause.
    parts.programs[0].insert(62, FENCE);
    parts.programs[0][64].b += 1;
    parts.clauses[0].k += 1;
    assert_eq!(stored("refused-thread-of-65"), parts.file());
    let n = 7 + parts.initial.len();
    let refused = format!("REFUSED 4 {n}\nHOLD\n");
    assert_eq!(bench_lines(&parts.file()), refused);
}

#[test]
fn the_shortest_way_to_the_sequencers_fault_is_as_told_in_the_readme() {
    for (name, executions) in [(WARM[0], 33), (WARM[1], 48)] {
        let output = bench_lines(&stored(name));
        let way = output.lines().nth(1).unwrap();
        let told = format!("{}01 01 01 04 0D", "00 ".repeat(executions));
        assert_eq!(way, told, "{name}");
    }
    // From a cold start it runs 16 steps for the one jump.
    for (name, executions) in [("sequencer-plain-tso", 48), (LONGEST[0], 63)] {
        let mut schedule = vec![0; PLENTY];
        let mut table = vec![0; PLENTY * SLOT_BYTES];
        let found = search(
            &stored(name),
            &mut table,
            &mut vec![0; PLENTY],
            &mut schedule,
        );
        let told = [&vec![0; executions][..], &[1, 1, 1, 4, 13]].concat();
        assert_eq!(found[..2], [1, told.len() as u64], "{name}");
        assert_eq!(schedule[..told.len()], told, "{name}");
    }
}

/// The false alarm of request 4.
const PARKED: [&str; 2] = ["parked-store-sc", "parked-store-tso"];

/// The same with a jump back to the parked store.
const REVIVED: [&str; 2] = ["parked-store-revived-sc", "parked-store-revived-tso"];

/// What the bench printed when every place counted, run or not.
fn printed_before(name: &str) -> String {
    let job = stored(name);
    let decoded = decode(&job).unwrap();
    let now = printed(&bench_lines(&job));
    let search = now.split(", ").next().unwrap();
    let (fences, fenced) = match open_run_or_not(&decoded).into_iter().next() {
        None => ("FENCED".to_string(), true),
        Some(pair) => (
            format!("OPEN {} {} {}", pair.thread, pair.store, pair.load),
            false,
        ),
    };
    // All of these have flag 1.
    let signed = decoded.model != Model::Sc || fenced;
    let verdict = if signed && search.starts_with("UNREACHABLE") {
        "RELEASE"
    } else {
        "HOLD"
    };
    format!("{search}, {fences}, {verdict}")
}

#[test]
fn the_parked_store_was_a_false_alarm() {
    for (name, before, now) in [
        (
            PARKED[0],
            "UNREACHABLE 63, OPEN 0 1 2, HOLD",
            "UNREACHABLE 63, FENCED, RELEASE",
        ),
        (
            PARKED[1],
            "UNREACHABLE 112, OPEN 0 1 2, RELEASE",
            "UNREACHABLE 112, FENCED, RELEASE",
        ),
    ] {
        assert_eq!(printed_before(name), before);
        assert_eq!(printed(&bench_lines(&stored(name))), now);
    }
}

#[test]
fn the_texts_of_the_parked_store_say_what_was_printed_and_what_is() {
    for name in PARKED.into_iter().chain(REVIVED) {
        let text = fs::read_to_string(folder().join(format!("{name}.txt"))).unwrap();
        let before = format!("for these bytes: {}.\n", printed_before(name));
        let now = format!(": {}.\n", printed(&bench_lines(&stored(name))));
        assert!(text.contains(&before), "{name}: {before}");
        assert_eq!(text.matches("Now it prints").count(), 1, "{name}");
        let (_, behind) = text.split_once("Now it prints").unwrap();
        assert!(behind.split_inclusive('\n').next().unwrap().ends_with(&now));
    }
}

#[test]
fn no_other_job_has_another_answer_than_before_request_4() {
    for name in names() {
        if let Ok(job) = decode(&stored(&name)) {
            let moved = open_run_or_not(&job) != open_pairs(&job);
            assert_eq!(moved, PARKED.contains(&name.as_str()), "{name}");
        }
    }
}

#[test]
fn one_byte_revives_the_parked_store() {
    for (parked, revived) in PARKED.into_iter().zip(REVIVED) {
        // Head and values take 9 bytes, then comes n, and the p of a jump is its third byte.
        let target = 9 + 1 + 4 * 10 + 2;
        assert_eq!(stored(parked)[target], 5);
        assert_eq!(with_byte(&stored(parked), target, 1), stored(revived));
        assert_eq!(fences(&stored(revived)), [2, 0, 1, 2]);
    }
}

#[test]
fn the_parked_store_is_safe_and_the_revived_one_not_at_every_capacity() {
    for capacity in 1..=8 {
        for (name, expected) in [(PARKED[1], UNREACHABLE), (REVIVED[1], REACHABLE)] {
            let mut parts = parts(name);
            parts.memory[1] = capacity;
            assert_eq!(answer(&parts.file()), expected, "{name} C {capacity}");
        }
    }
}

#[test]
fn a_fence_behind_the_revived_store_mends_it() {
    let mut parts = parts(REVIVED[1]);
    parts.programs[0].insert(2, FENCE);
    for item in &mut parts.programs[0] {
        if matches!(item.first, 8 | 9) && item.b > 1 {
            item.b += 1;
        }
    }
    parts.clauses[0].k += 1;
    assert_eq!(fences(&parts.file()), [1, 0, 0, 0]);
    assert_eq!(answer(&parts.file()), UNREACHABLE);
}

/// The jobs of request 7: plain, and with a WFENCE before the last store.
const MESSAGE: [&str; 2] = ["message-passing-plain-pso", "message-passing-wfence-pso"];
const LOCK: [&str; 2] = ["cmpx-lock-plain-pso", "cmpx-lock-wfence-pso"];

#[test]
fn a_wfence_before_the_last_store_is_all_that_differs() {
    // The second thread of the message only loads.
    for (names, with_wfence) in [(MESSAGE, 0..1), (LOCK, 0..2)] {
        let [mut plain, wfence] = names.map(parts);
        for program in &mut plain.programs[with_wfence] {
            program.insert(program.len() - 1, WFENCE);
        }
        assert_eq!(plain.file(), stored(names[1]));
        assert_eq!((wfence.version, wfence.memory), (2, [PSO, 2]));
    }
    let p6 = stored("p06-message-passing-pso");
    assert_eq!(stored(MESSAGE[0]), in_version(&p6, 2));
}

#[test]
fn the_wfence_decides_under_pso_from_two_stores_on_and_nowhere_else() {
    for names in [MESSAGE, LOCK] {
        for memory in every_memory() {
            let answers = names.map(|name| {
                let parts = Parts {
                    memory,
                    ..parts(name)
                };
                answer(&parts.file())
            });
            let plain = match memory {
                [PSO, 2..=8] => REACHABLE,
                _ => UNREACHABLE,
            };
            assert_eq!(answers, [plain, UNREACHABLE], "{names:?} {memory:?}");
        }
    }
}

#[test]
fn each_gear_is_put_in_mesh_alone_and_beside_the_other() {
    for name in LOCK {
        for thread in 0..2 {
            let mut parts = parts(name);
            parts.clauses = vec![parts.clauses[thread]];
            assert_eq!(answer(&parts.file()), REACHABLE, "{name} {thread}");
            parts.programs[1 - thread].clear();
            assert_eq!(answer(&parts.file()), REACHABLE, "{name} {thread} alone");
        }
    }
}

#[test]
fn without_its_test_behind_the_cmpx_the_lock_fails_under_sc() {
    for name in LOCK {
        for thread in 0..2 {
            let mut parts = parts(name);
            parts.memory = SC;
            assert_eq!(parts.programs[thread][2], jump_if(0, 0, 1));
            parts.programs[thread][2] = NOTHING;
            assert_eq!(answer(&parts.file()), REACHABLE, "{name} {thread}");
        }
    }
}

#[test]
fn the_jobs_of_versions_2_and_3_fit_the_bench() {
    let words = variants(WORDS);
    let names = [MESSAGE, LOCK].concat();
    for name in names.into_iter().chain(words.iter().map(String::as_str)) {
        let output = bench_lines(&stored(name));
        let states = output.lines().next().unwrap().rsplit(' ').next().unwrap();
        assert!(states.parse::<usize>().unwrap() <= BENCH_SLOTS, "{name}");
        assert!(!output.starts_with("UNKNOWN"), "{name}");
    }
}

#[test]
fn the_sequencer_with_words_hangs_on_both_bytes() {
    for name in variants(WORDS) {
        let mut low_bytes = parts(&name);
        assert_eq!((low_bytes.version, low_bytes.initial[1]), (3, 0xFF00));
        // In version 2 only the low bytes are written: then the watch seems to ask from the start, and the sequencer never owns the engine.
        low_bytes.version = 2;
        low_bytes.clauses.truncate(1);
        assert_eq!(answer(&low_bytes.file()), UNREACHABLE, "{name}");
    }
}

#[test]
fn the_refusals_of_version_3_differ_from_p1_in_one_byte_or_are_its_beginning() {
    let p1 = in_three(&P1);
    assert_eq!(bench_lines(&p1), bench_lines(&P1));
    // The high byte behind the first LOAD, and that of the first clause's place.
    assert_eq!(stored("refused-high-byte"), with_byte(&p1, 20, 1));
    assert_eq!(stored("refused-high-place"), with_byte(&p1, 38, 1));
    let half = stored("refused-half-a-value");
    assert_eq!(half[2..], p1[2..10]);
}

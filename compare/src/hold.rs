//! One call on both sides, in both versions of the job, or with an index and without, over equal memory.

use crate::call::{Call, Checker, Kind, Second};
use crate::lent::Lent;
use crate::versions::VERSION_AT;
use second::hex::to_hex;

/// Longer schedules are printed as far as this; job number and seed give them whole.
const SHOWN_STEPS: usize = 512;

pub struct Held {
    /// The call as the library leaves it.
    pub found: Call,
    /// The call as the second checker leaves it.
    pub expected: Call,
    /// What a person needs to see the difference again, if there is one.
    pub difference: Option<String>,
}

/// The library has to leave exactly what the second checker leaves, guards included; in an index only after a refusal.
pub fn hold(library: &dyn Checker, call: Call) -> Held {
    let mut expected = call.clone();
    let mut found = call;
    library.run(&mut found);
    Second.run(&mut expected);
    let difference = difference(&found, &expected, ["library", "second checker"]);
    Held {
        found,
        expected,
        difference,
    }
}

/// The same call with the job in its other version: the library has to leave exactly what it has left before, but for the version.
pub fn hold_versions(
    library: &dyn Checker,
    call: Call,
    other_version: u8,
    found: &Call,
) -> Option<String> {
    let version = call.job.part()[VERSION_AT];
    let mut again = call;
    again.job.part_mut()[VERSION_AT] = other_version;
    library.run(&mut again);
    // What the library itself may have put there is left to be seen.
    if again.job.part()[VERSION_AT] == other_version {
        again.job.part_mut()[VERSION_AT] = version;
    }
    let [one, two] = if version < other_version {
        [found, &again]
    } else {
        [&again, found]
    };
    difference(one, two, ["version 1 has", "version 2 has"])
}

/// The library's own plain search at the same N: in as many links of the same memory it has to leave what it has left with an index.
pub fn hold_plain(library: &dyn Checker, call: &Call, found: &Call) -> Option<String> {
    let slots = call.lent().slots();
    let mut plain = Call {
        kind: Kind::Search,
        links: call.links.cut_to(slots),
        index: Lent::none(),
        ..call.clone()
    };
    library.run(&mut plain);
    let names = ["without an index", "with an index"];
    let parts = parts_but_index(&plain, found, names);
    described(&plain, found, names, &parts)
}

/// The same call with other numbers in the index: all but these has to come out as it has before.
pub fn hold_refilled(
    library: &dyn Checker,
    call: &Call,
    numbers: &[u32],
    found: &Call,
) -> Option<String> {
    let mut refilled = call.clone();
    refilled.index.part_mut().copy_from_slice(numbers);
    hold_again(
        library,
        refilled,
        found,
        ["with another index", "with one index"],
    )
}

/// The same call in the memory that it has left, where slots and index are already there: nothing but the index may change.
pub fn hold_over_left(library: &dyn Checker, found: &Call) -> Option<String> {
    hold_again(library, found.clone(), found, ["once more", "once"])
}

fn hold_again(library: &dyn Checker, call: Call, found: &Call, names: Names) -> Option<String> {
    let mut again = call.clone();
    library.run(&mut again);
    let [name, _] = names;
    let mut parts = parts_but_index(&again, found, names);
    let kept = index_difference(&again, &call, [name, "before it"]);
    parts.push(("index", kept));
    described(&again, found, names, &parts)
}

/// Whose calls they are, for a person.
pub type Names = [&'static str; 2];

/// What differs in a part of two calls, by the part's name.
pub type Part = (&'static str, Option<String>);

fn difference(here: &Call, there: &Call, names: Names) -> Option<String> {
    let mut parts = parts_but_index(here, there, names);
    parts.push(("index", index_difference(here, there, names)));
    described(here, there, names, &parts)
}

fn parts_but_index(here: &Call, there: &Call, names: Names) -> Vec<Part> {
    vec![
        ("answer", here.answer.difference(&there.answer, names)),
        ("job", here.job.difference(&there.job, names)),
        ("table", here.table.difference(&there.table, names)),
        ("links", here.links.difference(&there.links, names)),
        ("schedule", here.schedule.difference(&there.schedule, names)),
    ]
}

/// What stands in an index after an answer is open; its guards are not, and neither is it after a refusal.
fn index_difference(here: &Call, there: &Call, names: Names) -> Option<String> {
    let mut index = here.index.clone();
    if !here.is_refused() {
        index.part_mut().copy_from_slice(there.index.part());
    }
    index.difference(&there.index, names)
}

/// The calls, and what differs in each part of them; nothing if nothing does.
pub fn described(here: &Call, there: &Call, names: Names, parts: &[Part]) -> Option<String> {
    let differing = parts.iter().filter_map(|(part, text)| {
        let text = text.as_ref()?;
        Some(format!("  {part}: {text}\n"))
    });
    let differing: String = differing.collect();
    (!differing.is_empty()).then(|| description(here, there, names) + &differing)
}

fn description(here: &Call, there: &Call, [name, other_name]: Names) -> String {
    let lent = || {
        format!(
            "{} table bytes, {} links, {} schedule bytes",
            there.table.count(),
            there.links.count(),
            there.schedule.count()
        )
    };
    let what = match there.kind {
        Kind::Search => format!("search with {}", lent()),
        Kind::Indexed => format!(
            "search with {} and an index of {}",
            lent(),
            there.index.count()
        ),
        Kind::Replay => format!("replay of {}", shown(there.schedule.part())),
        Kind::Fences => "fence check".to_string(),
    };
    format!(
        "  {what}\n  job {}\n  {name} {}\n  {other_name} {}\n",
        to_hex(there.job.part()),
        words_line(here.words()),
        words_line(there.words())
    )
}

fn shown(schedule: &[u8]) -> String {
    if schedule.len() <= SHOWN_STEPS {
        format!("{} steps: {}", schedule.len(), to_hex(schedule))
    } else {
        let front = to_hex(&schedule[..SHOWN_STEPS]);
        format!("{} steps, the first of them: {front}", schedule.len())
    }
}

fn words_line([a, b, c, d]: [u64; 4]) -> String {
    format!("{a} {b} {c} {d}")
}

//! The table by which the order of pieces is chosen: at which piece two different states first differ.

use compare::pieces::{from_the_front, Told, PIECE, PIECES};
use compare::ring::{ring, BENCH_SLOTS, MODELS, SLOTS};
use compare::slot::LAYOUT;
use second::decode;
use second::machine::SLOT_BYTES;
use std::fs;
use std::path::Path;
use std::process::ExitCode;

const USAGE: &str = "use: pieces (without arguments; it takes some seconds)";

const CLASSICS: [&str; 6] = [
    "dekker",
    "peterson",
    "szymanski",
    "szymanski-short",
    "lamport",
    "lamport-short",
];

fn main() -> ExitCode {
    if let Some(argument) = std::env::args().nth(1) {
        eprintln!("pieces: '{argument}' is not understood; {USAGE}");
        return ExitCode::from(2);
    }
    match table() {
        Ok(()) => ExitCode::SUCCESS,
        Err(message) => {
            eprintln!("pieces: {message}");
            ExitCode::FAILURE
        }
    }
}

fn table() -> Result<(), String> {
    println!("A slot's {SLOT_BYTES} bytes are {PIECES} pieces of {PIECE}, from 0 on. Counted are the comparisons of a look-up with slots that hold another");
    println!("state, in a search as if the goal were never met: which piece is the first to differ, from the front, in percent; how");
    println!("many pieces are compared on average in each order, and in one that is made for that job (it takes next, each time, the");
    println!("piece that tells most apart); how many slots are compared from the oldest on, by those from the newest back.");
    println!();
    print!("job                            slots  comparisons       0       1       2       3    4 on ");
    for (name, _) in orders() {
        print!(" {name:>7}");
    }
    println!("  its own  oldest/newest");
    for (model, memory) in MODELS {
        for slots in SLOTS {
            let told = told(&ring(memory), slots)?;
            print_row(&format!("ring {model}"), &format!("{slots}"), &told);
        }
    }
    let mut all = Told::none();
    for name in CLASSICS {
        for variant in ["plain-sc", "plain-tso", "fenced-sc", "fenced-tso"] {
            let name = format!("{name}-{variant}");
            let told = told(&stored(&name)?, BENCH_SLOTS)?;
            print_row(&name, &format!("{BENCH_SLOTS}"), &told);
            all.add(&told);
        }
    }
    print_row("these classics together", "", &all);
    Ok(())
}

fn told(job: &[u8], slots: usize) -> Result<Told, String> {
    let job =
        decode(job).map_err(|refusal| format!("a job of the table is refused: {refusal:?}"))?;
    Ok(Told::of(&job, slots))
}

fn stored(name: &str) -> Result<Vec<u8>, String> {
    let folder = Path::new(env!("CARGO_MANIFEST_DIR")).join("../jobs");
    let path = folder.join(format!("{name}.job"));
    fs::read(&path).map_err(|error| format!("{}: {error}", path.display()))
}

fn print_row(name: &str, slots: &str, told: &Told) {
    let comparisons = told.comparisons();
    print!("{name:28} {slots:>7} {comparisons:12} ");
    let at = told.at(&from_the_front());
    let (few, later) = at.split_at(4);
    for told in few.iter().copied().chain([later.iter().sum()]) {
        print!(" {:7.3}", 100.0 * told as f64 / comparisons as f64);
    }
    print!(" ");
    for (_, order) in orders() {
        print!(" {:7.4}", told.pieces_each(&order));
    }
    let newest_gains = told.from_oldest as f64 / told.from_newest as f64;
    println!(
        "  {:7.4}  {newest_gains:13.2}",
        told.pieces_each(&told.by_turns())
    );
}

/// The orders that are counted; that with memory second is the one that needs to know the layout.
fn orders() -> [(&'static str, Vec<usize>); 4] {
    let evens_first = (0..PIECES).step_by(2).chain((1..PIECES).step_by(2));
    [
        ("front", from_the_front()),
        ("back", (0..PIECES).rev().collect()),
        ("memory", memory_second()),
        ("evens", evens_first.collect()),
    ]
}

/// The first piece, that in which memory begins, and then the others from the front.
fn memory_second() -> Vec<usize> {
    let mut order = from_the_front();
    let memory = order.remove(LAYOUT.memory_at() / PIECE);
    order.insert(1, memory);
    order
}

//! Searches timed by turns in the same memory.

use second::machine::SLOT_BYTES;
use std::time::{Duration, Instant};

pub const LEAST_RUNS: usize = 5;
const LEAST_TIME: Duration = Duration::from_millis(800);

/// What searches are lent.
pub struct Memories {
    pub table: Vec<u8>,
    pub links: Vec<u32>,
    pub schedule: Vec<u8>,
    /// For those that take one.
    pub index: Vec<u32>,
}

impl Memories {
    pub fn new(slots: usize) -> Memories {
        Memories {
            table: vec![0; slots * SLOT_BYTES],
            links: vec![0; slots],
            schedule: vec![0; slots],
            index: vec![0; 2 * slots],
        }
    }
}

/// A search by its name in the tables.
#[derive(Clone, Copy)]
pub struct Side {
    pub name: &'static str,
    pub search: fn(&[u8], &mut Memories) -> [u64; 4],
}

/// The best time of each side in seconds, in its order. They take turns, so that a busy moment meets all of them;
/// each round begins with another, so that none finds only what the same other left in the caches.
pub fn best_times(
    sides: &[Side],
    job: &[u8],
    slots: usize,
    expected: [u64; 4],
) -> Result<Vec<f64>, String> {
    let mut memories = Memories::new(slots);
    let mut best = vec![Duration::MAX; sides.len()];
    let begin = Instant::now();
    let mut runs = 0;
    while runs < LEAST_RUNS || begin.elapsed() < LEAST_TIME {
        for turn in 0..sides.len() {
            let side = sides[(runs + turn) % sides.len()];
            let (answer, time) = timed(runs, || (side.search)(job, &mut memories));
            if answer != expected {
                return Err(format!(
                    "'{}' answered {answer:?} in {slots} slots and not {expected:?}; run compare to see which side is wrong",
                    side.name
                ));
            }
            let best = &mut best[(runs + turn) % sides.len()];
            *best = time.min(*best);
        }
        runs += 1;
    }
    Ok(best.iter().map(Duration::as_secs_f64).collect())
}

/// What one search gives, and how long it took. Where in a page its stack stands can make a search a quarter slower,
/// and that is luck: so each run is called from another depth, and over some runs each side meets good places.
pub fn timed<T>(run: usize, search: impl FnOnce() -> T) -> (T, Duration) {
    let mut search = Some(search);
    let mut timed = None;
    deeper(
        FRAMES_EACH * run % MOST_FRAMES,
        &mut [0; FRAME],
        &mut || {
            let begin = Instant::now();
            let given = search.take().map(|search| search());
            timed = given.map(|given| (given, begin.elapsed()));
        },
    );
    timed.expect("the innermost frame has called the search")
}

const FRAME: usize = 64;
/// With what a call takes beside its frame, about a fifth of a page.
const FRAMES_EACH: usize = 6;
/// About two pages.
const MOST_FRAMES: usize = 61;

/// Acts with so many frames more on the stack; each is written to by the next, so that none can be left out.
#[inline(never)]
fn deeper(frames: usize, before: &mut [u8; FRAME], act: &mut dyn FnMut()) {
    if frames == 0 {
        act();
    } else {
        let mut frame = [before[0]; FRAME];
        deeper(frames - 1, &mut frame, act);
        before[0] = before[0].wrapping_add(frame[0]).wrapping_add(1);
    }
}

#[cfg(test)]
mod tests {
    use super::*;
    use std::cell::RefCell;

    thread_local! {
        static CALLED: RefCell<Vec<&'static str>> = const { RefCell::new(Vec::new()) };
    }

    fn called(name: &'static str) -> [u64; 4] {
        CALLED.with(|called| called.borrow_mut().push(name));
        // The rounds go on until the least time is over, and one sleep is enough for that.
        if CALLED.with(|called| called.borrow().len()) == 2 * LEAST_RUNS {
            std::thread::sleep(LEAST_TIME);
        }
        [3, 7, 0, 0]
    }

    const SIDES: [Side; 2] = [
        Side {
            name: "one",
            search: |_, memories| {
                assert_eq!(memories.index.len(), 14);
                called("one")
            },
        },
        Side {
            name: "other",
            search: |_, _| called("other"),
        },
    ];

    #[test]
    fn sides_take_turns_and_each_round_begins_with_another() {
        let times = best_times(&SIDES, &[], 7, [3, 7, 0, 0]);
        assert_eq!(times.expect("both answer as expected").len(), 2);
        CALLED.with(|called| {
            let called = called.borrow();
            assert_eq!(called[..4], ["one", "other", "other", "one"]);
            assert!(called.len() >= 2 * LEAST_RUNS);
        });
    }

    #[test]
    fn each_run_is_called_from_another_depth() {
        let places = (0..5).map(|run| {
            let (place, _) = timed(run, || {
                let here = 0u8;
                &here as *const u8 as usize
            });
            place
        });
        let places: Vec<usize> = places.collect();
        for pair in places.windows(2) {
            let apart = pair[0] - pair[1];
            assert!((400..2000).contains(&apart), "{places:?}");
        }
    }

    #[test]
    fn another_answer_names_the_side() {
        let error = best_times(&SIDES, &[], 7, [2, 7, 0, 0]).expect_err("both answer otherwise");
        assert!(error.starts_with("'one' answered [3, 7, 0, 0] in 7 slots"));
    }
}

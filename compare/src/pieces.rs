//! At which piece a state that is looked up differs from those that it is compared with: what the order of pieces is chosen by.

use crate::work::looked_up;
use second::machine::{State, SLOT_BYTES};
use second::Job;
use std::collections::{BTreeMap, HashSet};

/// Bytes of a piece.
pub const PIECE: usize = 8;
pub const PIECES: usize = SLOT_BYTES / PIECE;
const _: () = assert!(SLOT_BYTES % PIECE == 0, "a slot is whole pieces");

type Pieces = [[u8; PIECE]; PIECES];

fn in_pieces(slot: &[u8]) -> Pieces {
    let mut pieces = [[0; PIECE]; PIECES];
    for (piece, bytes) in pieces.iter_mut().zip(slot.chunks(PIECE)) {
        piece.copy_from_slice(bytes);
    }
    pieces
}

fn pieces_of(state: &State) -> Pieces {
    in_pieces(&state.slot())
}

/// Whether two of the slots differ in this piece alone: a look-up that skips it takes them for one state.
pub fn decides_alone(slots: &[u8], piece: usize) -> bool {
    let mut others = HashSet::new();
    !slots.chunks(SLOT_BYTES).all(|slot| {
        let mut rest = in_pieces(slot);
        rest[piece] = [0; PIECE];
        others.insert(rest)
    })
}

pub fn from_the_front() -> Vec<usize> {
    (0..PIECES).collect()
}

/// The comparisons of a search with slots that hold another state.
#[derive(Clone)]
pub struct Told {
    /// How many comparisons met two states that differ in just these pieces, a bit for each piece; those that none met are left out.
    by_set: BTreeMap<usize, u64>,
    /// How many slots are compared, of equal states too: from the oldest on, and from the newest back.
    pub from_oldest: u64,
    pub from_newest: u64,
}

impl Told {
    pub fn none() -> Told {
        Told {
            by_set: BTreeMap::new(),
            from_oldest: 0,
            from_newest: 0,
        }
    }

    /// Those of a search for a goal that is never met, from the newest slot back as `crates/search` goes about it.
    pub fn of(job: &Job, slots: usize) -> Told {
        let mut told = Told::none();
        // There are too many comparisons to look each set up in a map.
        let mut by_set = vec![0; 1 << PIECES];
        let mut counted: Vec<Pieces> = Vec::new();
        looked_up(job, slots, |states, next, known| {
            counted.extend(states[counted.len()..].iter().map(pieces_of));
            told.from_oldest += known.map_or(states.len(), |slot| slot + 1) as u64;
            told.from_newest += (states.len() - known.unwrap_or(0)) as u64;
            let next = pieces_of(next);
            let newer = known.map_or(0, |slot| slot + 1);
            for other in &counted[newer..] {
                by_set[differing(&next, other)] += 1;
            }
        });
        let met = by_set.into_iter().enumerate().filter(|&(_, n)| n > 0);
        told.by_set = met.collect();
        told
    }

    pub fn add(&mut self, other: &Told) {
        for (&set, more) in &other.by_set {
            *self.by_set.entry(set).or_default() += more;
        }
        self.from_oldest += other.from_oldest;
        self.from_newest += other.from_newest;
    }

    /// How many comparisons there were.
    pub fn comparisons(&self) -> u64 {
        self.by_set.values().sum()
    }

    /// How many of them the first piece of the order tells apart, the second, and so on.
    pub fn at(&self, order: &[usize]) -> Vec<u64> {
        let mut at = vec![0; order.len()];
        for (&set, &comparisons) in &self.by_set {
            let first = order.iter().position(|&piece| has(set, piece));
            at[first.expect("two states differ in a piece of the order")] += comparisons;
        }
        at
    }

    /// Pieces compared until the first difference, on average.
    pub fn pieces_each(&self, order: &[usize]) -> f64 {
        let at = self.at(order);
        let pieces: u64 = at.iter().zip(1..).map(|(&n, piece)| n * piece).sum();
        pieces as f64 / self.comparisons() as f64
    }

    /// The order that takes next, each time, the piece that tells most of those apart that are still alike.
    pub fn by_turns(&self) -> Vec<usize> {
        let mut order = Vec::new();
        let mut left: Vec<usize> = (0..PIECES).collect();
        while !left.is_empty() {
            let told = |piece: usize| -> u64 {
                let alike = |set: usize| !order.iter().any(|&earlier| has(set, earlier));
                let sets = self.by_set.iter();
                let apart = sets.filter(|(&set, _)| has(set, piece) && alike(set));
                apart.map(|(_, comparisons)| comparisons).sum()
            };
            // The foremost of those that tell equally many apart.
            let best = (0..left.len()).rev().max_by_key(|&at| told(left[at]));
            order.push(left.remove(best.expect("a piece is left")));
        }
        order
    }
}

fn differing(one: &Pieces, other: &Pieces) -> usize {
    let pieces = one.iter().zip(other).enumerate();
    pieces.fold(0, |set, (piece, (a, b))| set | usize::from(a != b) << piece)
}

fn has(set: usize, piece: usize) -> bool {
    set >> piece & 1 == 1
}

#[cfg(test)]
mod tests {
    use super::*;
    use second::decode;
    use second::listed::{file, Program, AT_THE_START, SC};

    fn told(program: Program, slots: usize) -> Told {
        let job = file(SC, &[0], &[program], 0, &[AT_THE_START]);
        Told::of(&decode(&job).expect("the job is sound"), slots)
    }

    #[test]
    fn a_place_stands_in_the_first_piece() {
        // 5 states one after the other, then the last again: a jump to its own place.
        let told = told([vec![[1, 0, 0, 0]; 4], vec![[9, 0, 4, 0]]].concat(), 9);
        assert_eq!(told.comparisons(), 1 + 2 + 3 + 4);
        assert_eq!(told.at(&from_the_front())[0], 10);
        assert_eq!(told.pieces_each(&from_the_front()), 1.0);
        assert_eq!(told.from_newest, 1 + 2 + 3 + 4 + 1);
        assert_eq!(told.from_oldest, 1 + 2 + 3 + 4 + 5);
    }

    #[test]
    fn memory_begins_in_the_fifth_piece() {
        // Variable 0 counts, the register is 0 again at place 0 and at place 4.
        let count = vec![
            [3, 0, 0, 0],
            [2, 0, 0, 1],
            [4, 0, 0, 0],
            [1, 0, 0, 0],
            [9, 0, 0, 0],
        ];
        let told = told(count, 6);
        // The sixth state is place 0 with variable 0 at 1; it is like the first but for its memory.
        let at = told.at(&from_the_front());
        assert_eq!(at[4], 1);
        assert_eq!(at.iter().sum::<u64>(), told.comparisons());
        let mut memory_first = from_the_front();
        memory_first.swap(0, 4);
        assert_eq!(told.by_turns()[0], 0);
        assert!(told.pieces_each(&from_the_front()) < told.pieces_each(&memory_first));
    }

    #[test]
    fn a_piece_decides_alone_where_all_others_are_equal() {
        let mut slots = vec![7; 3 * SLOT_BYTES];
        // Slot 1 is like slot 0 but for the last piece; slot 2 differs from both in two pieces at least.
        let last = PIECES - 1;
        slots[SLOT_BYTES + last * PIECE] = 8;
        slots[2 * SLOT_BYTES] = 8;
        slots[2 * SLOT_BYTES + 5 * PIECE] = 8;
        for piece in 0..PIECES {
            assert_eq!(decides_alone(&slots, piece), piece == last);
            assert!(!decides_alone(&slots[..SLOT_BYTES], piece));
        }
    }

    #[test]
    fn sums_are_of_both() {
        let mut sum = told(vec![[1, 0, 0, 0]; 4], 9);
        let other = told(vec![[9, 0, 0, 0]], 9);
        let [one, two] = [&sum, &other].map(Told::comparisons);
        sum.add(&other);
        assert_eq!(sum.comparisons(), one + two);
        assert_eq!(sum.from_newest, 10 + 1);
    }
}

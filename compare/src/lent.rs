//! Memory as it is lent to a call: full of random contents, between guards that must stay.

use second::machine::SLOT_BYTES;
use second::random::Random;
use std::fmt::Display;

/// More than a slot, so that a slot written beside its place damages a guard and nothing else.
const GUARD: usize = SLOT_BYTES + 32;

/// What lent memory consists of.
pub trait Cell: Copy + Eq + Display {
    fn random_cells(random: &mut Random, count: usize) -> Vec<Self>;
}

impl Cell for u8 {
    fn random_cells(random: &mut Random, count: usize) -> Vec<u8> {
        let mut cells = Vec::with_capacity(count + 8);
        while cells.len() < count {
            cells.extend(random.word().to_le_bytes());
        }
        cells.truncate(count);
        cells
    }
}

impl Cell for u32 {
    fn random_cells(random: &mut Random, count: usize) -> Vec<u32> {
        (0..count).map(|_| random.word() as u32).collect()
    }
}

impl Cell for u64 {
    fn random_cells(random: &mut Random, count: usize) -> Vec<u64> {
        (0..count).map(|_| random.word()).collect()
    }
}

#[derive(Clone, Debug)]
pub struct Lent<T> {
    /// The guard before, what is lent, the guard after.
    cells: Vec<T>,
    first: usize,
    count: usize,
}

impl<T: Cell> Lent<T> {
    pub fn random(random: &mut Random, count: usize) -> Lent<T> {
        // Bytes are lent at any address, not only at even ones.
        let first = GUARD + random.below(16);
        Lent {
            cells: T::random_cells(random, first + count + GUARD),
            first,
            count,
        }
    }

    pub fn holding(random: &mut Random, contents: &[T]) -> Lent<T> {
        let mut lent = Lent::random(random, contents.len());
        lent.part_mut().copy_from_slice(contents);
        lent
    }

    /// No cell and no guard, for what a call doesn't see.
    pub fn none() -> Lent<T> {
        Lent {
            cells: Vec::new(),
            first: 0,
            count: 0,
        }
    }

    /// The same memory with fewer cells lent: those behind are guards then.
    pub fn cut_to(&self, count: usize) -> Lent<T> {
        assert!(count <= self.count, "no more than there is can be lent");
        Lent {
            count,
            ..self.clone()
        }
    }

    pub fn count(&self) -> usize {
        self.count
    }

    pub fn part(&self) -> &[T] {
        &self.cells[self.first..self.first + self.count]
    }

    pub fn part_mut(&mut self) -> &mut [T] {
        &mut self.cells[self.first..self.first + self.count]
    }

    /// With the guards, which only a faulty callee touches.
    pub fn whole_mut(&mut self) -> &mut [T] {
        &mut self.cells
    }

    /// The pointer may reach the guards, so that a write there is seen and not undefined.
    pub fn pointer(&mut self) -> *mut T {
        self.cells[self.first..].as_mut_ptr()
    }

    /// Whether all but so many cells from the first on, guards included, is as it is in the other.
    pub fn is_alike_behind(&self, other: &Lent<T>, count: usize) -> bool {
        let written = self.first..self.first + count;
        self.cells[..written.start] == other.cells[..written.start]
            && self.cells[written.end..] == other.cells[written.end..]
    }

    /// Where this memory, guards included, first differs from the other; the names say whose each is.
    pub fn difference(&self, other: &Lent<T>, names: [&str; 2]) -> Option<String> {
        if self.cells == other.cells {
            return None;
        }
        let pairs = self.cells.iter().zip(&other.cells);
        let (at, (here, there)) = pairs.enumerate().find(|(_, (a, b))| a != b)?;
        let index = at as i64 - self.first as i64;
        let guard = if (0..self.count as i64).contains(&index) {
            ""
        } else {
            " (outside of what was lent)"
        };
        let [name, other_name] = names;
        Some(format!(
            "first difference at {index}{guard}: {name} {here}, {other_name} {there}"
        ))
    }
}

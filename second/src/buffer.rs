//! A thread's buffer: its stores on their way to memory, in groups that a WFENCE keeps apart.

use crate::job::Value;

/// A store on its way to memory.
#[derive(Clone, Copy, Debug, PartialEq, Eq)]
pub struct Pending {
    pub variable: u8,
    pub value: Value,
}

/// A list of queues ("lanes"), oldest store first in each: one for everything under TSO, one a variable under PSO.
type Group = Vec<Vec<Pending>>;

/// Pending stores in groups, and whether a WFENCE stands after the newest of them.
#[derive(Clone, Debug, PartialEq, Eq)]
pub struct Buffer {
    /// Of a group.
    lanes: usize,
    /// Oldest first. None is without a store, so what the groups were counted from before leaves no trace.
    groups: Vec<Group>,
    /// Never after no store at all.
    wfence: bool,
}

/// In a slot: the count, and room for eight stores.
pub const BUFFER_BYTES: usize = 1 + 8 * STORE_BYTES;
/// In a slot: the variable with its group, and the value, the high byte first.
const STORE_BYTES: usize = 3;
const GROUP_SIGN: u8 = 16;
const WFENCE_SIGN: u8 = 128;

impl Buffer {
    pub fn empty(lanes: usize) -> Buffer {
        Buffer {
            lanes,
            groups: Vec::new(),
            wfence: false,
        }
    }

    /// The stores of each group, oldest group first, as they stand in a slot.
    pub fn groups(&self) -> impl Iterator<Item = Vec<Pending>> + '_ {
        self.groups.iter().map(|group| group.concat())
    }

    /// All stores, oldest group first.
    pub fn stores(&self) -> impl Iterator<Item = &Pending> {
        self.groups.iter().flatten().flatten()
    }

    /// Whether a WFENCE stands after the newest store.
    pub fn has_wfence(&self) -> bool {
        self.wfence
    }

    pub fn pending(&self) -> usize {
        self.stores().count()
    }

    pub fn has_pending_to(&self, variable: usize) -> bool {
        self.stores()
            .any(|store| usize::from(store.variable) == variable)
    }

    /// The newest store to the variable, in whichever group it is.
    pub fn newest(&self, variable: usize) -> Option<Value> {
        // In a group all stores to one variable share a lane, so the first hit from the back is the newest.
        let hit = |lane: &Vec<Pending>| {
            lane.iter()
                .rev()
                .find(|store| usize::from(store.variable) == variable)
                .copied()
        };
        let mut newest_first = self.groups.iter().rev().flatten();
        newest_first.find_map(hit).map(|store| store.value)
    }

    /// The store of a lane that may flush: the oldest there, in the oldest group.
    pub fn next_of(&self, lane: usize) -> Option<Pending> {
        self.groups.first()?.get(lane)?.first().copied()
    }

    /// Whether a store to the variable may flush.
    pub fn may_flush(&self, variable: usize) -> bool {
        let mut next = (0..self.lanes).filter_map(|lane| self.next_of(lane));
        next.any(|store| usize::from(store.variable) == variable)
    }

    /// A store joins the newest group, or begins one if a WFENCE stands before it.
    pub fn join(&mut self, lane: usize, store: Pending) {
        if self.wfence || self.groups.is_empty() {
            self.groups.push(vec![Vec::new(); self.lanes]);
            self.wfence = false;
        }
        if let Some(newest) = self.groups.last_mut() {
            newest[lane].push(store);
        }
    }

    /// A second WFENCE finds the first one standing; after no store there is nothing to keep apart.
    pub fn put_wfence(&mut self) {
        self.wfence = !self.groups.is_empty();
    }

    /// Takes the store of a lane that may flush, if there is one.
    pub fn flush(&mut self, lane: usize) -> Option<Pending> {
        let store = self.next_of(lane)?;
        let oldest = &mut self.groups[0];
        oldest[lane].remove(0);
        if oldest.iter().all(Vec::is_empty) {
            self.groups.remove(0);
        }
        self.wfence &= !self.groups.is_empty();
        Some(store)
    }

    /// The count and the stores, as they stand in a slot.
    pub fn bytes(&self) -> [u8; BUFFER_BYTES] {
        let mut bytes = [0; BUFFER_BYTES];
        bytes[0] = self.pending() as u8;
        if self.wfence {
            bytes[0] += WFENCE_SIGN;
        }
        let numbered = (0..).zip(&self.groups);
        let stores = numbered.flat_map(|(number, group)| {
            let entry = move |store: &Pending| {
                let [high, low] = store.value.to_be_bytes();
                [store.variable + GROUP_SIGN * number, high, low]
            };
            group.iter().flatten().map(entry)
        });
        for (room, entry) in bytes[1..].chunks_exact_mut(STORE_BYTES).zip(stores) {
            room.copy_from_slice(&entry);
        }
        bytes
    }
}

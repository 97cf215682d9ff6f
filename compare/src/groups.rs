//! Groups of pending stores as counted slots show them: where they were renumbered, and whether two states differ in them alone.

use crate::slot::LAYOUT;
use second::classes::those_met;
use second::machine::SLOT_BYTES;
use std::collections::HashSet;

pub const RENUMBERED: &str = "a slot whose groups a flush has renumbered";
pub const GROUPS_ALONE: &str = "two slots that differ in group numbers alone";
pub const WFENCE_ALONE: &str = "two slots that differ in a WFENCE alone";

pub const OF_SLOTS: [&str; 3] = [RENUMBERED, GROUPS_ALONE, WFENCE_ALONE];

/// Request 7: a variable byte gains so much times its group number, a count byte so much for a WFENCE.
const GROUP_SIGN: u8 = 16;
const WFENCE_SIGN: u8 = 128;

/// The classes of `OF_SLOTS` that counted slots and their links are in.
pub fn of_slots(slots: &[u8], links: &[u32]) -> Vec<&'static str> {
    let slots: Vec<&[u8]> = slots.chunks_exact(SLOT_BYTES).collect();
    those_met(&[
        (RENUMBERED, has_renumbered(&slots, links)),
        (GROUPS_ALONE, has_equal(&slots, without_groups)),
        (WFENCE_ALONE, has_equal(&slots, without_wfence)),
    ])
}

/// Whether a flush that a slot was first met by has made a later group the oldest.
fn has_renumbered(slots: &[&[u8]], links: &[u32]) -> bool {
    slots.iter().zip(links).skip(1).any(|(slot, link)| {
        let before = slots[(link / 64) as usize];
        let flushed = (link % 64).checked_sub(4).map(|flush| flush as usize / 8);
        flushed.map_or(false, |thread| {
            let left = groups(buffer(slot, thread));
            left > 0 && left < groups(buffer(before, thread))
        })
    })
}

/// Whether two slots become equal when something is taken out of each buffer.
fn has_equal(slots: &[&[u8]], take_out: fn(&mut [u8])) -> bool {
    let mut left = HashSet::new();
    !slots.iter().all(|slot| {
        let mut slot = slot.to_vec();
        let buffers = slot[LAYOUT.buffers_at()..].chunks_exact_mut(LAYOUT.buffer_bytes());
        buffers.for_each(take_out);
        left.insert(slot)
    })
}

fn buffer(slot: &[u8], thread: usize) -> &[u8] {
    let bytes = LAYOUT.buffer_bytes();
    &slot[LAYOUT.buffers_at() + bytes * thread..][..bytes]
}

/// How many groups there are; they are counted from 0, and the last store is of the newest.
fn groups(buffer: &[u8]) -> u8 {
    let count = usize::from(buffer[0] % WFENCE_SIGN);
    let mut stores = buffer[1..].chunks_exact(LAYOUT.store_bytes()).take(count);
    let newest = stores.next_back();
    newest.map_or(0, |newest| newest[0] / GROUP_SIGN + 1)
}

fn without_groups(buffer: &mut [u8]) {
    for store in buffer[1..].chunks_exact_mut(LAYOUT.store_bytes()) {
        store[0] %= GROUP_SIGN;
    }
}

fn without_wfence(buffer: &mut [u8]) {
    buffer[0] %= WFENCE_SIGN;
}

#[cfg(test)]
mod tests {
    use super::*;

    const START_LINK: u32 = u32::MAX;

    /// Slots that have these bytes for the buffer of thread 1, whose place tells them apart if it is to.
    fn slots(buffers: &[(u8, &[u8])]) -> Vec<u8> {
        let slot = |&(place, buffer): &(u8, &[u8])| {
            let mut slot = vec![0; SLOT_BYTES];
            slot[1] = place;
            slot[77..77 + buffer.len()].copy_from_slice(buffer);
            slot
        };
        buffers.iter().flat_map(slot).collect()
    }

    #[test]
    fn a_flush_renumbers_where_the_oldest_group_is_gone() {
        let two: &[u8] = &[2, 0, 0, 1, 17, 0, 1];
        // Links to slot 0: by a flush of thread 1 to variable 0, and by its execute step.
        let [flush, execute] = [12, 1];
        for (left, link, expected) in [
            (&[1, 1, 0, 1][..], flush, true),
            (&[129, 1, 0, 1], flush, true),
            (&[1, 1, 0, 1], execute, false),
            (&[0], flush, false),
            (&[2, 0, 0, 1, 17, 0, 2], flush, false),
            // High bytes are no part of a variable's.
            (&[2, 0, 17, 1, 17, 33, 1], flush, false),
        ] {
            let met = of_slots(&slots(&[(0, two), (1, left)]), &[START_LINK, link]);
            assert_eq!(met.contains(&RENUMBERED), expected, "{left:?}");
        }
        // One of two stores of a group, and the only group.
        let others: [[&[u8]; 2]; 2] = [
            [&[3, 0, 0, 1, 2, 0, 1, 17, 0, 1], &[2, 2, 0, 1, 17, 0, 1]],
            [&[2, 0, 0, 1, 1, 0, 1], &[1, 1, 0, 1]],
        ];
        for [before, left] in others {
            let met = of_slots(&slots(&[(0, before), (1, left)]), &[START_LINK, flush]);
            assert_eq!(met, [""; 0]);
        }
    }

    #[test]
    fn two_slots_that_differ_in_one_thing() {
        let links = [START_LINK, 1];
        let met = |one: (u8, &[u8]), other: (u8, &[u8])| of_slots(&slots(&[one, other]), &links);
        let together: &[u8] = &[2, 0, 0, 1, 1, 0, 1];
        let apart: &[u8] = &[2, 0, 0, 1, 17, 0, 1];
        let marked: &[u8] = &[130, 0, 0, 1, 1, 0, 1];
        assert_eq!(met((0, together), (0, apart)), [GROUPS_ALONE]);
        assert_eq!(met((0, together), (0, marked)), [WFENCE_ALONE]);
        assert_eq!(met((0, apart), (0, marked)), [""; 0]);
        assert_eq!(met((0, together), (1, apart)), [""; 0]);
        for value in [[0, 2], [1, 1], [16, 1]] {
            let other = [&together[..5], &value].concat();
            assert_eq!(met((0, together), (0, &other)), [""; 0]);
        }
    }
}

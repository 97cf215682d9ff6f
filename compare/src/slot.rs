//! Where things stand in a slot: 01, "Slot layout", with values as wide as request 10 has made them, and as they were before.

use second::machine::SLOT_BYTES;

/// All that hangs on how many bytes a value has in a slot.
#[derive(Clone, Copy, Debug, PartialEq, Eq)]
pub struct Layout {
    value_bytes: usize,
}

pub const LAYOUT: Layout = Layout { value_bytes: 2 };
/// Until request 10.
pub const LAYOUT_BEFORE: Layout = Layout { value_bytes: 1 };

const _: () = assert!(
    LAYOUT.slot_bytes() == SLOT_BYTES,
    "the second checker's slots"
);

impl Layout {
    /// Behind four places.
    pub const fn registers_at(self) -> usize {
        4
    }

    /// Behind four registers of each of four threads.
    pub const fn memory_at(self) -> usize {
        self.registers_at() + 4 * 4 * self.value_bytes
    }

    /// Behind eight variables.
    pub const fn buffers_at(self) -> usize {
        self.memory_at() + 8 * self.value_bytes
    }

    /// A variable, and the value.
    pub const fn store_bytes(self) -> usize {
        1 + self.value_bytes
    }

    /// A count, and room for eight stores.
    pub const fn buffer_bytes(self) -> usize {
        1 + 8 * self.store_bytes()
    }

    /// Four buffers are the last.
    pub const fn slot_bytes(self) -> usize {
        self.buffers_at() + 4 * self.buffer_bytes()
    }
}

/// The slot of the same state since request 10: each value has a high byte of 0, and all else stays as it is.
pub fn widened(before: &[u8]) -> Vec<u8> {
    let layout = LAYOUT_BEFORE;
    let (places, rest) = before.split_at(layout.registers_at());
    let (values, buffers) = rest.split_at(layout.buffers_at() - layout.registers_at());
    let mut slot = places.to_vec();
    slot.extend(values.iter().flat_map(|&value| [0, value]));
    for buffer in buffers.chunks_exact(layout.buffer_bytes()) {
        slot.push(buffer[0]);
        let stores = buffer[1..].chunks_exact(layout.store_bytes());
        slot.extend(stores.flat_map(|store| [store[0], 0, store[1]]));
    }
    slot
}

#[cfg(test)]
mod tests {
    use super::*;

    fn numbers(layout: Layout) -> [usize; 6] {
        [
            layout.registers_at(),
            layout.memory_at(),
            layout.buffers_at(),
            layout.store_bytes(),
            layout.buffer_bytes(),
            layout.slot_bytes(),
        ]
    }

    #[test]
    fn the_numbers_of_the_papers() {
        assert_eq!(numbers(LAYOUT_BEFORE), [4, 20, 28, 2, 17, 96]);
        assert_eq!(numbers(LAYOUT), [4, 36, 52, 3, 25, 152]);
    }

    #[test]
    fn a_widened_slot_has_all_of_it_and_high_bytes_of_0() {
        // Each byte has another number, so that none can take another's place.
        let before: Vec<u8> = (1..=96).collect();
        let slot = widened(&before);
        assert_eq!(slot.len(), SLOT_BYTES);
        assert_eq!(slot[..4], [1, 2, 3, 4]);
        // The first and the last register, the first and the last variable.
        assert_eq!(slot[4..6], [0, 5]);
        assert_eq!(slot[34..38], [0, 20, 0, 21]);
        assert_eq!(slot[50..52], [0, 28]);
        // The count and the first store of thread 0, and the last store before thread 1's count.
        assert_eq!(slot[52..56], [29, 30, 0, 31]);
        assert_eq!(slot[74..78], [44, 0, 45, 46]);
        // The last store of thread 3.
        assert_eq!(slot[149..], [95, 0, 96]);
        let kept: Vec<u8> = slot.into_iter().filter(|&byte| byte > 0).collect();
        assert_eq!(kept, before);
    }
}

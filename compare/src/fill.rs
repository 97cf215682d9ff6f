//! What stands in an index before a search gets it: nothing is asked of it.

use second::random::Random;

#[derive(Clone, Copy, Debug, PartialEq, Eq)]
pub enum Fill {
    /// Most of them are far above any slot.
    Any,
    /// Half of them could be taken for slots.
    Small,
    Zeros,
    Ones,
}

pub const FILLS: [Fill; 4] = [Fill::Any, Fill::Small, Fill::Zeros, Fill::Ones];

impl Fill {
    pub fn some(random: &mut Random) -> Fill {
        random.pick(&FILLS)
    }

    /// For the summary.
    pub const fn name(self) -> &'static str {
        match self {
            Fill::Any => "any numbers",
            Fill::Small => "small numbers",
            Fill::Zeros => "all 0",
            Fill::Ones => "all ones",
        }
    }

    /// So many numbers; the small ones go up to as many, which are two for each slot.
    pub fn numbers(self, random: &mut Random, count: usize) -> Vec<u32> {
        let number = |_| match self {
            Fill::Any => random.word() as u32,
            Fill::Small => random.below(count + 1) as u32,
            Fill::Zeros => 0,
            Fill::Ones => u32::MAX,
        };
        (0..count).map(number).collect()
    }
}

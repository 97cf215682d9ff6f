//! How good the chains of an index are, told by what a search leaves in it: the first half has each chain's newest slot, and the
//! second for each slot the one before it on its chain, both plus one, where 0 is none.

use crate::work::looked_up;
use second::Job;

/// Where each counted slot stands.
struct Chains {
    /// For each slot its chain and how many older slots are on it.
    places: Vec<(usize, usize)>,
    /// For each chain its slots, the oldest first.
    slots_of: Vec<Vec<usize>>,
}

impl Chains {
    /// Those of the first `count` slots.
    fn of(index: &[u32], slots: usize, count: usize) -> Chains {
        let mut chains = Chains {
            places: Vec::new(),
            slots_of: Vec::new(),
        };
        for (slot, &before) in index[slots..][..count].iter().enumerate() {
            let chain = match before {
                0 => {
                    chains.slots_of.push(Vec::new());
                    chains.slots_of.len() - 1
                }
                number => chains.places[number as usize - 1].0,
            };
            let older = chains.slots_of[chain].len();
            chains.places.push((chain, older));
            chains.slots_of[chain].push(slot);
        }
        chains
    }

    /// Slots compared to find this one, from its chain's newest back, while so many are counted.
    fn to_find(&self, slot: usize, counted: usize) -> usize {
        let (chain, older) = self.places[slot];
        let on_chain = self.slots_of[chain].partition_point(|&other| other < counted);
        on_chain - older
    }
}

/// Slots compared by a look-up on average, for each index that a search of this job in so many slots has left.
pub fn comparisons_each(job: &Job, slots: usize, indexes: &[&[u32]]) -> Vec<f64> {
    let mut look_ups = 0;
    let mut seen = Vec::new();
    let count = looked_up(job, slots, |states, _, known| {
        // The last look-up of a full table enters no slot, so nothing tells its chain.
        if known.is_some() || states.len() < slots {
            look_ups += 1;
            seen.push((known, states.len()));
        }
    });
    let comparisons = |index: &&[u32]| {
        let chains = Chains::of(index, slots, count as usize);
        let each = seen.iter().map(|&(known, counted)| match known {
            Some(slot) => chains.to_find(slot, counted),
            // A new state becomes the next slot, and all that were on its chain were compared.
            None => chains.places[counted].1,
        });
        each.sum::<usize>() as f64 / f64::from(look_ups)
    };
    indexes.iter().map(comparisons).collect()
}

#[cfg(test)]
mod tests {
    use super::*;
    use second::decode;
    use second::listed::{file, AT_THE_START, SC};

    /// One thread through places 0, 1, 2 and 3, and from there back to 1.
    fn round() -> Job {
        let program = [vec![[1, 0, 0, 0]; 3], vec![[9, 0, 1, 0]]].concat();
        let job = file(SC, &[0], &[program], 0, &[AT_THE_START]);
        decode(&job).expect("the job is sound")
    }

    #[test]
    fn one_chain_compares_with_all_that_are_newer() {
        // Each slot is behind the one before it on the one chain.
        let index = [4, 0, 0, 0, 0, 1, 2, 3];
        let comparisons = [1, 2, 3, 3];
        let expected = f64::from(comparisons.iter().sum::<u32>()) / 4.0;
        assert_eq!(comparisons_each(&round(), 4, &[&index]), [expected]);
    }

    #[test]
    fn a_chain_for_each_slot_compares_with_what_is_found_alone() {
        let index = [1, 2, 3, 4, 0, 0, 0, 0];
        assert_eq!(comparisons_each(&round(), 4, &[&index]), [0.25]);
    }

    #[test]
    fn several_chains() {
        // Slots 0 and 2 on one chain, 1 and 3 on another.
        let index = [3, 4, 0, 0, 0, 0, 1, 2];
        let comparisons = [0, 1, 1, 2];
        let expected = f64::from(comparisons.iter().sum::<u32>()) / 4.0;
        assert_eq!(comparisons_each(&round(), 4, &[&index]), [expected]);
    }

    #[test]
    fn a_state_for_which_no_slot_is_left_is_not_counted() {
        // Three slots: the fourth state is left out, so two look-ups count.
        let index = [1, 2, 3, 0, 1, 2];
        assert_eq!(comparisons_each(&round(), 3, &[&index]), [1.5]);
    }
}

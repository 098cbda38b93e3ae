//! Reaches the weighted shuffle.

use rand::Rng;

use super::WeightedShuffle;
use crate::Stake;

pub struct Shuffle(WeightedShuffle);

impl Shuffle {
    pub fn new(stakes: &[u64]) -> Self {
        let weights = stakes.iter().map(|stake| Stake::new(*stake));
        Self(WeightedShuffle::new(weights))
    }

    /// Adds the whole order to a list, and uses up the tree.
    pub fn order(&mut self, rng: &mut impl Rng, order: &mut Vec<usize>) {
        order.extend(self.0.shuffle(rng));
    }
}

pub fn get_num_nodes_and_tree_size(count: usize) -> (usize, usize) {
    super::get_num_nodes_and_tree_size(count)
}

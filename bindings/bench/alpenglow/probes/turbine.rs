//! Reaches the Turbine tree, and passes on the probe of its private module.

use super::TurbineTree;
pub use super::weighted_shuffle::probe::{Shuffle, get_num_nodes_and_tree_size};
use crate::{Slot, ValidatorIndex, ValidatorInfo};

/// What a Turbine tree tells one validator.
pub struct View(TurbineTree);

impl View {
    pub fn new(validators: &[ValidatorInfo], fanout: usize, own: u64) -> Self {
        let own = ValidatorIndex::new(own);
        Self(TurbineTree::new(validators, fanout, own, Slot::new(0), 0))
    }

    pub fn root(&self) -> ValidatorIndex {
        self.0.get_root()
    }

    pub fn parent(&self) -> Option<ValidatorIndex> {
        self.0.get_parent()
    }

    pub fn children(&self) -> &[ValidatorIndex] {
        self.0.get_children()
    }
}

//! Reaches the Turbine tree, and passes on the probe of its private module.

use super::TurbineTree;
pub use super::weighted_shuffle::probe::{Tree, order, sizes, tree};
use crate::{Slot, ValidatorIndex, validators};

/// What a Turbine tree tells one validator.
pub struct View {
    pub root: ValidatorIndex,
    pub parent: Option<ValidatorIndex>,
    pub children: Vec<ValidatorIndex>,
}

pub fn view(stakes: &[u64], fanout: usize, own: u64, slot: u64, shred: usize) -> View {
    let own = ValidatorIndex::new(own);
    let tree = TurbineTree::new(&validators(stakes), fanout, own, Slot::new(slot), shred);
    View {
        root: tree.get_root(),
        parent: tree.get_parent(),
        children: tree.get_children().to_vec(),
    }
}

//! The memory that a call is lent.
//!
//! A list, committee or number of bins past its limit is refused before the size of a buffer is
//! looked at, so no buffer is longer than the limits ask for.

use crate::sys::{self, Node};
use crate::{MAX_SEATS, MAX_VALIDATORS, Stake, ValidatorIndex};

/// Places for the seats of a committee of so many.
pub(crate) fn seats(number: usize) -> Vec<ValidatorIndex> {
    ids(number.min(MAX_SEATS))
}

/// Places for so many validators, as an order or as children.
pub(crate) fn validators(number: usize) -> Vec<ValidatorIndex> {
    ids(number.min(MAX_VALIDATORS))
}

/// Nodes for the tree over so many validators.
pub(crate) fn nodes(number: usize) -> Vec<Node> {
    vec![[0; 16]; sys::tree_size(number.min(MAX_VALIDATORS))]
}

/// Places for so many ids.
fn ids(number: usize) -> Vec<ValidatorIndex> {
    vec![ValidatorIndex::new(0); number]
}

/// Columns for the pieces of bins.
pub(crate) struct Columns {
    pub(crate) bins: Vec<u64>,
    pub(crate) validators: Vec<ValidatorIndex>,
    pub(crate) stakes: Vec<Stake>,
}

impl Columns {
    /// Columns for as many pieces as so many validators and bins can give.
    pub(crate) fn new(validators: usize, bins: usize) -> Self {
        let places = validators
            .min(MAX_VALIDATORS)
            .saturating_add(bins.min(MAX_SEATS));
        Self {
            bins: vec![0; places],
            validators: ids(places),
            stakes: vec![Stake::new(0); places],
        }
    }
}

//! What the tests share.

use valwydr::{Stake, ValidatorIndex};

/// A list of stakes.
pub fn stakes(list: &[u64]) -> Vec<Stake> {
    list.iter().copied().map(Stake::new).collect()
}

/// A list of ids.
pub fn ids(list: &[u64]) -> Vec<ValidatorIndex> {
    list.iter().copied().map(ValidatorIndex::new).collect()
}

//! The weighted draw.

use crate::{Rng, tape};

/// Why a list of weights is turned down; the names are rand's.
#[derive(Debug, PartialEq)]
pub enum Error {
    /// The list is empty.
    InvalidInput,
    /// All weights are zero.
    InsufficientNonZero,
    /// The sum does not fit.
    Overflow,
}

/// Running sums of weights, to draw a place by weight.
#[derive(Clone, Debug, PartialEq)]
pub struct WeightedIndex<X> {
    running_sums: Vec<X>,
    total: X,
}

impl WeightedIndex<u64> {
    pub fn new(weights: impl IntoIterator<Item = u64>) -> Result<Self, Error> {
        let mut total = 0u64;
        let mut running_sums = Vec::new();
        for weight in weights {
            total = total.checked_add(weight).ok_or(Error::Overflow)?;
            running_sums.push(total);
        }
        if running_sums.is_empty() {
            return Err(Error::InvalidInput);
        }
        if total == 0 {
            return Err(Error::InsufficientNonZero);
        }
        Ok(Self {
            running_sums,
            total,
        })
    }

    /// Draws the smallest place whose running sum exceeds a draw below the total.
    pub fn sample<R: Rng + ?Sized>(&self, rng: &mut R) -> usize {
        tape::count_weighted_draw();
        let value = rng.random_range(0..self.total);
        self.running_sums.partition_point(|sum| *sum <= value)
    }
}

//! The weighted draw.

use std::num::NonZeroU64;

use super::uniform::Below;
use crate::Rng;

/// Why a list of weights is turned down.
#[derive(Debug)]
pub enum Error {
    InsufficientNonZero,
    Overflow,
}

/// Running sums of weights, to draw a place by weight.
#[derive(Clone, Debug)]
pub struct WeightedIndex<X> {
    running_sums: Vec<X>,
    value: Below,
}

impl WeightedIndex<u64> {
    pub fn new(weights: impl IntoIterator<Item = u64>) -> Result<Self, Error> {
        let (mut total, mut wrapped) = (0u64, false);
        let running_sums = weights.into_iter().map(|weight| {
            let (sum, over) = total.overflowing_add(weight);
            wrapped |= over;
            total = sum;
            sum
        });
        let running_sums = running_sums.collect();
        if wrapped {
            return Err(Error::Overflow);
        }
        let total = NonZeroU64::new(total).ok_or(Error::InsufficientNonZero)?;
        let value = Below::new(total);
        Ok(Self {
            running_sums,
            value,
        })
    }

    /// Draws the smallest place whose running sum exceeds a draw below the total.
    pub fn sample<R: Rng + ?Sized>(&self, rng: &mut R) -> usize {
        let value = self.value.sample(rng);
        self.running_sums.partition_point(|sum| *sum <= value)
    }
}

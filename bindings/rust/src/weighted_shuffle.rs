//! All validators in an order by stake: [`WeightedShuffle`].

use std::borrow::Borrow;

use crate::{Refusal, Stake, ValidatorIndex, Words, buffers, sys};

/// Draws an order of the positions of a list by their weights.
///
/// Every position comes once; heavier ones tend to come sooner, and those of weight 0 come last. A
/// weight that would take the sum past 2^64 − 1 counts as 0.
///
/// ```
/// use valwydr::{Stake, WeightedShuffle, Words};
///
/// let stakes = [2, 0, 3].map(Stake::new);
/// let weighted_shuffle = WeightedShuffle::new(&stakes);
/// let mut words = Words::new(&[4, 1, 0]);
/// let positions = weighted_shuffle.shuffle(&mut words)?.positions;
/// assert_eq!(positions, [2, 0, 1]);
/// # Ok::<(), valwydr::Refusal>(())
/// ```
#[derive(Clone, Debug, PartialEq, Eq)]
pub struct WeightedShuffle {
    weights: Vec<Stake>,
}

/// The order that a [`WeightedShuffle`] gives.
///
/// ```
/// use valwydr::{Stake, WeightedShuffle, Words};
///
/// let weighted_shuffle = WeightedShuffle::new([2, 0, 3].map(Stake::new));
/// let order = weighted_shuffle.shuffle(&mut Words::new(&[4, 1, 0]))?;
/// assert_eq!((order.positions.len(), order.words_read), (3, 3));
/// # Ok::<(), valwydr::Refusal>(())
/// ```
#[non_exhaustive]
#[derive(Clone, Debug, PartialEq, Eq)]
pub struct Order {
    /// The positions of the weights, each once.
    pub positions: Vec<usize>,
    /// How many words the call read.
    pub words_read: usize,
}

impl WeightedShuffle {
    /// Creates a shuffle of these weights. Any number of them is taken here, and checked by the
    /// calls.
    pub fn new<I>(weights: I) -> Self
    where
        I: IntoIterator<Item: Borrow<Stake>>,
    {
        let weights = weights.into_iter().map(|weight| *weight.borrow());
        Self {
            weights: weights.collect(),
        }
    }

    /// Draws the whole order. An empty list gives an empty one.
    ///
    /// # Errors
    ///
    /// [`ListLength`](Refusal::ListLength) for more than 4,096 weights,
    /// [`NoWordLeft`](Refusal::NoWordLeft).
    pub fn shuffle(&self, words: &mut Words<'_>) -> Result<Order, Refusal> {
        let mut order = buffers::validators(self.weights.len());
        let mut nodes = buffers::nodes(self.weights.len());
        let [words_read] = sys::weighted_shuffle(&self.weights, words, &mut order, &mut nodes)?;
        Ok(Order {
            positions: order.into_iter().map(ValidatorIndex::as_usize).collect(),
            words_read: words.advance(words_read),
        })
    }
}

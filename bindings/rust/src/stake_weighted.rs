//! Draws by stake: [`StakeWeightedSampler`] and [`IidQuorumSampler`].

use crate::{Refusal, Stake, ValidatorIndex, Words, buffers, sys};

/// Draws validators, each in proportion to its stake and each draw by itself.
///
/// ```
/// use valwydr::{Stake, StakeWeightedSampler, ValidatorIndex, Words};
///
/// // The draw below 10 that the word 13 gives is 3.
/// let stakes = vec![Stake::new(1); 10];
/// let sampler = StakeWeightedSampler::new(stakes);
/// let mut words = Words::new(&[13]);
/// let id = sampler.sample(&mut words)?.id;
/// assert_eq!(id, ValidatorIndex::new(3));
/// # Ok::<(), valwydr::Refusal>(())
/// ```
#[derive(Clone, Debug, PartialEq, Eq)]
pub struct StakeWeightedSampler {
    stakes: Vec<Stake>,
}

/// One validator that was drawn.
///
/// ```
/// use valwydr::{Stake, StakeWeightedSampler, Words};
///
/// // The first word is skipped: it is past the last whole multiple of 10.
/// let sampler = StakeWeightedSampler::new(vec![Stake::new(1); 10]);
/// let sample = sampler.sample(&mut Words::new(&[18446744073709551610, 13]))?;
/// assert_eq!((sample.id.inner(), sample.words_read), (3, 2));
/// # Ok::<(), valwydr::Refusal>(())
/// ```
#[non_exhaustive]
#[derive(Clone, Copy, Debug, PartialEq, Eq)]
pub struct Sample {
    /// The validator.
    pub id: ValidatorIndex,
    /// How many words the call read.
    pub words_read: usize,
}

impl StakeWeightedSampler {
    /// Creates a sampler over the epoch's list. Any list is taken here, and checked by the calls.
    pub const fn new(stakes: Vec<Stake>) -> Self {
        Self { stakes }
    }

    /// Draws a validator.
    ///
    /// # Errors
    ///
    /// [`ListLength`](Refusal::ListLength), [`SumPast`](Refusal::SumPast),
    /// [`TotalZero`](Refusal::TotalZero), [`NoWordLeft`](Refusal::NoWordLeft).
    pub fn sample(&self, words: &mut Words<'_>) -> Result<Sample, Refusal> {
        let [id, words_read] = sys::stake_weighted_sample(&self.stakes, words)?;
        Ok(Sample {
            id: ValidatorIndex::new(id),
            words_read: words.advance(words_read),
        })
    }

    /// The sampler that draws committees of `k` by this one.
    pub const fn into_quorum_strategy(self, k: usize) -> IidQuorumSampler {
        IidQuorumSampler::new(self, k)
    }
}

/// Draws committees, each seat in proportion to stake and by itself.
///
/// ```
/// use valwydr::{Stake, StakeWeightedSampler, ValidatorIndex, Words};
///
/// let stakes = [5, 3, 2].map(Stake::new).to_vec();
/// let k = 3;
/// let sampler = StakeWeightedSampler::new(stakes).into_quorum_strategy(k);
/// let mut words = Words::new(&[13, 5, 9, 0]);
/// let seats = sampler.sample_quorum(&mut words)?.seats;
/// assert_eq!(seats, [0, 1, 2].map(ValidatorIndex::new));
/// assert_eq!(words.cursor(), 3);
/// # Ok::<(), valwydr::Refusal>(())
/// ```
#[derive(Clone, Debug, PartialEq, Eq)]
pub struct IidQuorumSampler {
    inner: StakeWeightedSampler,
    k: usize,
}

/// A committee drawn by an [`IidQuorumSampler`].
///
/// ```
/// use valwydr::{Stake, StakeWeightedSampler, Words};
///
/// let sampler = StakeWeightedSampler::new(vec![Stake::new(1); 10]).into_quorum_strategy(2);
/// let quorum = sampler.sample_quorum(&mut Words::new(&[13, 14]))?;
/// assert_eq!((quorum.seats[1].inner(), quorum.words_read), (4, 2));
/// # Ok::<(), valwydr::Refusal>(())
/// ```
#[non_exhaustive]
#[derive(Clone, Debug, PartialEq, Eq)]
pub struct Quorum {
    /// The validator of each seat.
    pub seats: Vec<ValidatorIndex>,
    /// How many words the call read.
    pub words_read: usize,
}

impl IidQuorumSampler {
    /// Creates a sampler of committees of `k` by `inner`.
    pub const fn new(inner: StakeWeightedSampler, k: usize) -> Self {
        Self { inner, k }
    }

    /// The number of seats.
    pub const fn quorum_size(&self) -> usize {
        self.k
    }

    /// Draws a single validator, as [`StakeWeightedSampler::sample`] does.
    ///
    /// # Errors
    ///
    /// Those of [`StakeWeightedSampler::sample`].
    pub fn sample(&self, words: &mut Words<'_>) -> Result<Sample, Refusal> {
        self.inner.sample(words)
    }

    /// Draws a committee. With k = 0 it has no seat, and no word is read.
    ///
    /// # Errors
    ///
    /// [`ListLength`](Refusal::ListLength), [`Size`](Refusal::Size), [`SumPast`](Refusal::SumPast),
    /// [`TotalZero`](Refusal::TotalZero), [`NoWordLeft`](Refusal::NoWordLeft).
    pub fn sample_quorum(&self, words: &mut Words<'_>) -> Result<Quorum, Refusal> {
        let mut seats = buffers::seats(self.k);
        let [words_read] = sys::iid_sample_quorum(self.k, &self.inner.stakes, words, &mut seats)?;
        Ok(Quorum {
            seats,
            words_read: words.advance(words_read),
        })
    }
}

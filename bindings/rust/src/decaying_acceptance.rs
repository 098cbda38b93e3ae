//! Draws that reject a validator the more often the more seats it has:
//! [`DecayingAcceptanceSampler`].

use std::sync::{Mutex, MutexGuard, PoisonError};

use crate::{Refusal, Stake, ValidatorIndex, Words, buffers, sys};

/// The most tries that can be allowed for a seat, and those that are where nothing else is said.
pub const MAX_TRIES_PER_SAMPLE: usize = 100_000;

/// Draws validators by stake, and rejects one the more often the more often it was taken.
///
/// A validator that was taken `c` times is rejected with probability `c / max_samples`. With
/// positive infinity nothing is rejected. The counts are the sampler's own, behind a lock that a
/// call holds until it ends.
///
/// ```
/// use valwydr::{DecayingAcceptanceSampler, Stake, ValidatorIndex, Words};
///
/// // A try reads a word for the validator and one for the fraction. With a count of 1 and
/// // max_samples 2.0 a fraction of at least 1/2 is accepted: that of 2^63 is, of 2^63 - 1 not.
/// let (stakes, max_samples, k) = (vec![Stake::new(1)], 2.0, 1);
/// let sampler = DecayingAcceptanceSampler::new(stakes, max_samples, k);
/// let list = [0, 0, 0, (1 << 63) - 1, 0, 1 << 63, 0, 0];
/// let mut words = Words::new(&list);
/// let id = sampler.sample_one(&mut words)?.id;
/// assert_eq!(id, ValidatorIndex::new(0));
/// assert_eq!(sampler.sample_one(&mut words)?.tries, 2);
/// assert_eq!(sampler.counts(), [2]);
///
/// sampler.reset();
/// assert_eq!(sampler.counts(), [0]);
/// let seats = sampler.sample_quorum(&mut words)?.seats;
/// assert_eq!((seats, words.remaining()), (vec![id], 0));
/// # Ok::<(), valwydr::Refusal>(())
/// ```
#[derive(Debug)]
pub struct DecayingAcceptanceSampler {
    stakes: Vec<Stake>,
    max_samples: f64,
    tries_allowed: usize,
    k: usize,
    sample_count: Mutex<Vec<u32>>,
}

/// One validator that was taken.
///
/// ```
/// use valwydr::{DecayingAcceptanceSampler, Stake, Words};
///
/// let sampler = DecayingAcceptanceSampler::new(vec![Stake::new(1); 10], 2.0, 1);
/// let sample = sampler.sample_one(&mut Words::new(&[13, 0]))?;
/// assert_eq!((sample.id.inner(), sample.tries, sample.words_read), (3, 1, 2));
/// # Ok::<(), valwydr::Refusal>(())
/// ```
#[non_exhaustive]
#[derive(Clone, Copy, Debug, PartialEq, Eq)]
pub struct Sample {
    /// The validator.
    pub id: ValidatorIndex,
    /// How many tries were made.
    pub tries: usize,
    /// How many words the call read.
    pub words_read: usize,
}

/// A committee drawn by a [`DecayingAcceptanceSampler`].
///
/// ```
/// use valwydr::{DecayingAcceptanceSampler, Stake, Words};
///
/// // With max_samples 1.0 nobody has two seats: the second try is rejected.
/// let sampler = DecayingAcceptanceSampler::new(vec![Stake::new(1); 2], 1.0, 2);
/// let quorum = sampler.sample_quorum(&mut Words::new(&[0, 0, 0, u64::MAX, 1, 0]))?;
/// assert_eq!((quorum.seats[1].inner(), quorum.tries, quorum.words_read), (1, 3, 6));
/// # Ok::<(), valwydr::Refusal>(())
/// ```
#[non_exhaustive]
#[derive(Clone, Debug, PartialEq, Eq)]
pub struct Quorum {
    /// The validator of each seat.
    pub seats: Vec<ValidatorIndex>,
    /// How many tries were made, over all seats.
    pub tries: usize,
    /// How many words the call read.
    pub words_read: usize,
}

impl DecayingAcceptanceSampler {
    /// Creates a sampler of committees of `k` over the epoch's list, with all counts 0 and
    /// [`MAX_TRIES_PER_SAMPLE`] tries for a seat. Any list and numbers are taken here, and checked
    /// by the calls.
    pub fn new(stakes: Vec<Stake>, max_samples: f64, k: usize) -> Self {
        let sample_count = Mutex::new(vec![0; stakes.len()]);
        Self {
            stakes,
            max_samples,
            tries_allowed: MAX_TRIES_PER_SAMPLE,
            k,
            sample_count,
        }
    }

    /// The same sampler with another number of tries allowed for a seat.
    #[must_use]
    pub fn with_tries_allowed(self, tries_allowed: usize) -> Self {
        Self {
            tries_allowed,
            ..self
        }
    }

    /// The same sampler with these counts, one for each validator.
    #[must_use]
    pub fn with_counts(self, counts: Vec<u32>) -> Self {
        Self {
            sample_count: Mutex::new(counts),
            ..self
        }
    }

    /// The number of seats.
    pub const fn quorum_size(&self) -> usize {
        self.k
    }

    /// How often each validator was taken.
    pub fn counts(&self) -> Vec<u32> {
        self.sample_count().clone()
    }

    /// Sets all counts to 0.
    pub fn reset(&self) {
        sys::decaying_acceptance_reset(&mut self.sample_count());
    }

    /// Draws a single validator, and raises its count by 1.
    ///
    /// # Errors
    ///
    /// [`ListLength`](Refusal::ListLength), [`TriesAllowed`](Refusal::TriesAllowed),
    /// [`MaxSamples`](Refusal::MaxSamples), [`ShortBuffer`](Refusal::ShortBuffer) where there are
    /// fewer counts than stakes, [`SumPast`](Refusal::SumPast), [`TotalZero`](Refusal::TotalZero),
    /// [`CountLimit`](Refusal::CountLimit), [`NoWordLeft`](Refusal::NoWordLeft),
    /// [`LastTryRejected`](Refusal::LastTryRejected). The counts are then as they were.
    pub fn sample_one(&self, words: &mut Words<'_>) -> Result<Sample, Refusal> {
        let [id, tries, words_read] = sys::decaying_acceptance_sample_one(
            self.max_samples,
            self.tries_allowed,
            &self.stakes,
            &mut self.sample_count(),
            words,
        )?;
        Ok(Sample {
            id: ValidatorIndex::new(id),
            tries: tries as usize,
            words_read: words.advance(words_read),
        })
    }

    /// Draws a committee, starting from the counts as they are, and sets them to 0.
    ///
    /// # Errors
    ///
    /// Those of [`sample_one`](Self::sample_one), and [`Size`](Refusal::Size). The counts are then
    /// as they were.
    pub fn sample_quorum(&self, words: &mut Words<'_>) -> Result<Quorum, Refusal> {
        let mut seats = buffers::seats(self.k);
        let [tries, words_read] = sys::decaying_acceptance_sample_quorum(
            self.max_samples,
            self.tries_allowed,
            self.k,
            &self.stakes,
            &mut self.sample_count(),
            words,
            &mut seats,
        )?;
        Ok(Quorum {
            seats,
            tries: tries as usize,
            words_read: words.advance(words_read),
        })
    }

    /// The counts. A call leaves them whole, so they are good even where a thread panicked that
    /// held them.
    fn sample_count(&self) -> MutexGuard<'_, Vec<u32>> {
        self.sample_count
            .lock()
            .unwrap_or_else(PoisonError::into_inner)
    }
}

impl Clone for DecayingAcceptanceSampler {
    fn clone(&self) -> Self {
        Self {
            stakes: self.stakes.clone(),
            sample_count: Mutex::new(self.counts()),
            ..*self
        }
    }
}

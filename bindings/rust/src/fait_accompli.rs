//! Fixed seats by share and a fallback for the others: [`FaitAccompli1Sampler`].

use std::marker::PhantomData;

use crate::buffers::{self, Columns};
use crate::partition::{Piece, pieces_of};
use crate::{IidQuorumSampler, PartitionSampler, Refusal, Stake, ValidatorIndex, Words, sys};

/// Draws committees by FA1-F.
///
/// Each validator has the whole number of seats in its share, `floor(stake * k / total)`. The
/// further seats are drawn by the fallback `F` over the stake that the fixed seats leave: from bins
/// ([`PartitionSampler`]) or by plain draws ([`IidQuorumSampler`]).
///
/// ```
/// use valwydr::{FaitAccompli1Sampler, Stake, ValidatorIndex, Words};
///
/// // Of 4 seats, stakes 5, 3 and 2 have 2, 1 and 0 fixed ones and keep 0, 1 and 2 of their stake:
/// // one seat is drawn, from one bin.
/// let (stakes, k) = ([5, 3, 2].map(Stake::new).to_vec(), 4);
/// let sampler = FaitAccompli1Sampler::new_with_partition_fallback(stakes, k);
/// let (mut first, mut second) = (Words::new(&[1, 2]), Words::new(&[1]));
/// let committee = sampler.sample_quorum(&mut first, &mut second)?;
/// assert_eq!(committee.fixed_seats(), [0, 0, 1].map(ValidatorIndex::new));
/// assert_eq!(committee.further_seats(), [2].map(ValidatorIndex::new));
///
/// // 49 equal stakes and 49 seats: one each, and no word is read.
/// let (stakes, k) = (vec![Stake::new(1); 49], 49);
/// let sampler = FaitAccompli1Sampler::new_with_stake_weighted_fallback(stakes, k);
/// let mut words = Words::new(&[]);
/// let seats = sampler.sample_quorum(&mut words)?.seats;
/// assert!(seats.into_iter().eq((0..49).map(ValidatorIndex::new)));
/// # Ok::<(), valwydr::Refusal>(())
/// ```
#[derive(Clone, Debug, PartialEq, Eq)]
pub struct FaitAccompli1Sampler<F> {
    stakes: Vec<Stake>,
    k: usize,
    fallback: PhantomData<F>,
}

/// A committee drawn by a [`FaitAccompli1Sampler`].
///
/// ```
/// use valwydr::{FaitAccompli1Sampler, Stake, Words};
///
/// let stakes = [5, 3, 2].map(Stake::new).to_vec();
/// let sampler = FaitAccompli1Sampler::new_with_partition_fallback(stakes, 4);
/// let committee = sampler.sample_quorum(&mut Words::new(&[1, 2]), &mut Words::new(&[1]))?;
/// assert_eq!((committee.seats.len(), committee.further), (4, 1));
/// assert_eq!(committee.pieces.len(), 2);
/// assert_eq!((committee.first_words_read, committee.second_words_read), (2, 1));
/// # Ok::<(), valwydr::Refusal>(())
/// ```
#[non_exhaustive]
#[derive(Clone, Debug, PartialEq, Eq)]
pub struct Committee {
    /// The validator of each seat: the fixed seats in list order, then the further ones.
    pub seats: Vec<ValidatorIndex>,
    /// How many seats were drawn by the fallback.
    pub further: usize,
    /// What the bins hold, in the order in which they were filled; none with plain draws.
    pub pieces: Vec<Piece>,
    /// How many of the first words the call read; with plain draws, of the words.
    pub first_words_read: usize,
    /// How many of the second words the call read; 0 with plain draws.
    pub second_words_read: usize,
}

impl Committee {
    /// The fixed seats.
    pub fn fixed_seats(&self) -> &[ValidatorIndex] {
        self.split_seats().0
    }

    /// The seats that were drawn by the fallback.
    pub fn further_seats(&self) -> &[ValidatorIndex] {
        self.split_seats().1
    }

    /// The fixed seats and the further ones.
    fn split_seats(&self) -> (&[ValidatorIndex], &[ValidatorIndex]) {
        let fixed = self.seats.len().saturating_sub(self.further);
        self.seats.split_at(fixed)
    }
}

impl<F> FaitAccompli1Sampler<F> {
    /// A sampler of committees of `k`.
    const fn new(stakes: Vec<Stake>, k: u64) -> Self {
        Self {
            stakes,
            k: k as usize,
            fallback: PhantomData,
        }
    }

    /// The number of seats.
    pub const fn quorum_size(&self) -> usize {
        self.k
    }
}

impl FaitAccompli1Sampler<PartitionSampler> {
    /// Creates a sampler over the epoch's list that draws its further seats from bins. Any list and
    /// number are taken here, and checked by the calls.
    #[must_use]
    pub const fn new_with_partition_fallback(stakes: Vec<Stake>, k: u64) -> Self {
        Self::new(stakes, k)
    }

    /// Draws a committee: `first` puts the validators in order, `second` draws from the bins.
    /// Where all seats are fixed, no word is read.
    ///
    /// # Errors
    ///
    /// [`ListLength`](Refusal::ListLength), [`Size`](Refusal::Size), [`SumPast`](Refusal::SumPast),
    /// [`TotalZero`](Refusal::TotalZero), [`EmptyBin`](Refusal::EmptyBin),
    /// [`NoWordLeft`](Refusal::NoWordLeft) for either list. Both cursors are then as they were.
    pub fn sample_quorum(
        &self,
        first: &mut Words<'_>,
        second: &mut Words<'_>,
    ) -> Result<Committee, Refusal> {
        let mut seats = buffers::seats(self.k);
        let mut columns = Columns::new(self.stakes.len(), self.k);
        let [further, pieces, first_read, second_read] =
            sys::fait_accompli1_with_partition_fallback(
                self.k,
                &self.stakes,
                (first, second),
                &mut seats,
                &mut columns,
            )?;
        Ok(Committee {
            seats,
            further: further as usize,
            pieces: pieces_of(&columns, pieces),
            first_words_read: first.advance(first_read),
            second_words_read: second.advance(second_read),
        })
    }
}

impl FaitAccompli1Sampler<IidQuorumSampler> {
    /// Creates a sampler over the epoch's list that draws its further seats by stake, each by
    /// itself. Any list and number are taken here, and checked by the calls.
    #[must_use]
    pub const fn new_with_stake_weighted_fallback(stakes: Vec<Stake>, k: u64) -> Self {
        Self::new(stakes, k)
    }

    /// Draws a committee. Where all seats are fixed, no word is read.
    ///
    /// # Errors
    ///
    /// [`ListLength`](Refusal::ListLength), [`Size`](Refusal::Size), [`SumPast`](Refusal::SumPast),
    /// [`TotalZero`](Refusal::TotalZero), [`NoWordLeft`](Refusal::NoWordLeft).
    pub fn sample_quorum(&self, words: &mut Words<'_>) -> Result<Committee, Refusal> {
        let mut seats = buffers::seats(self.k);
        let [further, _, words_read, _] = sys::fait_accompli1_with_stake_weighted_fallback(
            self.k,
            &self.stakes,
            words,
            &mut seats,
        )?;
        Ok(Committee {
            seats,
            further: further as usize,
            pieces: Vec::new(),
            first_words_read: words.advance(words_read),
            second_words_read: 0,
        })
    }
}

//! One validator from each bin: [`PartitionSampler`].

use crate::buffers::{self, Columns};
use crate::{Refusal, Stake, ValidatorIndex, Words, sys};

/// Draws committees with one seat from each of a number of bins.
///
/// The validators are put in order by the first words, bins of one capacity are filled with their
/// stakes in that order, and one validator is drawn from each bin by the second words. Calls with
/// the same first words from the same place have the same bins.
///
/// ```
/// use valwydr::{PartitionSampler, Stake, ValidatorIndex, Words};
///
/// // The words 1 and 2 leave the order as it is. Bin 0 then holds the 3 of validator 0 and 1 of
/// // validator 2, bin 1 the other 3.
/// let (stakes, num_bins) = ([3, 0, 4].map(Stake::new).to_vec(), 2);
/// let sampler = PartitionSampler::new(stakes, num_bins);
/// let (mut first, mut second) = (Words::new(&[1, 2]), Words::new(&[2, 0]));
/// let partition = sampler.sample_quorum(&mut first, &mut second)?;
/// assert_eq!(partition.seats, [0, 2].map(ValidatorIndex::new));
///
/// let bin = 0;
/// let pieces = partition.pieces.iter().filter(|piece| piece.bin == bin);
/// let stakes = pieces.map(|piece| (piece.validator.inner(), piece.stake.inner()));
/// assert!(stakes.eq([(0, 3), (2, 1)]));
/// # Ok::<(), valwydr::Refusal>(())
/// ```
#[derive(Clone, Debug, PartialEq, Eq)]
pub struct PartitionSampler {
    stakes: Vec<Stake>,
    num_bins: usize,
}

/// What one bin holds of one validator's stake.
///
/// ```
/// use valwydr::{PartitionSampler, Stake, Words};
///
/// // A stake of 5 in bins of 2.
/// let sampler = PartitionSampler::new(vec![Stake::new(5)], 3);
/// let partition = sampler.sample_quorum(&mut Words::new(&[]), &mut Words::new(&[0, 0, 0]))?;
/// let last = partition.pieces[2];
/// assert_eq!((last.bin, last.validator.inner(), last.stake.inner()), (2, 0, 1));
/// # Ok::<(), valwydr::Refusal>(())
/// ```
#[non_exhaustive]
#[derive(Clone, Copy, Debug, PartialEq, Eq)]
pub struct Piece {
    /// The bin.
    pub bin: usize,
    /// The validator.
    pub validator: ValidatorIndex,
    /// How much of its stake.
    pub stake: Stake,
}

/// A committee drawn by a [`PartitionSampler`].
///
/// ```
/// use valwydr::{PartitionSampler, Stake, Words};
///
/// let sampler = PartitionSampler::new(vec![Stake::new(2); 2], 2);
/// let partition = sampler.sample_quorum(&mut Words::new(&[1]), &mut Words::new(&[0, 0]))?;
/// assert_eq!((partition.seats.len(), partition.pieces.len()), (2, 2));
/// assert_eq!((partition.first_words_read, partition.second_words_read), (1, 2));
/// # Ok::<(), valwydr::Refusal>(())
/// ```
#[non_exhaustive]
#[derive(Clone, Debug, PartialEq, Eq)]
pub struct Partition {
    /// The validator drawn from each bin.
    pub seats: Vec<ValidatorIndex>,
    /// What the bins hold, in the order in which they were filled.
    pub pieces: Vec<Piece>,
    /// How many of the first words the call read.
    pub first_words_read: usize,
    /// How many of the second words the call read.
    pub second_words_read: usize,
}

impl PartitionSampler {
    /// Creates a sampler with `num_bins` bins over the epoch's list. Any list and number are taken
    /// here, and checked by the calls.
    pub const fn new(stakes: Vec<Stake>, num_bins: usize) -> Self {
        Self { stakes, num_bins }
    }

    /// The number of seats, which is that of the bins.
    pub const fn quorum_size(&self) -> usize {
        self.num_bins
    }

    /// Draws a committee: `first` puts the validators in order, `second` draws from the bins.
    /// Without bins it has no seat, and no word is read.
    ///
    /// # Errors
    ///
    /// [`ListLength`](Refusal::ListLength), [`Size`](Refusal::Size), [`SumPast`](Refusal::SumPast),
    /// [`TotalZero`](Refusal::TotalZero), [`EmptyBin`](Refusal::EmptyBin),
    /// [`NoWordLeft`](Refusal::NoWordLeft) for either list. Both cursors are then as they were.
    pub fn sample_quorum(
        &self,
        first: &mut Words<'_>,
        second: &mut Words<'_>,
    ) -> Result<Partition, Refusal> {
        let mut seats = buffers::seats(self.num_bins);
        let mut columns = Columns::new(self.stakes.len(), self.num_bins);
        let [pieces, first_read, second_read] = sys::partition_sample_quorum(
            self.num_bins,
            &self.stakes,
            (first, second),
            &mut seats,
            &mut columns,
        )?;
        Ok(Partition {
            seats,
            pieces: pieces_of(&columns, pieces),
            first_words_read: first.advance(first_read),
            second_words_read: second.advance(second_read),
        })
    }
}

/// The pieces at the front of the columns.
pub(crate) fn pieces_of(columns: &Columns, number: u64) -> Vec<Piece> {
    let rows = columns.bins.iter().zip(&columns.validators);
    rows.zip(&columns.stakes)
        .take(number as usize)
        .map(|((&bin, &validator), &stake)| Piece {
            bin: bin as usize,
            validator,
            stake,
        })
        .collect()
}

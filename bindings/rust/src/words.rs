//! The words of chance.

/// A list of words of chance and a cursor, the place from which a call reads them.
///
/// An accepted call moves the cursor by the words that it read; a refused call leaves it. A node
/// takes the words from its seeded generator. Where it can't tell how many a call will read, it
/// lengthens the list and calls again: with the same words from the same place, the answer is the
/// same however long the list is.
///
/// ```
/// use valwydr::{Refusal, Stake, StakeWeightedSampler, Words};
///
/// # let mut next_u64 = { let mut n = 0; move || { n += 7; n } };
/// let sampler = StakeWeightedSampler::new(vec![Stake::new(1); 10]).into_quorum_strategy(100);
/// let mut list = Vec::new();
/// let quorum = loop {
///     list.extend((0..64).map(|_| next_u64()));
///     match sampler.sample_quorum(&mut Words::new(&list)) {
///         Err(Refusal::NoWordLeft) => continue,
///         answer => break answer?,
///     }
/// };
/// assert_eq!((quorum.seats.len(), list.len()), (100, 128));
/// # Ok::<(), Refusal>(())
/// ```
///
/// A list that serves several calls, one after another:
///
/// ```
/// use valwydr::{Stake, StakeWeightedSampler, Words};
///
/// let sampler = StakeWeightedSampler::new(vec![Stake::new(1); 10]);
/// let list = [13, 18446744073709551610, 4];
/// let mut words = Words::new(&list);
/// assert_eq!(sampler.sample(&mut words)?.id.inner(), 3);
/// assert_eq!((words.cursor(), words.remaining()), (1, 2));
///
/// // The second word is skipped: it is past the last whole multiple of 10.
/// assert_eq!(sampler.sample(&mut words)?.id.inner(), 4);
/// assert_eq!((words.cursor(), words.remaining()), (3, 0));
/// # Ok::<(), valwydr::Refusal>(())
/// ```
#[derive(Clone, Debug, PartialEq, Eq)]
pub struct Words<'a> {
    list: &'a [u64],
    cursor: usize,
}

impl<'a> Words<'a> {
    /// The words of a list, from its first on.
    pub const fn new(list: &'a [u64]) -> Self {
        Self::at(list, 0)
    }

    /// The words of a list from the place `cursor` on. Past the end of the list there are none.
    pub const fn at(list: &'a [u64], cursor: usize) -> Self {
        Self { list, cursor }
    }

    /// The place of the next word in the list.
    pub const fn cursor(&self) -> usize {
        self.cursor
    }

    /// How many words are left.
    pub const fn remaining(&self) -> usize {
        self.list.len().saturating_sub(self.cursor)
    }

    /// The whole list.
    pub(crate) const fn list(&self) -> &'a [u64] {
        self.list
    }

    /// Moves the cursor past the words that a call read, and gives their number. They are words of
    /// the list, so the sum fits.
    pub(crate) const fn advance(&mut self, words_read: u64) -> usize {
        let words_read = words_read as usize;
        self.cursor = self.cursor.saturating_add(words_read);
        words_read
    }
}

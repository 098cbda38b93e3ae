//! [`Stake`] and [`ValidatorIndex`], two types over u64.

use std::fmt;

use crate::sys;

/// A validator's stake.
///
/// Arithmetic answers `None` where no stake is the result: it would be below 0 or above 2^64 − 1,
/// or the divisor is 0.
///
/// ```
/// use valwydr::{Refusal, Stake};
///
/// # struct ValidatorInfo {
/// #     stake: Stake,
/// # }
/// # let validators = [5, 3, 2].map(Stake::new).map(|stake| ValidatorInfo { stake });
/// # let (stake, num_bins) = (Stake::new(5), 4);
/// // Of validators with stakes 5, 3 and 2.
/// let stakes: Vec<Stake> = validators.iter().map(|v| Stake::new(v.stake.inner())).collect();
/// let total = Stake::checked_sum(&stakes).ok_or(Refusal::SumPast)?;
/// assert_eq!(total.to_string(), "10");
///
/// let left: Option<Stake> = total.checked_sub(stake);
/// assert_eq!(left, Some(Stake::new(5)));
/// assert_eq!(stake.checked_sub(total), None);
///
/// let stake_per_bin: Option<Stake> = total.div_ceil(num_bins);
/// assert_eq!(stake_per_bin, Some(Stake::new(3)));
/// # Ok::<(), Refusal>(())
/// ```
#[repr(transparent)]
#[derive(Clone, Copy, Debug, Default, PartialEq, Eq, PartialOrd, Ord, Hash)]
pub struct Stake(u64);

impl Stake {
    /// The stake of a number.
    pub const fn new(stake: u64) -> Self {
        Self(stake)
    }

    /// The number.
    pub const fn inner(self) -> u64 {
        self.0
    }

    /// The quotient, rounded up, or `None` where the divisor is 0.
    pub fn div_ceil(self, divisor: u64) -> Option<Self> {
        sys::stake_div_ceil(self.0, divisor).map(Self)
    }

    /// The sum, or `None` where it is past 2^64 − 1.
    pub fn checked_add(self, rhs: Self) -> Option<Self> {
        sys::stake_checked_add(self.0, rhs.0).map(Self)
    }

    /// The difference, or `None` where it is below 0.
    pub fn checked_sub(self, rhs: Self) -> Option<Self> {
        sys::stake_sub(self.0, rhs.0).map(Self)
    }

    /// The product, or `None` where it is past 2^64 − 1.
    pub fn checked_mul(self, rhs: u64) -> Option<Self> {
        sys::stake_mul(self.0, rhs).map(Self)
    }

    /// The sum of a list of any length, or `None` where it is past 2^64 − 1.
    pub fn checked_sum(stakes: &[Self]) -> Option<Self> {
        sys::stake_sum(stakes).map(Self)
    }
}

impl fmt::Display for Stake {
    fn fmt(&self, f: &mut fmt::Formatter<'_>) -> fmt::Result {
        let digits = &mut [0; sys::MAX_DIGITS];
        f.pad_integral(true, "", sys::stake_fmt(self.0, digits).ok_or(fmt::Error)?)
    }
}

impl From<u64> for Stake {
    fn from(stake: u64) -> Self {
        Self(stake)
    }
}

impl From<Stake> for u64 {
    fn from(stake: Stake) -> Self {
        stake.0
    }
}

/// A validator's id: its position in the epoch's list.
///
/// ```
/// use valwydr::ValidatorIndex;
///
/// let id = ValidatorIndex::new(7);
/// assert_eq!((id.inner(), id.as_usize(), id.to_string()), (7, 7, "7".to_owned()));
/// assert!(id < ValidatorIndex::new(8));
/// ```
#[repr(transparent)]
#[derive(Clone, Copy, Debug, PartialEq, Eq, PartialOrd, Ord, Hash)]
pub struct ValidatorIndex(u64);

impl ValidatorIndex {
    /// The id of a number.
    pub const fn new(index: u64) -> Self {
        Self(index)
    }

    /// The number.
    pub const fn inner(self) -> u64 {
        self.0
    }

    /// The number, to index a list with.
    pub const fn as_usize(self) -> usize {
        self.0 as usize
    }
}

impl fmt::Display for ValidatorIndex {
    fn fmt(&self, f: &mut fmt::Formatter<'_>) -> fmt::Result {
        let digits = &mut [0; sys::MAX_DIGITS];
        f.pad_integral(
            true,
            "",
            sys::validator_index_fmt(self.0, digits).ok_or(fmt::Error)?,
        )
    }
}

impl From<u64> for ValidatorIndex {
    fn from(index: u64) -> Self {
        Self(index)
    }
}

impl From<ValidatorIndex> for u64 {
    fn from(index: ValidatorIndex) -> Self {
        index.0
    }
}

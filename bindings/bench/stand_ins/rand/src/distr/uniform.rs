//! The draw below a bound.

use std::num::NonZeroU64;

use crate::Rng;

#[derive(Debug)]
pub enum Error {
    EmptyRange,
}

/// Draws one value at least `low` and below `high`.
pub trait UniformSampler {
    type X;

    fn sample_single<R: Rng + ?Sized>(
        low: Self::X,
        high: Self::X,
        rng: &mut R,
    ) -> Result<Self::X, Error>;
}

/// A type whose ranges can be drawn from.
pub trait SampleUniform: Sized {
    type Sampler: UniformSampler<X = Self>;
}

impl SampleUniform for u64 {
    type Sampler = Self;
}

impl UniformSampler for u64 {
    type X = Self;

    fn sample_single<R: Rng + ?Sized>(low: u64, high: u64, rng: &mut R) -> Result<u64, Error> {
        let size = high.checked_sub(low).and_then(NonZeroU64::new);
        Ok(low + below(size.ok_or(Error::EmptyRange)?, rng))
    }
}

impl SampleUniform for usize {
    type Sampler = Self;
}

impl UniformSampler for usize {
    type X = Self;

    fn sample_single<R: Rng + ?Sized>(
        low: usize,
        high: usize,
        rng: &mut R,
    ) -> Result<usize, Error> {
        u64::sample_single(low as u64, high as u64, rng).map(|value| value as usize)
    }
}

/// Draws below `m` once. A word up to 2^64 - 1 - m always counts, so that the last that counts is seldom looked for.
fn below<R: Rng + ?Sized>(m: NonZeroU64, rng: &mut R) -> u64 {
    loop {
        let word = rng.next_u64();
        if word <= u64::MAX - m.get() || word <= last_counted(m) {
            return word % m;
        }
    }
}

/// The last word that counts for a draw below `m`: the 2^64 mod m words after it are skipped.
fn last_counted(m: NonZeroU64) -> u64 {
    u64::MAX - m.get().wrapping_neg() % m
}

/// Draws below a bound, again and again.
#[derive(Clone, Debug)]
pub(crate) struct Below {
    bound: NonZeroU64,
    last: u64,
}

impl Below {
    pub(crate) fn new(bound: NonZeroU64) -> Self {
        let last = last_counted(bound);
        Self { bound, last }
    }

    pub(crate) fn sample<R: Rng + ?Sized>(&self, rng: &mut R) -> u64 {
        loop {
            let word = rng.next_u64();
            if word <= self.last {
                return word % self.bound;
            }
        }
    }
}

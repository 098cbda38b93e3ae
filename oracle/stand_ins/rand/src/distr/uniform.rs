//! The draw below a bound.

use crate::Rng;

#[derive(Debug, PartialEq)]
pub enum Error {
    EmptyRange,
}

/// Draws one value at least `low` and below `high`.
pub trait UniformSampler {
    type X;

    fn sample_single<R: Rng + ?Sized>(
        low: Self::X,
        high: Self::X,
        rng: &mut R,
    ) -> Result<Self::X, Error>;
}

/// A type whose ranges can be drawn from.
pub trait SampleUniform: Sized {
    type Sampler: UniformSampler<X = Self>;
}

impl SampleUniform for u64 {
    type Sampler = Self;
}

impl UniformSampler for u64 {
    type X = Self;

    fn sample_single<R: Rng + ?Sized>(low: u64, high: u64, rng: &mut R) -> Result<u64, Error> {
        if low >= high {
            return Err(Error::EmptyRange);
        }
        Ok(low + below(high - low, rng))
    }
}

impl SampleUniform for usize {
    type Sampler = Self;
}

impl UniformSampler for usize {
    type X = Self;

    fn sample_single<R: Rng + ?Sized>(
        low: usize,
        high: usize,
        rng: &mut R,
    ) -> Result<usize, Error> {
        u64::sample_single(low as u64, high as u64, rng).map(|value| value as usize)
    }
}

/// Draws below `m`, at least 1: words in the uneven rest below 2^64 are skipped.
fn below<R: Rng + ?Sized>(m: u64, rng: &mut R) -> u64 {
    let all = 1u128 << 64;
    let limit = all - all % u128::from(m);
    loop {
        let word = rng.next_u64();
        if u128::from(word) < limit {
            return word % m;
        }
    }
}

//! Stand-in for the crate `rand`: every number comes out of a given list of words.
//!
//! It has only what the commit's files use, under rand's own names. The rest,
//! which rand does not have, is in [`words`] and [`tape`].

pub mod distr;
pub mod tape;
pub mod words;

use std::ops::Range;

use distr::uniform::{SampleUniform, UniformSampler};

pub mod prelude {
    pub use crate::{Rng, SeedableRng, SliceRandom, StdRng};
}

/// A source of words, and what is drawn from it.
pub trait Rng {
    /// Reads the next word.
    fn next_u64(&mut self) -> u64;

    /// Draws a number of a range that is not empty.
    fn random_range<T: SampleUniform>(&mut self, range: Range<T>) -> T {
        T::Sampler::sample_single(range.start, range.end, self).expect("cannot sample empty range")
    }

    /// Draws a value of a type by its own rule.
    fn random<T: FromWord>(&mut self) -> T {
        T::from_word(self.next_u64())
    }

    /// Only FA2 asks for this, and FA2 is left out.
    fn random_bool(&mut self, _probability: f64) -> bool {
        unimplemented!("there is no rule for random_bool")
    }
}

/// A value that is made out of one word.
pub trait FromWord {
    fn from_word(word: u64) -> Self;
}

/// The fraction: at least 0 and below 1, exact.
impl FromWord for f64 {
    fn from_word(word: u64) -> Self {
        (word >> 11) as f64 / (1u64 << 53) as f64
    }
}

/// A generator that is made out of 32 seed bytes.
pub trait SeedableRng {
    fn from_seed(seed: [u8; 32]) -> Self;
}

/// A generator that reads the tape.
pub struct ThreadRng(());

/// The generator that the system seeds; here it reads the tape.
pub fn rng() -> ThreadRng {
    ThreadRng(())
}

impl Rng for ThreadRng {
    fn next_u64(&mut self) -> u64 {
        tape::next_word()
    }
}

/// The seeded generator; here the tape keeps the seed and gives the words.
pub struct StdRng(ThreadRng);

impl SeedableRng for StdRng {
    fn from_seed(seed: [u8; 32]) -> Self {
        tape::keep_seed(seed);
        Self(rng())
    }
}

impl Rng for StdRng {
    fn next_u64(&mut self) -> u64 {
        self.0.next_u64()
    }
}

/// The list shuffle.
pub trait SliceRandom {
    fn shuffle<R: Rng + ?Sized>(&mut self, rng: &mut R);
}

impl<T> SliceRandom for [T] {
    fn shuffle<R: Rng + ?Sized>(&mut self, rng: &mut R) {
        for i in 1..self.len() {
            self.swap(i, rng.random_range(0..i + 1));
        }
    }
}

#[cfg(test)]
mod tests;

//! Stand-in for the crate `rand`: every number comes out of one list of words.
//!
//! It draws by the rules of the oracle's stand-in and is made for speed: a generator is a cursor over the list, a draw is one
//! remainder of 64 bits, and a distribution finds once which words count.

pub mod distr;
mod words;

use std::ops::Range;

use distr::uniform::{SampleUniform, UniformSampler};
pub use words::{StdRng, WORDS, Words, rng, start_at};

pub mod prelude {
    pub use crate::{Rng, SeedableRng, SliceRandom, StdRng};
}

/// A source of words, and what is drawn from it.
pub trait Rng {
    fn next_u64(&mut self) -> u64;

    fn random_range<T: SampleUniform>(&mut self, range: Range<T>) -> T {
        T::Sampler::sample_single(range.start, range.end, self).expect("cannot sample empty range")
    }

    fn random<T: FromWord>(&mut self) -> T {
        T::from_word(self.next_u64())
    }

    /// Only FA2 asks for this, and it is not timed.
    fn random_bool(&mut self, _probability: f64) -> bool {
        unimplemented!("there is no rule for random_bool")
    }
}

/// A value that is made out of one word.
pub trait FromWord {
    fn from_word(word: u64) -> Self;
}

/// The fraction: at least 0 and below 1, exact.
impl FromWord for f64 {
    fn from_word(word: u64) -> Self {
        (word >> 11) as f64 * (1.0 / (1u64 << 53) as f64)
    }
}

/// A generator that is made out of 32 seed bytes.
pub trait SeedableRng {
    fn from_seed(seed: [u8; 32]) -> Self;
}

/// The list shuffle.
pub trait SliceRandom {
    fn shuffle<R: Rng + ?Sized>(&mut self, rng: &mut R);
}

impl<T> SliceRandom for [T] {
    fn shuffle<R: Rng + ?Sized>(&mut self, rng: &mut R) {
        for i in 1..self.len() {
            self.swap(i, rng.random_range(0..i + 1));
        }
    }
}

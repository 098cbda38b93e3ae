//! The list of words, and the generators that read it.

use std::hint::black_box;
use std::slice::Iter;
use std::sync::atomic::{AtomicUsize, Ordering};

use crate::{Rng, SeedableRng};

/// How many words there are.
const COUNT: usize = 1 << 16;

/// The words: numbers of a fixed sequence (SplitMix64).
pub static WORDS: [u64; COUNT] = words();

/// Where in the list `rng` and `StdRng` begin to read.
static START: AtomicUsize = AtomicUsize::new(0);

const fn words() -> [u64; COUNT] {
    let mut list = [0; COUNT];
    let mut i = 0;
    while i < COUNT {
        let state = (i as u64 + 1).wrapping_mul(0x9e37_79b9_7f4a_7c15);
        let once = (state ^ (state >> 30)).wrapping_mul(0xbf58_476d_1ce4_e5b9);
        let twice = (once ^ (once >> 27)).wrapping_mul(0x94d0_49bb_1331_11eb);
        list[i] = twice ^ (twice >> 31);
        i += 1;
    }
    list
}

/// The words from a cursor on.
pub struct Words(Iter<'static, u64>);

impl Words {
    pub fn at(cursor: usize) -> Self {
        Self(WORDS[cursor..].iter())
    }
}

impl Rng for Words {
    fn next_u64(&mut self) -> u64 {
        *self.0.next().expect("a word is left")
    }
}

/// Has the generators that are made from now on begin at this cursor.
pub fn start_at(cursor: usize) {
    START.store(cursor, Ordering::Relaxed);
}

/// The generator that the system seeds.
pub fn rng() -> Words {
    Words::at(START.load(Ordering::Relaxed))
}

/// The seeded generator. The seed is made, and not looked at.
pub struct StdRng(Words);

impl SeedableRng for StdRng {
    fn from_seed(seed: [u8; 32]) -> Self {
        black_box(seed);
        Self(rng())
    }
}

impl Rng for StdRng {
    fn next_u64(&mut self) -> u64 {
        self.0.next_u64()
    }
}

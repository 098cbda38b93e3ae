//! The words that [`rng`](crate::rng) and [`StdRng`](crate::StdRng) read, and
//! what is kept of a run. Each thread has a tape of its own.

use std::cell::RefCell;

use crate::Rng;
use crate::words::Words;

#[derive(Default)]
struct Tape {
    words: Words,
    seed: Option<[u8; 32]>,
    weighted_draws: usize,
}

thread_local! {
    static TAPE: RefCell<Tape> = RefCell::default();
}

/// Starts a run that reads these words; what was kept before is forgotten.
pub fn load(words: Vec<u64>) {
    TAPE.set(Tape {
        words: Words::new(words),
        ..Tape::default()
    });
}

/// How many words were read since the start of the run.
pub fn read() -> usize {
    TAPE.with_borrow(|tape| tape.words.read())
}

/// The last seed that a generator was made of.
pub fn seed() -> Option<[u8; 32]> {
    TAPE.with_borrow(|tape| tape.seed)
}

/// How many weighted draws were begun, on any list of words.
pub fn weighted_draws() -> usize {
    TAPE.with_borrow(|tape| tape.weighted_draws)
}

pub(crate) fn next_word() -> u64 {
    TAPE.with_borrow_mut(|tape| tape.words.next_u64())
}

pub(crate) fn keep_seed(seed: [u8; 32]) {
    TAPE.with_borrow_mut(|tape| tape.seed = Some(seed));
}

pub(crate) fn count_weighted_draw() {
    TAPE.with_borrow_mut(|tape| tape.weighted_draws += 1);
}

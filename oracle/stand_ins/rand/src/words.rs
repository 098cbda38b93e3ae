//! A list of words that is read from its start.

use std::panic::resume_unwind;

use crate::Rng;

/// What the run ends with where a word is needed and none is left.
pub struct Dry;

/// A list of words, and how many of them were read.
#[derive(Default)]
pub struct Words {
    list: Vec<u64>,
    read: usize,
}

impl Words {
    pub fn new(list: Vec<u64>) -> Self {
        Self { list, read: 0 }
    }

    pub fn read(&self) -> usize {
        self.read
    }
}

impl Rng for Words {
    fn next_u64(&mut self) -> u64 {
        let Some(word) = self.list.get(self.read) else {
            resume_unwind(Box::new(Dry))
        };
        self.read += 1;
        *word
    }
}

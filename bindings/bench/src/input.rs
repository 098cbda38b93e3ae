//! What a call is about: a list of validators and the size of a committee.

use alpenglow::{ValidatorInfo, validators};
use rand::WORDS;

/// The fanout of views, which is the commit's default.
pub const FANOUT: usize = 200;

/// How far past the cursor of the first words those of the second list begin.
const SECOND: usize = WORDS.len() / 2;

pub struct Input {
    pub stakes: Vec<u64>,
    pub validators: Vec<ValidatorInfo>,
    pub k: usize,
    /// Whether every tenth stake is 0.
    pub zeros: bool,
}

impl Input {
    pub fn new(n: usize, k: usize, zeros: bool) -> Self {
        let mut stakes = stakes(n);
        if zeros {
            stakes.iter_mut().step_by(10).for_each(|stake| *stake = 0);
        }
        Self {
            validators: validators(&stakes),
            stakes,
            k,
            zeros,
        }
    }

    pub fn n(&self) -> usize {
        self.stakes.len()
    }

    /// The `max_samples` of a decaying committee: there are at least twice as many chances as seats, and some tries are rejected.
    pub fn max_samples(&self) -> f64 {
        f64::max(2.0, (2 * self.k / self.n()) as f64)
    }

    /// The validator whose view is asked for.
    pub fn own_id(&self) -> u64 {
        self.n() as u64 / 2
    }
}

/// The stakes of an epoch, in lamports: a few large ones, many small ones, in an order that has nothing to do with their size.
fn stakes(n: usize) -> Vec<u64> {
    let by_size = (8..).map(|rank| 100_000_000_000_000_000 / rank);
    let below_one_sol = WORDS.iter().map(|word| word % 1_000_000_000);
    let stakes = by_size.zip(below_one_sol).map(|(stake, more)| stake + more);
    let mut stakes: Vec<u64> = stakes.take(n).collect();
    for i in 1..n {
        stakes.swap(i, (WORDS[n + i] % (i as u64 + 1)) as usize);
    }
    stakes
}

/// The cursors of a round's calls.
pub fn cursors(round: usize) -> impl Iterator<Item = usize> {
    (0..).map(move |call| (7919 * round + 613 * call) % (SECOND / 2))
}

/// Where the second words of a call begin.
pub fn second(cursor: usize) -> usize {
    cursor + SECOND
}

//! The entries: a call of the library and the commit's Rust for it, side by side.
//!
//! What the library asks of a caller holds in each call: a pointer and the length after it are those of one list, the array of an
//! answer has four places, and what is written to is lent once.

mod bins;
mod calls;
mod draws;
mod small;
mod turbine;

use alpenglow::{ValidatorIndex, ValidatorInfo};
pub use bins::{Fa1Bins, Partition};
pub use draws::{DecayingOne, DecayingQuorum, Fa1Draws, Iid, Sample};
pub use small::{Relay, Seeds, Sizes};
pub use turbine::{Order, View};

use crate::input::Input;
use crate::lent::Lent;
use crate::times::Side;

pub trait Entry {
    /// The name in the tables.
    const NAME: &str;
    /// The lengths of the lists that it is called on.
    const LENGTHS: &'static [usize] = &[64, 1024, 4096];
    /// The seats that it is called for.
    const SEATS: &'static [usize] = &[1];
    /// Which times of the Rust the library's is compared with.
    const RUST: &'static [Side] = &[Side::Whole, Side::Draw];
    /// The most calls that are timed together.
    const MOST_CALLS: usize = 4096;
    /// Where in the answer the numbers of words read stand.
    const WORDS_READ: &'static [usize] = &[];

    /// What the Rust is handed and uses up.
    type Given: Given;
    /// What the Rust makes of it, and draws from.
    type Sampler;
    type Answer: Listed;

    /// Has the library answer.
    fn ours(lent: &mut Lent, input: &Input, cursor: usize);

    /// What the library answered: the seats of a committee.
    fn told(lent: &Lent, input: &Input) -> Vec<u64> {
        lent.seats[..input.k].to_vec()
    }

    fn make(given: Self::Given, input: &Input, cursor: usize) -> Self::Sampler;

    fn draw(sampler: &mut Self::Sampler, input: &Input, cursor: usize) -> Self::Answer;

    /// Sets what calls of the library change and build on.
    fn renew_lent(_lent: &mut Lent, _input: &Input) {}

    /// Sets what draws from a sampler change and build on.
    fn renew_sampler(_sampler: &mut Self::Sampler, _input: &Input) {}
}

/// What is copied for the Rust before the clock starts.
pub trait Given {
    fn of(input: &Input) -> Self;
}

impl Given for () {
    fn of(_input: &Input) {}
}

impl Given for Vec<ValidatorInfo> {
    fn of(input: &Input) -> Self {
        input.validators.clone()
    }
}

/// An answer as a list of numbers, to be compared.
pub trait Listed {
    fn list(&self) -> Vec<u64>;
}

impl Listed for ValidatorIndex {
    fn list(&self) -> Vec<u64> {
        vec![self.inner()]
    }
}

impl Listed for Vec<ValidatorIndex> {
    fn list(&self) -> Vec<u64> {
        self.iter().map(|id| id.inner()).collect()
    }
}

//! The weighted shuffle, and the view of a Turbine tree.

use alpenglow::disseminator::turbine::probe;
use rand::{WORDS, Words, start_at};

use super::calls::{accept, write_seed};
use super::{Entry, Listed};
use crate::ffi;
use crate::input::{FANOUT, Input};
use crate::lent::Lent;
use crate::times::Side;

/// The Rust's shuffle uses up its tree, so that none is drawn from twice.
pub struct Order;

impl Entry for Order {
    const NAME: &str = "`WeightedShuffle::shuffle`, whole order";
    const RUST: &'static [Side] = &[Side::Whole];
    const WORDS_READ: &'static [usize] = &[0];

    type Given = ();
    type Sampler = probe::Shuffle;
    type Answer = Vec<usize>;

    fn ours(lent: &mut Lent, input: &Input, cursor: usize) {
        accept(unsafe {
            ffi::valwydr_weighted_shuffle(
                input.stakes.as_ptr(),
                input.stakes.len(),
                WORDS.as_ptr(),
                WORDS.len(),
                cursor,
                lent.order.as_mut_ptr(),
                lent.order.len(),
                lent.nodes.as_mut_ptr(),
                lent.nodes.len(),
                lent.answer.as_mut_ptr().cast(),
            )
        });
    }

    fn told(lent: &Lent, input: &Input) -> Vec<u64> {
        lent.order[..input.n()].to_vec()
    }

    fn make(_given: (), input: &Input, _cursor: usize) -> Self::Sampler {
        probe::Shuffle::new(&input.stakes)
    }

    fn draw(shuffle: &mut Self::Sampler, input: &Input, cursor: usize) -> Vec<usize> {
        let mut order = Vec::with_capacity(input.n());
        shuffle.order(&mut Words::at(cursor), &mut order);
        order
    }
}

impl Listed for Vec<usize> {
    fn list(&self) -> Vec<u64> {
        self.iter().map(|index| *index as u64).collect()
    }
}

/// The Rust makes the seed in the same call, so the library's seed is timed with its view.
pub struct View;

impl Entry for View {
    const NAME: &str = "`TurbineTree::new`, with its seed";
    const RUST: &'static [Side] = &[Side::Whole];
    const WORDS_READ: &'static [usize] = &[3];

    type Given = ();
    type Sampler = ();
    type Answer = probe::View;

    fn ours(lent: &mut Lent, input: &Input, cursor: usize) {
        write_seed(ffi::valwydr_turbine_seed, &mut lent.seeds[0], 0, 0);
        accept(unsafe {
            ffi::valwydr_turbine_tree_new(
                input.stakes.as_ptr(),
                input.stakes.len(),
                FANOUT,
                input.own_id(),
                WORDS.as_ptr(),
                WORDS.len(),
                cursor,
                lent.order.as_mut_ptr(),
                lent.order.len(),
                lent.nodes.as_mut_ptr(),
                lent.nodes.len(),
                lent.children.as_mut_ptr(),
                lent.children.len(),
                lent.answer.as_mut_ptr().cast(),
            )
        });
    }

    /// The root, the parent and the children.
    fn told(lent: &Lent, _input: &Input) -> Vec<u64> {
        let [root, parent, children, _] = lent.answer;
        [&[root, parent], &lent.children[..children as usize]].concat()
    }

    fn make(_given: (), _input: &Input, _cursor: usize) {}

    fn draw(_sampler: &mut (), input: &Input, cursor: usize) -> probe::View {
        start_at(cursor);
        probe::View::new(&input.validators, FANOUT, input.own_id())
    }
}

impl Listed for probe::View {
    /// The library has u64::MAX for no parent.
    fn list(&self) -> Vec<u64> {
        let parent = self.parent().map_or(u64::MAX, |id| id.inner());
        [
            &[self.root().inner(), parent],
            &self.children().to_vec().list()[..],
        ]
        .concat()
    }
}

use std::panic::{AssertUnwindSafe, catch_unwind};

use crate::distr::uniform::{Error as RangeError, UniformSampler};
use crate::distr::weighted::{Error as WeightError, WeightedIndex};
use crate::prelude::*;
use crate::words::{Dry, Words};
use crate::{rng, tape};

/// The draw below `m`, and how many words it read.
fn below(m: u64, words: &[u64]) -> (u64, usize) {
    let mut words = Words::new(words.to_vec());
    let value = words.random_range(0..m);
    (value, words.read())
}

#[test]
fn draws_below_ten_skip_the_last_six_words() {
    assert_eq!(below(10, &[13]), (3, 1));
    assert_eq!(below(10, &[18446744073709551609]), (9, 1));
    assert_eq!(below(10, &[18446744073709551610, 13]), (3, 2));
    assert_eq!(below(10, &[u64::MAX, 18446744073709551610, 20]), (0, 3));
}

#[test]
fn draws_without_a_rest_skip_nothing() {
    assert_eq!(below(1, &[u64::MAX]), (0, 1));
    assert_eq!(below(1 << 63, &[u64::MAX]), ((1 << 63) - 1, 1));
}

#[test]
fn draws_below_the_largest_bound() {
    assert_eq!(below(u64::MAX, &[u64::MAX, 5]), (5, 2));
    assert_eq!(below(u64::MAX, &[u64::MAX - 1]), (u64::MAX - 1, 1));
}

#[test]
fn ranges_start_at_their_low_end() {
    let mut words = Words::new(vec![5, 5]);
    assert_eq!(words.random_range(3u64..7), 4);
    assert_eq!(usize::sample_single(3, 7, &mut words), Ok(4));
    assert_eq!(
        usize::sample_single(7, 7, &mut words),
        Err(RangeError::EmptyRange)
    );
}

#[test]
fn fractions_are_the_upper_53_bits() {
    let mut words = Words::new(vec![0, 2047, 2048, 1 << 63, u64::MAX]);
    let step = 1.0 / (1u64 << 53) as f64;
    for expected in [0.0, 0.0, step, 0.5, 1.0 - step] {
        assert_eq!(words.random::<f64>(), expected);
    }
}

#[test]
fn weighted_draws_never_choose_a_zero() {
    let index = WeightedIndex::new([0, 2, 0, 3, 0]).unwrap();
    let mut words = Words::new(vec![0, 1, 2, 3, 4]);
    let places: Vec<usize> = (0..5).map(|_| index.sample(&mut words)).collect();
    assert_eq!(places, [1, 1, 3, 3, 3]);
}

#[test]
fn weights_are_turned_down_as_rand_does() {
    assert_eq!(WeightedIndex::new([]), Err(WeightError::InvalidInput));
    assert_eq!(
        WeightedIndex::new([0, 0]),
        Err(WeightError::InsufficientNonZero)
    );
    assert_eq!(
        WeightedIndex::new([u64::MAX, 1]),
        Err(WeightError::Overflow)
    );
    assert!(WeightedIndex::new([u64::MAX - 1, 1]).is_ok());
}

#[test]
fn shuffles_swap_each_place_with_one_before_it_or_itself() {
    let mut words = Words::new(vec![0, 1, 5, 99]);
    let mut list = ['a', 'b', 'c', 'd'];
    list.shuffle(&mut words);
    assert_eq!(list, ['b', 'd', 'a', 'c']);
    assert_eq!(words.read(), 3);
}

#[test]
fn a_missing_word_ends_the_run() {
    let mut words = Words::new(vec![1]);
    words.next_u64();
    let end = catch_unwind(AssertUnwindSafe(|| words.next_u64()));
    assert!(end.unwrap_err().is::<Dry>());
    assert_eq!(words.read(), 1);
}

#[test]
fn the_tape_gives_words_and_keeps_the_seed_and_the_count() {
    tape::load(vec![7, 8, 9]);
    assert_eq!(rng().next_u64(), 7);
    assert_eq!(tape::seed(), None);
    assert_eq!(StdRng::from_seed([4; 32]).next_u64(), 8);
    assert_eq!(tape::seed(), Some([4; 32]));
    WeightedIndex::new([1]).unwrap().sample(&mut rng());
    assert_eq!((tape::read(), tape::weighted_draws()), (3, 1));
    tape::load(Vec::new());
    assert_eq!((tape::read(), tape::weighted_draws()), (0, 0));
    assert_eq!(tape::seed(), None);
}

//! Calls of the library that several entries have in common.

use rand::WORDS;

use crate::input::{Input, second};
use crate::lent::Lent;

/// A function that draws a committee from one list of words, with an answer of so many places.
type ByDraws<const PLACES: usize> = unsafe extern "C" fn(
    usize,
    *const u64,
    usize,
    *const u64,
    usize,
    usize,
    *mut u64,
    usize,
    *mut [u64; PLACES],
) -> u64;

pub fn by_draws<const PLACES: usize>(
    function: ByDraws<PLACES>,
    lent: &mut Lent,
    input: &Input,
    cursor: usize,
) {
    accept(unsafe {
        function(
            input.k,
            input.stakes.as_ptr(),
            input.stakes.len(),
            WORDS.as_ptr(),
            WORDS.len(),
            cursor,
            lent.seats.as_mut_ptr(),
            lent.seats.len(),
            lent.answer.as_mut_ptr().cast(),
        )
    });
}

/// The same over bins, from two lists.
type OverBins<const PLACES: usize> = unsafe extern "C" fn(
    usize,
    *const u64,
    usize,
    *const u64,
    usize,
    usize,
    *const u64,
    usize,
    usize,
    *mut u64,
    usize,
    *mut u64,
    usize,
    *mut u64,
    usize,
    *mut u64,
    usize,
    *mut [u64; PLACES],
) -> u64;

pub fn over_bins<const PLACES: usize>(
    function: OverBins<PLACES>,
    lent: &mut Lent,
    input: &Input,
    cursor: usize,
) {
    accept(unsafe {
        function(
            input.k,
            input.stakes.as_ptr(),
            input.stakes.len(),
            WORDS.as_ptr(),
            WORDS.len(),
            cursor,
            WORDS.as_ptr(),
            WORDS.len(),
            second(cursor),
            lent.seats.as_mut_ptr(),
            lent.seats.len(),
            lent.piece_bins.as_mut_ptr(),
            lent.piece_bins.len(),
            lent.piece_validators.as_mut_ptr(),
            lent.piece_validators.len(),
            lent.piece_stakes.as_mut_ptr(),
            lent.piece_stakes.len(),
            lent.answer.as_mut_ptr().cast(),
        )
    });
}

/// A function that writes the seed of two numbers.
type SeedOf = unsafe extern "C" fn(u64, u64, *mut u8, usize) -> u64;

pub fn write_seed(function: SeedOf, seed: &mut [u8], slot: u64, number: u64) {
    accept(unsafe { function(slot, number, seed.as_mut_ptr(), seed.len()) });
}

/// Every call has to be accepted.
pub fn accept(result: u64) {
    assert_eq!(result, 0, "the library refused a call");
}

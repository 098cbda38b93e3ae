//! The functions of the library over slices, and all unsafe code.
//!
//! What `valwydr.h` asks of a caller holds in each call below:
//!
//! - A pointer and the length after it are those of one slice.
//! - [`Stake`] and [`ValidatorIndex`] are transparent over u64, so a slice of them is one of u64,
//!   and any u64 is one of them.
//! - What the function writes to is borrowed by `&mut` or a local variable, so it overlaps no other
//!   argument.

mod ffi;

pub use ffi::Node;

use crate::buffers::Columns;
use crate::{Refusal, SEED_BYTES, Stake, ValidatorIndex, Words};

/// The most digits of a u64.
pub const MAX_DIGITS: usize = 20;

/// A function of the library that draws seats by one list of words.
type ByDraws<const N: usize> = unsafe extern "C" fn(
    usize,
    *const u64,
    usize,
    *const u64,
    usize,
    usize,
    *mut u64,
    usize,
    *mut [u64; N],
) -> u64;

/// A function of the library that draws seats from bins.
type OverBins<const N: usize> = unsafe extern "C" fn(
    usize,
    *const u64,
    usize,
    *const u64,
    usize,
    usize,
    *const u64,
    usize,
    usize,
    *mut u64,
    usize,
    *mut u64,
    usize,
    *mut u64,
    usize,
    *mut u64,
    usize,
    *mut [u64; N],
) -> u64;

/// A function of the library that writes a seed.
type SeedOf = unsafe extern "C" fn(u64, u64, *mut u8, usize) -> u64;

/// A function of the library on two numbers.
type Arithmetic = unsafe extern "C" fn(u64, u64, *mut u64) -> bool;

/// A function of the library that writes digits.
type DigitsOf = unsafe extern "C" fn(u64, *mut u8, usize, *mut usize) -> bool;

/// The id and the words read.
pub fn stake_weighted_sample(stakes: &[Stake], words: &Words<'_>) -> Result<[u64; 2], Refusal> {
    let mut answer = [0; 2];
    // SAFETY: pointers and lengths of slices, and a local array.
    let result = unsafe {
        ffi::valwydr_stake_weighted_sample(
            stakes.as_ptr().cast(),
            stakes.len(),
            words.list().as_ptr(),
            words.list().len(),
            words.cursor(),
            &mut answer,
        )
    };
    Refusal::from_result(result).map(|()| answer)
}

/// The words read.
pub fn iid_sample_quorum(
    k: usize,
    stakes: &[Stake],
    words: &Words<'_>,
    seats: &mut [ValidatorIndex],
) -> Result<[u64; 1], Refusal> {
    by_draws(ffi::valwydr_iid_sample_quorum, k, stakes, words, seats)
}

/// The further seats, 0, the words read and 0.
pub fn fait_accompli1_with_stake_weighted_fallback(
    k: usize,
    stakes: &[Stake],
    words: &Words<'_>,
    seats: &mut [ValidatorIndex],
) -> Result<[u64; 4], Refusal> {
    let call = ffi::valwydr_fait_accompli1_with_stake_weighted_fallback;
    by_draws(call, k, stakes, words, seats)
}

/// What a function of the library answers that draws seats by one list of words.
fn by_draws<const N: usize>(
    call: ByDraws<N>,
    k: usize,
    stakes: &[Stake],
    words: &Words<'_>,
    seats: &mut [ValidatorIndex],
) -> Result<[u64; N], Refusal> {
    let mut answer = [0; N];
    // SAFETY: pointers and lengths of slices, and a local array.
    let result = unsafe {
        call(
            k,
            stakes.as_ptr().cast(),
            stakes.len(),
            words.list().as_ptr(),
            words.list().len(),
            words.cursor(),
            seats.as_mut_ptr().cast(),
            seats.len(),
            &mut answer,
        )
    };
    Refusal::from_result(result).map(|()| answer)
}

/// The id, the tries and the words read.
pub fn decaying_acceptance_sample_one(
    max_samples: f64,
    tries_allowed: usize,
    stakes: &[Stake],
    counts: &mut [u32],
    words: &Words<'_>,
) -> Result<[u64; 3], Refusal> {
    let mut answer = [0; 3];
    // SAFETY: pointers and lengths of slices, and a local array.
    let result = unsafe {
        ffi::valwydr_decaying_acceptance_sample_one(
            max_samples,
            tries_allowed,
            stakes.as_ptr().cast(),
            stakes.len(),
            counts.as_mut_ptr(),
            counts.len(),
            words.list().as_ptr(),
            words.list().len(),
            words.cursor(),
            &mut answer,
        )
    };
    Refusal::from_result(result).map(|()| answer)
}

/// The tries and the words read.
pub fn decaying_acceptance_sample_quorum(
    max_samples: f64,
    tries_allowed: usize,
    k: usize,
    stakes: &[Stake],
    counts: &mut [u32],
    words: &Words<'_>,
    seats: &mut [ValidatorIndex],
) -> Result<[u64; 2], Refusal> {
    let mut answer = [0; 2];
    // SAFETY: pointers and lengths of slices, and a local array.
    let result = unsafe {
        ffi::valwydr_decaying_acceptance_sample_quorum(
            max_samples,
            tries_allowed,
            k,
            stakes.as_ptr().cast(),
            stakes.len(),
            counts.as_mut_ptr(),
            counts.len(),
            words.list().as_ptr(),
            words.list().len(),
            words.cursor(),
            seats.as_mut_ptr().cast(),
            seats.len(),
            &mut answer,
        )
    };
    Refusal::from_result(result).map(|()| answer)
}

/// Sets all counts to 0.
pub fn decaying_acceptance_reset(counts: &mut [u32]) {
    // SAFETY: pointer and length of a slice.
    unsafe { ffi::valwydr_decaying_acceptance_reset(counts.as_mut_ptr(), counts.len()) }
}

/// The number of pieces and the words read of both lists.
pub fn partition_sample_quorum(
    num_bins: usize,
    stakes: &[Stake],
    words: (&Words<'_>, &Words<'_>),
    seats: &mut [ValidatorIndex],
    columns: &mut Columns,
) -> Result<[u64; 3], Refusal> {
    let call = ffi::valwydr_partition_sample_quorum;
    over_bins(call, num_bins, stakes, words, seats, columns)
}

/// The further seats, the number of pieces and the words read of both lists.
pub fn fait_accompli1_with_partition_fallback(
    k: usize,
    stakes: &[Stake],
    words: (&Words<'_>, &Words<'_>),
    seats: &mut [ValidatorIndex],
    columns: &mut Columns,
) -> Result<[u64; 4], Refusal> {
    let call = ffi::valwydr_fait_accompli1_with_partition_fallback;
    over_bins(call, k, stakes, words, seats, columns)
}

/// What a function of the library answers that draws seats from bins.
fn over_bins<const N: usize>(
    call: OverBins<N>,
    size: usize,
    stakes: &[Stake],
    (first, second): (&Words<'_>, &Words<'_>),
    seats: &mut [ValidatorIndex],
    columns: &mut Columns,
) -> Result<[u64; N], Refusal> {
    let mut answer = [0; N];
    // SAFETY: pointers and lengths of slices, and a local array.
    let result = unsafe {
        call(
            size,
            stakes.as_ptr().cast(),
            stakes.len(),
            first.list().as_ptr(),
            first.list().len(),
            first.cursor(),
            second.list().as_ptr(),
            second.list().len(),
            second.cursor(),
            seats.as_mut_ptr().cast(),
            seats.len(),
            columns.bins.as_mut_ptr(),
            columns.bins.len(),
            columns.validators.as_mut_ptr().cast(),
            columns.validators.len(),
            columns.stakes.as_mut_ptr().cast(),
            columns.stakes.len(),
            &mut answer,
        )
    };
    Refusal::from_result(result).map(|()| answer)
}

/// How many nodes the tree over so many weights has.
pub fn tree_size(count: usize) -> usize {
    let mut answer = [0; 2];
    // SAFETY: a local array.
    unsafe { ffi::valwydr_get_num_nodes_and_tree_size(count, &mut answer) };
    let [_, tree_size] = answer;
    tree_size as usize
}

/// The words read.
pub fn weighted_shuffle(
    weights: &[Stake],
    words: &Words<'_>,
    order: &mut [ValidatorIndex],
    nodes: &mut [Node],
) -> Result<[u64; 1], Refusal> {
    let mut answer = [0; 1];
    // SAFETY: pointers and lengths of slices, and a local array.
    let result = unsafe {
        ffi::valwydr_weighted_shuffle(
            weights.as_ptr().cast(),
            weights.len(),
            words.list().as_ptr(),
            words.list().len(),
            words.cursor(),
            order.as_mut_ptr().cast(),
            order.len(),
            nodes.as_mut_ptr(),
            nodes.len(),
            &mut answer,
        )
    };
    Refusal::from_result(result).map(|()| answer)
}

/// The root, the parent, the number of children and the words read.
pub fn turbine_tree_new(
    stakes: &[Stake],
    (fanout, own_id): (usize, ValidatorIndex),
    words: &Words<'_>,
    order: &mut [ValidatorIndex],
    nodes: &mut [Node],
    children: &mut [ValidatorIndex],
) -> Result<[u64; 4], Refusal> {
    let mut answer = [0; 4];
    // SAFETY: pointers and lengths of slices, and a local array.
    let result = unsafe {
        ffi::valwydr_turbine_tree_new(
            stakes.as_ptr().cast(),
            stakes.len(),
            fanout,
            own_id.inner(),
            words.list().as_ptr(),
            words.list().len(),
            words.cursor(),
            order.as_mut_ptr().cast(),
            order.len(),
            nodes.as_mut_ptr(),
            nodes.len(),
            children.as_mut_ptr().cast(),
            children.len(),
            &mut answer,
        )
    };
    Refusal::from_result(result).map(|()| answer)
}

/// The seed of a Turbine tree.
pub fn turbine_seed(slot: u64, shred: u64) -> [u8; SEED_BYTES] {
    seed(ffi::valwydr_turbine_seed, slot, shred)
}

/// The seed of a relay committee.
pub fn rotor_seed(slot: u64, slice: u64) -> [u8; SEED_BYTES] {
    seed(ffi::valwydr_rotor_seed, slot, slice)
}

/// The seed of two numbers. A seed that was not written must not be used, so a refusal, which no
/// seed of 32 bytes meets, is not passed over.
fn seed(call: SeedOf, slot: u64, part: u64) -> [u8; SEED_BYTES] {
    let mut seed = [0; SEED_BYTES];
    // SAFETY: pointer and length of an array.
    let result = unsafe { call(slot, part, seed.as_mut_ptr(), seed.len()) };
    assert_eq!(result, 0, "the library writes a seed of {SEED_BYTES} bytes");
    seed
}

/// The relay.
pub fn sample_relay(committee: &[ValidatorIndex], shred: usize) -> Result<[u64; 1], Refusal> {
    let mut answer = [0; 1];
    // SAFETY: pointer and length of a slice, and a local array.
    let result = unsafe {
        ffi::valwydr_sample_relay(
            committee.as_ptr().cast(),
            committee.len(),
            shred,
            &mut answer,
        )
    };
    Refusal::from_result(result).map(|()| answer)
}

/// The quotient, rounded up.
pub fn stake_div_ceil(stake: u64, divisor: u64) -> Option<u64> {
    arithmetic(ffi::valwydr_stake_div_ceil, stake, divisor)
}

/// The sum.
pub fn stake_checked_add(stake: u64, rhs: u64) -> Option<u64> {
    arithmetic(ffi::valwydr_stake_checked_add, stake, rhs)
}

/// The difference.
pub fn stake_sub(stake: u64, rhs: u64) -> Option<u64> {
    arithmetic(ffi::valwydr_stake_sub, stake, rhs)
}

/// The product.
pub fn stake_mul(stake: u64, rhs: u64) -> Option<u64> {
    arithmetic(ffi::valwydr_stake_mul, stake, rhs)
}

/// What a function of the library makes of two numbers.
fn arithmetic(call: Arithmetic, stake: u64, rhs: u64) -> Option<u64> {
    let mut result = 0;
    // SAFETY: a local number.
    unsafe { call(stake, rhs, &mut result) }.then_some(result)
}

/// The sum of a list.
pub fn stake_sum(stakes: &[Stake]) -> Option<u64> {
    let mut result = 0;
    // SAFETY: pointer and length of a slice, and a local number.
    unsafe { ffi::valwydr_stake_sum(stakes.as_ptr().cast(), stakes.len(), &mut result) }
        .then_some(result)
}

/// The digits of a stake.
pub fn stake_fmt(stake: u64, buffer: &mut [u8; MAX_DIGITS]) -> Option<&str> {
    digits(ffi::valwydr_stake_fmt, stake, buffer)
}

/// The digits of a validator's id.
pub fn validator_index_fmt(id: u64, buffer: &mut [u8; MAX_DIGITS]) -> Option<&str> {
    digits(ffi::valwydr_validator_index_fmt, id, buffer)
}

/// The digits that a function of the library writes.
fn digits(call: DigitsOf, number: u64, buffer: &mut [u8; MAX_DIGITS]) -> Option<&str> {
    let mut written = 0;
    // SAFETY: pointer and length of an array, and a local number.
    let fits = unsafe { call(number, buffer.as_mut_ptr(), buffer.len(), &mut written) };
    let digits = buffer.get(..written).filter(|_| fits)?;
    str::from_utf8(digits).ok()
}

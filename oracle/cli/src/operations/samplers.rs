//! The committees.

use alpenglow::disseminator::rotor::sampling_strategy::probe::{counts, set_counts};
use alpenglow::disseminator::rotor::sampling_strategy::{
    DecayingAcceptanceSampler, FaitAccompli1Sampler, MAX_TRIES_PER_SAMPLE, PartitionSampler,
    QuorumSamplingStrategy, SamplingStrategy, StakeWeightedSampler,
};
use alpenglow::{ValidatorInfo, validators};
use rand::words::Words;
use rand::{Rng, rng};

use crate::answer::Answer;
use crate::case::Case;

/// The most fixed seats that are run, for memory's sake.
const MOST_FIXED_SEATS: u128 = 1 << 24;

pub fn iid(case: &Case) -> Answer {
    let sampler = StakeWeightedSampler::new(validators(case.list("stakes")));
    let sampler = sampler.into_quorum_strategy(case.seats("k"));
    committee(&sampler, &mut rng()).read()
}

/// The bins are shuffled by the first words, and drawn from by the second.
pub fn partition(case: &Case) -> Answer {
    let mut words2 = second_words(case);
    let sampler = PartitionSampler::new(validators(case.list("stakes")), case.seats("bins"));
    let answer = committee(&sampler, &mut words2);
    with_pieces(answer, &sampler, &words2)
}

pub fn fa1_bins(case: &Case) -> Answer {
    let mut words2 = second_words(case);
    let (validators, k) = fa1_input(case);
    let sampler = FaitAccompli1Sampler::new_with_partition_fallback(validators, k);
    let answer = fa1(&sampler, &mut words2);
    with_pieces(answer, &sampler.fallback_sampler, &words2)
}

pub fn fa1_draws(case: &Case) -> Answer {
    let (validators, k) = fa1_input(case);
    let sampler = FaitAccompli1Sampler::new_with_stake_weighted_fallback(validators, k);
    fa1(&sampler, &mut rng()).read()
}

pub fn decaying(case: &Case) -> Answer {
    let sampler = decaying_sampler(case, case.seats("k"));
    let answer = committee(&sampler, &mut rng());
    with_counts(answer, &sampler)
}

pub fn decaying_one(case: &Case) -> Answer {
    let sampler = decaying_sampler(case, 1);
    let seat = sampler.sample_one(&mut rng());
    with_counts(Answer::new().field("seat", seat), &sampler)
}

/// The sampler has as many validators as there are counts.
pub fn reset(case: &Case) -> Answer {
    let stored = case.list("counts");
    let sampler = DecayingAcceptanceSampler::new(validators(&vec![1; stored.len()]), 1.0, 1);
    set_counts(&sampler, usizes(stored));
    sampler.reset();
    Answer::new().list("counts", counts(&sampler))
}

fn committee(sampler: &impl QuorumSamplingStrategy, rng: &mut impl Rng) -> Answer {
    Answer::new().list("seats", sampler.sample_quorum(rng))
}

fn second_words(case: &Case) -> Words {
    Words::new(case.list("words2").to_vec())
}

/// The pieces in the order of the fill, and the words read of both lists.
fn with_pieces(answer: Answer, sampler: &PartitionSampler, words2: &Words) -> Answer {
    let bins = sampler.bin_validators.iter().enumerate();
    answer
        .list(
            "piece_bins",
            bins.flat_map(|(i, bin)| bin.iter().map(move |_| i)),
        )
        .list("piece_validators", sampler.bin_validators.iter().flatten())
        .list("piece_stakes", sampler.bin_stakes.iter().flatten())
        .read()
        .field("read2", words2.read())
}

/// Validators and k. Where the total wraps, the fixed seats may pass all memory.
fn fa1_input(case: &Case) -> (Vec<ValidatorInfo>, u64) {
    let (stakes, k) = (case.list("stakes"), case.seats("k") as u64);
    let sum: u128 = stakes.iter().map(|stake| u128::from(*stake)).sum();
    let wrapped = u128::from(sum as u64);
    let fits = sum * u128::from(k) <= wrapped * MOST_FIXED_SEATS;
    assert!(
        fits,
        "not run: the total wraps, and gives too many fixed seats"
    );
    (validators(stakes), k)
}

fn fa1<F>(sampler: &FaitAccompli1Sampler<F>, rng: &mut impl Rng) -> Answer
where
    F: QuorumSamplingStrategy,
{
    committee(sampler, rng).field("further", sampler.fallback_sampler.quorum_size())
}

/// The sampler with the case's counts. The Rust's allowance is a constant.
fn decaying_sampler(case: &Case, k: usize) -> DecayingAcceptanceSampler {
    let allowed = case.index("allowed");
    assert!(allowed == MAX_TRIES_PER_SAMPLE, "allowance is fixed");
    let max_samples = f64::from_bits(case.number("max_samples"));
    let sampler = DecayingAcceptanceSampler::new(validators(case.list("stakes")), max_samples, k);
    set_counts(&sampler, usizes(case.list("counts")));
    sampler
}

fn usizes(counts: &[u64]) -> Vec<usize> {
    counts.iter().map(|count| *count as usize).collect()
}

/// The counts afterwards; each try begins with one weighted draw.
fn with_counts(answer: Answer, sampler: &DecayingAcceptanceSampler) -> Answer {
    answer
        .list("counts", counts(sampler))
        .field("tries", rand::tape::weighted_draws())
        .read()
}

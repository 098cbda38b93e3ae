//! Samplers that draw by stake from the whole list.

use alpenglow::disseminator::rotor::sampling_strategy::probe::set_counts;
use alpenglow::disseminator::rotor::sampling_strategy::{
    DecayingAcceptanceSampler, FaitAccompli1Sampler, IidQuorumSampler, MAX_TRIES_PER_SAMPLE,
    QuorumSamplingStrategy, SamplingStrategy, StakeWeightedSampler,
};
use alpenglow::{ValidatorIndex, ValidatorInfo};
use rand::{WORDS, Words};

use super::calls::{accept, by_draws};
use super::{Entry, Given};
use crate::ffi;
use crate::input::Input;
use crate::lent::Lent;

pub struct Sample;

impl Entry for Sample {
    const NAME: &str = "`StakeWeightedSampler::sample`";
    const WORDS_READ: &'static [usize] = &[1];

    type Given = Vec<ValidatorInfo>;
    type Sampler = StakeWeightedSampler;
    type Answer = ValidatorIndex;

    fn ours(lent: &mut Lent, input: &Input, cursor: usize) {
        accept(unsafe {
            ffi::valwydr_stake_weighted_sample(
                input.stakes.as_ptr(),
                input.stakes.len(),
                WORDS.as_ptr(),
                WORDS.len(),
                cursor,
                lent.answer.as_mut_ptr().cast(),
            )
        });
    }

    fn told(lent: &Lent, _input: &Input) -> Vec<u64> {
        vec![lent.answer[0]]
    }

    fn make(validators: Vec<ValidatorInfo>, _input: &Input, _cursor: usize) -> Self::Sampler {
        StakeWeightedSampler::new(validators)
    }

    fn draw(sampler: &mut Self::Sampler, _input: &Input, cursor: usize) -> ValidatorIndex {
        sampler.sample(&mut Words::at(cursor))
    }
}

pub struct Iid;

impl Entry for Iid {
    const NAME: &str = "`IidQuorumSampler::sample_quorum`";
    const SEATS: &'static [usize] = &[64, 1024];
    const WORDS_READ: &'static [usize] = &[0];

    type Given = Vec<ValidatorInfo>;
    type Sampler = IidQuorumSampler<StakeWeightedSampler>;
    type Answer = Vec<ValidatorIndex>;

    fn ours(lent: &mut Lent, input: &Input, cursor: usize) {
        by_draws(ffi::valwydr_iid_sample_quorum, lent, input, cursor);
    }

    fn make(validators: Vec<ValidatorInfo>, input: &Input, _cursor: usize) -> Self::Sampler {
        StakeWeightedSampler::new(validators).into_quorum_strategy(input.k)
    }

    fn draw(sampler: &mut Self::Sampler, _input: &Input, cursor: usize) -> Vec<ValidatorIndex> {
        sampler.sample_quorum(&mut Words::at(cursor))
    }
}

pub struct Fa1Draws;

impl Entry for Fa1Draws {
    const NAME: &str = "`FaitAccompli1Sampler`, plain draws";
    const SEATS: &'static [usize] = &[64, 1024];
    const WORDS_READ: &'static [usize] = &[2];

    type Given = Vec<ValidatorInfo>;
    type Sampler = FaitAccompli1Sampler<IidQuorumSampler<StakeWeightedSampler>>;
    type Answer = Vec<ValidatorIndex>;

    fn ours(lent: &mut Lent, input: &Input, cursor: usize) {
        by_draws(
            ffi::valwydr_fait_accompli1_with_stake_weighted_fallback,
            lent,
            input,
            cursor,
        );
    }

    fn make(validators: Vec<ValidatorInfo>, input: &Input, _cursor: usize) -> Self::Sampler {
        FaitAccompli1Sampler::new_with_stake_weighted_fallback(validators, input.k as u64)
    }

    fn draw(sampler: &mut Self::Sampler, _input: &Input, cursor: usize) -> Vec<ValidatorIndex> {
        sampler.sample_quorum(&mut Words::at(cursor))
    }
}

/// One seat, where each validator was sampled once before.
pub struct DecayingOne;

/// The validators, and how often each was sampled.
pub struct Sampled(Vec<ValidatorInfo>, Vec<usize>);

impl Given for Sampled {
    fn of(input: &Input) -> Self {
        Self(input.validators.clone(), vec![1; input.n()])
    }
}

impl Entry for DecayingOne {
    const NAME: &str = "`DecayingAcceptanceSampler::sample_one`";
    /// More would leave few validators that can be taken.
    const MOST_CALLS: usize = 16;
    const WORDS_READ: &'static [usize] = &[2];

    type Given = Sampled;
    type Sampler = DecayingAcceptanceSampler;
    type Answer = ValidatorIndex;

    fn ours(lent: &mut Lent, input: &Input, cursor: usize) {
        accept(unsafe {
            ffi::valwydr_decaying_acceptance_sample_one(
                input.max_samples(),
                MAX_TRIES_PER_SAMPLE,
                input.stakes.as_ptr(),
                input.stakes.len(),
                lent.counts.as_mut_ptr(),
                lent.counts.len(),
                WORDS.as_ptr(),
                WORDS.len(),
                cursor,
                lent.answer.as_mut_ptr().cast(),
            )
        });
    }

    fn told(lent: &Lent, _input: &Input) -> Vec<u64> {
        vec![lent.answer[0]]
    }

    fn make(given: Sampled, input: &Input, _cursor: usize) -> Self::Sampler {
        let Sampled(validators, counts) = given;
        let sampler = DecayingAcceptanceSampler::new(validators, input.max_samples(), input.k);
        set_counts(&sampler, counts);
        sampler
    }

    fn draw(sampler: &mut Self::Sampler, _input: &Input, cursor: usize) -> ValidatorIndex {
        sampler.sample_one(&mut Words::at(cursor))
    }

    fn renew_lent(lent: &mut Lent, _input: &Input) {
        lent.counts.fill(1);
    }

    fn renew_sampler(sampler: &mut Self::Sampler, input: &Input) {
        set_counts(sampler, vec![1; input.n()]);
    }
}

/// A committee, from counts that are cleared first.
pub struct DecayingQuorum;

impl Entry for DecayingQuorum {
    const NAME: &str = "`DecayingAcceptanceSampler::sample_quorum`";
    const SEATS: &'static [usize] = &[64, 1024];
    const WORDS_READ: &'static [usize] = &[1];

    type Given = Vec<ValidatorInfo>;
    type Sampler = DecayingAcceptanceSampler;
    type Answer = Vec<ValidatorIndex>;

    fn ours(lent: &mut Lent, input: &Input, cursor: usize) {
        accept(unsafe {
            ffi::valwydr_decaying_acceptance_reset(lent.counts.as_mut_ptr(), input.n());
            ffi::valwydr_decaying_acceptance_sample_quorum(
                input.max_samples(),
                MAX_TRIES_PER_SAMPLE,
                input.k,
                input.stakes.as_ptr(),
                input.stakes.len(),
                lent.counts.as_mut_ptr(),
                lent.counts.len(),
                WORDS.as_ptr(),
                WORDS.len(),
                cursor,
                lent.seats.as_mut_ptr(),
                lent.seats.len(),
                lent.answer.as_mut_ptr().cast(),
            )
        });
    }

    fn make(validators: Vec<ValidatorInfo>, input: &Input, _cursor: usize) -> Self::Sampler {
        DecayingAcceptanceSampler::new(validators, input.max_samples(), input.k)
    }

    fn draw(sampler: &mut Self::Sampler, _input: &Input, cursor: usize) -> Vec<ValidatorIndex> {
        sampler.sample_quorum(&mut Words::at(cursor))
    }
}

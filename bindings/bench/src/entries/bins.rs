//! Committees over bins. The Rust shuffles the list when a sampler is made, so that a draw alone shuffles nothing.

use alpenglow::disseminator::rotor::sampling_strategy::{
    FaitAccompli1Sampler, PartitionSampler, QuorumSamplingStrategy,
};
use alpenglow::{ValidatorIndex, ValidatorInfo};
use rand::{Words, start_at};

use super::Entry;
use super::calls::over_bins;
use crate::ffi;
use crate::input::{Input, second};
use crate::lent::Lent;

pub struct Partition;

impl Entry for Partition {
    const NAME: &str = "`PartitionSampler::sample_quorum`";
    const SEATS: &'static [usize] = &[64, 1024];
    const WORDS_READ: &'static [usize] = &[1, 2];

    type Given = Vec<ValidatorInfo>;
    type Sampler = PartitionSampler;
    type Answer = Vec<ValidatorIndex>;

    fn ours(lent: &mut Lent, input: &Input, cursor: usize) {
        over_bins(ffi::valwydr_partition_sample_quorum, lent, input, cursor);
    }

    fn make(validators: Vec<ValidatorInfo>, input: &Input, cursor: usize) -> Self::Sampler {
        start_at(cursor);
        PartitionSampler::new(validators, input.k)
    }

    fn draw(sampler: &mut Self::Sampler, _input: &Input, cursor: usize) -> Vec<ValidatorIndex> {
        sampler.sample_quorum(&mut Words::at(second(cursor)))
    }
}

pub struct Fa1Bins;

impl Entry for Fa1Bins {
    const NAME: &str = "`FaitAccompli1Sampler`, bins";
    const SEATS: &'static [usize] = &[64, 1024];
    const WORDS_READ: &'static [usize] = &[2, 3];

    type Given = Vec<ValidatorInfo>;
    type Sampler = FaitAccompli1Sampler<PartitionSampler>;
    type Answer = Vec<ValidatorIndex>;

    fn ours(lent: &mut Lent, input: &Input, cursor: usize) {
        over_bins(
            ffi::valwydr_fait_accompli1_with_partition_fallback,
            lent,
            input,
            cursor,
        );
    }

    fn make(validators: Vec<ValidatorInfo>, input: &Input, cursor: usize) -> Self::Sampler {
        start_at(cursor);
        FaitAccompli1Sampler::new_with_partition_fallback(validators, input.k as u64)
    }

    fn draw(sampler: &mut Self::Sampler, _input: &Input, cursor: usize) -> Vec<ValidatorIndex> {
        sampler.sample_quorum(&mut Words::at(second(cursor)))
    }
}

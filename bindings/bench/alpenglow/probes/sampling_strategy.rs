//! Reaches the counts of the decaying sampler.

use super::DecayingAcceptanceSampler;

pub fn counts(sampler: &DecayingAcceptanceSampler) -> Vec<usize> {
    sampler.sample_count.lock().clone()
}

pub fn set_counts(sampler: &DecayingAcceptanceSampler, counts: Vec<usize>) {
    *sampler.sample_count.lock() = counts;
}

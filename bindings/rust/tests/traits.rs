//! Samplers can be cloned, printed and shared between threads.

use std::fmt::Debug;
use std::thread;

use valwydr::{
    DecayingAcceptanceSampler, FaitAccompli1Sampler, IidQuorumSampler, PartitionSampler, Refusal,
    Stake, StakeWeightedSampler, TurbineTree, ValidatorIndex, WeightedShuffle, Words,
};

/// Compiles for types with these traits only.
fn assert_shared<T: Send + Sync + Clone + Debug>() {}

#[test]
fn every_type_is_shared() {
    assert_shared::<Stake>();
    assert_shared::<ValidatorIndex>();
    assert_shared::<Words<'_>>();
    assert_shared::<Refusal>();
    assert_shared::<StakeWeightedSampler>();
    assert_shared::<IidQuorumSampler>();
    assert_shared::<DecayingAcceptanceSampler>();
    assert_shared::<PartitionSampler>();
    assert_shared::<FaitAccompli1Sampler<PartitionSampler>>();
    assert_shared::<FaitAccompli1Sampler<IidQuorumSampler>>();
    assert_shared::<WeightedShuffle>();
    assert_shared::<TurbineTree>();
}

#[test]
fn threads_count_in_one_sampler() {
    let sampler = DecayingAcceptanceSampler::new(vec![Stake::new(1); 2], f64::INFINITY, 1);
    thread::scope(|scope| {
        for validator in [0, 0, 0, 1] {
            let sampler = &sampler;
            scope.spawn(move || {
                for _ in 0..100 {
                    assert!(sampler.sample_one(&mut Words::new(&[validator, 0])).is_ok());
                }
            });
        }
    });
    assert_eq!(sampler.counts(), [300, 100]);
}

#[test]
fn a_clone_has_its_own_counts() -> Result<(), Refusal> {
    let sampler = DecayingAcceptanceSampler::new(vec![Stake::new(1)], 9.0, 1).with_counts(vec![2]);
    let clone = sampler.clone();
    clone.sample_one(&mut Words::new(&[0, u64::MAX]))?;
    assert_eq!((sampler.counts(), clone.counts()), (vec![2], vec![3]));
    Ok(())
}

//! Each reason for which a call is refused. A refused call leaves the cursors and the counts.

mod common;

use common::{ids, stakes};
use valwydr::{
    DecayingAcceptanceSampler, FaitAccompli1Sampler, PartitionSampler, Refusal, Stake,
    StakeWeightedSampler, TurbineTree, ValidatorIndex, WeightedShuffle, Words, sample_relay,
};

/// A call with two lists of words; one that needs a single list takes the first.
type Call = Box<dyn Fn(&mut Words, &mut Words) -> Option<Refusal>>;

/// The call of a sampler of committees that reads one list.
macro_rules! by_draws {
    ($sampler:expr) => {{
        let sampler = $sampler;
        Box::new(move |words: &mut Words, _: &mut Words| sampler.sample_quorum(words).err())
    }};
}

/// The call of a sampler of committees that reads two lists.
macro_rules! over_bins {
    ($sampler:expr) => {{
        let sampler = $sampler;
        Box::new(move |first: &mut Words, second: &mut Words| {
            sampler.sample_quorum(first, second).err()
        })
    }};
}

/// The calls that draw a committee of k.
fn committees(list: &[u64], k: usize) -> Vec<(&'static str, Call)> {
    let list = stakes(list);
    let iid = StakeWeightedSampler::new(list.clone()).into_quorum_strategy(k);
    let decaying = DecayingAcceptanceSampler::new(list.clone(), 2.0, k);
    let partition = PartitionSampler::new(list.clone(), k);
    let bins = FaitAccompli1Sampler::new_with_partition_fallback(list.clone(), k as u64);
    let draws = FaitAccompli1Sampler::new_with_stake_weighted_fallback(list, k as u64);
    vec![
        ("IID quorum", by_draws!(iid)),
        ("decaying quorum", by_draws!(decaying)),
        ("partition", over_bins!(partition)),
        ("FA1 over bins", over_bins!(bins)),
        ("FA1 with plain draws", by_draws!(draws)),
    ]
}

/// The calls that draw by stake, those of a committee with k = 3.
fn samplers(list: &[u64]) -> Vec<(&'static str, Call)> {
    let one = StakeWeightedSampler::new(stakes(list));
    let decaying = DecayingAcceptanceSampler::new(stakes(list), 2.0, 3);
    let mut calls = committees(list, 3);
    calls.push(("sample", Box::new(move |words, _| one.sample(words).err())));
    let sample_one = move |words: &mut Words, _: &mut Words| decaying.sample_one(words).err();
    calls.push(("sample_one", Box::new(sample_one)));
    calls
}

/// The call of a shuffle.
fn shuffle(list: &[u64]) -> (&'static str, Call) {
    let shuffle = WeightedShuffle::new(stakes(list));
    (
        "shuffle",
        Box::new(move |words, _| shuffle.shuffle(words).err()),
    )
}

/// The call of a view.
fn view(list: &[u64], fanout: usize, own_id: u64) -> (&'static str, Call) {
    let list = stakes(list);
    let own_id = ValidatorIndex::new(own_id);
    let call = move |words: &mut Words, _: &mut Words| {
        TurbineTree::new(&list, fanout, own_id, words).err()
    };
    ("view", Box::new(call))
}

/// Each call is refused for that reason, and leaves both cursors.
fn assert_refused(calls: Vec<(&'static str, Call)>, list: &[u64], refusal: Refusal) {
    for (name, call) in calls {
        let (mut first, mut second) = (Words::new(list), Words::new(list));
        assert_eq!(call(&mut first, &mut second), Some(refusal), "{name}");
        assert_eq!((first.cursor(), second.cursor()), (0, 0), "{name}");
    }
}

/// A decaying sampler with these counts refuses a sample and a quorum, and keeps the counts.
fn assert_counts_kept(sampler: DecayingAcceptanceSampler, list: &[u64], refusal: Refusal) {
    let counts = sampler.counts();
    let mut words = Words::new(list);
    assert_eq!(sampler.sample_one(&mut words).err(), Some(refusal));
    assert_eq!(sampler.sample_quorum(&mut words).err(), Some(refusal));
    assert_eq!((sampler.counts(), words.cursor()), (counts, 0));
}

#[test]
fn refusal_1_list_length() {
    let long = [1; 4097];
    for list in [[].as_slice(), &long] {
        assert_refused(samplers(list), &[0; 8], Refusal::ListLength);
        assert_refused(vec![view(list, 2, 0)], &[0; 8], Refusal::ListLength);
    }
    assert_refused(vec![shuffle(&long)], &[0; 8], Refusal::ListLength);
}

#[test]
fn refusal_2_size() {
    assert_refused(committees(&[1, 1], 1025), &[0; 8], Refusal::Size);
    let fait_accompli = committees(&[1, 1], 0).split_off(3);
    assert_eq!(fait_accompli.len(), 2);
    assert_refused(fait_accompli, &[0; 8], Refusal::Size);
    assert_eq!(sample_relay(&ids(&[0; 1025]), 0), Err(Refusal::Size));
}

#[test]
fn refusal_3_tries_allowed() {
    for tries_allowed in [0, 100_001] {
        let sampler = DecayingAcceptanceSampler::new(stakes(&[1, 1]), 2.0, 2)
            .with_counts(vec![1, 0])
            .with_tries_allowed(tries_allowed);
        assert_counts_kept(sampler, &[0; 8], Refusal::TriesAllowed);
    }
}

#[test]
fn refusal_4_max_samples() {
    for max_samples in [f64::NAN, 0.0, -0.0, -1.0, f64::NEG_INFINITY] {
        let sampler =
            DecayingAcceptanceSampler::new(stakes(&[1, 1]), max_samples, 2).with_counts(vec![1, 0]);
        assert_counts_kept(sampler, &[0; 8], Refusal::MaxSamples);
    }
}

#[test]
fn refusal_5_fanout() {
    let views = vec![view(&[1, 1], 0, 0), view(&[1, 1], 4097, 0)];
    assert_refused(views, &[0; 8], Refusal::Fanout);
}

#[test]
fn refusal_6_not_below() {
    let views = vec![view(&[1, 1], 2, 2), view(&[1, 1], 2, u64::MAX)];
    assert_refused(views, &[0; 8], Refusal::NotBelow);
    assert_eq!(sample_relay(&ids(&[4, 2, 7]), 3), Err(Refusal::NotBelow));
    assert_eq!(sample_relay(&[], 0), Err(Refusal::NotBelow));
}

#[test]
fn refusal_7_short_buffer() {
    let sampler = DecayingAcceptanceSampler::new(stakes(&[1, 1]), 2.0, 2).with_counts(vec![1]);
    assert_counts_kept(sampler, &[0; 8], Refusal::ShortBuffer);
}

#[test]
fn refusal_8_sum_past() {
    assert_refused(samplers(&[u64::MAX, 1]), &[0; 8], Refusal::SumPast);
}

#[test]
fn refusal_9_total_zero() {
    assert_refused(samplers(&[0, 0]), &[0; 8], Refusal::TotalZero);
}

#[test]
fn refusal_10_count_limit() {
    let over = DecayingAcceptanceSampler::new(stakes(&[1, 1]), 2.0, 1);
    assert_counts_kept(
        over.with_counts(vec![0, u32::MAX]),
        &[0; 8],
        Refusal::CountLimit,
    );

    // A quorum of 2 might raise the count twice.
    let sampler = DecayingAcceptanceSampler::new(stakes(&[1, 1]), 2.0, 2);
    let sampler = sampler.with_counts(vec![0, u32::MAX - 1]);
    let mut words = Words::new(&[0; 8]);
    assert_eq!(sampler.sample_quorum(&mut words), Err(Refusal::CountLimit));
    assert_eq!(sampler.counts(), [0, u32::MAX - 1]);
    assert!(sampler.sample_one(&mut words).is_ok());
}

#[test]
fn refusal_11_empty_bin() {
    for (total, bins) in [(5, 4), (4, 3), (6, 4)] {
        let partition = over_bins!(PartitionSampler::new(stakes(&[total]), bins));
        assert_refused(vec![("partition", partition)], &[0; 8], Refusal::EmptyBin);
    }
    // No share reaches a seat, and a total of 6 in 5 bins of 2 leaves the last two empty.
    let fait_accompli = committees(&[1; 6], 5).remove(3);
    assert_refused(vec![fait_accompli], &[0; 8], Refusal::EmptyBin);
}

#[test]
fn refusal_12_no_word_left() {
    assert_refused(samplers(&[2; 4]), &[], Refusal::NoWordLeft);
    assert_refused(committees(&[2; 4], 3), &[0, 0], Refusal::NoWordLeft);
    assert_refused(
        vec![shuffle(&[1, 0]), view(&[1, 0], 2, 1)],
        &[0],
        Refusal::NoWordLeft,
    );

    // Validator 0 is taken with the first two words, and the call is refused after that.
    let sampler = DecayingAcceptanceSampler::new(stakes(&[1, 1]), 2.0, 2);
    let sampler = sampler.with_counts(vec![0, 7]);
    let mut words = Words::new(&[0, 0, 0]);
    assert_eq!(sampler.sample_quorum(&mut words), Err(Refusal::NoWordLeft));
    assert_eq!((sampler.counts(), words.cursor()), (vec![0, 7], 0));
}

#[test]
fn refusal_12_for_either_list_over_bins() {
    let sampler = PartitionSampler::new(stakes(&[3, 0, 4]), 2);
    for (first, second) in [([1].as_slice(), [0, 0].as_slice()), (&[1, 2], &[0])] {
        let (mut first, mut second) = (Words::new(first), Words::new(second));
        let refusal = sampler.sample_quorum(&mut first, &mut second).err();
        assert_eq!(refusal, Some(Refusal::NoWordLeft));
        assert_eq!((first.cursor(), second.cursor()), (0, 0));
    }
}

#[test]
fn refusal_13_last_try_rejected() {
    // With a count of 1 and max_samples 2.0 the word 2^63 - 1 is rejected; no word is left then.
    let sampler = DecayingAcceptanceSampler::new(stakes(&[1]), 2.0, 1)
        .with_counts(vec![1])
        .with_tries_allowed(1);
    assert_counts_kept(
        sampler.clone(),
        &[0, (1 << 63) - 1],
        Refusal::LastTryRejected,
    );
    assert_counts_kept(sampler, &[0], Refusal::NoWordLeft);
}

#[test]
fn a_refusal_says_its_number_and_its_reason() {
    let mut reasons = Vec::new();
    for number in 1..=13 {
        let refusal = Refusal::from_result(number).unwrap_err();
        assert_eq!(refusal.number(), number);
        reasons.push(refusal.to_string());
    }
    reasons.sort();
    reasons.dedup();
    assert_eq!(reasons.len(), 13);
    assert_eq!(Refusal::from_result(0), Ok(()));
    let unknown = Refusal::from_result(14).unwrap_err();
    assert_eq!((unknown, unknown.number()), (Refusal::Unknown(14), 14));
    assert!(unknown.to_string().contains("14"));
    let error: Box<dyn std::error::Error + Send + Sync> = Refusal::TotalZero.into();
    assert_eq!(error.to_string(), "the stakes sum to 0");
}

#[test]
fn the_lowest_number_is_given() {
    let sampler = DecayingAcceptanceSampler::new(Vec::new(), f64::NAN, 1025).with_tries_allowed(0);
    let refusal = sampler.sample_quorum(&mut Words::new(&[]));
    assert_eq!(refusal, Err(Refusal::ListLength));
    let sampler = DecayingAcceptanceSampler::new(vec![Stake::new(0)], f64::NAN, 1025);
    let refusal = sampler.sample_quorum(&mut Words::new(&[]));
    assert_eq!(refusal, Err(Refusal::Size));
}

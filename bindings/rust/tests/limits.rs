//! What stands at a limit is taken; what is far past it is refused, and nothing panics.

mod common;

use common::{ids, stakes};
use valwydr::{
    DecayingAcceptanceSampler, FaitAccompli1Sampler, MAX_FANOUT, MAX_SEATS, MAX_TRIES_PER_SAMPLE,
    MAX_VALIDATORS, PartitionSampler, Refusal, StakeWeightedSampler, TurbineTree, ValidatorIndex,
    WeightedShuffle, Words, sample_relay,
};

#[test]
fn the_longest_list_and_the_largest_committee_are_taken() -> Result<(), Refusal> {
    let list = stakes(&[1; MAX_VALIDATORS]);
    let zeros = vec![0; 2 * MAX_VALIDATORS];
    let first_seats = ids(&[0; MAX_SEATS]);

    let iid = StakeWeightedSampler::new(list.clone()).into_quorum_strategy(MAX_SEATS);
    assert_eq!(
        iid.sample_quorum(&mut Words::new(&zeros))?.seats,
        first_seats
    );

    let decaying = DecayingAcceptanceSampler::new(list.clone(), f64::INFINITY, MAX_SEATS)
        .with_tries_allowed(MAX_TRIES_PER_SAMPLE);
    let quorum = decaying.sample_quorum(&mut Words::new(&zeros))?;
    assert_eq!((quorum.seats, quorum.tries), (first_seats, MAX_SEATS));

    let partition = PartitionSampler::new(list.clone(), MAX_SEATS);
    let answer = partition.sample_quorum(&mut Words::new(&zeros), &mut Words::new(&zeros))?;
    assert_eq!(
        (answer.seats.len(), answer.pieces.len()),
        (MAX_SEATS, MAX_VALIDATORS)
    );

    let k = MAX_SEATS as u64;
    let bins = FaitAccompli1Sampler::new_with_partition_fallback(list.clone(), k);
    let committee = bins.sample_quorum(&mut Words::new(&zeros), &mut Words::new(&zeros))?;
    assert_eq!(
        (committee.further, committee.pieces.len()),
        (MAX_SEATS, MAX_VALIDATORS)
    );

    let draws = FaitAccompli1Sampler::new_with_stake_weighted_fallback(list, k);
    assert_eq!(
        draws.sample_quorum(&mut Words::new(&zeros))?.further,
        MAX_SEATS
    );
    Ok(())
}

#[test]
fn the_longest_order_and_the_largest_fanout_are_taken() -> Result<(), Refusal> {
    let list = stakes(&[1; MAX_VALIDATORS]);
    let zeros = [0; MAX_VALIDATORS];
    let order = WeightedShuffle::new(&list).shuffle(&mut Words::new(&zeros))?;
    assert!(order.positions.into_iter().eq(0..MAX_VALIDATORS));

    let last = ValidatorIndex::new(MAX_VALIDATORS as u64 - 1);
    let tree = TurbineTree::new(&list, MAX_FANOUT, last, &mut Words::new(&zeros))?;
    assert_eq!(tree.get_parent(), Some(ValidatorIndex::new(0)));

    let root = ValidatorIndex::new(0);
    let tree = TurbineTree::new(&list, MAX_FANOUT, root, &mut Words::new(&zeros))?;
    assert_eq!(tree.get_children().last(), Some(&last));
    assert_eq!(tree.get_children().len(), MAX_VALIDATORS - 1);
    Ok(())
}

#[test]
fn a_relay_at_the_last_position_is_taken() {
    let committee: Vec<_> = (0..MAX_SEATS as u64).map(ValidatorIndex::new).collect();
    let last = ValidatorIndex::new(MAX_SEATS as u64 - 1);
    assert_eq!(sample_relay(&committee, MAX_SEATS - 1), Ok(last));
    assert_eq!(sample_relay(&committee, usize::MAX), Err(Refusal::NotBelow));
}

#[test]
fn sizes_far_past_a_limit_are_refused() {
    let list = || stakes(&[1, 2, 3]);
    let (words, other) = (&mut Words::new(&[0; 9]), &mut Words::new(&[0; 9]));
    let iid = StakeWeightedSampler::new(list()).into_quorum_strategy(usize::MAX);
    assert_eq!(iid.sample_quorum(words).err(), Some(Refusal::Size));
    let decaying = DecayingAcceptanceSampler::new(list(), 2.0, usize::MAX);
    assert_eq!(decaying.sample_quorum(words).err(), Some(Refusal::Size));
    let decaying = decaying.with_tries_allowed(usize::MAX);
    assert_eq!(
        decaying.sample_one(words).err(),
        Some(Refusal::TriesAllowed)
    );
    let partition = PartitionSampler::new(list(), usize::MAX);
    assert_eq!(
        partition.sample_quorum(words, other).err(),
        Some(Refusal::Size)
    );
    let bins = FaitAccompli1Sampler::new_with_partition_fallback(list(), u64::MAX);
    assert_eq!(bins.sample_quorum(words, other).err(), Some(Refusal::Size));
    let draws = FaitAccompli1Sampler::new_with_stake_weighted_fallback(list(), u64::MAX);
    assert_eq!(draws.sample_quorum(words).err(), Some(Refusal::Size));
    let id = ValidatorIndex::new(u64::MAX);
    let view = TurbineTree::new(&list(), usize::MAX, id, words);
    assert_eq!(view.err(), Some(Refusal::Fanout));
    let view = TurbineTree::new(&list(), 1, id, words);
    assert_eq!(view.err(), Some(Refusal::NotBelow));
}

#[test]
fn lists_far_past_the_limit_are_refused() {
    let list = stakes(&vec![1; 1 << 20]);
    let words = &mut Words::new(&[0; 9]);
    let refusals = [
        WeightedShuffle::new(&list).shuffle(words).err(),
        TurbineTree::new(&list, usize::MAX, ValidatorIndex::new(0), words).err(),
        StakeWeightedSampler::new(list.clone()).sample(words).err(),
        PartitionSampler::new(list, usize::MAX)
            .sample_quorum(words, &mut Words::new(&[]))
            .err(),
    ];
    assert_eq!(refusals, [Some(Refusal::ListLength); 4]);
}

#[test]
fn a_cursor_past_the_end_leaves_no_word() -> Result<(), Refusal> {
    let sampler = StakeWeightedSampler::new(stakes(&[1]));
    for cursor in [2, 3, usize::MAX] {
        let mut words = Words::at(&[0, 0], cursor);
        assert_eq!(words.remaining(), 0);
        assert_eq!(sampler.sample(&mut words), Err(Refusal::NoWordLeft));
        assert_eq!(words.cursor(), cursor);
    }

    // A call that reads nothing is accepted there.
    let mut words = Words::at(&[], usize::MAX);
    let quorum = sampler.into_quorum_strategy(0).sample_quorum(&mut words)?;
    assert_eq!((quorum.words_read, words.cursor()), (0, usize::MAX));
    Ok(())
}

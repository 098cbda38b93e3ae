//! Each entry on examples whose answers were worked out by hand from the rules of the draws.

mod common;

use common::{ids, stakes};
use valwydr::partition::Piece;
use valwydr::{
    DEFAULT_FANOUT, DecayingAcceptanceSampler, FaitAccompli1Sampler, IidQuorumSampler,
    PartitionSampler, Refusal, Stake, StakeWeightedSampler, TurbineTree, ValidatorIndex,
    WeightedShuffle, Words, rotor_seed, sample_relay, turbine_seed,
};

/// Bin, validator and stake of each piece.
fn rows(pieces: &[Piece]) -> Vec<(usize, u64, u64)> {
    let row = |piece: &Piece| (piece.bin, piece.validator.inner(), piece.stake.inner());
    pieces.iter().map(row).collect()
}

#[test]
fn the_running_sum_of_a_sample_exceeds_the_draw() -> Result<(), Refusal> {
    let sampler = StakeWeightedSampler::new(stakes(&[3, 0, 7]));
    for (word, id) in [(2, 0), (3, 2), (13, 2)] {
        let sample = sampler.sample(&mut Words::new(&[word]))?;
        assert_eq!((sample.id.inner(), sample.words_read), (id, 1), "{word}");
    }
    Ok(())
}

#[test]
fn words_past_the_last_whole_multiple_are_skipped() -> Result<(), Refusal> {
    let sampler = StakeWeightedSampler::new(stakes(&[1; 10]));
    let list = [18446744073709551609, 18446744073709551610, u64::MAX, 13];
    let mut words = Words::new(&list);
    let last_kept = sampler.sample(&mut words)?;
    assert_eq!((last_kept.id.inner(), last_kept.words_read), (9, 1));
    let after_two = sampler.sample(&mut words)?;
    assert_eq!((after_two.id.inner(), after_two.words_read), (3, 3));
    assert_eq!((words.cursor(), words.remaining()), (4, 0));
    Ok(())
}

#[test]
fn the_seats_of_an_iid_quorum_are_draws_one_after_another() -> Result<(), Refusal> {
    let sampler = IidQuorumSampler::new(StakeWeightedSampler::new(stakes(&[5, 3, 2])), 3);
    let mut words = Words::at(&[99, 13, 5, 9, 0], 1);
    let quorum = sampler.sample_quorum(&mut words)?;
    assert_eq!((quorum.seats, quorum.words_read), (ids(&[0, 1, 2]), 3));
    assert_eq!((sampler.quorum_size(), words.cursor()), (3, 4));
    assert_eq!(sampler.sample(&mut words)?.id, ValidatorIndex::new(0));
    Ok(())
}

#[test]
fn an_iid_quorum_of_none_reads_no_word() -> Result<(), Refusal> {
    let sampler = StakeWeightedSampler::new(stakes(&[1])).into_quorum_strategy(0);
    let quorum = sampler.sample_quorum(&mut Words::new(&[]))?;
    assert_eq!((quorum.seats, quorum.words_read), (ids(&[]), 0));
    Ok(())
}

#[test]
fn a_count_of_one_is_rejected_below_one_half() -> Result<(), Refusal> {
    for (fraction, id, tries) in [(1 << 63, 0, 1), ((1 << 63) - 1, 1, 2)] {
        let sampler =
            DecayingAcceptanceSampler::new(stakes(&[1, 1]), 2.0, 1).with_counts(vec![1, 0]);
        let list = [0, fraction, 1, 0];
        let mut words = Words::new(&list);
        let sample = sampler.sample_one(&mut words)?;
        assert_eq!((sample.id.inner(), sample.tries), (id, tries));
        assert_eq!(sample.words_read, 2 * tries);
        assert_eq!(words.cursor(), 2 * tries);
        assert_eq!(sampler.counts(), [2 - id as u32, id as u32]);
    }
    Ok(())
}

#[test]
fn nothing_is_rejected_with_infinite_max_samples() -> Result<(), Refusal> {
    let sampler = DecayingAcceptanceSampler::new(stakes(&[1]), f64::INFINITY, 1)
        .with_counts(vec![u32::MAX - 1]);
    assert_eq!(sampler.sample_one(&mut Words::new(&[0, 0]))?.tries, 1);
    assert_eq!(sampler.counts(), [u32::MAX]);
    Ok(())
}

#[test]
fn a_decaying_quorum_starts_from_the_counts_and_leaves_zeros() -> Result<(), Refusal> {
    // With max_samples 1.0 a validator that was taken is always rejected.
    let sampler = DecayingAcceptanceSampler::new(stakes(&[1, 1, 1]), 1.0, 2);
    let sampler = sampler.with_counts(vec![1, 0, 0]);
    let mut words = Words::new(&[0, u64::MAX, 1, 0, 1, u64::MAX, 2, 0]);
    let quorum = sampler.sample_quorum(&mut words)?;
    assert_eq!((quorum.seats, quorum.tries), (ids(&[1, 2]), 4));
    assert_eq!((quorum.words_read, words.cursor()), (8, 8));
    assert_eq!(sampler.counts(), [0, 0, 0]);
    Ok(())
}

#[test]
fn reset_sets_all_counts_to_zero() {
    let sampler = DecayingAcceptanceSampler::new(stakes(&[1, 1, 1]), 1.0, 2);
    let sampler = sampler.with_counts(vec![1, 2, 3]);
    sampler.reset();
    assert_eq!(sampler.counts(), [0, 0, 0]);
}

#[test]
fn bins_are_filled_in_the_order_of_the_first_words() -> Result<(), Refusal> {
    let sampler = PartitionSampler::new(stakes(&[3, 0, 4]), 2);

    // Swapping places 1 and 1, then 2 and 2, leaves the order.
    let (mut first, mut second) = (Words::new(&[1, 2]), Words::new(&[3, 7]));
    let partition = sampler.sample_quorum(&mut first, &mut second)?;
    assert_eq!(partition.seats, ids(&[2, 2]));
    assert_eq!(rows(&partition.pieces), [(0, 0, 3), (0, 2, 1), (1, 2, 3)]);

    // Swapping places 1 and 0, then 2 and 0, makes it 2, 0, 1.
    let (mut first, mut second) = (Words::new(&[0, 0, 9]), Words::new(&[3, 5, 9]));
    let partition = sampler.sample_quorum(&mut first, &mut second)?;
    assert_eq!(partition.seats, ids(&[2, 0]));
    assert_eq!(rows(&partition.pieces), [(0, 2, 4), (1, 0, 3)]);
    assert_eq!(partition.first_words_read, 2);
    assert_eq!(partition.second_words_read, 2);
    assert_eq!((first.cursor(), second.cursor()), (2, 2));
    Ok(())
}

#[test]
fn the_draw_from_the_last_bin_is_below_its_own_sum() -> Result<(), Refusal> {
    // Bins of 4 and 3: 2^64 - 1 is skipped below 3, and would not be below 4.
    let sampler = PartitionSampler::new(stakes(&[4, 1, 2]), 2);
    let mut second = Words::new(&[0, u64::MAX, 1]);
    let partition = sampler.sample_quorum(&mut Words::new(&[1, 2]), &mut second)?;
    assert_eq!(partition.seats, ids(&[0, 2]));
    assert_eq!(partition.second_words_read, 3);
    Ok(())
}

#[test]
fn a_partition_into_no_bins_reads_no_word() -> Result<(), Refusal> {
    let sampler = PartitionSampler::new(stakes(&[3, 0, 4]), 0);
    let partition = sampler.sample_quorum(&mut Words::new(&[]), &mut Words::new(&[]))?;
    assert_eq!((partition.seats, partition.pieces), (ids(&[]), Vec::new()));
    Ok(())
}

#[test]
fn totals_that_fill_every_bin_are_taken() -> Result<(), Refusal> {
    for (total, bins, sums) in [(5, 3, vec![2, 2, 1]), (7, 4, vec![2, 2, 2, 1])] {
        let sampler = PartitionSampler::new(stakes(&[total]), bins);
        let partition = sampler.sample_quorum(&mut Words::new(&[]), &mut Words::new(&[0; 4]))?;
        let stakes: Vec<_> = partition.pieces.iter().map(|p| p.stake.inner()).collect();
        assert_eq!(stakes, sums);
    }
    Ok(())
}

#[test]
fn fixed_seats_come_first_and_bins_hold_what_is_kept() -> Result<(), Refusal> {
    let sampler = FaitAccompli1Sampler::new_with_partition_fallback(stakes(&[5, 3, 2]), 4);
    for (word, further) in [(0, 1), (1, 2), (2, 2)] {
        let list = [word];
        let (mut first, mut second) = (Words::new(&[1, 2]), Words::new(&list));
        let committee = sampler.sample_quorum(&mut first, &mut second)?;
        assert_eq!(committee.seats, ids(&[0, 0, 1, further]));
        assert_eq!(committee.fixed_seats(), ids(&[0, 0, 1]));
        assert_eq!(committee.further_seats(), ids(&[further]));
        assert_eq!(committee.further, 1);
        assert_eq!(rows(&committee.pieces), [(0, 1, 1), (0, 2, 2)]);
        assert_eq!(committee.first_words_read, 2);
        assert_eq!(committee.second_words_read, 1);
        assert_eq!((first.cursor(), second.cursor()), (2, 1));
    }
    Ok(())
}

#[test]
fn a_committee_of_fixed_seats_reads_no_word() -> Result<(), Refusal> {
    let cases = [
        (vec![1; 49], (0..49).collect::<Vec<u64>>()),
        (vec![15, 7], [[0; 15].as_slice(), &[1; 7]].concat()),
        (vec![1 << 63], vec![0, 0]),
    ];
    for (list, seats) in cases {
        let k = seats.len() as u64;
        let bins = FaitAccompli1Sampler::new_with_partition_fallback(stakes(&list), k);
        let committee = bins.sample_quorum(&mut Words::new(&[]), &mut Words::new(&[]))?;
        assert_eq!((committee.seats, committee.further), (ids(&seats), 0));
        assert_eq!(committee.pieces, []);

        let draws = FaitAccompli1Sampler::new_with_stake_weighted_fallback(stakes(&list), k);
        let committee = draws.sample_quorum(&mut Words::new(&[]))?;
        assert_eq!((committee.seats, committee.further), (ids(&seats), 0));
    }
    Ok(())
}

#[test]
fn plain_draws_are_over_what_is_kept() -> Result<(), Refusal> {
    // Stakes 2^63 and 2^62 have 2 and 1 of 4 seats, and keep 2^61 and 2^60.
    let large = [1 << 63, 1 << 62];
    let cases: [(&[u64], u64, [u64; 4]); 4] = [
        (&[5, 3, 2], 0, [0, 0, 1, 1]),
        (&[5, 3, 2], 1, [0, 0, 1, 2]),
        (&large, (1 << 61) - 1, [0, 0, 1, 0]),
        (&large, 3000000000000000000, [0, 0, 1, 1]),
    ];
    for (list, word, seats) in cases {
        let sampler = FaitAccompli1Sampler::new_with_stake_weighted_fallback(stakes(list), 4);
        let list = [word];
        let mut words = Words::new(&list);
        let committee = sampler.sample_quorum(&mut words)?;
        assert_eq!((committee.seats, committee.further), (ids(&seats), 1));
        assert_eq!(committee.first_words_read, 1);
        assert_eq!(committee.second_words_read, 0);
        assert_eq!((sampler.quorum_size(), words.cursor()), (4, 1));
    }
    Ok(())
}

#[test]
fn an_order_has_the_zeros_last() -> Result<(), Refusal> {
    let cases: [(&[u64], &[u64], &[usize]); 5] = [
        (&[2, 0, 3], &[4, 1, 0], &[2, 0, 1]),
        // The last zero moves into the gap.
        (&[0, 0, 0], &[0, 0, 0], &[0, 2, 1]),
        // A weight that takes the sum past 2^64 - 1 is a zero.
        (&[u64::MAX, 1, 0], &[0, 1, 0], &[0, 2, 1]),
        (&[1; 3], &[2, 1, 0], &[2, 1, 0]),
        (&[], &[], &[]),
    ];
    for (weights, list, positions) in cases {
        let mut words = Words::new(list);
        let order = WeightedShuffle::new(stakes(weights)).shuffle(&mut words)?;
        assert_eq!(order.positions, positions);
        assert_eq!((order.words_read, words.cursor()), (list.len(), list.len()));
    }
    Ok(())
}

#[test]
fn the_views_of_a_tree_fit_together() -> Result<(), Refusal> {
    // Zeros as words take equal stakes in list order, so validator p stands at position p.
    let list = [0; 7];
    let families: [(Option<u64>, &[u64]); 7] = [
        (None, &[1, 2]),
        (Some(0), &[3, 4]),
        (Some(0), &[5, 6]),
        (Some(1), &[]),
        (Some(1), &[]),
        (Some(2), &[]),
        (Some(2), &[]),
    ];
    for (own_id, (parent, children)) in families.into_iter().enumerate() {
        let own_id = ValidatorIndex::new(own_id as u64);
        let mut words = Words::new(&list);
        let view = TurbineTree::view(&stakes(&[1; 7]), 2, own_id, &mut words)?;
        assert_eq!(view.tree.get_root(), ValidatorIndex::new(0));
        assert_eq!(view.tree.get_parent(), parent.map(ValidatorIndex::new));
        assert_eq!(view.tree.get_children(), ids(children));
        assert_eq!(view.order, ids(&[0, 1, 2, 3, 4, 5, 6]));
        assert_eq!((view.words_read, words.cursor()), (7, 7));
        let tree = TurbineTree::new(&stakes(&[1; 7]), 2, own_id, &mut Words::new(&list))?;
        assert_eq!(tree, view.tree);
    }
    Ok(())
}

#[test]
fn a_validator_alone_has_no_parent_and_no_child() -> Result<(), Refusal> {
    let own_id = ValidatorIndex::new(0);
    let tree = TurbineTree::new(&stakes(&[9]), DEFAULT_FANOUT, own_id, &mut Words::new(&[5]))?;
    assert_eq!((tree.get_root(), tree.get_parent()), (own_id, None));
    assert_eq!(tree.get_children(), []);
    Ok(())
}

#[test]
fn seeds_are_big_endian() {
    let slot = [1, 2, 3, 4, 5, 6, 7, 8];
    let part = [9, 10, 11, 12, 13, 14, 15, 16];
    let (slot_number, part_number) = (0x0102030405060708, 0x090a0b0c0d0e0f10);
    let turbine = [b"ALPENGLOWTURBINE".as_slice(), &slot, &part].concat();
    assert_eq!(turbine_seed(slot_number, part_number).as_slice(), turbine);
    let rotor = [slot.as_slice(), &part, &[0; 16]].concat();
    assert_eq!(rotor_seed(slot_number, part_number).as_slice(), rotor);
}

#[test]
fn a_relay_is_the_seat_at_the_position() -> Result<(), Refusal> {
    let committee = ids(&[4, 2, u64::MAX]);
    for (shred, relay) in committee.iter().enumerate() {
        assert_eq!(sample_relay(&committee, shred)?, *relay);
    }
    Ok(())
}

#[test]
fn arithmetic_on_stakes_is_exact() {
    let [one, two, max] = [1, 2, u64::MAX].map(Stake::new);
    assert_eq!(one.checked_add(two), Some(Stake::new(3)));
    assert_eq!(max.checked_add(one), None);
    assert_eq!(two.checked_sub(one), Some(one));
    assert_eq!(one.checked_sub(two), None);
    assert_eq!(two.checked_mul(1 << 62), Some(Stake::new(1 << 63)));
    assert_eq!(two.checked_mul(1 << 63), None);
    assert_eq!(Stake::new(7).div_ceil(2), Some(Stake::new(4)));
    assert_eq!(Stake::new(7).div_ceil(0), None);
    assert_eq!(Stake::checked_sum(&[one, two]), Some(Stake::new(3)));
    assert_eq!(Stake::checked_sum(&[]), Some(Stake::default()));
    assert_eq!(Stake::checked_sum(&[max, one]), None);
}

#[test]
fn numbers_are_written_in_digits() {
    for number in [0, 9, 10, 1_234_567_890, u64::MAX] {
        assert_eq!(Stake::from(number).to_string(), number.to_string());
        assert_eq!(ValidatorIndex::from(number).to_string(), number.to_string());
        assert_eq!(u64::from(Stake::new(number)), number);
        assert_eq!(u64::from(ValidatorIndex::new(number)), number);
    }
    assert_eq!(
        format!("{:>3}|{:<3}", Stake::new(7), ValidatorIndex::new(7)),
        "  7|7  "
    );
}

//! The functions of `valwydr.h`, parameter by parameter.

/// A node of the shuffle's tree, `struct valwydr_node`: a sum for each of its sixteen sub-trees.
pub type Node = [u64; 16];

unsafe extern "C" {
    pub fn valwydr_stake_weighted_sample(
        stakes: *const u64,
        stakes_len: usize,
        words: *const u64,
        words_len: usize,
        cursor: usize,
        answer: *mut [u64; 2],
    ) -> u64;

    pub fn valwydr_iid_sample_quorum(
        k: usize,
        stakes: *const u64,
        stakes_len: usize,
        words: *const u64,
        words_len: usize,
        cursor: usize,
        seats: *mut u64,
        seats_len: usize,
        answer: *mut [u64; 1],
    ) -> u64;

    pub fn valwydr_decaying_acceptance_sample_one(
        max_samples: f64,
        tries_allowed: usize,
        stakes: *const u64,
        stakes_len: usize,
        counts: *mut u32,
        counts_len: usize,
        words: *const u64,
        words_len: usize,
        cursor: usize,
        answer: *mut [u64; 3],
    ) -> u64;

    pub fn valwydr_decaying_acceptance_sample_quorum(
        max_samples: f64,
        tries_allowed: usize,
        k: usize,
        stakes: *const u64,
        stakes_len: usize,
        counts: *mut u32,
        counts_len: usize,
        words: *const u64,
        words_len: usize,
        cursor: usize,
        seats: *mut u64,
        seats_len: usize,
        answer: *mut [u64; 2],
    ) -> u64;

    pub fn valwydr_decaying_acceptance_reset(counts: *mut u32, counts_len: usize);

    pub fn valwydr_partition_sample_quorum(
        num_bins: usize,
        stakes: *const u64,
        stakes_len: usize,
        first_words: *const u64,
        first_words_len: usize,
        first_cursor: usize,
        second_words: *const u64,
        second_words_len: usize,
        second_cursor: usize,
        seats: *mut u64,
        seats_len: usize,
        piece_bins: *mut u64,
        piece_bins_len: usize,
        piece_validators: *mut u64,
        piece_validators_len: usize,
        piece_stakes: *mut u64,
        piece_stakes_len: usize,
        answer: *mut [u64; 3],
    ) -> u64;

    pub fn valwydr_fait_accompli1_with_partition_fallback(
        k: usize,
        stakes: *const u64,
        stakes_len: usize,
        first_words: *const u64,
        first_words_len: usize,
        first_cursor: usize,
        second_words: *const u64,
        second_words_len: usize,
        second_cursor: usize,
        seats: *mut u64,
        seats_len: usize,
        piece_bins: *mut u64,
        piece_bins_len: usize,
        piece_validators: *mut u64,
        piece_validators_len: usize,
        piece_stakes: *mut u64,
        piece_stakes_len: usize,
        answer: *mut [u64; 4],
    ) -> u64;

    pub fn valwydr_fait_accompli1_with_stake_weighted_fallback(
        k: usize,
        stakes: *const u64,
        stakes_len: usize,
        words: *const u64,
        words_len: usize,
        cursor: usize,
        seats: *mut u64,
        seats_len: usize,
        answer: *mut [u64; 4],
    ) -> u64;

    pub fn valwydr_get_num_nodes_and_tree_size(count: usize, answer: *mut [u64; 2]);

    pub fn valwydr_weighted_shuffle(
        weights: *const u64,
        weights_len: usize,
        words: *const u64,
        words_len: usize,
        cursor: usize,
        order: *mut u64,
        order_len: usize,
        nodes: *mut Node,
        nodes_len: usize,
        answer: *mut [u64; 1],
    ) -> u64;

    pub fn valwydr_turbine_tree_new(
        stakes: *const u64,
        stakes_len: usize,
        fanout: usize,
        own_id: u64,
        words: *const u64,
        words_len: usize,
        cursor: usize,
        order: *mut u64,
        order_len: usize,
        nodes: *mut Node,
        nodes_len: usize,
        children: *mut u64,
        children_len: usize,
        answer: *mut [u64; 4],
    ) -> u64;

    pub fn valwydr_turbine_seed(slot: u64, shred: u64, seed: *mut u8, seed_len: usize) -> u64;

    pub fn valwydr_rotor_seed(slot: u64, slice: u64, seed: *mut u8, seed_len: usize) -> u64;

    pub fn valwydr_sample_relay(
        committee: *const u64,
        committee_len: usize,
        shred: usize,
        answer: *mut [u64; 1],
    ) -> u64;

    pub fn valwydr_stake_div_ceil(stake: u64, divisor: u64, result: *mut u64) -> bool;

    pub fn valwydr_stake_checked_add(stake: u64, rhs: u64, result: *mut u64) -> bool;

    pub fn valwydr_stake_sub(stake: u64, rhs: u64, result: *mut u64) -> bool;

    pub fn valwydr_stake_mul(stake: u64, rhs: u64, result: *mut u64) -> bool;

    pub fn valwydr_stake_sum(stakes: *const u64, stakes_len: usize, result: *mut u64) -> bool;

    pub fn valwydr_stake_fmt(
        stake: u64,
        buffer: *mut u8,
        buffer_len: usize,
        written: *mut usize,
    ) -> bool;

    pub fn valwydr_validator_index_fmt(
        id: u64,
        buffer: *mut u8,
        buffer_len: usize,
        written: *mut usize,
    ) -> bool;
}

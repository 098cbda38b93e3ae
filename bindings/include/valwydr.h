/*
 * Valwydr: relay committees and Turbine views for a proof-of-stake network, in code that is proved.
 *
 * Every function takes any arguments, but for pointers: it answers or refuses, and ends. The rules of a call:
 *
 *   - A slice is a pointer and a length, in elements. The pointer may be NULL where the length is 0. Otherwise it is aligned and
 *     refers to that many elements. No buffer that a function writes to overlaps another argument.
 *   - `stakes` is the epoch's list of stakes; a validator's id is its position there.
 *   - `words` are the words of chance, read from the place `cursor` on. Past the end of the list no word is left. How many words
 *     a call read is in its answer; the caller adds that to its cursor.
 *   - The result is 0 (VALWYDR_OK) or the number of a refusal (VALWYDR_LIST_LENGTH and so on), the lowest that applies.
 *   - What an answer carries goes to the array `answer`, which has as many places as the enumeration beside the function says and
 *     is never NULL.
 *   - Past what a call writes, a buffer keeps what it held.
 *   - A refused call writes nothing: every buffer that it was lent holds what it held.
 *
 * No function allocates memory, keeps state, locks or calls the system, so any number of threads may call at once on buffers of
 * their own. Up to 100 KB of stack are used (docs/PERFORMANCE.md says what each function uses).
 */
#ifndef VALWYDR_H
#define VALWYDR_H

#include <stdbool.h>
#include <stddef.h>
#include <stdint.h>

#ifdef __cplusplus
extern "C" {
#endif

/* What a call results in. */
enum {
    VALWYDR_OK = 0,
    VALWYDR_LIST_LENGTH = 1,        /* the list is longer than 4,096, or empty (a shuffle takes an empty one) */
    VALWYDR_SIZE = 2,               /* more than 1,024 seats or bins, or FA1 with none */
    VALWYDR_TRIES_ALLOWED = 3,      /* the tries allowed for a seat are 0 or more than 100,000 */
    VALWYDR_MAX_SAMPLES = 4,        /* max_samples is NaN, or not above 0 */
    VALWYDR_FANOUT = 5,             /* the fanout is 0 or above 4,096 */
    VALWYDR_NOT_BELOW = 6,          /* the own id is not in the list, or the committee has no seat at the shred's position */
    VALWYDR_SHORT_BUFFER = 7,       /* a lent buffer is shorter than needed */
    VALWYDR_SUM_PAST = 8,           /* the stakes sum past 2^64 - 1 */
    VALWYDR_TOTAL_ZERO = 9,         /* the stakes sum to 0 */
    VALWYDR_COUNT_LIMIT = 10,       /* a count might pass 4,294,967,295 */
    VALWYDR_EMPTY_BIN = 11,         /* a bin would be empty */
    VALWYDR_NO_WORD_LEFT = 12,      /* a word is needed and none is left */
    VALWYDR_LAST_TRY_REJECTED = 13  /* the last try that is allowed for a seat is rejected */
};

/* The limits that the refusals above speak of. */
#define VALWYDR_MAX_VALIDATORS 4096
#define VALWYDR_MAX_SEATS 1024
#define VALWYDR_MAX_TRIES_PER_SAMPLE 100000
#define VALWYDR_MAX_FANOUT 4096

/* The fanout of the original's Turbine tree, and the shreds of a slice. */
#define VALWYDR_DEFAULT_FANOUT 200
#define VALWYDR_TOTAL_SHREDS 64

/* The bytes of a seed. */
#define VALWYDR_SEED_BYTES 32

/* In the answer of a view, the parent of the root, which has none. */
#define VALWYDR_NO_PARENT UINT64_MAX

/* The nodes that a shuffle or a view of the longest list needs. */
#define VALWYDR_MAX_NODES 273

/* A node of the shuffle's tree: a sum for each of its sixteen sub-trees. */
struct valwydr_node {
    uint64_t sums[16];
};

/*
 * StakeWeightedSampler::sample: one validator, in proportion to its stake.
 * Refusals: 1, 8, 9, 12.
 */
enum { VALWYDR_SAMPLE_ID, VALWYDR_SAMPLE_WORDS_READ, VALWYDR_SAMPLE_ANSWER };
uint64_t valwydr_stake_weighted_sample(
    const uint64_t *stakes, size_t stakes_len,
    const uint64_t *words, size_t words_len, size_t cursor,
    uint64_t answer[VALWYDR_SAMPLE_ANSWER]);

/*
 * IidQuorumSampler::sample_quorum: a committee of k, each seat in proportion to stake and by itself. The k ids stand at the front
 * of seats.
 * Refusals: 1, 2, 7, 8, 9, 12.
 */
enum { VALWYDR_QUORUM_WORDS_READ, VALWYDR_QUORUM_ANSWER };
uint64_t valwydr_iid_sample_quorum(
    size_t k,
    const uint64_t *stakes, size_t stakes_len,
    const uint64_t *words, size_t words_len, size_t cursor,
    uint64_t *seats, size_t seats_len,
    uint64_t answer[VALWYDR_QUORUM_ANSWER]);

/*
 * DecayingAcceptanceSampler::sample_one: one validator, rejected the more often the higher its count is. The count of the one that
 * is taken rises by 1. There is a count for each stake at least.
 * Refusals: 1, 3, 4, 7, 8, 9, 10, 12, 13.
 */
enum { VALWYDR_ONE_ID, VALWYDR_ONE_TRIES, VALWYDR_ONE_WORDS_READ, VALWYDR_ONE_ANSWER };
uint64_t valwydr_decaying_acceptance_sample_one(
    double max_samples, size_t tries_allowed,
    const uint64_t *stakes, size_t stakes_len,
    uint32_t *counts, size_t counts_len,
    const uint64_t *words, size_t words_len, size_t cursor,
    uint64_t answer[VALWYDR_ONE_ANSWER]);

/*
 * DecayingAcceptanceSampler::sample_quorum: a committee of k, drawn likewise from the counts as they are lent. The k ids stand at
 * the front of seats, and the counts of the list's validators are then 0.
 * Refusals: 1, 2, 3, 4, 7, 8, 9, 10, 12, 13.
 */
enum { VALWYDR_DECAYING_TRIES, VALWYDR_DECAYING_WORDS_READ, VALWYDR_DECAYING_ANSWER };
uint64_t valwydr_decaying_acceptance_sample_quorum(
    double max_samples, size_t tries_allowed, size_t k,
    const uint64_t *stakes, size_t stakes_len,
    uint32_t *counts, size_t counts_len,
    const uint64_t *words, size_t words_len, size_t cursor,
    uint64_t *seats, size_t seats_len,
    uint64_t answer[VALWYDR_DECAYING_ANSWER]);

/* DecayingAcceptanceSampler::reset: sets every count to 0. */
void valwydr_decaying_acceptance_reset(uint32_t *counts, size_t counts_len);

/*
 * PartitionSampler::sample_quorum: the list is shuffled by the first words, the bins are filled in that order, and one validator is
 * drawn from each by the second words. The ids stand at the front of seats. The pieces, in fill order, stand at the front of three
 * columns: bin, validator, stake. Each column has a place for as many pieces as there are stakes and bins together; no place is
 * needed where there is no bin.
 * Refusals: 1, 2, 7, 8, 9, 11, 12.
 */
enum {
    VALWYDR_PARTITION_PIECES,
    VALWYDR_PARTITION_FIRST_WORDS_READ,
    VALWYDR_PARTITION_SECOND_WORDS_READ,
    VALWYDR_PARTITION_ANSWER
};
uint64_t valwydr_partition_sample_quorum(
    size_t num_bins,
    const uint64_t *stakes, size_t stakes_len,
    const uint64_t *first_words, size_t first_words_len, size_t first_cursor,
    const uint64_t *second_words, size_t second_words_len, size_t second_cursor,
    uint64_t *seats, size_t seats_len,
    uint64_t *piece_bins, size_t piece_bins_len,
    uint64_t *piece_validators, size_t piece_validators_len,
    uint64_t *piece_stakes, size_t piece_stakes_len,
    uint64_t answer[VALWYDR_PARTITION_ANSWER]);

/*
 * FaitAccompli1Sampler, made by new_with_partition_fallback: a committee of k. Each validator has the whole number of seats in its
 * share, in list order; the further seats are drawn from bins over what each keeps. The k ids stand at the front of seats, and the
 * pieces in their columns, each with a place for as many as there are stakes and seats together.
 * Refusals: 1, 2, 7, 8, 9, 11, 12.
 */
enum {
    VALWYDR_COMMITTEE_FURTHER,
    VALWYDR_COMMITTEE_PIECES,
    VALWYDR_COMMITTEE_FIRST_WORDS_READ,
    VALWYDR_COMMITTEE_SECOND_WORDS_READ,
    VALWYDR_COMMITTEE_ANSWER
};
uint64_t valwydr_fait_accompli1_with_partition_fallback(
    size_t k,
    const uint64_t *stakes, size_t stakes_len,
    const uint64_t *first_words, size_t first_words_len, size_t first_cursor,
    const uint64_t *second_words, size_t second_words_len, size_t second_cursor,
    uint64_t *seats, size_t seats_len,
    uint64_t *piece_bins, size_t piece_bins_len,
    uint64_t *piece_validators, size_t piece_validators_len,
    uint64_t *piece_stakes, size_t piece_stakes_len,
    uint64_t answer[VALWYDR_COMMITTEE_ANSWER]);

/*
 * FaitAccompli1Sampler, made by new_with_stake_weighted_fallback: the same with plain draws for the further seats, which read one
 * list of words. The answer has the same four places; there are no pieces, and no second list is read.
 * Refusals: 1, 2, 7, 8, 9, 12.
 */
uint64_t valwydr_fait_accompli1_with_stake_weighted_fallback(
    size_t k,
    const uint64_t *stakes, size_t stakes_len,
    const uint64_t *words, size_t words_len, size_t cursor,
    uint64_t *seats, size_t seats_len,
    uint64_t answer[VALWYDR_COMMITTEE_ANSWER]);

/*
 * WeightedShuffle::get_num_nodes_and_tree_size: for any count, the nodes of a full tree that could hold so many weights, and those
 * that have children, which is how many nodes a shuffle of so many needs. It is never refused.
 */
enum { VALWYDR_SIZES_NUM_NODES, VALWYDR_SIZES_TREE_SIZE, VALWYDR_SIZES_ANSWER };
void valwydr_get_num_nodes_and_tree_size(size_t count, uint64_t answer[VALWYDR_SIZES_ANSWER]);

/*
 * WeightedShuffle::shuffle, the whole order: every position of the list once, heavier ones sooner, those of weight 0 last. It
 * stands at the front of order, which has a place for each weight. The nodes are where the tree is built, whatever they hold; as
 * many as the tree has are 0 after the call.
 * Refusals: 1 (only for a list that is too long), 7, 12.
 */
enum { VALWYDR_SHUFFLE_WORDS_READ, VALWYDR_SHUFFLE_ANSWER };
uint64_t valwydr_weighted_shuffle(
    const uint64_t *weights, size_t weights_len,
    const uint64_t *words, size_t words_len, size_t cursor,
    uint64_t *order, size_t order_len,
    struct valwydr_node *nodes, size_t nodes_len,
    uint64_t answer[VALWYDR_SHUFFLE_ANSWER]);

/*
 * TurbineTree::new: what the validator own_id sees of the Turbine tree over a shuffle of the stakes: the root, its parent
 * (VALWYDR_NO_PARENT for the root) and its children, which stand at the front of children. There are places for the smaller of
 * fanout and the number of stakes. The order stands at the front of order, as after a shuffle.
 * Refusals: 1, 5, 6, 7, 12.
 */
enum {
    VALWYDR_VIEW_ROOT,
    VALWYDR_VIEW_PARENT,
    VALWYDR_VIEW_CHILDREN,
    VALWYDR_VIEW_WORDS_READ,
    VALWYDR_VIEW_ANSWER
};
uint64_t valwydr_turbine_tree_new(
    const uint64_t *stakes, size_t stakes_len,
    size_t fanout, uint64_t own_id,
    const uint64_t *words, size_t words_len, size_t cursor,
    uint64_t *order, size_t order_len,
    struct valwydr_node *nodes, size_t nodes_len,
    uint64_t *children, size_t children_len,
    uint64_t answer[VALWYDR_VIEW_ANSWER]);

/*
 * The seed of the Turbine tree for a shred of a slot, and that of the relay committee for a slice of a slot: 32 bytes, at the front
 * of seed.
 * Refusals: 7.
 */
uint64_t valwydr_turbine_seed(uint64_t slot, uint64_t shred, uint8_t *seed, size_t seed_len);
uint64_t valwydr_rotor_seed(uint64_t slot, uint64_t slice, uint8_t *seed, size_t seed_len);

/*
 * Rotor's sample_relay: the relay of the shred at a position of a slice, which is the seat at that position of its committee.
 * Refusals: 2, 6.
 */
enum { VALWYDR_RELAY_ID, VALWYDR_RELAY_ANSWER };
uint64_t valwydr_sample_relay(
    const uint64_t *committee, size_t committee_len, size_t shred,
    uint64_t answer[VALWYDR_RELAY_ANSWER]);

/*
 * Arithmetic on stakes. Each gives true and stores the exact stake to *result, or false, with *result as it was, where no stake is
 * the result: it would be below 0 or above 2^64 - 1, or the divisor is 0. result is not NULL.
 */
bool valwydr_stake_div_ceil(uint64_t stake, uint64_t divisor, uint64_t *result);
bool valwydr_stake_checked_add(uint64_t stake, uint64_t rhs, uint64_t *result);
bool valwydr_stake_sub(uint64_t stake, uint64_t rhs, uint64_t *result);
bool valwydr_stake_mul(uint64_t stake, uint64_t rhs, uint64_t *result);
bool valwydr_stake_sum(const uint64_t *stakes, size_t stakes_len, uint64_t *result);

/*
 * A stake, or a validator's id, in decimal digits: at most 20, at the front of buffer, with no terminating 0. Each gives true and
 * stores how many there are to *written, or false, with all as it was, where the buffer is shorter. written is not NULL.
 */
bool valwydr_stake_fmt(uint64_t stake, uint8_t *buffer, size_t buffer_len, size_t *written);
bool valwydr_validator_index_fmt(uint64_t id, uint8_t *buffer, size_t buffer_len, size_t *written);

#ifdef __cplusplus
}
#endif

#endif

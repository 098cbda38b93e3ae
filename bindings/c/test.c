/*
 * Calls every function of valwydr.h: with arguments that it answers, with arguments that it refuses, and with NULL for every slice.
 *
 * Before each call all memory that is lent holds a pattern. After it, what the call should have written is compared and painted
 * over, and then the whole memory must hold the pattern again. The first check that fails ends the program with status 1.
 */
#include "../include/valwydr.h"

#include <math.h>
#include <stdio.h>
#include <stdlib.h>
#include <string.h>

/* More places than any call needs: the pieces of the longest list in the most bins. */
#define PLACES (VALWYDR_MAX_VALIDATORS + VALWYDR_MAX_SEATS + 8)
#define PATTERN 0x5a

/* All memory that calls are lent. */
static struct {
    uint64_t answer[8];
    uint64_t seats[PLACES];
    uint64_t bins[PLACES];
    uint64_t validators[PLACES];
    uint64_t stakes[PLACES];
    uint64_t order[PLACES];
    uint64_t children[PLACES];
    uint32_t counts[PLACES];
    struct valwydr_node nodes[VALWYDR_MAX_NODES + 2];
    uint8_t bytes[VALWYDR_SEED_BYTES + 8];
    uint64_t result;
    size_t written;
} lent;

/* Numbers, read from a place on where they are words. */
struct list {
    const uint64_t *at;
    size_t len;
    size_t cursor;
};

#define LIST(...) \
    ((struct list){(const uint64_t[]){__VA_ARGS__}, sizeof((const uint64_t[]){__VA_ARGS__}) / sizeof(uint64_t), 0})
#define NONE ((struct list){NULL, 0, 0})

/* Lists of the greatest lengths. */
static uint64_t ones[VALWYDR_MAX_VALIDATORS + 1];
static uint64_t rising[VALWYDR_MAX_VALIDATORS];
static const uint64_t zeros[VALWYDR_MAX_VALIDATORS];
static const struct list long_list = {ones, VALWYDR_MAX_VALIDATORS + 1, 0};
static const struct list longest_list = {ones, VALWYDR_MAX_VALIDATORS, 0};
static const struct list zero_words = {zeros, VALWYDR_MAX_VALIDATORS, 0};

static unsigned passed;

static void check(bool holds, const char *what, int line)
{
    if (!holds) {
        printf("test.c:%d: failed: %s\n", line, what);
        exit(1);
    }
    passed++;
}

/* Fills all memory with the pattern. */
static void paint(void)
{
    memset(&lent, PATTERN, sizeof lent);
}

/* All memory holds the pattern. */
static bool untouched(void)
{
    const unsigned char *bytes = (const unsigned char *)&lent;
    for (size_t i = 0; i < sizeof lent; i++) {
        if (bytes[i] != PATTERN) {
            return false;
        }
    }
    return true;
}

/* Whether the front of a buffer holds these bytes; it is then painted over. */
static bool take(void *buffer, const void *front, size_t bytes)
{
    bool same = memcmp(buffer, front, bytes) == 0;
    memset(buffer, PATTERN, bytes);
    return same;
}

#define CHECK(condition) check((condition), #condition, __LINE__)

/* The front of a buffer holds these numbers. */
#define TAKE(buffer, type, ...) \
    check(take((buffer), (const type[]){__VA_ARGS__}, sizeof((const type[]){__VA_ARGS__})), #buffer " is " #__VA_ARGS__, __LINE__)

/* What was not taken was not written. */
#define DONE() check(untouched(), "nothing else is written", __LINE__)

/* A call is refused, and nothing is written. */
#define REFUSED(call, number) \
    do { \
        check((call) == (number), #call " is refused by " #number, __LINE__); \
        DONE(); \
    } while (0)

/* The words of a list from a place on. */
static struct list from(struct list list, size_t cursor)
{
    list.cursor = cursor;
    return list;
}

/* A buffer, or NULL where none of its places is lent. */
#define LEND(buffer, places) ((places) == 0 ? NULL : (buffer)), (places)

static uint64_t sample(struct list stakes, struct list words)
{
    paint();
    return valwydr_stake_weighted_sample(stakes.at, stakes.len, words.at, words.len, words.cursor, lent.answer);
}

static void test_stake_weighted_sample(void)
{
    struct list stakes = LIST(3, 0, 7);
    CHECK(sample(stakes, from(LIST(99, 18446744073709551610u, 13), 1)) == VALWYDR_OK);
    TAKE(lent.answer, uint64_t, 2, 2);
    DONE();
    CHECK(sample(stakes, LIST(2)) == VALWYDR_OK);
    TAKE(lent.answer, uint64_t, 0, 1);
    DONE();
    REFUSED(sample(NONE, LIST(0)), VALWYDR_LIST_LENGTH);
    REFUSED(sample(long_list, LIST(0)), VALWYDR_LIST_LENGTH);
    REFUSED(sample(LIST(UINT64_MAX, 1), LIST(0)), VALWYDR_SUM_PAST);
    REFUSED(sample(LIST(0, 0), LIST(0)), VALWYDR_TOTAL_ZERO);
    REFUSED(sample(stakes, NONE), VALWYDR_NO_WORD_LEFT);
    REFUSED(sample(stakes, from(LIST(0, 0), 2)), VALWYDR_NO_WORD_LEFT);
    REFUSED(sample(stakes, from(LIST(0, 0), SIZE_MAX)), VALWYDR_NO_WORD_LEFT);
}

static uint64_t iid(size_t k, struct list stakes, struct list words, size_t seats)
{
    paint();
    return valwydr_iid_sample_quorum(
        k, stakes.at, stakes.len, words.at, words.len, words.cursor, LEND(lent.seats, seats), lent.answer);
}

static void test_iid_sample_quorum(void)
{
    struct list stakes = LIST(5, 3, 2);
    CHECK(iid(3, stakes, from(LIST(99, 13, 5, 9, 0), 1), PLACES) == VALWYDR_OK);
    TAKE(lent.seats, uint64_t, 0, 1, 2);
    TAKE(lent.answer, uint64_t, 3);
    DONE();
    CHECK(iid(0, stakes, NONE, 0) == VALWYDR_OK);
    TAKE(lent.answer, uint64_t, 0);
    DONE();
    CHECK(iid(VALWYDR_MAX_SEATS, longest_list, zero_words, VALWYDR_MAX_SEATS) == VALWYDR_OK);
    CHECK(take(lent.seats, zeros, VALWYDR_MAX_SEATS * sizeof(uint64_t)));
    TAKE(lent.answer, uint64_t, VALWYDR_MAX_SEATS);
    DONE();
    REFUSED(iid(3, NONE, LIST(0), PLACES), VALWYDR_LIST_LENGTH);
    REFUSED(iid(VALWYDR_MAX_SEATS + 1, stakes, zero_words, PLACES), VALWYDR_SIZE);
    REFUSED(iid(3, stakes, zero_words, 2), VALWYDR_SHORT_BUFFER);
    REFUSED(iid(3, stakes, zero_words, 0), VALWYDR_SHORT_BUFFER);
    REFUSED(iid(3, LIST(UINT64_MAX, 1), zero_words, PLACES), VALWYDR_SUM_PAST);
    REFUSED(iid(3, LIST(0), zero_words, PLACES), VALWYDR_TOTAL_ZERO);
    REFUSED(iid(3, stakes, LIST(0, 0), PLACES), VALWYDR_NO_WORD_LEFT);
}

/* The counts of the two validators of the decaying sampler's calls. */
static void set_counts(uint32_t first, uint32_t second)
{
    paint();
    lent.counts[0] = first;
    lent.counts[1] = second;
}

/* A call is refused, and the counts 1 and 0 stay. */
#define REFUSED_WITH_COUNTS(call, number) \
    do { \
        check((call) == (number), #call " is refused by " #number, __LINE__); \
        TAKE(lent.counts, uint32_t, 1, 0); \
        DONE(); \
    } while (0)

static uint64_t sample_one(double max_samples, size_t tries_allowed, struct list stakes, struct list words, size_t counts)
{
    set_counts(1, 0);
    return valwydr_decaying_acceptance_sample_one(
        max_samples, tries_allowed, stakes.at, stakes.len, LEND(lent.counts, counts), words.at, words.len, words.cursor,
        lent.answer);
}

static void test_decaying_acceptance_sample_one(void)
{
    struct list stakes = LIST(1, 1);
    CHECK(sample_one(2.0, 1, stakes, from(LIST(99, 0, UINT64_C(1) << 63), 1), PLACES) == VALWYDR_OK);
    TAKE(lent.counts, uint32_t, 2, 0);
    TAKE(lent.answer, uint64_t, 0, 1, 2);
    DONE();
    CHECK(sample_one(2.0, 2, stakes, LIST(0, (UINT64_C(1) << 63) - 1, 1, 0), 2) == VALWYDR_OK);
    TAKE(lent.counts, uint32_t, 1, 1);
    TAKE(lent.answer, uint64_t, 1, 2, 4);
    DONE();
    CHECK(sample_one((double)INFINITY, VALWYDR_MAX_TRIES_PER_SAMPLE, stakes, zero_words, 2) == VALWYDR_OK);
    TAKE(lent.counts, uint32_t, 2, 0);
    TAKE(lent.answer, uint64_t, 0, 1, 2);
    DONE();
    REFUSED_WITH_COUNTS(sample_one(2.0, 1, NONE, zero_words, 2), VALWYDR_LIST_LENGTH);
    REFUSED_WITH_COUNTS(sample_one(2.0, 0, stakes, zero_words, 2), VALWYDR_TRIES_ALLOWED);
    REFUSED_WITH_COUNTS(sample_one(2.0, VALWYDR_MAX_TRIES_PER_SAMPLE + 1, stakes, zero_words, 2), VALWYDR_TRIES_ALLOWED);
    REFUSED_WITH_COUNTS(sample_one((double)NAN, 1, stakes, zero_words, 2), VALWYDR_MAX_SAMPLES);
    REFUSED_WITH_COUNTS(sample_one(0.0, 1, stakes, zero_words, 2), VALWYDR_MAX_SAMPLES);
    REFUSED_WITH_COUNTS(sample_one(2.0, 1, stakes, zero_words, 1), VALWYDR_SHORT_BUFFER);
    REFUSED_WITH_COUNTS(sample_one(2.0, 1, stakes, zero_words, 0), VALWYDR_SHORT_BUFFER);
    REFUSED_WITH_COUNTS(sample_one(2.0, 1, LIST(UINT64_MAX, 1), zero_words, 2), VALWYDR_SUM_PAST);
    REFUSED_WITH_COUNTS(sample_one(2.0, 1, LIST(0, 0), zero_words, 2), VALWYDR_TOTAL_ZERO);
    REFUSED_WITH_COUNTS(sample_one(2.0, 1, stakes, NONE, 2), VALWYDR_NO_WORD_LEFT);
    REFUSED_WITH_COUNTS(sample_one(2.0, 1, stakes, LIST(0, 0), 2), VALWYDR_LAST_TRY_REJECTED);
}

static uint64_t decaying(
    double max_samples, size_t tries_allowed, size_t k, struct list stakes, struct list words, size_t counts, size_t seats)
{
    set_counts(1, 0);
    return valwydr_decaying_acceptance_sample_quorum(
        max_samples, tries_allowed, k, stakes.at, stakes.len, LEND(lent.counts, counts), words.at, words.len, words.cursor,
        LEND(lent.seats, seats), lent.answer);
}

static void test_decaying_acceptance_sample_quorum(void)
{
    struct list stakes = LIST(1, 1);
    CHECK(decaying(2.0, 2, 2, stakes, from(LIST(99, 1, 0, 0, 0, 0, UINT64_C(1) << 63), 1), PLACES, PLACES) == VALWYDR_OK);
    TAKE(lent.counts, uint32_t, 0, 0);
    TAKE(lent.seats, uint64_t, 1, 0);
    TAKE(lent.answer, uint64_t, 3, 6);
    DONE();
    CHECK(decaying(2.0, 1, 0, stakes, NONE, 2, 0) == VALWYDR_OK);
    TAKE(lent.counts, uint32_t, 0, 0);
    TAKE(lent.answer, uint64_t, 0, 0);
    DONE();
    REFUSED_WITH_COUNTS(decaying(2.0, 1, 2, NONE, zero_words, 2, 2), VALWYDR_LIST_LENGTH);
    REFUSED_WITH_COUNTS(decaying(2.0, 1, VALWYDR_MAX_SEATS + 1, stakes, zero_words, 2, PLACES), VALWYDR_SIZE);
    REFUSED_WITH_COUNTS(decaying(2.0, 0, 2, stakes, zero_words, 2, 2), VALWYDR_TRIES_ALLOWED);
    REFUSED_WITH_COUNTS(decaying(-1.0, 1, 2, stakes, zero_words, 2, 2), VALWYDR_MAX_SAMPLES);
    REFUSED_WITH_COUNTS(decaying(2.0, 1, 2, stakes, zero_words, 2, 1), VALWYDR_SHORT_BUFFER);
    REFUSED_WITH_COUNTS(decaying(2.0, 1, 2, stakes, zero_words, 0, 2), VALWYDR_SHORT_BUFFER);
    REFUSED_WITH_COUNTS(decaying(2.0, 1, 2, LIST(UINT64_MAX, 1), zero_words, 2, 2), VALWYDR_SUM_PAST);
    REFUSED_WITH_COUNTS(decaying(2.0, 1, 2, LIST(0, 0), zero_words, 2, 2), VALWYDR_TOTAL_ZERO);
    /* Validator 1 is taken before the words, or the tries, run out. */
    REFUSED_WITH_COUNTS(decaying(2.0, 1, 2, stakes, LIST(1, 0, 0), 2, 2), VALWYDR_NO_WORD_LEFT);
    REFUSED_WITH_COUNTS(decaying(2.0, 1, 2, stakes, LIST(1, 0, 0, 0), 2, 2), VALWYDR_LAST_TRY_REJECTED);
}

static void test_count_limit(void)
{
    static const uint64_t stakes[] = {1, 1};
    set_counts(0, UINT32_MAX);
    CHECK(
        valwydr_decaying_acceptance_sample_one(2.0, 1, stakes, 2, lent.counts, 2, zeros, 2, 0, lent.answer) == VALWYDR_COUNT_LIMIT);
    TAKE(lent.counts, uint32_t, 0, UINT32_MAX);
    DONE();
    set_counts(0, UINT32_MAX - 1);
    CHECK(
        valwydr_decaying_acceptance_sample_quorum(2.0, 1, 2, stakes, 2, lent.counts, 2, zeros, 4, 0, lent.seats, 2, lent.answer)
        == VALWYDR_COUNT_LIMIT);
    TAKE(lent.counts, uint32_t, 0, UINT32_MAX - 1);
    DONE();
}

static void test_decaying_acceptance_reset(void)
{
    paint();
    valwydr_decaying_acceptance_reset(lent.counts, 3);
    TAKE(lent.counts, uint32_t, 0, 0, 0);
    DONE();
    valwydr_decaying_acceptance_reset(NULL, 0);
    DONE();
}

/* A function that draws seats from bins. */
typedef uint64_t over_bins(
    size_t, const uint64_t *, size_t, const uint64_t *, size_t, size_t, const uint64_t *, size_t, size_t, uint64_t *, size_t,
    uint64_t *, size_t, uint64_t *, size_t, uint64_t *, size_t, uint64_t *);

/* How many places of the seats and of each column of pieces are lent. */
struct room {
    size_t seats, bins, validators, stakes;
};

static const struct room ample = {PLACES, PLACES, PLACES, PLACES};
static const struct room no_room = {0, 0, 0, 0};

static uint64_t bins(over_bins *call, size_t size, struct list stakes, struct list first, struct list second, struct room room)
{
    paint();
    return call(
        size, stakes.at, stakes.len, first.at, first.len, first.cursor, second.at, second.len, second.cursor,
        LEND(lent.seats, room.seats), LEND(lent.bins, room.bins), LEND(lent.validators, room.validators),
        LEND(lent.stakes, room.stakes), lent.answer);
}

/* What both functions over bins refuse, of stakes 3, 0, 4 and two seats or bins: five places for pieces are needed. */
static void test_refusals_over_bins(over_bins *call)
{
    struct list stakes = LIST(3, 0, 4);
    REFUSED(bins(call, 2, NONE, zero_words, zero_words, ample), VALWYDR_LIST_LENGTH);
    REFUSED(bins(call, VALWYDR_MAX_SEATS + 1, stakes, zero_words, zero_words, ample), VALWYDR_SIZE);
    REFUSED(bins(call, 2, stakes, zero_words, zero_words, no_room), VALWYDR_SHORT_BUFFER);
    REFUSED(bins(call, 2, stakes, zero_words, zero_words, (struct room){1, 5, 5, 5}), VALWYDR_SHORT_BUFFER);
    REFUSED(bins(call, 2, stakes, zero_words, zero_words, (struct room){2, 4, 5, 5}), VALWYDR_SHORT_BUFFER);
    REFUSED(bins(call, 2, stakes, zero_words, zero_words, (struct room){2, 5, 4, 5}), VALWYDR_SHORT_BUFFER);
    REFUSED(bins(call, 2, stakes, zero_words, zero_words, (struct room){2, 5, 5, 4}), VALWYDR_SHORT_BUFFER);
    REFUSED(bins(call, 2, LIST(UINT64_MAX, 1), zero_words, zero_words, ample), VALWYDR_SUM_PAST);
    REFUSED(bins(call, 2, LIST(0), zero_words, zero_words, ample), VALWYDR_TOTAL_ZERO);
    REFUSED(bins(call, 5, LIST(1, 1, 1, 1, 1, 1), zero_words, zero_words, ample), VALWYDR_EMPTY_BIN);
    REFUSED(bins(call, 2, stakes, NONE, zero_words, ample), VALWYDR_NO_WORD_LEFT);
    REFUSED(bins(call, 2, stakes, zero_words, NONE, ample), VALWYDR_NO_WORD_LEFT);
}

static void test_partition_sample_quorum(void)
{
    over_bins *partition = valwydr_partition_sample_quorum;
    struct list first = from(LIST(9, 1, 2), 1);
    struct list second = from(LIST(9, 9, 2, 0), 2);
    CHECK(bins(partition, 2, LIST(3, 0, 4), first, second, (struct room){2, 5, 5, 5}) == VALWYDR_OK);
    TAKE(lent.seats, uint64_t, 0, 2);
    TAKE(lent.bins, uint64_t, 0, 0, 1);
    TAKE(lent.validators, uint64_t, 0, 2, 2);
    TAKE(lent.stakes, uint64_t, 3, 1, 3);
    TAKE(lent.answer, uint64_t, 3, 2, 2);
    DONE();
    CHECK(bins(partition, 0, LIST(3, 0, 4), NONE, NONE, no_room) == VALWYDR_OK);
    TAKE(lent.answer, uint64_t, 0, 0, 0);
    DONE();
    REFUSED(bins(partition, 4, LIST(5), zero_words, zero_words, ample), VALWYDR_EMPTY_BIN);
    REFUSED(bins(partition, 3, LIST(4), zero_words, zero_words, ample), VALWYDR_EMPTY_BIN);
    test_refusals_over_bins(partition);
}

/* The last bin may hold less than the others, and is drawn from below its own sum. */
static void test_last_bin(void)
{
    over_bins *partition = valwydr_partition_sample_quorum;
    CHECK(bins(partition, 2, LIST(2, 2), LIST(1), LIST(1, 1), ample) == VALWYDR_OK);
    TAKE(lent.seats, uint64_t, 0, 1);
    TAKE(lent.bins, uint64_t, 0, 1);
    TAKE(lent.validators, uint64_t, 0, 1);
    TAKE(lent.stakes, uint64_t, 2, 2);
    TAKE(lent.answer, uint64_t, 2, 1, 2);
    DONE();
    /* Bins of 4 and 3: UINT64_MAX is skipped below 3, and would not be below 4. */
    CHECK(bins(partition, 2, LIST(4, 1, 2), LIST(1, 2), LIST(0, UINT64_MAX, 1), ample) == VALWYDR_OK);
    TAKE(lent.seats, uint64_t, 0, 2);
    TAKE(lent.bins, uint64_t, 0, 1, 1);
    TAKE(lent.validators, uint64_t, 0, 1, 2);
    TAKE(lent.stakes, uint64_t, 4, 1, 2);
    TAKE(lent.answer, uint64_t, 3, 2, 3);
    DONE();
}

static void test_fait_accompli1_with_partition_fallback(void)
{
    over_bins *fait_accompli1 = valwydr_fait_accompli1_with_partition_fallback;
    CHECK(bins(fait_accompli1, 4, LIST(5, 3, 2), LIST(1, 2), LIST(1, 9), (struct room){4, 7, 7, 7}) == VALWYDR_OK);
    TAKE(lent.seats, uint64_t, 0, 0, 1, 2);
    TAKE(lent.bins, uint64_t, 0, 0);
    TAKE(lent.validators, uint64_t, 1, 2);
    TAKE(lent.stakes, uint64_t, 1, 2);
    TAKE(lent.answer, uint64_t, 1, 2, 2, 1);
    DONE();
    CHECK(bins(fait_accompli1, 2, LIST(UINT64_C(1) << 63), NONE, NONE, ample) == VALWYDR_OK);
    TAKE(lent.seats, uint64_t, 0, 0);
    TAKE(lent.answer, uint64_t, 0, 0, 0, 0);
    DONE();
    REFUSED(bins(fait_accompli1, 0, LIST(1), NONE, NONE, ample), VALWYDR_SIZE);
    test_refusals_over_bins(fait_accompli1);
}

static uint64_t fait_accompli1_draws(size_t k, struct list stakes, struct list words, size_t seats)
{
    paint();
    return valwydr_fait_accompli1_with_stake_weighted_fallback(
        k, stakes.at, stakes.len, words.at, words.len, words.cursor, LEND(lent.seats, seats), lent.answer);
}

static void test_fait_accompli1_with_stake_weighted_fallback(void)
{
    struct list stakes = LIST(5, 3, 2);
    CHECK(fait_accompli1_draws(4, stakes, from(LIST(9, 0), 1), PLACES) == VALWYDR_OK);
    TAKE(lent.seats, uint64_t, 0, 0, 1, 1);
    TAKE(lent.answer, uint64_t, 1, 0, 1, 0);
    DONE();
    CHECK(fait_accompli1_draws(4, LIST(UINT64_C(1) << 63, UINT64_C(1) << 62), LIST(3000000000000000000), 4) == VALWYDR_OK);
    TAKE(lent.seats, uint64_t, 0, 0, 1, 1);
    TAKE(lent.answer, uint64_t, 1, 0, 1, 0);
    DONE();
    CHECK(fait_accompli1_draws(2, LIST(7, 7), NONE, 2) == VALWYDR_OK);
    TAKE(lent.seats, uint64_t, 0, 1);
    TAKE(lent.answer, uint64_t, 0, 0, 0, 0);
    DONE();
    REFUSED(fait_accompli1_draws(4, NONE, zero_words, PLACES), VALWYDR_LIST_LENGTH);
    REFUSED(fait_accompli1_draws(0, stakes, zero_words, PLACES), VALWYDR_SIZE);
    REFUSED(fait_accompli1_draws(VALWYDR_MAX_SEATS + 1, stakes, zero_words, PLACES), VALWYDR_SIZE);
    REFUSED(fait_accompli1_draws(4, stakes, zero_words, 3), VALWYDR_SHORT_BUFFER);
    REFUSED(fait_accompli1_draws(4, stakes, zero_words, 0), VALWYDR_SHORT_BUFFER);
    REFUSED(fait_accompli1_draws(4, LIST(UINT64_MAX, 1), zero_words, PLACES), VALWYDR_SUM_PAST);
    REFUSED(fait_accompli1_draws(4, LIST(0, 0), zero_words, PLACES), VALWYDR_TOTAL_ZERO);
    REFUSED(fait_accompli1_draws(4, stakes, NONE, PLACES), VALWYDR_NO_WORD_LEFT);
}

static void test_get_num_nodes_and_tree_size(void)
{
    static const uint64_t sizes[][3] = {{0, 1, 0}, {16, 1, 1}, {17, 17, 3}, {VALWYDR_MAX_VALIDATORS, 273, VALWYDR_MAX_NODES}};
    for (size_t i = 0; i < sizeof sizes / sizeof sizes[0]; i++) {
        paint();
        valwydr_get_num_nodes_and_tree_size(sizes[i][0], lent.answer);
        TAKE(lent.answer, uint64_t, sizes[i][1], sizes[i][2]);
        DONE();
    }
}

/* As many nodes are 0 after a shuffle. */
static bool take_nodes(size_t number)
{
    static const struct valwydr_node empty[VALWYDR_MAX_NODES];
    return take(lent.nodes, empty, number * sizeof empty[0]);
}

static uint64_t shuffle(struct list weights, struct list words, size_t order, size_t nodes)
{
    paint();
    return valwydr_weighted_shuffle(
        weights.at, weights.len, words.at, words.len, words.cursor, LEND(lent.order, order), LEND(lent.nodes, nodes), lent.answer);
}

static void test_weighted_shuffle(void)
{
    struct list weights = LIST(2, 0, 3);
    CHECK(shuffle(weights, from(LIST(9, 4, 1, 0), 1), PLACES, 3) == VALWYDR_OK);
    TAKE(lent.order, uint64_t, 2, 0, 1);
    TAKE(lent.answer, uint64_t, 3);
    CHECK(take_nodes(1));
    DONE();
    CHECK(shuffle(LIST(0, 0, 0), zero_words, 3, 1) == VALWYDR_OK);
    TAKE(lent.order, uint64_t, 0, 2, 1);
    TAKE(lent.answer, uint64_t, 3);
    CHECK(take_nodes(1));
    DONE();
    CHECK(shuffle(NONE, NONE, 0, 0) == VALWYDR_OK);
    TAKE(lent.answer, uint64_t, 0);
    DONE();
    CHECK(shuffle(longest_list, zero_words, VALWYDR_MAX_VALIDATORS, VALWYDR_MAX_NODES) == VALWYDR_OK);
    CHECK(take(lent.order, rising, sizeof rising));
    TAKE(lent.answer, uint64_t, VALWYDR_MAX_VALIDATORS);
    CHECK(take_nodes(VALWYDR_MAX_NODES));
    DONE();
    REFUSED(shuffle(long_list, zero_words, PLACES, VALWYDR_MAX_NODES + 2), VALWYDR_LIST_LENGTH);
    REFUSED(shuffle(longest_list, zero_words, PLACES, VALWYDR_MAX_NODES - 1), VALWYDR_SHORT_BUFFER);
    REFUSED(shuffle(weights, zero_words, 2, 1), VALWYDR_SHORT_BUFFER);
    REFUSED(shuffle(weights, zero_words, 0, 1), VALWYDR_SHORT_BUFFER);
    REFUSED(shuffle(weights, zero_words, 3, 0), VALWYDR_SHORT_BUFFER);
    REFUSED(shuffle(weights, LIST(4, 1), 3, 1), VALWYDR_NO_WORD_LEFT);
    REFUSED(shuffle(weights, NONE, 3, 1), VALWYDR_NO_WORD_LEFT);
}

/* How many places of the order, of the nodes and of the children are lent. */
struct view_room {
    size_t order, nodes, children;
};

static const struct view_room ample_view = {PLACES, 3, PLACES};

static uint64_t view(struct list stakes, size_t fanout, uint64_t own_id, struct list words, struct view_room room)
{
    paint();
    return valwydr_turbine_tree_new(
        stakes.at, stakes.len, fanout, own_id, words.at, words.len, words.cursor, LEND(lent.order, room.order),
        LEND(lent.nodes, room.nodes), LEND(lent.children, room.children), lent.answer);
}

static void test_turbine_tree_new(void)
{
    struct list stakes = LIST(2, 0, 3);
    CHECK(view(stakes, 2, 2, from(LIST(9, 4, 1, 0), 1), ample_view) == VALWYDR_OK);
    TAKE(lent.children, uint64_t, 0, 1);
    TAKE(lent.order, uint64_t, 2, 0, 1);
    TAKE(lent.answer, uint64_t, 2, VALWYDR_NO_PARENT, 2, 3);
    CHECK(take_nodes(1));
    DONE();
    for (size_t fanout = 2; fanout <= VALWYDR_MAX_FANOUT; fanout += VALWYDR_MAX_FANOUT - 2) {
        CHECK(view(stakes, fanout, 1, LIST(4, 1, 0), (struct view_room){3, 1, 3}) == VALWYDR_OK);
        TAKE(lent.order, uint64_t, 2, 0, 1);
        TAKE(lent.answer, uint64_t, 2, 2, 0, 3);
        CHECK(take_nodes(1));
        DONE();
    }
}

static void test_refusals_of_turbine_tree_new(void)
{
    struct list stakes = LIST(2, 0, 3);
    struct list words = LIST(4, 1, 0);
    REFUSED(view(NONE, 2, 0, words, ample_view), VALWYDR_LIST_LENGTH);
    REFUSED(view(long_list, 2, 0, words, ample_view), VALWYDR_LIST_LENGTH);
    REFUSED(view(stakes, 0, 0, words, ample_view), VALWYDR_FANOUT);
    REFUSED(view(stakes, VALWYDR_MAX_FANOUT + 1, 0, words, ample_view), VALWYDR_FANOUT);
    REFUSED(view(stakes, 2, 3, words, ample_view), VALWYDR_NOT_BELOW);
    REFUSED(view(stakes, 2, 0, words, (struct view_room){2, 1, 2}), VALWYDR_SHORT_BUFFER);
    REFUSED(view(stakes, 2, 0, words, (struct view_room){0, 1, 2}), VALWYDR_SHORT_BUFFER);
    REFUSED(view(stakes, 2, 0, words, (struct view_room){3, 0, 2}), VALWYDR_SHORT_BUFFER);
    REFUSED(view(stakes, 2, 0, words, (struct view_room){3, 1, 1}), VALWYDR_SHORT_BUFFER);
    REFUSED(view(stakes, 2, 0, words, (struct view_room){3, 1, 0}), VALWYDR_SHORT_BUFFER);
    REFUSED(view(stakes, 2, 0, LIST(4, 1), ample_view), VALWYDR_NO_WORD_LEFT);
    REFUSED(view(stakes, 2, 0, NONE, ample_view), VALWYDR_NO_WORD_LEFT);
}

/* A function that writes a seed. */
typedef uint64_t seed_of(uint64_t, uint64_t, uint8_t *, size_t);

static void test_seed(seed_of *call, const uint8_t *seed)
{
    paint();
    CHECK(call(UINT64_C(0x0102030405060708), 0x090a, lent.bytes, sizeof lent.bytes) == VALWYDR_OK);
    CHECK(take(lent.bytes, seed, VALWYDR_SEED_BYTES));
    DONE();
    REFUSED(call(1, 2, lent.bytes, VALWYDR_SEED_BYTES - 1), VALWYDR_SHORT_BUFFER);
    REFUSED(call(1, 2, NULL, 0), VALWYDR_SHORT_BUFFER);
}

static void test_seeds(void)
{
    static const uint8_t turbine[VALWYDR_SEED_BYTES] = {
        'A', 'L', 'P', 'E', 'N', 'G', 'L', 'O', 'W', 'T', 'U', 'R', 'B', 'I', 'N', 'E', /* slot and shred */
        1, 2, 3, 4, 5, 6, 7, 8, 0, 0, 0, 0, 0, 0, 9, 10};
    static const uint8_t rotor[VALWYDR_SEED_BYTES] = {1, 2, 3, 4, 5, 6, 7, 8, 0, 0, 0, 0, 0, 0, 9, 10};
    test_seed(valwydr_turbine_seed, turbine);
    test_seed(valwydr_rotor_seed, rotor);
}

static uint64_t relay(struct list committee, size_t shred)
{
    paint();
    return valwydr_sample_relay(committee.at, committee.len, shred, lent.answer);
}

static void test_sample_relay(void)
{
    CHECK(relay(LIST(4, 2, 7), 2) == VALWYDR_OK);
    TAKE(lent.answer, uint64_t, 7);
    DONE();
    REFUSED(relay((struct list){ones, VALWYDR_MAX_SEATS + 1, 0}, 0), VALWYDR_SIZE);
    REFUSED(relay(LIST(4, 2, 7), 3), VALWYDR_NOT_BELOW);
    REFUSED(relay(NONE, 0), VALWYDR_NOT_BELOW);
}

/* A function on two numbers. */
typedef bool arithmetic(uint64_t, uint64_t, uint64_t *);

static void test_exact(arithmetic *call, uint64_t stake, uint64_t rhs, uint64_t result)
{
    paint();
    CHECK(call(stake, rhs, &lent.result));
    TAKE(&lent.result, uint64_t, result);
    DONE();
}

static void test_no_stake(arithmetic *call, uint64_t stake, uint64_t rhs)
{
    paint();
    CHECK(!call(stake, rhs, &lent.result));
    DONE();
}

static void test_arithmetic(void)
{
    test_exact(valwydr_stake_div_ceil, 7, 2, 4);
    test_no_stake(valwydr_stake_div_ceil, 7, 0);
    test_exact(valwydr_stake_checked_add, UINT64_MAX - 1, 1, UINT64_MAX);
    test_no_stake(valwydr_stake_checked_add, UINT64_MAX, 1);
    test_exact(valwydr_stake_sub, 5, 5, 0);
    test_no_stake(valwydr_stake_sub, 5, 6);
    test_exact(valwydr_stake_mul, UINT64_C(1) << 32, UINT64_C(1) << 31, UINT64_C(1) << 63);
    test_no_stake(valwydr_stake_mul, UINT64_C(1) << 32, UINT64_C(1) << 32);
}

static bool sum(struct list stakes)
{
    paint();
    return valwydr_stake_sum(stakes.at, stakes.len, &lent.result);
}

static void test_stake_sum(void)
{
    CHECK(sum(LIST(5, 3, 2)));
    TAKE(&lent.result, uint64_t, 10);
    DONE();
    CHECK(sum(NONE));
    TAKE(&lent.result, uint64_t, 0);
    DONE();
    CHECK(!sum(LIST(UINT64_MAX, 1)));
    DONE();
}

/* A function that writes digits. */
typedef bool digits_of(uint64_t, uint8_t *, size_t, size_t *);

static void test_written(digits_of *call, uint64_t number, const char *digits, size_t room)
{
    size_t length = strlen(digits);
    paint();
    CHECK(call(number, lent.bytes, room, &lent.written));
    CHECK(take(lent.bytes, digits, length));
    TAKE(&lent.written, size_t, length);
    DONE();
}

static void test_digits(digits_of *call, uint64_t number, const char *digits)
{
    size_t length = strlen(digits);
    test_written(call, number, digits, sizeof lent.bytes);
    test_written(call, number, digits, length);
    CHECK(!call(number, lent.bytes, length - 1, &lent.written));
    DONE();
    CHECK(!call(number, NULL, 0, &lent.written));
    DONE();
}

static void test_fmt(void)
{
    test_digits(valwydr_stake_fmt, 0, "0");
    test_digits(valwydr_stake_fmt, UINT64_MAX, "18446744073709551615");
    test_digits(valwydr_validator_index_fmt, 4095, "4095");
}

int main(void)
{
    for (size_t i = 0; i < VALWYDR_MAX_VALIDATORS; i++) {
        ones[i] = 1;
        rising[i] = i;
    }
    ones[VALWYDR_MAX_VALIDATORS] = 1;
    test_stake_weighted_sample();
    test_iid_sample_quorum();
    test_decaying_acceptance_sample_one();
    test_decaying_acceptance_sample_quorum();
    test_count_limit();
    test_decaying_acceptance_reset();
    test_partition_sample_quorum();
    test_last_bin();
    test_fait_accompli1_with_partition_fallback();
    test_fait_accompli1_with_stake_weighted_fallback();
    test_get_num_nodes_and_tree_size();
    test_weighted_shuffle();
    test_turbine_tree_new();
    test_refusals_of_turbine_tree_new();
    test_seeds();
    test_sample_relay();
    test_arithmetic();
    test_stake_sum();
    test_fmt();
    printf("test.c: %u checks passed\n", passed);
    return 0;
}

#include "entries.h"

#include <string.h>

#include "valwydr.h"

/* The names of the places of each answer. */
static const char *const SAMPLE[] = {[VALWYDR_SAMPLE_ID] = "id", [VALWYDR_SAMPLE_WORDS_READ] = "read"};
static const char *const QUORUM[] = {[VALWYDR_QUORUM_WORDS_READ] = "read"};
static const char *const ONE[] = {[VALWYDR_ONE_ID] = "id", [VALWYDR_ONE_TRIES] = "tries", [VALWYDR_ONE_WORDS_READ] = "read"};
static const char *const DECAYING[] = {[VALWYDR_DECAYING_TRIES] = "tries", [VALWYDR_DECAYING_WORDS_READ] = "read"};
static const char *const PARTITION[] = {
    [VALWYDR_PARTITION_PIECES] = "pieces",
    [VALWYDR_PARTITION_FIRST_WORDS_READ] = "read",
    [VALWYDR_PARTITION_SECOND_WORDS_READ] = "read2"};
static const char *const COMMITTEE[] = {
    [VALWYDR_COMMITTEE_FURTHER] = "further",
    [VALWYDR_COMMITTEE_PIECES] = "pieces",
    [VALWYDR_COMMITTEE_FIRST_WORDS_READ] = "read",
    [VALWYDR_COMMITTEE_SECOND_WORDS_READ] = "read2"};
static const char *const SIZES[] = {[VALWYDR_SIZES_NUM_NODES] = "num_nodes", [VALWYDR_SIZES_TREE_SIZE] = "size"};
static const char *const SHUFFLE[] = {[VALWYDR_SHUFFLE_WORDS_READ] = "read"};
static const char *const VIEW[] = {
    [VALWYDR_VIEW_ROOT] = "root",
    [VALWYDR_VIEW_PARENT] = "parent",
    [VALWYDR_VIEW_CHILDREN] = "number_of_children",
    [VALWYDR_VIEW_WORDS_READ] = "read"};
static const char *const RELAY[] = {[VALWYDR_RELAY_ID] = "id"};

static void set_result(struct call *call, uint64_t result)
{
    call->accepted = result == VALWYDR_OK;
    call->refusal = result;
}

static double f64_of(uint64_t bits)
{
    double number;
    memcpy(&number, &bits, sizeof number);
    return number;
}

static void stake_weighted_sample(struct call *call)
{
    struct slice stakes = given(call, "stakes"), words = given(call, "words");
    size_t cursor = number(call, "cursor");
    uint64_t *answer = answer_lent(call, SAMPLE, VALWYDR_SAMPLE_ANSWER);
    set_result(call, valwydr_stake_weighted_sample(stakes.at, stakes.length, words.at, words.length, cursor, answer));
}

typedef uint64_t plain_draws(size_t, const uint64_t *, size_t, const uint64_t *, size_t, size_t, uint64_t *, size_t, uint64_t *);

/* A committee by one list of words. */
static void plain(struct call *call, plain_draws *function, const char *const *places, size_t length)
{
    struct slice stakes = given(call, "stakes");
    size_t k = number(call, "k");
    struct slice words = given(call, "words");
    size_t cursor = number(call, "cursor");
    struct slice seats = words_lent(call, "seats", number(call, "room"));
    uint64_t *answer = answer_lent(call, places, length);
    set_result(call, function(k, stakes.at, stakes.length, words.at, words.length, cursor, seats.at, seats.length, answer));
}

static void iid_sample_quorum(struct call *call)
{
    plain(call, valwydr_iid_sample_quorum, QUORUM, VALWYDR_QUORUM_ANSWER);
}

static void fait_accompli1_with_stake_weighted_fallback(struct call *call)
{
    plain(call, valwydr_fait_accompli1_with_stake_weighted_fallback, COMMITTEE, VALWYDR_COMMITTEE_ANSWER);
}

static void decaying_acceptance_sample_one(struct call *call)
{
    struct slice stakes = given(call, "stakes");
    double max_samples = f64_of(number(call, "max_samples"));
    size_t allowed = number(call, "allowed");
    struct slice held = counts(call), words = given(call, "words");
    size_t cursor = number(call, "cursor");
    uint64_t *answer = answer_lent(call, ONE, VALWYDR_ONE_ANSWER);
    uint64_t result = valwydr_decaying_acceptance_sample_one(
        max_samples, allowed, stakes.at, stakes.length, held.at, held.length, words.at, words.length, cursor, answer);
    set_result(call, result);
}

static void decaying_acceptance_sample_quorum(struct call *call)
{
    struct slice stakes = given(call, "stakes");
    size_t k = number(call, "k");
    double max_samples = f64_of(number(call, "max_samples"));
    size_t allowed = number(call, "allowed");
    struct slice held = counts(call), words = given(call, "words");
    size_t cursor = number(call, "cursor");
    struct slice seats = words_lent(call, "seats", number(call, "room"));
    uint64_t *answer = answer_lent(call, DECAYING, VALWYDR_DECAYING_ANSWER);
    uint64_t result = valwydr_decaying_acceptance_sample_quorum(
        max_samples, allowed, k, stakes.at, stakes.length, held.at, held.length, words.at, words.length, cursor, seats.at,
        seats.length, answer);
    set_result(call, result);
}

static void decaying_acceptance_reset(struct call *call)
{
    struct slice held = counts(call);
    valwydr_decaying_acceptance_reset(held.at, held.length);
    call->accepted = true;
}

typedef uint64_t draws_from_bins(
    size_t, const uint64_t *, size_t, const uint64_t *, size_t, size_t, const uint64_t *, size_t, size_t, uint64_t *, size_t,
    uint64_t *, size_t, uint64_t *, size_t, uint64_t *, size_t, uint64_t *);

/* A committee by two lists of words, with pieces. */
static void over_bins(struct call *call, draws_from_bins *function, const char *size_name, const char *const *places, size_t length)
{
    struct slice stakes = given(call, "stakes");
    size_t size = number(call, size_name);
    struct slice first = given(call, "words"), second = given(call, "words2");
    size_t first_cursor = number(call, "cursor"), second_cursor = number(call, "cursor2");
    struct slice seats = words_lent(call, "seats", number(call, "room"));
    struct slice bins = words_lent(call, "piece_bins", number(call, "room_bins"));
    struct slice validators = words_lent(call, "piece_validators", number(call, "room_validators"));
    struct slice pieces = words_lent(call, "piece_stakes", number(call, "room_stakes"));
    uint64_t *answer = answer_lent(call, places, length);
    uint64_t result = function(
        size, stakes.at, stakes.length, first.at, first.length, first_cursor, second.at, second.length, second_cursor, seats.at,
        seats.length, bins.at, bins.length, validators.at, validators.length, pieces.at, pieces.length, answer);
    set_result(call, result);
}

static void partition_sample_quorum(struct call *call)
{
    over_bins(call, valwydr_partition_sample_quorum, "bins", PARTITION, VALWYDR_PARTITION_ANSWER);
}

static void fait_accompli1_with_partition_fallback(struct call *call)
{
    over_bins(call, valwydr_fait_accompli1_with_partition_fallback, "k", COMMITTEE, VALWYDR_COMMITTEE_ANSWER);
}

static void get_num_nodes_and_tree_size(struct call *call)
{
    size_t count = number(call, "count");
    valwydr_get_num_nodes_and_tree_size(count, answer_lent(call, SIZES, VALWYDR_SIZES_ANSWER));
    call->accepted = true;
}

static void weighted_shuffle(struct call *call)
{
    struct slice stakes = given(call, "stakes"), words = given(call, "words");
    size_t cursor = number(call, "cursor");
    struct slice order = words_lent(call, "order", number(call, "room"));
    struct slice nodes = nodes_lent(call, number(call, "room_nodes"));
    uint64_t *answer = answer_lent(call, SHUFFLE, VALWYDR_SHUFFLE_ANSWER);
    uint64_t result = valwydr_weighted_shuffle(
        stakes.at, stakes.length, words.at, words.length, cursor, order.at, order.length, nodes.at, nodes.length, answer);
    set_result(call, result);
}

static void turbine_tree_new(struct call *call)
{
    struct slice stakes = given(call, "stakes");
    size_t fanout = number(call, "fanout");
    uint64_t own = number(call, "own");
    struct slice words = given(call, "words");
    size_t cursor = number(call, "cursor");
    struct slice order = words_lent(call, "order", number(call, "room"));
    struct slice nodes = nodes_lent(call, number(call, "room_nodes"));
    struct slice children = words_lent(call, "children", number(call, "room_children"));
    uint64_t *answer = answer_lent(call, VIEW, VALWYDR_VIEW_ANSWER);
    uint64_t result = valwydr_turbine_tree_new(
        stakes.at, stakes.length, fanout, own, words.at, words.length, cursor, order.at, order.length, nodes.at, nodes.length,
        children.at, children.length, answer);
    set_result(call, result);
}

typedef uint64_t seed_writer(uint64_t, uint64_t, uint8_t *, size_t);

static void seed(struct call *call, seed_writer *function, const char *second_name)
{
    uint64_t slot = number(call, "slot"), second = number(call, second_name);
    struct slice bytes = bytes_lent(call, "bytes", number(call, "room"));
    set_result(call, function(slot, second, bytes.at, bytes.length));
}

static void turbine_seed(struct call *call)
{
    seed(call, valwydr_turbine_seed, "shred");
}

static void rotor_seed(struct call *call)
{
    seed(call, valwydr_rotor_seed, "slice");
}

static void sample_relay(struct call *call)
{
    struct slice committee = given(call, "seats");
    size_t shred = number(call, "shred");
    uint64_t *answer = answer_lent(call, RELAY, VALWYDR_RELAY_ANSWER);
    set_result(call, valwydr_sample_relay(committee.at, committee.length, shred, answer));
}

typedef bool arithmetic(uint64_t, uint64_t, uint64_t *);

static void compute(struct call *call, arithmetic *function, const char *second_name)
{
    uint64_t stake = number(call, "stake"), second = number(call, second_name);
    call->accepted = function(stake, second, words_lent(call, "result", 1).at);
}

static void stake_div_ceil(struct call *call)
{
    compute(call, valwydr_stake_div_ceil, "divisor");
}

static void stake_checked_add(struct call *call)
{
    compute(call, valwydr_stake_checked_add, "rhs");
}

static void stake_sub(struct call *call)
{
    compute(call, valwydr_stake_sub, "rhs");
}

static void stake_mul(struct call *call)
{
    compute(call, valwydr_stake_mul, "rhs");
}

static void stake_sum(struct call *call)
{
    struct slice stakes = given(call, "stakes");
    call->accepted = valwydr_stake_sum(stakes.at, stakes.length, words_lent(call, "result", 1).at);
}

typedef bool formatter(uint64_t, uint8_t *, size_t, size_t *);

static void format(struct call *call, formatter *function, const char *name)
{
    uint64_t value = number(call, name);
    struct slice bytes = bytes_lent(call, "bytes", number(call, "room"));
    call->accepted = function(value, bytes.at, bytes.length, words_lent(call, "written", 1).at);
}

static void stake_fmt(struct call *call)
{
    format(call, valwydr_stake_fmt, "stake");
}

static void validator_index_fmt(struct call *call)
{
    format(call, valwydr_validator_index_fmt, "id");
}

#define ENTRY(name) {#name, name}

static const struct {
    const char *name;
    entry *run;
} ENTRIES[] = {
    ENTRY(stake_weighted_sample),
    ENTRY(iid_sample_quorum),
    ENTRY(decaying_acceptance_sample_one),
    ENTRY(decaying_acceptance_sample_quorum),
    ENTRY(decaying_acceptance_reset),
    ENTRY(partition_sample_quorum),
    ENTRY(fait_accompli1_with_partition_fallback),
    ENTRY(fait_accompli1_with_stake_weighted_fallback),
    ENTRY(get_num_nodes_and_tree_size),
    ENTRY(weighted_shuffle),
    ENTRY(turbine_tree_new),
    ENTRY(turbine_seed),
    ENTRY(rotor_seed),
    ENTRY(sample_relay),
    ENTRY(stake_div_ceil),
    ENTRY(stake_checked_add),
    ENTRY(stake_sub),
    ENTRY(stake_mul),
    ENTRY(stake_sum),
    ENTRY(stake_fmt),
    ENTRY(validator_index_fmt),
};

entry *find_entry(const char *name, size_t length)
{
    for (size_t i = 0; i < sizeof ENTRIES / sizeof *ENTRIES; ++i) {
        if (strlen(ENTRIES[i].name) == length && memcmp(ENTRIES[i].name, name, length) == 0) {
            return ENTRIES[i].run;
        }
    }
    return NULL;
}

/*
 * Stands between the driver and the library (by the linker's --wrap), and adds the fault that the environment variable FAULT names,
 * so that a test can see whether the comparison reports it.
 */
#include <stdbool.h>
#include <stdlib.h>
#include <string.h>

#include "valwydr.h"

uint64_t __real_valwydr_iid_sample_quorum(
    size_t k, const uint64_t *stakes, size_t stakes_len, const uint64_t *words, size_t words_len, size_t cursor, uint64_t *seats,
    size_t seats_len, uint64_t *answer);
uint64_t __real_valwydr_decaying_acceptance_sample_one(
    double max_samples, size_t tries_allowed, const uint64_t *stakes, size_t stakes_len, uint32_t *counts, size_t counts_len,
    const uint64_t *words, size_t words_len, size_t cursor, uint64_t *answer);
uint64_t __real_valwydr_weighted_shuffle(
    const uint64_t *weights, size_t weights_len, const uint64_t *words, size_t words_len, size_t cursor, uint64_t *order,
    size_t order_len, struct valwydr_node *nodes, size_t nodes_len, uint64_t *answer);
bool __real_valwydr_stake_sub(uint64_t stake, uint64_t rhs, uint64_t *result);

static bool fault_is(const char *name)
{
    const char *fault = getenv("FAULT");
    return fault != NULL && strcmp(fault, name) == 0;
}

uint64_t __wrap_valwydr_iid_sample_quorum(
    size_t k, const uint64_t *stakes, size_t stakes_len, const uint64_t *words, size_t words_len, size_t cursor, uint64_t *seats,
    size_t seats_len, uint64_t *answer)
{
    uint64_t held = seats_len > 0 ? seats[0] : 0;
    uint64_t result = __real_valwydr_iid_sample_quorum(k, stakes, stakes_len, words, words_len, cursor, seats, seats_len, answer);
    bool seated = result == VALWYDR_OK && k > 0;
    if (fault_is("a wrong value") && seated) {
        seats[0] ^= 1;
    } else if (fault_is("a seat that is not written") && seated) {
        seats[0] = held;
    } else if (fault_is("a seat too many") && seated && seats_len > k) {
        seats[k] = 0;
    } else if (fault_is("a byte after the buffer") && seats_len > 0) {
        ((unsigned char *)(seats + seats_len))[0] ^= 1;
    } else if (fault_is("a byte before the buffer") && seats_len > 0) {
        ((unsigned char *)seats)[-1] ^= 1;
    } else if (fault_is("a byte after the answer")) {
        ((unsigned char *)(answer + VALWYDR_QUORUM_ANSWER))[7] ^= 1;
    } else if (fault_is("a wrong number of words") && result == VALWYDR_OK) {
        answer[VALWYDR_QUORUM_WORDS_READ] += 1;
    } else if (fault_is("a refused call that writes") && result != VALWYDR_OK) {
        answer[VALWYDR_QUORUM_WORDS_READ] = 0;
    } else if (fault_is("a changed input") && stakes_len > 0) {
        ((uint64_t *)stakes)[stakes_len - 1] += 1;
    } else if (fault_is("another refusal") && result == VALWYDR_TOTAL_ZERO) {
        return VALWYDR_SUM_PAST;
    } else if (fault_is("a result by what was held") && (held & 1) != 0) {
        return VALWYDR_SIZE;
    } else if (fault_is("a crash") && k == 2) {
        abort();
    } else if (fault_is("a word after the list") && words_len > 0 && words[words_len] == 0) {
        return VALWYDR_NO_WORD_LEFT;
    }
    return result;
}

uint64_t __wrap_valwydr_decaying_acceptance_sample_one(
    double max_samples, size_t tries_allowed, const uint64_t *stakes, size_t stakes_len, uint32_t *counts, size_t counts_len,
    const uint64_t *words, size_t words_len, size_t cursor, uint64_t *answer)
{
    uint64_t result = __real_valwydr_decaying_acceptance_sample_one(
        max_samples, tries_allowed, stakes, stakes_len, counts, counts_len, words, words_len, cursor, answer);
    if (fault_is("a count past the list") && result == VALWYDR_OK && counts_len > stakes_len) {
        counts[counts_len - 1] += 1;
    } else if (fault_is("a refused call that counts") && result == VALWYDR_NO_WORD_LEFT) {
        counts[0] += 1;
    }
    return result;
}

uint64_t __wrap_valwydr_weighted_shuffle(
    const uint64_t *weights, size_t weights_len, const uint64_t *words, size_t words_len, size_t cursor, uint64_t *order,
    size_t order_len, struct valwydr_node *nodes, size_t nodes_len, uint64_t *answer)
{
    uint64_t result =
        __real_valwydr_weighted_shuffle(weights, weights_len, words, words_len, cursor, order, order_len, nodes, nodes_len, answer);
    if (fault_is("a sum that is left") && result == VALWYDR_OK && weights_len > 0) {
        nodes[0].sums[3] = 1;
    } else if (fault_is("a node too many") && result == VALWYDR_OK && nodes_len > 1) {
        nodes[nodes_len - 1].sums[15] = 0;
    }
    return result;
}

bool __wrap_valwydr_stake_sub(uint64_t stake, uint64_t rhs, uint64_t *result)
{
    if (fault_is("a difference that wraps")) {
        *result = stake - rhs;
        return true;
    }
    return __real_valwydr_stake_sub(stake, rhs, result);
}

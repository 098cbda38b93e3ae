#include "answer.h"

#include <inttypes.h>
#include <stdio.h>
#include <string.h>

static const unsigned char *place(const struct buffer *buffer, const unsigned char *block, size_t i)
{
    return block + buffer->guard + i * buffer->element;
}

/* Whether a place holds what it held before the call. */
static bool is_kept(const struct buffer *buffer, size_t i)
{
    return memcmp(place(buffer, buffer->before, i), place(buffer, buffer->after, i), buffer->element) == 0;
}

/* The places up to the last that one of the two calls changed. No value is in both patterns, so each place that is written is
 * changed by one of them. */
static size_t changed(const struct buffer *first, const struct buffer *second)
{
    size_t end = first->length;
    while (end > 0 && is_kept(first, end - 1) && is_kept(second, end - 1)) {
        --end;
    }
    return end;
}

static uint64_t value(const struct buffer *buffer, size_t i)
{
    const unsigned char *at = place(buffer, buffer->after, i);
    uint64_t wide;
    uint32_t narrow;
    switch (buffer->element) {
    case sizeof wide:
        memcpy(&wide, at, sizeof wide);
        return wide;
    case sizeof narrow:
        memcpy(&narrow, at, sizeof narrow);
        return narrow;
    default:
        return *at;
    }
}

static void write_list(const struct buffer *buffer, const char *name, size_t end)
{
    printf(" %s=%s", name, end == 0 ? "-" : "");
    for (size_t i = 0; i < end; ++i) {
        printf("%s%" PRIu64, i == 0 ? "" : ",", value(buffer, i));
    }
}

static bool all_zero(const struct buffer *buffer, size_t end)
{
    while (end > 0 && value(buffer, end - 1) == 0) {
        --end;
    }
    return end == 0;
}

/* The places of a buffer up to `end`; of nodes how many sums there are, where all are 0. */
static void write_buffer(const struct buffer *buffer, size_t end)
{
    switch (buffer->use) {
    case ANSWER:
        for (size_t i = 0; i < end; ++i) {
            printf(" %s=%" PRIu64, buffer->places[i], value(buffer, i));
        }
        break;
    case NODES:
        if (all_zero(buffer, end)) {
            printf(" %s=%zu", buffer->name, end);
        } else {
            write_list(buffer, "sums", end);
        }
        break;
    default:
        write_list(buffer, buffer->name, end);
    }
}

static bool has_stray(const struct buffer *buffer)
{
    const unsigned char *behind_before = place(buffer, buffer->before, buffer->length);
    const unsigned char *behind_after = place(buffer, buffer->after, buffer->length);
    return memcmp(buffer->before, buffer->after, buffer->guard) != 0 || memcmp(behind_before, behind_after, buffer->guard) != 0;
}

static void write_fault(bool there, const char *what, const struct buffer *buffer)
{
    if (there) {
        printf(" fault=%s:%s", what, buffer->name);
    }
}

static void write_one(const struct call *call, const struct buffer *first, const struct buffer *second)
{
    size_t end = changed(first, second);
    write_fault(has_stray(first) || has_stray(second), "stray", first);
    if (first->use == GIVEN) {
        write_fault(end > 0, "input", first);
        return;
    }
    if (first->use == COUNTS && (call->accepted || end > 0)) {
        end = first->length;
    }
    if (call->accepted || end > 0) {
        write_buffer(first, end);
    }
    size_t bytes = end * first->element;
    write_fault(memcmp(place(first, first->after, 0), place(second, second->after, 0), bytes) != 0, "unlike", first);
}

void write_answer(const struct call *first, const struct call *second)
{
    if (first->accepted) {
        fputs("ok", stdout);
    } else if (first->refusal == 0) {
        fputs("none", stdout);
    } else {
        printf("refused %" PRIu64, first->refusal);
    }
    for (size_t i = 0; i < first->count; ++i) {
        write_one(first, &first->buffers[i], &second->buffers[i]);
    }
    if (first->accepted != second->accepted || first->refusal != second->refusal) {
        fputs(" fault=result", stdout);
    }
    putchar('\n');
}

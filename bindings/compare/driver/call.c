#include "call.h"

#include <stdlib.h>
#include <string.h>

#include "fields.h"
#include "valwydr.h"

static const uint64_t GOLDEN = 0x9E3779B97F4A7C15;
static const size_t GUARD = 64;
static const size_t SUMS_OF_NODE = sizeof(struct valwydr_node) / sizeof(uint64_t);

uint64_t number(struct call *call, const char *name)
{
    return read_number(&call->fields, name);
}

/* Fills a block with words that differ from each other and from those of the other buffers. */
static void fill(unsigned char *block, size_t size, size_t which, bool inverted)
{
    for (size_t at = 0; at < size; at += sizeof(uint64_t)) {
        uint64_t word = (at / sizeof(uint64_t) + 1 + ((uint64_t)which << 32)) * GOLDEN;
        word = inverted ? ~word : word;
        memcpy(block + at, &word, size - at < sizeof word ? size - at : sizeof word);
    }
}

static unsigned char *block_of(size_t size)
{
    unsigned char *block = malloc(size);
    if (block == NULL && size > 0) {
        malformed("no memory");
    }
    return block;
}

/* Puts the numbers of a list into a block, in elements of 4 or 8 bytes. */
static void copy_numbers(unsigned char *places, size_t element, struct list list)
{
    for (size_t i = 0; i < list.length; ++i) {
        uint64_t wide = list.numbers[i];
        uint32_t narrow = (uint32_t)wide;
        if (element == sizeof narrow && narrow != wide) {
            malformed("a number of more than 32 bits");
        }
        memcpy(places + i * element, element == sizeof narrow ? (void *)&narrow : (void *)&wide, element);
    }
}

/* Lends a buffer that holds the pattern, and at its front the numbers of a list. A guard ends where elements are aligned, and
 * nothing wider is. */
static struct slice lend(struct call *call, struct buffer buffer, struct list numbers)
{
    if (call->count == MOST_BUFFERS) {
        malformed("too many buffers");
    }
    buffer.guard = call->exact ? 0 : GUARD + buffer.element;
    size_t size = buffer.guard + buffer.length * buffer.element + buffer.guard;
    buffer.before = block_of(size);
    buffer.after = block_of(size);
    fill(buffer.after, size, call->count, call->second);
    copy_numbers(buffer.after + buffer.guard, buffer.element, numbers);
    memcpy(buffer.before, buffer.after, size);
    call->buffers[call->count++] = buffer;
    bool null = buffer.length == 0 && call->second;
    return (struct slice){null ? NULL : buffer.after + buffer.guard, buffer.length};
}

static struct slice lend_list(struct call *call, const char *name, enum use use, size_t element)
{
    struct list list = read_list(&call->fields, name);
    struct buffer buffer = {.name = name, .use = use, .element = element, .length = list.length};
    struct slice slice = lend(call, buffer, list);
    free(list.numbers);
    return slice;
}

struct slice given(struct call *call, const char *name)
{
    return lend_list(call, name, GIVEN, sizeof(uint64_t));
}

struct slice counts(struct call *call)
{
    return lend_list(call, "counts", COUNTS, sizeof(uint32_t));
}

static struct slice lend_pattern(struct call *call, struct buffer buffer)
{
    return lend(call, buffer, (struct list){NULL, 0});
}

struct slice words_lent(struct call *call, const char *name, size_t length)
{
    struct buffer buffer = {.name = name, .use = WRITTEN, .element = sizeof(uint64_t), .length = length};
    return lend_pattern(call, buffer);
}

struct slice bytes_lent(struct call *call, const char *name, size_t length)
{
    struct buffer buffer = {.name = name, .use = WRITTEN, .element = 1, .length = length};
    return lend_pattern(call, buffer);
}

struct slice nodes_lent(struct call *call, size_t length)
{
    struct buffer buffer = {.name = "zero_sums", .use = NODES, .element = sizeof(uint64_t), .length = length * SUMS_OF_NODE};
    return (struct slice){lend_pattern(call, buffer).at, length};
}

uint64_t *answer_lent(struct call *call, const char *const *places, size_t length)
{
    struct buffer buffer = {.name = "answer", .places = places, .use = ANSWER, .element = sizeof(uint64_t), .length = length};
    return lend_pattern(call, buffer).at;
}

void release(struct call *call)
{
    for (size_t i = 0; i < call->count; ++i) {
        free(call->buffers[i].before);
        free(call->buffers[i].after);
    }
    call->count = 0;
}

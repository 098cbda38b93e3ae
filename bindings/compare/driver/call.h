/* One call of an entry: the fields of its case, the buffers that it is lent, and its result. */
#ifndef CALL_H
#define CALL_H

#include <stdbool.h>
#include <stddef.h>
#include <stdint.h>

enum use {
    GIVEN,   /* only read: what the case gives has to stay */
    COUNTS,  /* holds what the case gives, and may be changed */
    WRITTEN, /* holds a pattern, and is written to from the front */
    ANSWER,  /* likewise, with a name for each place */
    NODES    /* likewise, sums of which all that are written have to be 0 */
};

/* A lent buffer: a guard, its places, and a guard again. */
struct buffer {
    const char *name;
    const char *const *places;
    enum use use;
    size_t element;
    size_t length;
    size_t guard;
    unsigned char *before;
    unsigned char *after;
};

/* The most buffers that an entry is lent, read-only ones included. */
enum { MOST_BUFFERS = 8 };

struct call {
    const char *fields;
    /* Whether each block is as long as what is lent, without guards. */
    bool exact;
    /* Whether the pattern is inverted, and an empty buffer NULL. */
    bool second;
    size_t count;
    struct buffer buffers[MOST_BUFFERS];
    bool accepted;
    /* The number of a refusal; 0 where a call has none. */
    uint64_t refusal;
};

struct slice {
    void *at;
    size_t length;
};

/* The next field of the case. */
uint64_t number(struct call *call, const char *name);

/* Lend a list of the case, which has to stay; and the list of counts. */
struct slice given(struct call *call, const char *name);
struct slice counts(struct call *call);

/* Lend places that hold a pattern: of 64 bits, bytes, nodes, and those of an answer. */
struct slice words_lent(struct call *call, const char *name, size_t length);
struct slice bytes_lent(struct call *call, const char *name, size_t length);
struct slice nodes_lent(struct call *call, size_t length);
uint64_t *answer_lent(struct call *call, const char *const *places, size_t length);

/* Takes all buffers back. */
void release(struct call *call);

#endif

/* The line that tells what two calls of the same case did. */
#ifndef ANSWER_H
#define ANSWER_H

#include "call.h"

/*
 * Writes `ok`, `refused N` or `none`, then each buffer that may be written, up to the last place that a call changed; of a call
 * that was not accepted, only buffers that were changed. ` fault=WHAT:BUFFER` follows for what no call may do:
 *   stray   a byte beside the buffer was changed
 *   input   a read-only buffer was changed
 *   unlike  the two calls left different values, so one is not written, or comes from what the buffer held
 *   result  the two calls had different results
 */
void write_answer(const struct call *first, const struct call *second);

#endif

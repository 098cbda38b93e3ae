/*
 * Answers cases on standard input by the library, a line each. Every case is called twice, with patterns in the lent buffers that
 * differ in every byte. With the argument `exact` each lent buffer is a heap block of just its length.
 */
#include <stdio.h>
#include <stdlib.h>
#include <string.h>

#include "answer.h"
#include "call.h"
#include "entries.h"
#include "fields.h"

static struct call call_of(const char *line, bool exact, bool second)
{
    size_t length = strcspn(line, " \n");
    struct call call = {.fields = line + length, .exact = exact, .second = second};
    entry *run = find_entry(line, length);
    if (run == NULL) {
        malformed(line);
    }
    run(&call);
    if (*call.fields != '\n') {
        malformed(line);
    }
    return call;
}

static void answer_case(const char *line, bool exact)
{
    struct call first = call_of(line, exact, false);
    struct call second = call_of(line, exact, true);
    write_answer(&first, &second);
    release(&first);
    release(&second);
}

int main(int argc, char **argv)
{
    bool exact = argc > 1 && strcmp(argv[1], "exact") == 0;
    char *line = NULL;
    size_t size = 0;
    while (getline(&line, &size, stdin) > 0) {
        answer_case(line, exact);
    }
    free(line);
    return fflush(stdout) == 0 ? 0 : 1;
}

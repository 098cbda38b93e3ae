/* Reading a case: one line, the name of an entry and its fields as ` name=value`, in the order in which the entry reads them. */
#ifndef FIELDS_H
#define FIELDS_H

#include <stddef.h>
#include <stdint.h>

struct list {
    uint64_t *numbers;
    size_t length;
};

/* Ends the program with status 2. */
_Noreturn void malformed(const char *what);

/* The number or the list of a field; `at` moves past it. The caller frees the numbers of a list. */
uint64_t read_number(const char **at, const char *name);
struct list read_list(const char **at, const char *name);

#endif

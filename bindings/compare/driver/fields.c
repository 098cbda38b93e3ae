#include "fields.h"

#include <stdbool.h>
#include <stdio.h>
#include <stdlib.h>
#include <string.h>

_Noreturn void malformed(const char *what)
{
    fprintf(stderr, "driver: malformed: %s\n", what);
    exit(2);
}

/* Moves past ` name=`. */
static void pass_name(const char **at, const char *name)
{
    size_t length = strlen(name);
    if (**at != ' ' || strncmp(*at + 1, name, length) != 0 || (*at)[1 + length] != '=') {
        malformed(name);
    }
    *at += 1 + length + 1;
}

static uint64_t read_digits(const char **at, const char *name)
{
    const char *start = *at;
    uint64_t number = 0;
    for (; **at >= '0' && **at <= '9'; ++*at) {
        uint64_t digit = (uint64_t)(**at - '0');
        if (__builtin_mul_overflow(number, 10, &number) || __builtin_add_overflow(number, digit, &number)) {
            malformed(name);
        }
    }
    if (*at == start) {
        malformed(name);
    }
    return number;
}

uint64_t read_number(const char **at, const char *name)
{
    pass_name(at, name);
    return read_digits(at, name);
}

/* How many numbers stand here, joined by commas. */
static size_t count_numbers(const char *at)
{
    size_t count = 1;
    for (; *at != ' ' && *at != '\n' && *at != '\0'; ++at) {
        count += *at == ',';
    }
    return count;
}

struct list read_list(const char **at, const char *name)
{
    pass_name(at, name);
    if (**at == '-') {
        ++*at;
        return (struct list){NULL, 0};
    }
    struct list list = {NULL, count_numbers(*at)};
    list.numbers = malloc(list.length * sizeof *list.numbers);
    if (list.numbers == NULL) {
        malformed("no memory");
    }
    for (size_t i = 0; i < list.length; ++i) {
        if (i > 0 && *(*at)++ != ',') {
            malformed(name);
        }
        list.numbers[i] = read_digits(at, name);
    }
    return list;
}

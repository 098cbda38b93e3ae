/* The entries of the library. */
#ifndef ENTRIES_H
#define ENTRIES_H

#include "call.h"

/* Reads the fields of a case, lends what they say, and calls. */
typedef void entry(struct call *call);

/* The entry of this name, that of its function without `valwydr_`; NULL where there is none. */
entry *find_entry(const char *name, size_t length);

#endif

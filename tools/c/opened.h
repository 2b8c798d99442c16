/* The names of the open elements. */
#ifndef OPENED_H
#define OPENED_H

#include <stdbool.h>
#include <stddef.h>

#include "scopes.h"

struct opened {
    char *bytes; /* of the names, one after the other, with a block of room after them */
    size_t used, room;
    size_t *ends; /* of the names */
    size_t depth, most_depth;
};

/* Adds a name after which there is a block of bytes that can be read. False: out of memory. */
bool opened_push(struct opened *opened, struct text name);

void opened_close(struct opened *opened);

/* The name of the innermost element, empty where there is none. */
static inline struct text opened_last(const struct opened *opened) {
    if (opened->depth == 0)
        return (struct text){"", 0};
    size_t from = opened->depth > 1 ? opened->ends[opened->depth - 2] : 0;
    return (struct text){opened->bytes + from, opened->used - from};
}

/* Removes the name of the innermost element. */
static inline void opened_pop(struct opened *opened) {
    opened->used -= opened_last(opened).length;
    opened->depth--;
}

#endif

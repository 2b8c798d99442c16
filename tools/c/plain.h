/* What the fast paths of both converters know of bytes: of names those of ASCII, of data what
 * can be copied as it is. They convert what is plain, and leave the rest to the slow paths. */
#ifndef PLAIN_H
#define PLAIN_H

#include <stdbool.h>
#include <stddef.h>

enum { STARTS_NAME = 1, IN_NAME = 2, IS_SPACE = 4, MOST_ATTRIBUTES = 32 };

extern const unsigned char PLAIN_CLASS[256];

/* Whether a byte is of a class; a colon is of none. */
static inline bool is_a(const char *at, unsigned char class) {
    return PLAIN_CLASS[(unsigned char)*at] & class;
}

static inline const char *after_spaces(const char *at) {
    while (is_a(at, IS_SPACE))
        at++;
    return at;
}

/* A name with one colon or none. */
struct plain_name {
    const char *bytes;
    size_t length;
    size_t prefix; /* the length of its prefix; 0: it has no colon */
};

/* Reads a name: the place after it, which may be in its middle where that is not plain. */
const char *read_name(const char *at, struct plain_name *name);

/* The names of the attributes of a tag. */
struct plain_names {
    struct plain_name list[MOST_ATTRIBUTES];
    size_t count;
};

/* Adds a name. False: it is there, or there are too many. */
bool add_name(struct plain_names *names, const struct plain_name *name);

/* Whether a name is that of a namespace declaration. */
bool is_of_declaration(const struct plain_name *name);

/* Copies characters beyond ASCII, as long as `left` reaches: the place after them. It stops
 * before what is no UTF-8, before what XML does not have, and before U+FEFF. */
const char *copy_beyond(const char *at, size_t left, char **made);

#endif

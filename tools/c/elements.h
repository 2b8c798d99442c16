/* The open elements of lines: their starts with attributes and declarations, tested and put. */
#ifndef ELEMENTS_H
#define ELEMENTS_H

#include <stdbool.h>
#include <stddef.h>

#include "opened.h"
#include "refusal.h"
#include "scopes.h"
#include "target.h"

/* Bytes that grow. */
struct store {
    char *bytes;
    size_t used, room;
};

struct elements {
    struct target *target;
    struct refusal *refusal; /* what is refused, out of memory too, is noted here */
    bool is_fragment;        /* any number of elements may be at the top */
    bool has_top;
    struct scopes scopes;
    struct opened opened;
    unsigned long start; /* the line of a start whose attributes are read, or 0 */
    struct store texts;  /* of its attributes */
    struct attribute *attributes;
    size_t count, most_attributes;
    struct expanded *expanded; /* room for as many */
};

/* False: out of memory. */
bool elements_open(struct elements *to, struct target *target, struct refusal *refusal,
                   bool is_fragment);
void elements_close(struct elements *to);

/* A `(` line. */
void open_element(struct elements *to, unsigned long number, struct text name);

/* An `A` line: put at once, and tested when the start is whole. */
void add_attribute(struct elements *to, unsigned long number, struct text name,
                   struct text value);

/* Tests the start that was read, if there is one, and ends its tag, that of an empty
 * element where its end follows. */
void finish_start(struct elements *to, bool is_empty);

/* A `)` line; of an empty element nothing is left to put. */
void close_element(struct elements *to, unsigned long number, struct text name, bool is_empty);

#endif

/* Names and data as PYX lines have them. */
#ifndef ESCAPES_H
#define ESCAPES_H

#include <stddef.h>

#include "output.h"

/* Puts a text with the four escapes. */
void put_escaped(struct output *out, const char *text, size_t length);

/* Puts the data that ends a line. */
void put_data(struct output *out, const char *text);

/* Puts a name, and the byte that follows it. */
void put_name(struct output *out, const char *name, char after);

#endif

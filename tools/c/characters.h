/* The characters of a text: escapes of PYX lines, references of XML, and what XML has not. */
#ifndef CHARACTERS_H
#define CHARACTERS_H

#include <stdbool.h>

#include "output.h"
#include "scopes.h"

/* Replaces escapes by what they mean, in place. False: there is a bad one. */
bool unescape(struct text *text, char *bytes);

/* Whether XML has all characters of a text. */
bool is_allowed(struct text text);

/* Whether a text is white space. */
bool is_blank(struct text text);

/* Whether two bytes stand one after the other in a text. */
bool has_pair(struct text text, char first, char second);

/* The place in a text, from this one on, of the first byte that may be more than itself. */
size_t plain_length(struct text text, size_t from);

/* The reference that the first character of a text is written as, or NULL where it is itself; how
 * many bytes that character is read to be. */
const char *reference(struct text text, bool is_value, size_t *read);

/* Writes a text, or the value of an attribute. False: XML has no such character. */
bool put_text(struct output *out, struct text text, bool is_value);

#endif

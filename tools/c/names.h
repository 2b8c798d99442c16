/* UTF-8, and the names of XML 1.0, fifth edition, and Namespaces in XML 1.0. */
#ifndef NAMES_H
#define NAMES_H

#include <stdbool.h>
#include <stdio.h>

#include "scopes.h"

/* The number of bytes that are one character of UTF-8, of so many at least one, or 0. */
size_t character_length(const char *at, size_t left);

/* Whether the bytes here begin with U+FFFE or U+FFFF, which XML does not have. */
bool is_no_character(const char *at, size_t left);

/* Whether bytes are UTF-8: no surrogates, nothing longer than it has to be. */
bool is_utf8(struct text text);

/* A name without a colon. */
bool is_ncname(struct text text);

/* Splits a text at its first colon, if it has one; else the prefix is empty. */
bool split_name(struct text text, struct text *prefix, struct text *local);

/* A name with one colon or none; the prefix is empty where there is none. */
bool is_qname(struct text text, struct text *prefix, struct text *local);

/* Prints a text of UTF-8 between quotes, with what is not ASCII as Python's ascii() has it. */
void print_ascii(FILE *out, struct text text);

#endif

/* The XML declaration at the head of a document. */
#ifndef DECLARATION_H
#define DECLARATION_H

#include <stdbool.h>
#include <stddef.h>

/* By how many columns the places on a line have moved, from a column on. */
struct moved {
    unsigned long line, from;
    long columns;
};

/* So many bytes at most does standing_alone add. */
enum { DECLARATION_ROOM = 128 };

/* Puts `standalone="yes"` into the XML declaration of a document's head, in place: where a
 * document points at declarations outside itself, expat passes over an entity in an
 * attribute that it does not know, without a word. Where the document stands alone, expat
 * refuses it. Nothing but `no` is replaced, so that a fault of the declaration stays. */
struct moved standing_alone(char *head, size_t *length);

/* The encoding of a head in units of two bytes, or NULL. */
const char *wide_encoding(const char *head, size_t length);

/* The place after the byte order mark and the XML declaration of a head in UTF-8, after
 * which there is a zero; the head itself where it has neither, and NULL where its
 * declaration is not a plain one, of version 1.0. */
const char *after_plain_head(const char *head);

#endif

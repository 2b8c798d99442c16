/* The encodings that have a byte for each character, except for US-ASCII and ISO-8859-1. */
#ifndef CHARSETS_H
#define CHARSETS_H

#include <iconv.h>
#include <stdbool.h>

/* Whether an encoding is one of those, which iconv and Python read alike, in whichever case. */
bool is_single_byte(const char *name);

/* The character that a byte is, -1 where it is none. False: it is the begin of some. */
bool read_byte(iconv_t meaning, char byte, int *made);

#endif

/* Encodings that expat does not know by itself. */
#ifndef ENCODINGS_H
#define ENCODINGS_H

#include <expat.h>

/* Fills the table of an encoding in which each character is one byte, by iconv, where it is
 * one of those that lib/encodings.py names too. To be set as expat's handler of unknown
 * encodings; all others are unknown still. */
int know_encoding(void *data, const XML_Char *name, XML_Encoding *encoding);

#endif

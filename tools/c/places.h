/* Where in a tag or an instruction a fault of a name stands that the parser does not find. */
#ifndef PLACES_H
#define PLACES_H

#include <expat.h>
#include <stdbool.h>

struct place {
    unsigned long line, column; /* the column from 0 */
};

/* Where what the parser reports begins. */
struct place place_here(XML_Parser reader);

/* Where a tag has a colon too many; of a document in UTF-8 `encoding` may be NULL. */
struct place place_of_colon(XML_Parser reader, const char *encoding);

/* Where the target of an instruction has its first colon. */
struct place place_in_target(XML_Parser reader, const char *target);

/* Whether a name has one of the three letters of ISO-8859-1 that expat takes for ones of names
 * in that encoding, and XML does not. */
bool has_no_letter(const char *name);

/* Where such a letter stands in a name, in a document in ISO-8859-1. */
struct place place_of_no_letter(XML_Parser reader);

#endif

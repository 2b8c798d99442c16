/* References to characters in XML, and what they become in lines. */
#ifndef REFERENCES_H
#define REFERENCES_H

/* Puts a character of data with its escape: the place after it. */
static inline char *put_character(char *made, char byte) {
    switch (byte) {
    case '\n': byte = 'n'; break;
    case '\t': byte = 't'; break;
    case '\r': byte = 'r'; break;
    case '\\': break;
    default: *made++ = byte; return made;
    }
    *made++ = '\\';
    *made++ = byte;
    return made;
}

/* Converts a reference to a character, by its number or as one of the five entities that
 * XML has: the place after it, or NULL. It looks at most at `LONGEST_REFERENCE` bytes. */
const char *convert_reference(const char *at, char **made);

enum { LONGEST_REFERENCE = 12 };

#endif

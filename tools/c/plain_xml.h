/* Most documents as PYX lines, several times as fast as by a parser.
 *
 * A document is plain where it is in UTF-8, has no document type declaration, no reference
 * but those of characters and of the five entities of XML, names of ASCII alone, at most 32
 * attributes in a tag, and no tag, comment or instruction that is longer than a buffer. All
 * others are left to the parser, and so are all that have a fault: nothing is refused here.
 */
#ifndef PLAIN_XML_H
#define PLAIN_XML_H

#include <stdbool.h>

#include "output.h"

/* Converts the document in a file from where that stands. False: it is not plain, or can't
 * be read twice. Then the file stands where it stood, and what was written is a beginning
 * of the lines, which `out` passes over when it is put again. */
bool convert_plain_xml(int file, struct output *out);

#endif

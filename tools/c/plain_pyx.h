/* Most PYX lines as XML, faster than one by one.
 *
 * Plain are the lines of whole elements inside an open one, with names of ASCII, at most 32
 * attributes, at most one of them with a prefix, and no declarations, and texts in which XML
 * has each character. Others are left as they are, and so are all that have a fault.
 */
#ifndef PLAIN_PYX_H
#define PLAIN_PYX_H

#include "elements.h"
#include "lines.h"

/* Converts the plain lines that come next, of those that were read and not given yet. */
void convert_plain_pyx(struct lines *lines, struct elements *elements);

#endif

/* The nodes of a result as HTML (XSLT 1.0, 16.2). */
#ifndef WRITE_HTML_H
#define WRITE_HTML_H

#include "write_xml.h"

/* All nodes. */
void write_html(struct writer *to);

#endif

/* The names of HTML 4.0 that are written in ways of their own, in any case (XSLT 1.0, 16.2). */
#ifndef HTML_NAMES_H
#define HTML_NAMES_H

#include <stdbool.h>

#include "scopes.h"

/* Whether two names are one but for the case of letters of ASCII. */
bool same_name(struct text one, const char *other);

/* What an element of HTML is by its name. */
enum {
    VOID_NAME = 1,  /* it has no end tag */
    BLOCK_NAME = 2, /* it is no part of a line, so that line feeds can be put around and into it */
    RAW_NAME = 4,   /* its texts are written as they are */
};

/* These of an element, together; 0: HTML has no such name, or nothing is to say of it. */
unsigned char html_class(struct text name);

/* An attribute that says something by being there. */
bool is_boolean_name(struct text name);

/* An attribute of an element whose value is a URI. */
bool is_uri_name(struct text element, struct text name);

#endif

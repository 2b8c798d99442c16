/* How the result of a stylesheet is written: what its xsl:output says (XSLT 1.0, 16). */
#ifndef SETTINGS_H
#define SETTINGS_H

#include <stdbool.h>

#include "scopes.h"

enum method { ANY_METHOD, XML_METHOD, HTML_METHOD };
enum choice { NOT_SAID, NO, YES };

/* Texts are as they are said, or NULL. */
struct settings {
    enum method method; /* ANY_METHOD: as the first element says */
    enum choice indent, standalone, omits_declaration;
    const char *encoding, *version, *doctype_public, *doctype_system;
    const char *cdata; /* names {URI}LOCAL or LOCAL between spaces */
};

/* The names of the options, in the order in which they are numbered. */
extern const char *const SETTINGS[];
enum { SETTINGS_COUNT = 9 };

/* Sets what the option of this number says. False: it has no such value. */
bool settings_set(struct settings *settings, int number, const char *value);

/* Whether the texts of an element of this expanded name are written as CDATA sections. */
bool is_cdata(const struct settings *settings, struct text uri, struct text local);

/* Whether a result is written as XML part by part, as it comes: in UTF-8, not indented, without
 * a document type declaration and CDATA sections. */
bool is_plain_xml(const struct settings *settings);

#endif

/* What Namespaces in XML 1.0 asks of a tag beyond XML 1.0, in expat's words. */
#ifndef NAMESPACES_H
#define NAMESPACES_H

#include <expat.h>
#include <stdbool.h>
#include <stddef.h>

#include "scopes.h"

struct namespaces {
    struct scopes scopes;
    struct expanded *attributes; /* room for those of one tag */
    size_t room;
    unsigned char *is_start; /* of each character, whether a name starts with it, once known */
};

/* False: out of memory. */
bool namespaces_open(struct namespaces *namespaces);
void namespaces_close(struct namespaces *namespaces);

/* Tests the start tag of an element at this depth and binds what it declares: the first
 * fault, or XML_ERROR_NONE. XML_ERROR_INVALID_TOKEN is a name with a colon too many. */
enum XML_Error namespaces_enter(struct namespaces *namespaces, const char *name,
                                const char **attributes, size_t depth);

/* Drops what the element at this depth declares. */
static inline void namespaces_leave(struct namespaces *namespaces, size_t depth) {
    scopes_leave(&namespaces->scopes, depth);
}

#endif

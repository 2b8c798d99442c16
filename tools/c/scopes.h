/* The prefixes in scope, and what namespaces they are bound to.
 *
 * A prefix knows its innermost binding, and a binding the one that it hides. Prefixes and
 * namespaces are kept in ordered trees, each once, so that no choice of them makes finding one
 * slow, and two namespaces are the same where they are one.
 */
#ifndef SCOPES_H
#define SCOPES_H

#include <stdbool.h>
#include <stddef.h>

struct text {
    const char *bytes;
    size_t length;
};

struct space {
    struct text uri;
    size_t uses; /* by bindings */
};

struct binding {
    struct prefix *prefix;
    struct space *space;
    struct binding *hidden; /* what the prefix is bound to outside */
    struct binding *before; /* the binding that was made before this one */
    size_t depth;           /* of the element that declares it */
};

struct scopes {
    void *prefixes, *spaces; /* trees of tsearch */
    struct binding *last;
};

/* Starts with `xml` alone. False: out of memory. */
bool scopes_open(struct scopes *scopes);
void scopes_close(struct scopes *scopes);

/* Binds a prefix, the empty one for the default namespace, in the element at this depth.
 * False: out of memory. */
bool scopes_bind(struct scopes *scopes, struct text prefix, struct text uri, size_t depth);

/* Drops the bindings that the element at this depth declares, and those inside it. */
void scopes_leave(struct scopes *scopes, size_t depth);

/* The innermost binding of a prefix, or NULL. */
const struct binding *scopes_find(const struct scopes *scopes, struct text prefix);

/* An attribute with its expanded name, and where it stands among the others. */
struct expanded {
    const struct space *space; /* NULL: no namespace */
    struct text local;
    size_t place;
};

/* No place at all. */
#define NOWHERE ((size_t)-1)

/* The least place of an attribute whose expanded name an earlier one has, or NOWHERE. The
 * attributes come in the order of their places, and may be left in another one. */
size_t first_repeated(struct expanded *attributes, size_t count);

bool same_text(struct text one, struct text other);
struct text text_of(const char *string);

/* What an attribute declares where it is a namespace declaration. */
bool is_declaration(struct text name, struct text *prefix);

#endif

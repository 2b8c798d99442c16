#include "namespaces.h"

#include <stdio.h>
#include <stdlib.h>
#include <string.h>

enum { CHARACTERS = 0x10000, UNTRIED = 0, STARTS = 1, DOES_NOT = 2 };

bool namespaces_open(struct namespaces *namespaces) {
    *namespaces = (struct namespaces){.room = 0};
    namespaces->is_start = calloc(CHARACTERS, 1);
    return scopes_open(&namespaces->scopes) && namespaces->is_start;
}

void namespaces_close(struct namespaces *namespaces) {
    scopes_close(&namespaces->scopes);
    free(namespaces->attributes);
    free(namespaces->is_start);
}

/* Whether expat reads a name of these bytes alone. */
static bool is_name(const char *bytes, int length) {
    char tag[16];
    int size = snprintf(tag, sizeof tag, "<%.*s/>", length, bytes);
    XML_Parser parser = XML_ParserCreate("UTF-8");
    bool is_read = parser && XML_Parse(parser, tag, size, XML_TRUE) == XML_STATUS_OK;
    XML_ParserFree(parser);
    return is_read;
}

/* Whether a name starts with a character that is of a name. */
static bool starts_name(const struct namespaces *namespaces, const char *at) {
    unsigned char first = (unsigned char)at[0];
    if (first < 0x80)
        return (first >= 'a' && first <= 'z') || (first >= 'A' && first <= 'Z') || first == '_';
    if (first >= 0xf0)
        return is_name(at, 4);
    int length = first < 0xe0 ? 2 : 3;
    unsigned code = length == 2 ? (first & 0x1fu) : (first & 0x0fu);
    for (int next = 1; next < length; next++)
        code = code << 6 | ((unsigned char)at[next] & 0x3fu);
    unsigned char *known = &namespaces->is_start[code];
    if (*known == UNTRIED)
        *known = is_name(at, length) ? STARTS : DOES_NOT;
    return *known == STARTS;
}

/* Whether a name has no colon, or one between two names. */
static bool is_qname(const struct namespaces *namespaces, const char *name) {
    const char *colon = strchr(name, ':');
    return !colon
        || (colon > name && starts_name(namespaces, colon + 1) && !strchr(colon + 1, ':'));
}

static bool are_qnames(const struct namespaces *namespaces, const char *name,
                       const char **attributes) {
    bool are = is_qname(namespaces, name);
    for (; are && *attributes; attributes += 2)
        are = is_qname(namespaces, *attributes);
    return are;
}

/* The fault of binding a prefix, the empty one for the default, to a namespace. */
static enum XML_Error test_binding(struct text prefix, struct text uri) {
    bool is_xml = same_text(prefix, text_of("xml"));
    if (prefix.length > 0 && uri.length == 0)
        return XML_ERROR_UNDECLARING_PREFIX;
    if (same_text(prefix, text_of("xmlns")))
        return XML_ERROR_RESERVED_PREFIX_XMLNS;
    if (is_xml != same_text(uri, text_of("http://www.w3.org/XML/1998/namespace")))
        return is_xml ? XML_ERROR_RESERVED_PREFIX_XML : XML_ERROR_RESERVED_NAMESPACE_URI;
    if (same_text(uri, text_of("http://www.w3.org/2000/xmlns/")))
        return XML_ERROR_RESERVED_NAMESPACE_URI;
    return XML_ERROR_NONE;
}

/* Binds what the attributes declare, in their order. */
static enum XML_Error bind(struct namespaces *namespaces, const char **attributes, size_t depth) {
    for (; *attributes; attributes += 2) {
        struct text prefix, uri = text_of(attributes[1]);
        if (!is_declaration(text_of(attributes[0]), &prefix))
            continue;
        enum XML_Error fault = test_binding(prefix, uri);
        if (fault != XML_ERROR_NONE)
            return fault;
        if (!scopes_bind(&namespaces->scopes, prefix, uri, depth))
            return XML_ERROR_NO_MEMORY;
    }
    return XML_ERROR_NONE;
}

/* The part of a name before its colon; empty where there is none. */
static struct text prefix_of(const char *name) {
    const char *colon = strchr(name, ':');
    return (struct text){name, colon ? (size_t)(colon - name) : 0};
}

/* Makes room for so many attributes of one tag. */
static bool make_room(struct namespaces *namespaces, size_t count) {
    if (count <= namespaces->room)
        return true;
    struct expanded *grown = realloc(namespaces->attributes, 2 * count * sizeof *grown);
    if (!grown)
        return false;
    namespaces->attributes = grown;
    namespaces->room = 2 * count;
    return true;
}

/* Tests that the attributes' prefixes are bound, and that no expanded name stands twice. */
static enum XML_Error test_attributes(struct namespaces *namespaces, const char **attributes) {
    size_t count = 0;
    bool is_unbound = false;
    for (; *attributes && !is_unbound; attributes += 2) {
        struct text name = text_of(*attributes), prefix = prefix_of(*attributes), declared;
        if (prefix.length == 0 || is_declaration(name, &declared))
            continue;
        const struct binding *bound = scopes_find(&namespaces->scopes, prefix);
        struct text local = {name.bytes + prefix.length + 1, name.length - prefix.length - 1};
        is_unbound = !bound;
        if (!make_room(namespaces, count + 1))
            return XML_ERROR_NO_MEMORY;
        if (bound) {
            namespaces->attributes[count] = (struct expanded){bound->space, local, count};
            count++;
        }
    }
    if (first_repeated(namespaces->attributes, count) != NOWHERE)
        return XML_ERROR_DUPLICATE_ATTRIBUTE;
    return is_unbound ? XML_ERROR_UNBOUND_PREFIX : XML_ERROR_NONE;
}

static bool is_plain(const char *name) {
    return !strchr(name, ':') && (name[0] != 'x' || strcmp(name, "xmlns") != 0);
}

enum XML_Error namespaces_enter(struct namespaces *namespaces, const char *name,
                                const char **attributes, size_t depth) {
    bool are_plain = is_plain(name);
    for (const char **each = attributes; are_plain && *each; each += 2)
        are_plain = is_plain(*each);
    if (are_plain)
        return XML_ERROR_NONE;
    if (!are_qnames(namespaces, name, attributes))
        return XML_ERROR_INVALID_TOKEN;
    enum XML_Error fault = bind(namespaces, attributes, depth);
    if (fault == XML_ERROR_NONE)
        fault = test_attributes(namespaces, attributes);
    struct text prefix = prefix_of(name);
    if (fault == XML_ERROR_NONE && prefix.length > 0
        && !scopes_find(&namespaces->scopes, prefix))
        fault = XML_ERROR_UNBOUND_PREFIX;
    return fault;
}

#include "scopes.h"

#include <search.h>
#include <stdint.h>
#include <stdlib.h>
#include <string.h>

struct prefix {
    struct text name;
    struct binding *bound;
};

enum { FEW = 8 };

struct text text_of(const char *string) {
    return (struct text){string, strlen(string)};
}

bool same_text(struct text one, struct text other) {
    return one.length == other.length && memcmp(one.bytes, other.bytes, one.length) == 0;
}

bool is_declaration(struct text name, struct text *prefix) {
    if (name.length < 5 || memcmp(name.bytes, "xmlns", 5) != 0)
        return false;
    if (name.length > 5 && name.bytes[5] != ':')
        return false;
    size_t before = name.length > 5 ? 6 : 5;
    *prefix = (struct text){name.bytes + before, name.length - before};
    return true;
}

static int compare_texts(struct text one, struct text other) {
    if (one.length != other.length)
        return one.length < other.length ? -1 : 1;
    return memcmp(one.bytes, other.bytes, one.length);
}

/* Orders prefixes or namespaces by the text that each begins with. */
static int compare_keys(const void *left, const void *right) {
    const struct text *one = left, *other = right;
    return compare_texts(*one, *other);
}

/* Finds what has a text in a tree, or NULL. */
static void *find(struct text text, void *const *tree) {
    void **found = tfind(&text, tree, compare_keys);
    return found ? *found : NULL;
}

/* Finds what has a text in a tree, or adds it, of so many bytes that are zero after the text. */
static void *find_or_add(struct text text, void **tree, size_t size) {
    void *found = find(text, tree);
    if (found)
        return found;
    char *made = calloc(1, size + text.length);
    if (!made)
        return NULL;
    memcpy(made + size, text.bytes, text.length);
    *(struct text *)made = (struct text){made + size, text.length};
    if (tsearch(made, tree, compare_keys))
        return made;
    free(made);
    return NULL;
}

static void remove_from(void **tree, void *kept) {
    tdelete(kept, tree, compare_keys);
    free(kept);
}

/* Removes a prefix that is not bound and a namespace that nothing is bound to. */
static void forget(struct scopes *scopes, struct prefix *prefix, struct space *space) {
    if (prefix && !prefix->bound)
        remove_from(&scopes->prefixes, prefix);
    if (space && space->uses == 0)
        remove_from(&scopes->spaces, space);
}

bool scopes_open(struct scopes *scopes) {
    *scopes = (struct scopes){.last = NULL};
    return scopes_bind(scopes, text_of("xml"), text_of("http://www.w3.org/XML/1998/namespace"), 0);
}

void scopes_close(struct scopes *scopes) {
    scopes_leave(scopes, 0);
}

bool scopes_bind(struct scopes *scopes, struct text name, struct text uri, size_t depth) {
    struct prefix *prefix = find_or_add(name, &scopes->prefixes, sizeof *prefix);
    struct space *space = find_or_add(uri, &scopes->spaces, sizeof *space);
    struct binding *binding = prefix && space ? malloc(sizeof *binding) : NULL;
    if (!binding) {
        forget(scopes, prefix, space);
        return false;
    }
    *binding = (struct binding){prefix, space, prefix->bound, scopes->last, depth};
    space->uses++;
    scopes->last = prefix->bound = binding;
    return true;
}

void scopes_leave(struct scopes *scopes, size_t depth) {
    while (scopes->last && scopes->last->depth >= depth) {
        struct binding *binding = scopes->last;
        binding->prefix->bound = binding->hidden;
        binding->space->uses--;
        scopes->last = binding->before;
        forget(scopes, binding->prefix, binding->space);
        free(binding);
    }
}

const struct binding *scopes_find(const struct scopes *scopes, struct text name) {
    const struct prefix *prefix = find(name, &scopes->prefixes);
    return prefix ? prefix->bound : NULL;
}

/* Orders attributes by their expanded names alone. */
static int compare_names(const struct expanded *one, const struct expanded *other) {
    uintptr_t here = (uintptr_t)one->space, there = (uintptr_t)other->space;
    int order = (here > there) - (here < there);
    return order ? order : compare_texts(one->local, other->local);
}

/* Orders attributes by their expanded names, and those of one name by their places. */
static int compare(const void *left, const void *right) {
    const struct expanded *one = left, *other = right;
    int order = compare_names(one, other);
    return order ? order : (one->place > other->place) - (one->place < other->place);
}

size_t first_repeated(struct expanded *attributes, size_t count) {
    size_t least = NOWHERE;
    if (count <= FEW) {
        for (size_t at = 1; at < count; at++)
            for (size_t before = 0; before < at; before++)
                if (compare_names(&attributes[before], &attributes[at]) == 0)
                    return attributes[at].place;
        return NOWHERE;
    }
    qsort(attributes, count, sizeof *attributes, compare);
    for (size_t at = 1; at < count; at++) {
        bool is_repeated = compare_names(&attributes[at - 1], &attributes[at]) == 0;
        if (is_repeated && attributes[at].place < least)
            least = attributes[at].place;
    }
    return least;
}

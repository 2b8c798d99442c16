#include "elements.h"

#include <stdlib.h>
#include <string.h>

#include "names.h"

/* An `A` line of the start whose attributes are still read; its texts are in a store. */
struct attribute {
    unsigned long number;
    size_t name, name_length;
    size_t uri, uri_length; /* of a declaration */
    enum reason fault;      /* its own, as long as no other one comes first */
};

bool elements_open(struct elements *to, struct target *target, struct refusal *refusal,
                   bool is_fragment) {
    *to = (struct elements){.target = target, .refusal = refusal, .is_fragment = is_fragment};
    return scopes_open(&to->scopes);
}

void elements_close(struct elements *to) {
    scopes_close(&to->scopes);
    opened_close(&to->opened);
    free(to->texts.bytes);
    free(to->attributes);
    free(to->expanded);
}

/* Makes room for one more item: the new room, or the old one where there is no memory. */
static void *grow(struct elements *to, void *items, size_t *room, size_t used, size_t size) {
    if (used < *room)
        return items;
    size_t more = *room ? 2 * *room : 64;
    void *grown = realloc(items, more * size);
    if (!grown) {
        refuse_line(to->refusal, 0, NO_MEMORY);
        return items;
    }
    *room = more;
    return grown;
}

/* Puts bytes into a store: where they begin. */
static size_t keep(struct elements *to, struct store *store, struct text text) {
    size_t begin = store->used;
    while ((!store->bytes || store->room - begin < text.length) && !is_refused(to->refusal))
        store->bytes = grow(to, store->bytes, &store->room, store->room, 1);
    if (is_refused(to->refusal))
        return begin;
    if (text.length > 0)
        memcpy(store->bytes + begin, text.bytes, text.length);
    store->used += text.length;
    return begin;
}

static struct text name_of(const struct elements *to, const struct attribute *attribute) {
    return (struct text){to->texts.bytes + attribute->name, attribute->name_length};
}

/* Whether a prefix, or the default, may not be bound to a namespace. */
static bool is_bad_binding(struct text prefix, struct text uri) {
    bool is_xml = same_text(prefix, text_of("xml"));
    return (prefix.length > 0 && uri.length == 0) || same_text(prefix, text_of("xmlns"))
        || is_xml != same_text(uri, text_of("http://www.w3.org/XML/1998/namespace"))
        || same_text(uri, text_of("http://www.w3.org/2000/xmlns/"));
}

/* Binds what the attributes of the start declare: of each prefix the first that may be. */
static void bind(struct elements *to) {
    for (size_t at = 0; at < to->count; at++) {
        struct attribute *attribute = &to->attributes[at];
        struct text uri = {to->texts.bytes + attribute->uri, attribute->uri_length}, prefix;
        if (!is_declaration(name_of(to, attribute), &prefix))
            continue;
        bool is_bad = is_bad_binding(prefix, uri);
        if (is_bad && attribute->fault != BAD_NAME)
            attribute->fault = BAD_NAMESPACE;
        const struct binding *bound = scopes_find(&to->scopes, prefix);
        if (is_bad || (bound && bound->depth == to->opened.depth))
            continue;
        if (!scopes_bind(&to->scopes, prefix, uri, to->opened.depth))
            refuse_line(to->refusal, 0, NO_MEMORY);
    }
}

/* The expanded name of an attribute, that of a declaration being its prefix among the
 * declarations. False: its own prefix is not bound. */
static bool expand(const struct elements *to, struct text name, struct expanded *made) {
    static const struct space DECLARATIONS = {.uses = 0};
    struct text prefix;
    if (is_declaration(name, &made->local)) {
        made->space = &DECLARATIONS;
        return true;
    }
    split_name(name, &prefix, &made->local);
    const struct binding *bound = prefix.length > 0 ? scopes_find(&to->scopes, prefix) : NULL;
    made->space = bound ? bound->space : NULL;
    return bound || prefix.length == 0;
}

/* Refuses the lines for the first fault of an attribute of the start, if there is one. */
static void test_attributes(struct elements *to) {
    enum reason fault = FINE;
    size_t at = 0, names = 0;
    for (; at < to->count && fault == FINE; at++) {
        fault = to->attributes[at].fault;
        struct expanded made = {.place = at};
        if (fault == BAD_NAME)
            continue;
        if (!expand(to, name_of(to, &to->attributes[at]), &made))
            fault = UNBOUND_PREFIX;
        else
            to->expanded[names++] = made;
    }
    size_t repeated = names > 1 ? first_repeated(to->expanded, names) : NOWHERE;
    if (fault == FINE && repeated == NOWHERE)
        return;
    size_t place = repeated == NOWHERE ? at - 1 : repeated;
    struct text name = name_of(to, &to->attributes[place]), local;
    if (repeated != NOWHERE)
        fault = DOUBLE_ATTRIBUTE;
    if (fault == UNBOUND_PREFIX)
        split_name(name, &name, &local);
    refuse(to->refusal, to->attributes[place].number, fault,
           fault == NO_CHARACTER || fault == NOT_ENCODED ? (struct text){NULL, 0} : name);
}

void finish_start(struct elements *to, bool is_empty) {
    struct text name = opened_last(&to->opened), prefix, local;
    if (to->start == 0)
        return;
    bind(to);
    split_name(name, &prefix, &local);
    const struct binding *bound = scopes_find(&to->scopes, prefix);
    if (prefix.length > 0 && !bound)
        refuse(to->refusal, to->start, UNBOUND_PREFIX, prefix);
    if (!is_refused(to->refusal))
        test_attributes(to);
    struct text uri = bound ? bound->space->uri : text_of("");
    if (!is_refused(to->refusal))
        target_start_end(to->target, name, uri, is_empty);
    to->start = 0;
    to->count = 0;
    to->texts.used = 0;
}

void open_element(struct elements *to, unsigned long number, struct text name) {
    struct text prefix, local;
    if (to->opened.depth == 0 && to->has_top && !to->is_fragment) {
        refuse_line(to->refusal, number, SECOND_TOP);
        return;
    }
    if (!is_qname(name, &prefix, &local)) {
        refuse(to->refusal, number, BAD_NAME, name);
        return;
    }
    if (!opened_push(&to->opened, name)) {
        refuse_line(to->refusal, 0, NO_MEMORY);
        return;
    }
    to->has_top = true;
    to->start = number;
    enum reason reason = target_start(to->target, name);
    if (reason != FINE)
        refuse_line(to->refusal, number, reason);
}

void close_element(struct elements *to, unsigned long number, struct text name,
                          bool is_empty) {
    if (to->opened.depth == 0 || !same_text(opened_last(&to->opened), name)) {
        refuse_line(to->refusal, number, NOT_OPEN);
        return;
    }
    scopes_leave(&to->scopes, to->opened.depth);
    opened_pop(&to->opened);
    target_end(to->target, name, is_empty);
}

/* Makes room for one more attribute. */
static void make_attribute(struct elements *to) {
    size_t room = to->most_attributes;
    to->attributes = grow(to, to->attributes, &room, to->count, sizeof *to->attributes);
    if (is_refused(to->refusal) || room == to->most_attributes)
        return;
    struct expanded *grown = realloc(to->expanded, room * sizeof *grown);
    if (!grown) {
        refuse_line(to->refusal, 0, NO_MEMORY);
        return;
    }
    to->expanded = grown;
    to->most_attributes = room;
}

void add_attribute(struct elements *to, unsigned long number, struct text name,
                          struct text value) {
    struct text prefix, local;
    make_attribute(to);
    if (is_refused(to->refusal))
        return;
    struct attribute *made = &to->attributes[to->count++];
    *made = (struct attribute){.number = number, .name_length = name.length};
    made->name = keep(to, &to->texts, name);
    if (!is_qname(name, &prefix, &local))
        made->fault = BAD_NAME;
    if (is_declaration(name, &prefix)) {
        made->uri = keep(to, &to->texts, value);
        made->uri_length = value.length;
    }
    enum reason reason = target_attribute(to->target, name, value);
    if (made->fault == FINE)
        made->fault = reason;
    if (reason == NO_MEMORY)
        refuse_line(to->refusal, 0, NO_MEMORY);
}

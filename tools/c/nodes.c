#include "nodes.h"

#include <stdlib.h>
#include <string.h>

enum { LEAST = 64 };

/* Makes room for so many more items: the items where they are now, or NULL. */
static void *grow(void *items, size_t *room, size_t used, size_t more, size_t size) {
    if (items && *room - used >= more)
        return items;
    size_t wanted = 2 * *room + more + LEAST;
    void *grown = realloc(items, wanted * size);
    if (grown)
        *room = wanted;
    return grown;
}

/* Keeps a text: which part of the bytes it is. */
static bool keep(struct nodes *nodes, struct text text, struct slice *made) {
    char *bytes = grow(nodes->bytes, &nodes->bytes_room, nodes->used, text.length, 1);
    if (!bytes)
        return false;
    nodes->bytes = bytes;
    *made = (struct slice){nodes->used, text.length};
    if (text.length > 0)
        memcpy(bytes + nodes->used, text.bytes, text.length);
    nodes->used += text.length;
    return true;
}

/* Adds a node as the last child of the innermost element, or the root. */
static struct node *add(struct nodes *nodes, enum kind kind) {
    struct node *list = grow(nodes->list, &nodes->room, nodes->count, 1, sizeof *list);
    if (!list)
        return NULL;
    nodes->list = list;
    size_t at = nodes->count++;
    list[at] = (struct node){.kind = kind, .parent = nodes->inner, .end = at + 1};
    list[nodes->inner].last = at;
    list[nodes->inner].has_text |= kind == TEXT;
    return &list[at];
}

bool nodes_open(struct nodes *nodes) {
    *nodes = (struct nodes){.inner = 0};
    return add(nodes, ROOT) != NULL;
}

bool nodes_start(struct nodes *nodes, struct text name) {
    struct node *made = add(nodes, ELEMENT);
    if (!made)
        return false;
    made->attributes = nodes->attribute_count;
    made->is_preserved = nodes->list[nodes->inner].is_preserved;
    nodes->inner = nodes->count - 1;
    return keep(nodes, name, &made->name);
}

/* Notes what xml:space says; any value but two says nothing. */
static void note_space(struct node *element, struct text value) {
    if (same_text(value, text_of("preserve")))
        element->is_preserved = true;
    if (same_text(value, text_of("default")))
        element->is_preserved = false;
}

bool nodes_attribute(struct nodes *nodes, struct text name, struct text value) {
    struct named *list = grow(nodes->attributes, &nodes->attribute_room, nodes->attribute_count, 1,
                              sizeof *list);
    if (!list)
        return false;
    nodes->attributes = list;
    struct named *made = &list[nodes->attribute_count++];
    *made = (struct named){.name = {0, 0}};
    nodes->list[nodes->inner].count++;
    if (same_text(name, text_of("xml:space")))
        note_space(&nodes->list[nodes->inner], value);
    return keep(nodes, name, &made->name) && keep(nodes, value, &made->value);
}

bool nodes_text(struct nodes *nodes, struct text text) {
    struct node *last = &nodes->list[nodes->count - 1];
    bool goes_on = last->kind == TEXT && last->parent == nodes->inner
                && nodes->list[nodes->inner].last == nodes->count - 1;
    struct slice made;
    if (text.length == 0)
        return true;
    if (!goes_on)
        return nodes_other(nodes, TEXT, (struct text){NULL, 0}, text);
    last->text.length += text.length;
    return keep(nodes, text, &made);
}

bool nodes_other(struct nodes *nodes, enum kind kind, struct text name, struct text text) {
    struct node *made = add(nodes, kind);
    return made && keep(nodes, name, &made->name) && keep(nodes, text, &made->text);
}

void nodes_end(struct nodes *nodes) {
    struct node *inner = &nodes->list[nodes->inner];
    inner->end = nodes->count;
    nodes->inner = inner->parent;
}

void nodes_finish(struct nodes *nodes) {
    nodes->list[0].end = nodes->count;
}

void nodes_close(struct nodes *nodes) {
    free(nodes->list);
    free(nodes->attributes);
    free(nodes->bytes);
}

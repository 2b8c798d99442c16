/* The nodes of a result in document order, for what is written when all of it is known. */
#ifndef NODES_H
#define NODES_H

#include <stdbool.h>
#include <stddef.h>

#include "scopes.h"

enum kind { NO_NODE, ROOT, ELEMENT, TEXT, COMMENT, INSTRUCTION };

/* A part of the bytes of all nodes. */
struct slice {
    size_t at, length;
};

struct node {
    enum kind kind;
    bool has_text;     /* a child is a text */
    bool has_space;    /* the name is in a namespace */
    bool is_xhtml;     /* and that is XHTML's */
    bool is_cdata;     /* texts are CDATA sections */
    bool is_preserved; /* xml:space says so */
    bool is_indented;  /* its children are: found when it is written */
    unsigned char html; /* its class, where it is in no namespace (html_names.h) */
    size_t parent, last; /* the parent, the last child */
    size_t end;          /* after the node and all inside it */
    size_t attributes, count;
    struct slice name, text; /* of an instruction the target and the text */
};

struct named {
    struct slice name, value;
};

struct nodes {
    struct node *list; /* the first is the root */
    size_t count, room;
    struct named *attributes;
    size_t attribute_count, attribute_room;
    char *bytes;
    size_t used, bytes_room;
    size_t inner; /* the innermost open element, or the root */
};

/* False of each of these: out of memory. */
bool nodes_open(struct nodes *nodes);
bool nodes_start(struct nodes *nodes, struct text name);
bool nodes_attribute(struct nodes *nodes, struct text name, struct text value);
bool nodes_text(struct nodes *nodes, struct text text); /* after a text it is a part of that */
bool nodes_other(struct nodes *nodes, enum kind kind, struct text name, struct text text);

/* The innermost open element is closed. */
void nodes_end(struct nodes *nodes);

/* No more nodes come. */
void nodes_finish(struct nodes *nodes);

void nodes_close(struct nodes *nodes);

static inline struct text bytes_of(const struct nodes *nodes, struct slice slice) {
    return (struct text){nodes->bytes + slice.at, slice.length};
}

static inline struct text node_name(const struct nodes *nodes, size_t at) {
    return bytes_of(nodes, nodes->list[at].name);
}

/* The kind of the node at a place, if that is inside an element. */
static inline enum kind kind_inside(const struct nodes *nodes, size_t at, size_t element) {
    return at < nodes->list[element].end ? nodes->list[at].kind : NO_NODE;
}

/* The kind of the sibling that follows a node. */
static inline enum kind kind_after(const struct nodes *nodes, size_t at) {
    return kind_inside(nodes, nodes->list[at].end, nodes->list[at].parent);
}

static inline bool has_children(const struct nodes *nodes, size_t at) {
    return nodes->list[at].end > at + 1;
}

#endif

#include "html_names.h"

#include <stdlib.h>
#include <string.h>
#include <strings.h>

#define HAS(names, name) has(names, sizeof names / sizeof *names, name)

/* In the order of their names. */
static const struct named_class {
    const char *name;
    unsigned char class;
} CLASSES[] = {
    {"address", BLOCK_NAME},
    {"area", VOID_NAME | BLOCK_NAME},
    {"base", VOID_NAME | BLOCK_NAME},
    {"basefont", VOID_NAME},
    {"blockquote", BLOCK_NAME},
    {"body", BLOCK_NAME},
    {"br", VOID_NAME},
    {"caption", BLOCK_NAME},
    {"center", BLOCK_NAME},
    {"col", VOID_NAME | BLOCK_NAME},
    {"colgroup", BLOCK_NAME},
    {"dd", BLOCK_NAME},
    {"dir", BLOCK_NAME},
    {"div", BLOCK_NAME},
    {"dl", BLOCK_NAME},
    {"dt", BLOCK_NAME},
    {"fieldset", BLOCK_NAME},
    {"form", BLOCK_NAME},
    {"frame", VOID_NAME | BLOCK_NAME},
    {"frameset", BLOCK_NAME},
    {"h1", BLOCK_NAME},
    {"h2", BLOCK_NAME},
    {"h3", BLOCK_NAME},
    {"h4", BLOCK_NAME},
    {"h5", BLOCK_NAME},
    {"h6", BLOCK_NAME},
    {"head", BLOCK_NAME},
    {"hr", VOID_NAME | BLOCK_NAME},
    {"html", BLOCK_NAME},
    {"img", VOID_NAME},
    {"input", VOID_NAME},
    {"isindex", VOID_NAME | BLOCK_NAME},
    {"legend", BLOCK_NAME},
    {"li", BLOCK_NAME},
    {"link", VOID_NAME | BLOCK_NAME},
    {"menu", BLOCK_NAME},
    {"meta", VOID_NAME | BLOCK_NAME},
    {"noframes", BLOCK_NAME},
    {"noscript", BLOCK_NAME},
    {"ol", BLOCK_NAME},
    {"optgroup", BLOCK_NAME},
    {"option", BLOCK_NAME},
    {"p", BLOCK_NAME},
    {"param", VOID_NAME | BLOCK_NAME},
    {"pre", BLOCK_NAME},
    {"script", RAW_NAME},
    {"style", BLOCK_NAME | RAW_NAME},
    {"table", BLOCK_NAME},
    {"tbody", BLOCK_NAME},
    {"td", BLOCK_NAME},
    {"tfoot", BLOCK_NAME},
    {"th", BLOCK_NAME},
    {"thead", BLOCK_NAME},
    {"title", BLOCK_NAME},
    {"tr", BLOCK_NAME},
    {"ul", BLOCK_NAME},
};

static const char *const BOOLEANS[] = {
    "checked", "compact",  "declare",  "defer",  "disabled", "ismap",    "multiple",
    "nohref",  "noresize", "noshade", "nowrap", "readonly", "selected",
};

static const char *const URIS[] = {
    "action", "background", "cite",    "classid", "codebase", "data",
    "href",   "longdesc",   "profile", "src",     "usemap",
};

bool same_name(struct text one, const char *other) {
    return one.length == strlen(other) && strncasecmp(one.bytes, other, one.length) == 0;
}

static bool has(const char *const *names, size_t count, struct text name) {
    for (size_t at = 0; at < count; at++)
        if (same_name(name, names[at]))
            return true;
    return false;
}

/* The order of a name and the one of a class. */
static int compare(const void *name, const void *class) {
    const struct text *one = name;
    const char *other = ((const struct named_class *)class)->name;
    int order = strncasecmp(one->bytes, other, one->length);
    return order != 0 ? order : -(one->length < strlen(other));
}

unsigned char html_class(struct text name) {
    const struct named_class *found = bsearch(&name, CLASSES, sizeof CLASSES / sizeof *CLASSES,
                                              sizeof *CLASSES, compare);
    return found ? found->class : 0;
}

bool is_boolean_name(struct text name) {
    return HAS(BOOLEANS, name);
}

bool is_uri_name(struct text element, struct text name) {
    return HAS(URIS, name) || (same_name(name, "name") && same_name(element, "a"));
}

#include "plain_pyx.h"

#include <string.h>

#include "blocks.h"
#include "plain.h"

/* What is put between two questions whether there is room, and the longest name. */
enum { SLACK = 1024, LONGEST_NAME = 256, LONGEST_RUN = 512 };

struct converter {
    struct elements *elements;
    const char *end;   /* of the lines that were read; a block of zeros is after them */
    const char *limit; /* of the room, with some slack after it */
};

/* Where the next line stands, and where it goes. */
struct place {
    const char *at;
    char *made;
    unsigned long lines; /* that were converted */
};

/* Puts a text of at most eight bytes: the place after it. */
static inline char *put_short(char *made, const char *text) {
    size_t length = strlen(text);
    memcpy(made, text, length);
    return made + length;
}

/* Puts what a byte is written as that is not itself: the place after it, or NULL where it
 * is not plain. */
static char *put_reference(char *made, char byte, bool is_value) {
    switch (byte) {
    case '&': return put_short(made, "&amp;");
    case '<': return put_short(made, "&lt;");
    case '>': return put_short(made, "&gt;");
    case '"': return put_short(made, "&quot;");
    case '\r': return put_short(made, "&#13;");
    case '\t': return put_short(made, is_value ? "&#9;" : "\t");
    case '\n': return put_short(made, is_value ? "&#10;" : "\n");
    case '\\': return put_short(made, "\\");
    default: return NULL;
    }
}

/* Converts an escape: the place after it, or NULL. */
static const char *convert_escape(const char *at, char **made, bool is_value) {
    static const char MEANINGS[256] = {['n'] = '\n', ['t'] = '\t', ['r'] = '\r', ['\\'] = '\\'};
    char *after = put_reference(*made, MEANINGS[(unsigned char)at[1]], is_value);
    if (!after)
        return NULL;
    *made = after;
    return at + 2;
}

/* Converts one character that is special, or more beyond ASCII: the place after it, or NULL
 * where it is not plain. */
static const char *convert_special(const struct converter *to, const char *at, char **made,
                                   bool is_value) {
    if (*at == '\\')
        return convert_escape(at, made, is_value);
    if ((unsigned char)*at >= 0x80) {
        size_t left = (size_t)(to->end - at);
        const char *after = copy_beyond(at, left < LONGEST_RUN ? left : LONGEST_RUN, made);
        return after > at ? after : NULL;
    }
    char *after = *at < ' ' ? NULL : put_reference(*made, *at, is_value);
    if (!after)
        return NULL;
    *made = after;
    return at + 1;
}

/* Each of these converts what begins at a place, and moves that. False: it is not plain, or
 * not all of it was read. */

/* A text to the end of its line. */
static inline bool convert_data(const struct converter *to, struct place *place, bool is_value) {
    const char *at = place->at;
    char *made = place->made;
    while (made < to->limit) {
        unsigned special = find_special(at, '&', '<', '>', is_value ? '"' : '&');
        memcpy(made, at, BLOCK);
        if (!special) {
            at += BLOCK;
            made += BLOCK;
            continue;
        }
        at += __builtin_ctz(special);
        made += __builtin_ctz(special);
        if (*at == '\n') {
            *place = (struct place){at + 1, made, place->lines + 1};
            return true;
        }
        at = convert_special(to, at, &made, is_value);
        if (!at)
            return false;
    }
    return false;
}

/* Whether the prefix of a name is bound, if it has one. */
static bool is_bound(const struct converter *to, const struct plain_name *name) {
    struct text prefix = {name->bytes, name->prefix};
    return name->prefix == 0 || scopes_find(&to->elements->scopes, prefix);
}

static void put_name(struct place *place, const char *bytes, size_t length) {
    copy_short(place->made, bytes, length);
    place->made += length;
}

/* An `A` line. */
static bool convert_attribute(const struct converter *to, struct place *place,
                              struct plain_names *names, bool *has_prefix) {
    struct plain_name name;
    const char *after = read_name(place->at + 1, &name);
    if (name.length == 0 || name.length > LONGEST_NAME || *after != ' '
        || is_of_declaration(&name) || !is_bound(to, &name) || !add_name(names, &name))
        return false;
    if (name.prefix > 0 && *has_prefix) /* of two the namespaces have to be compared */
        return false;
    *has_prefix |= name.prefix > 0;
    *place->made++ = ' ';
    put_name(place, name.bytes, name.length);
    place->made = put_short(place->made, "=\"");
    place->at = after + 1;
    if (!convert_data(to, place, true))
        return false;
    *place->made++ = '"';
    return true;
}

/* Whether a `)` line of this name comes next. */
static bool is_end(const struct converter *to, const char *at, struct text name) {
    return (size_t)(to->end - at) > name.length + 1 && at[0] == ')' && at[name.length + 1] == '\n'
        && memcmp(at + 1, name.bytes, name.length) == 0;
}

/* A `(` line with the `A` lines that follow it, and the `)` line of an empty element. */
static bool convert_start(const struct converter *to, struct place *place) {
    struct plain_name name;
    struct plain_names names = {.count = 0};
    bool has_prefix = false;
    const char *after = read_name(place->at + 1, &name);
    if (name.length == 0 || name.length > LONGEST_NAME || *after != '\n' || !is_bound(to, &name))
        return false;
    *place->made++ = '<';
    put_name(place, name.bytes, name.length);
    place->at = after + 1;
    place->lines++;
    while (*place->at == 'A')
        if (place->made >= to->limit || !convert_attribute(to, place, &names, &has_prefix))
            return false;
    if (place->at == to->end)
        return false;
    struct text text = {name.bytes, name.length};
    if (*place->at != ')') {
        *place->made++ = '>';
        return opened_push(&to->elements->opened, text);
    }
    if (!is_end(to, place->at, text))
        return false;
    place->made = put_short(place->made, "/>");
    place->at += name.length + 2;
    place->lines++;
    return true;
}

/* A `)` line of an element that is not empty. */
static bool convert_end(const struct converter *to, struct place *place) {
    struct opened *opened = &to->elements->opened;
    struct text name = opened_last(opened);
    if (name.length > LONGEST_NAME || !is_end(to, place->at, name))
        return false;
    place->made = put_short(place->made, "</");
    put_name(place, name.bytes, name.length);
    *place->made++ = '>';
    place->at += name.length + 2;
    place->lines++;
    scopes_leave(&to->elements->scopes, opened->depth);
    opened_pop(opened);
    return true;
}

static bool convert_line(const struct converter *to, struct place *place) {
    switch (*place->at) {
    case '(': return convert_start(to, place);
    case ')': return convert_end(to, place);
    case '-': place->at++; return convert_data(to, place, false);
    default: return false;
    }
}

void convert_plain_pyx(struct lines *lines, struct elements *elements) {
    struct output *out = elements->target->out;
    const char *from = lines->bytes + lines->from;
    struct converter to = {elements, lines->bytes + lines->to, NULL};
    struct place done = {from, NULL, 0}, next;
    if (elements->start > 0 || elements->target->nodes || lines->is_inside)
        return;
    to.limit = out->bytes + OUTPUT_ROOM - SLACK;
    done.made = out->bytes + out->used;
    while (elements->opened.depth > 0 && !out->fault) {
        output_took(out, done.made);
        done.made = output_room(out, OUTPUT_ROOM / 2);
        next = done;
        if (!convert_line(&to, &next))
            break;
        done = next;
    }
    output_took(out, done.made);
    lines->from += (size_t)(done.at - from);
    lines->number += done.lines;
    if (done.lines > 0)
        lines->searched = 0;
}

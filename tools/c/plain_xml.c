#include "plain_xml.h"

#include <errno.h>
#include <stdlib.h>
#include <string.h>
#include <strings.h>
#include <sys/stat.h>
#include <unistd.h>

#include "blocks.h"
#include "declaration.h"
#include "namespaces.h"
#include "opened.h"
#include "plain.h"
#include "references.h"

/* Lines are at most twice as long as what they are made of, and two bytes for a text. */
enum { ROOM = OUTPUT_ROOM / 4 - 2 * BLOCK };

struct converter {
    int file;
    bool is_at_end;
    char *bytes;      /* that were read, with a block of zeros after them */
    char *end;        /* of them */
    const char *at;   /* what is not converted yet */
    char *made;       /* where the next line goes */
    const char *stop; /* what the latest token could not be converted for */
    bool in_text, in_section, has_root;
    struct opened opened;
    struct namespaces namespaces;
    struct output *out;
};

/* A start tag that is read. */
struct tag {
    struct plain_name name;
    struct plain_names attributes;
    const char *values[MOST_ATTRIBUTES];
    bool has_namespaces; /* there is a prefix or a declaration */
};

/* Notes that a token can't be converted because of what is here: no place. */
static const char *stop_at(struct converter *to, const char *at) {
    to->stop = at;
    return NULL;
}

/* Copies one character of data that is special, or more beyond ASCII: the place after it,
 * the same where it is no data. */
static const char *copy_special(const struct converter *to, const char *at, char **made,
                                bool is_value) {
    size_t left = (size_t)(to->end - at);
    switch (*at) {
    case '\\':
        *made = put_character(*made, '\\');
        return at + 1;
    case '\n':
    case '\t':
        *made = put_character(*made, is_value ? ' ' : *at);
        return at + 1;
    case '\r': /* may be half a line end */
        if (left < 2)
            return at;
        *made = put_character(*made, is_value ? ' ' : '\n');
        return at + (at[1] == '\n' ? 2 : 1);
    default:
        return copy_beyond(at, left, made);
    }
}

/* Copies data with its escapes up to one of three bytes or to what is no data: that place.
 * Line ends become line feeds, and in a value all white space becomes spaces. */
static inline const char *copy_data(const struct converter *to, const char *at, char **made,
                                    const char *stops, bool is_value) {
    char *place = *made;
    for (;;) {
        unsigned special = find_special(at, '\\', stops[0], stops[1], stops[2]);
        memcpy(place, at, BLOCK);
        if (!special) {
            at += BLOCK;
            place += BLOCK;
            continue;
        }
        at += __builtin_ctz(special);
        place += __builtin_ctz(special);
        const char *after = copy_special(to, at, &place, is_value);
        if (after == at)
            break;
        at = after;
    }
    *made = place;
    return at;
}

static char *put_name(char *made, const char *name, size_t length) {
    copy_short(made, name, length);
    return made + length;
}

/* Begins a line, and ends the text before it: where it goes on. */
static char *begin_line(const struct converter *to, char kind) {
    char *made = to->made;
    if (to->in_text)
        *made++ = '\n';
    *made++ = kind;
    return made;
}

/* Ends the lines of a token, of which the last line feed is put: the place after it. */
static const char *end_lines(struct converter *to, char *made, const char *after) {
    to->in_text = false;
    to->made = made;
    return after;
}

/* Each of these converts what begins here: the place after it, or NULL where that can't be
 * done or not all of it was read. */

/* Text, as far as that goes. */
static const char *convert_text(struct converter *to) {
    const char *at = to->at;
    char *made = to->in_text ? to->made : begin_line(to, '-');
    for (;;) {
        at = copy_data(to, at, &made, to->in_section ? "]]]" : "<&]", false);
        const char *next = NULL;
        if (*at == '&' && !to->in_section)
            next = convert_reference(at, &made);
        if (*at == ']' && to->end - at > 2 && !(at[1] == ']' && at[2] == '>')) {
            *made++ = ']';
            next = at + 1;
        }
        if (!next)
            break;
        at = next;
    }
    if (at == to->at)
        return stop_at(to, at);
    to->in_text = true;
    to->made = made;
    return at;
}

static const char *convert_comment(struct converter *to) {
    const char *at = to->at + 4;
    char *made = begin_line(to, 'C');
    for (;;) {
        at = copy_data(to, at, &made, "---", false);
        if (*at != '-' || to->end - at < 3)
            return stop_at(to, at);
        if (at[1] == '-')
            break;
        *made++ = *at++;
    }
    if (at[2] != '>')
        return stop_at(to, at);
    *made++ = '\n';
    return end_lines(to, made, at + 3);
}

static const char *convert_instruction(struct converter *to) {
    struct plain_name target;
    const char *at = read_name(to->at + 2, &target);
    bool is_xml = target.length == 3 && strncasecmp(target.bytes, "xml", 3) == 0;
    bool has_end = is_a(at, IS_SPACE) || (at[0] == '?' && at[1] == '>');
    if (target.length == 0 || target.prefix > 0 || is_xml || !has_end)
        return stop_at(to, at);
    char *made = put_name(begin_line(to, '?'), target.bytes, target.length);
    *made++ = ' ';
    at = after_spaces(at);
    for (;;) {
        at = copy_data(to, at, &made, "???", false);
        if (*at != '?' || to->end - at < 2)
            return stop_at(to, at);
        if (at[1] == '>')
            break;
        *made++ = *at++;
    }
    *made++ = '\n';
    return end_lines(to, made, at + 2);
}

static const char *convert_end(struct converter *to) {
    const char *at = to->at + 2;
    if (to->opened.depth == 0)
        return stop_at(to, at);
    struct text name = opened_last(&to->opened);
    if ((size_t)(to->end - at) <= name.length)
        return stop_at(to, to->end);
    if (memcmp(at, name.bytes, name.length) != 0)
        return stop_at(to, at);
    at = after_spaces(at + name.length);
    if (*at != '>')
        return stop_at(to, at);
    char *made = put_name(begin_line(to, ')'), name.bytes, name.length);
    *made++ = '\n';
    namespaces_leave(&to->namespaces, to->opened.depth);
    opened_pop(&to->opened);
    return end_lines(to, made, at + 1);
}

/* The value of an attribute from its quote on. */
static const char *convert_value(struct converter *to, const char *at, char **made) {
    char quote = *at, stops[] = {'<', '&', quote};
    if (quote != '"' && quote != '\'')
        return stop_at(to, at);
    at++;
    for (;;) {
        at = copy_data(to, at, made, stops, true);
        if (*at == quote)
            return at + 1;
        const char *next = *at == '&' ? convert_reference(at, made) : NULL;
        if (!next)
            return stop_at(to, at);
        at = next;
    }
}

static const char *convert_attribute(struct converter *to, struct tag *tag, const char *at,
                                     char **made) {
    struct plain_name name;
    at = read_name(at, &name);
    const char *equals = after_spaces(at);
    if (*equals != '=' || !add_name(&tag->attributes, &name))
        return stop_at(to, equals);
    tag->has_namespaces |= name.prefix > 0 || is_of_declaration(&name);
    *(*made)++ = 'A';
    *made = put_name(*made, name.bytes, name.length);
    *(*made)++ = ' ';
    const char *value = after_spaces(equals + 1);
    tag->values[tag->attributes.count - 1] = value + 1;
    at = convert_value(to, value, made);
    *(*made)++ = '\n';
    return at;
}

/* Puts a zero after a text that was read, in the place of a byte that nothing asks for. */
static const char *ended(struct converter *to, const char *bytes, size_t length) {
    to->bytes[bytes - to->bytes + (ptrdiff_t)length] = 0;
    return bytes;
}

/* Tests a tag that was read by the rules of namespaces. What it declares is asked for as it
 * stands there, so that it may hold nothing that means something else. */
static bool are_namespaces_right(struct converter *to, const struct tag *tag) {
    const char *texts[2 * MOST_ATTRIBUTES + 1] = {NULL};
    for (size_t at = 0; at < tag->attributes.count; at++) {
        const struct plain_name *name = &tag->attributes.list[at];
        const char *value = tag->values[at];
        size_t length = strcspn(value, value[-1] == '"' ? "\"" : "'");
        texts[2 * at] = ended(to, name->bytes, name->length);
        texts[2 * at + 1] = ended(to, value, length);
        if (is_of_declaration(name) && strpbrk(value, "&\\\t\r\n"))
            return false;
    }
    const char *name = ended(to, tag->name.bytes, tag->name.length);
    size_t depth = to->opened.depth + 1;
    return namespaces_enter(&to->namespaces, name, texts, depth) == XML_ERROR_NONE;
}

/* The end of a start tag, or of an empty element. */
static const char *finish_tag(struct converter *to, const struct tag *tag, const char *at,
                              char *made) {
    struct text name = {tag->name.bytes, tag->name.length};
    bool is_empty = *at == '/';
    if (at[is_empty] != '>')
        return stop_at(to, at);
    if (tag->has_namespaces && !are_namespaces_right(to, tag))
        return stop_at(to, to->at);
    at += is_empty + 1;
    to->has_root = true;
    if (is_empty) {
        namespaces_leave(&to->namespaces, to->opened.depth + 1);
        *made++ = ')';
        made = put_name(made, name.bytes, name.length);
        *made++ = '\n';
    } else if (!opened_push(&to->opened, name)) {
        return stop_at(to, to->at);
    }
    return end_lines(to, made, at);
}

static const char *convert_start(struct converter *to) {
    struct tag tag;
    const char *at = read_name(to->at + 1, &tag.name);
    if (tag.name.length == 0 || (to->opened.depth == 0 && to->has_root))
        return stop_at(to, at);
    tag.has_namespaces = tag.name.prefix > 0 || is_of_declaration(&tag.name);
    tag.attributes.count = 0;
    char *made = put_name(begin_line(to, '('), tag.name.bytes, tag.name.length);
    *made++ = '\n';
    while (*at != '>' && *at != '/') {
        const char *after = after_spaces(at);
        if (after == at)
            return stop_at(to, at);
        at = after;
        if (is_a(at, STARTS_NAME))
            at = convert_attribute(to, &tag, at, &made);
        if (!at)
            return NULL;
    }
    return finish_tag(to, &tag, at, made);
}

/* Whether these bytes come next. */
static bool is_next(const struct converter *to, const char *bytes) {
    return strncmp(to->at, bytes, strlen(bytes)) == 0;
}

/* The next token. */
static const char *convert_next(struct converter *to) {
    const char *at = to->at;
    if (to->in_section && is_next(to, "]]>")) {
        to->in_section = false;
        return at + 3;
    }
    if (to->in_section || (*at != '<' && to->opened.depth > 0))
        return convert_text(to);
    if (*at != '<')
        return is_a(at, IS_SPACE) ? after_spaces(at) : stop_at(to, at);
    if (at[1] == '/')
        return convert_end(to);
    if (at[1] == '?')
        return convert_instruction(to);
    if (at[1] != '!')
        return convert_start(to);
    if (is_next(to, "<!--"))
        return convert_comment(to);
    if (to->opened.depth == 0 || !is_next(to, "<![CDATA["))
        return stop_at(to, at);
    to->in_section = true;
    return at + 9;
}

/* Reads as much as there is room for, and makes room for what that becomes. False: there
 * is none, or it can't be read or written. */
static bool read_more(struct converter *to) {
    size_t left = (size_t)(to->end - to->at);
    ssize_t got = -1;
    memmove(to->bytes, to->at, left);
    to->at = to->bytes;
    to->end = to->bytes + left;
    while (left < ROOM && (got = read(to->file, to->end, ROOM - left)) < 0 && errno == EINTR)
        continue;
    if (got < 0)
        return false;
    to->is_at_end = got == 0;
    to->end += got;
    memset(to->end, 0, BLOCK);
    output_took(to->out, to->made);
    to->made = output_room(to->out, OUTPUT_ROOM / 2);
    return !to->out->fault;
}

/* Converts all tokens. False: there is one that can't be converted. */
static bool convert_all(struct converter *to) {
    if (!read_more(to) || !(to->at = after_plain_head(to->at)))
        return false;
    for (;;) {
        const char *after = convert_next(to);
        if (after) {
            to->at = after;
            continue;
        }
        if (to->is_at_end && to->at == to->end)
            return to->opened.depth == 0 && to->has_root;
        bool was_read = to->end - to->stop > LONGEST_REFERENCE;
        if (was_read || to->is_at_end || !read_more(to))
            return false;
    }
}

bool convert_plain_xml(int file, struct output *out) {
    struct stat status;
    struct converter to = {.file = file, .out = out, .made = out->bytes};
    off_t from = lseek(file, 0, SEEK_CUR);
    if (from < 0 || fstat(file, &status) != 0 || !S_ISREG(status.st_mode))
        return false;
    to.bytes = malloc(ROOM + BLOCK);
    to.at = to.end = to.bytes;
    bool is_open = namespaces_open(&to.namespaces) && to.bytes;
    bool is_whole = is_open && convert_all(&to);
    output_took(out, to.made);
    if (!is_whole) {
        output_restart(out);
        lseek(file, from, SEEK_SET);
    }
    namespaces_close(&to.namespaces);
    opened_close(&to.opened);
    free(to.bytes);
    return is_whole;
}

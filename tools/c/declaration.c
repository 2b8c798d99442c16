#include "declaration.h"

#include <string.h>
#include <strings.h>

#include "plain.h"
#include "scopes.h"

/* A head as units: bytes, or pairs of bytes in UTF-16. */
struct units {
    unsigned char *bytes;
    size_t count;
    size_t width;
    bool is_big; /* the greater byte comes first */
};

const char *wide_encoding(const char *head, size_t length) {
    if (length < 2)
        return NULL;
    if (memcmp(head, "\xff\xfe", 2) == 0 || memcmp(head, "<\0", 2) == 0)
        return "UTF-16LE";
    if (memcmp(head, "\xfe\xff", 2) == 0 || memcmp(head, "\0<", 2) == 0)
        return "UTF-16BE";
    return NULL;
}

/* The unit at a place, or 0 past the end. */
static unsigned unit(const struct units *units, size_t at) {
    if (at >= units->count)
        return 0;
    const unsigned char *bytes = units->bytes + at * units->width;
    if (units->width == 1)
        return bytes[0];
    return units->is_big ? bytes[0] * 256u + bytes[1] : bytes[1] * 256u + bytes[0];
}

static bool is_space(unsigned unit) {
    return unit == ' ' || unit == '\t' || unit == '\r' || unit == '\n';
}

/* Each of these answers the place after what it looks for, or NOWHERE. */
static size_t after_word(const struct units *units, size_t at, const char *word) {
    for (; *word; word++, at++)
        if (unit(units, at) != (unsigned char)*word)
            return NOWHERE;
    return at;
}

static size_t after_blanks(const struct units *units, size_t at) {
    while (is_space(unit(units, at)))
        at++;
    return at;
}

static size_t after_quoted(const struct units *units, size_t at) {
    unsigned quote = unit(units, at);
    if (quote != '"' && quote != '\'')
        return NOWHERE;
    for (at++; at < units->count; at++)
        if (unit(units, at) == quote)
            return at + 1;
    return NOWHERE;
}

/* White space, the name, an equals sign and a quoted text; from where on that stands, with its
 * quote. */
static size_t after_attribute(const struct units *units, size_t at, const char *name,
                              size_t *value) {
    size_t end = after_blanks(units, at);
    if (end == at)
        return NOWHERE;
    end = after_word(units, end, name);
    if (end == NOWHERE)
        return NOWHERE;
    end = after_word(units, after_blanks(units, end), "=");
    if (end == NOWHERE)
        return NOWHERE;
    *value = after_blanks(units, end);
    return after_quoted(units, *value);
}

static size_t after_mark(const struct units *units) {
    if (units->width == 2)
        return unit(units, 0) == 0xfeff;
    size_t end = after_word(units, 0, "\xef\xbb\xbf");
    return end == NOWHERE ? 0 : end;
}

static bool is_line_end(const struct units *units, size_t at) {
    unsigned here = unit(units, at);
    return here == '\n' || (here == '\r' && unit(units, at + 1) != '\n');
}

/* How many line ends there are between two places, and how much comes after the last. */
static size_t line_ends(const struct units *units, size_t from, size_t to, size_t *last) {
    size_t count = 0;
    *last = to - from;
    for (size_t at = from; at < to; at++) {
        if (is_line_end(units, at)) {
            count++;
            *last = to - at - 1;
        }
    }
    return count;
}

/* Puts a text of ASCII in the place of the units from `from` to `to`. */
static void replace(struct units *units, size_t from, size_t to, const char *text, size_t size) {
    size_t width = units->width;
    memmove(units->bytes + (from + size) * width, units->bytes + to * width,
            (units->count - to) * width);
    for (size_t at = 0; at < size; at++) {
        unsigned char *bytes = units->bytes + (from + at) * width;
        memset(bytes, 0, width);
        bytes[units->is_big ? width - 1 : 0] = (unsigned char)text[at];
    }
    units->count = units->count - (to - from) + size;
}

/* Puts a text in the place of a part of the declaration that ends at `end`. */
static struct moved change(struct units *units, size_t from, size_t to, const char *text,
                           size_t end) {
    size_t size = strlen(text), column, last;
    size_t line = 1 + line_ends(units, 0, from, &column);
    bool is_last = line_ends(units, to, end, &last) == 0;
    long columns = is_last ? (long)size - (long)(to - from) : 0;
    replace(units, from, to, text, size);
    return (struct moved){line, column, columns};
}

/* Makes a document stand alone whose XML declaration begins here, unless that is none or has
 * a fault. */
static struct moved change_declaration(struct units *units, size_t start) {
    const struct moved none = {1, 0, 0};
    size_t value = NOWHERE, kept = after_attribute(units, start, "version", &value);
    if (kept == NOWHERE)
        return none;
    size_t encoding = after_attribute(units, kept, "encoding", &value);
    kept = encoding == NOWHERE ? kept : encoding;
    size_t alone = after_attribute(units, kept, "standalone", &value);
    size_t end = after_word(units, after_blanks(units, alone == NOWHERE ? kept : alone), "?>");
    if (end == NOWHERE)
        return none;
    if (alone == NOWHERE)
        return change(units, kept, kept, " standalone=\"yes\"", end);
    if (after_word(units, value + 1, "no") != alone - 1)
        return none;
    return change(units, value + 1, alone - 1, "yes", end);
}

struct moved standing_alone(char *head, size_t *length) {
    static const char MADE[] = "<?xml version=\"1.0\" standalone=\"yes\"?>";
    const char *wide = wide_encoding(head, *length);
    struct units units = {(unsigned char *)head, *length, 1, false};
    if (wide)
        units = (struct units){units.bytes, *length / 2, 2, strcmp(wide, "UTF-16BE") == 0};
    size_t odd = *length - units.count * units.width, mark = after_mark(&units);
    char rest = odd ? head[*length - 1] : 0;
    struct moved moved;
    size_t start = after_word(&units, mark, "<?xml");
    if (start != NOWHERE && is_space(unit(&units, start)))
        moved = change_declaration(&units, start);
    else
        moved = change(&units, mark, mark, MADE, mark);
    *length = units.count * units.width + odd;
    if (odd)
        head[*length - 1] = rest;
    return moved;
}

typedef int comparison(const char *, const char *, size_t);

/* Passes over an attribute of the XML declaration with this value, or over nothing. */
static const char *after_given(const char *at, const char *name, const char *value,
                               comparison *compare) {
    const char *after = after_spaces(at);
    if (after == at || strncmp(after, name, strlen(name)) != 0)
        return at;
    after = after_spaces(after + strlen(name));
    if (*after != '=')
        return at;
    after = after_spaces(after + 1);
    bool is_quoted = *after == '"' || *after == '\'';
    size_t length = strlen(value);
    if (!is_quoted || compare(after + 1, value, length) != 0 || after[length + 1] != *after)
        return at;
    return after + length + 2;
}

const char *after_plain_head(const char *head) {
    head += strncmp(head, "\xef\xbb\xbf", 3) == 0 ? 3 : 0;
    const char *version = head + 5;
    if (strncmp(head, "<?xml", 5) != 0 || !is_a(version, IS_SPACE))
        return head;
    const char *at = after_given(version, "version", "1.0", strncmp);
    if (at == version)
        return NULL;
    at = after_given(at, "encoding", "UTF-8", strncasecmp);
    const char *alone = after_given(at, "standalone", "yes", strncmp);
    at = after_spaces(alone > at ? alone : after_given(at, "standalone", "no", strncmp));
    return at[0] == '?' && at[1] == '>' ? at + 2 : NULL;
}

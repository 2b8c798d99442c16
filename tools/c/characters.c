#include "characters.h"

#include <string.h>

#include "names.h"

enum { PART = OUTPUT_ROOM / 16 };

bool unescape(struct text *text, char *bytes) {
    const char *found = memchr(bytes, '\\', text->length);
    if (!found)
        return true;
    size_t made = (size_t)(found - bytes);
    for (size_t at = made; at < text->length; at++) {
        char byte = bytes[at];
        if (byte == '\\') {
            byte = ++at < text->length ? bytes[at] : 0;
            const char *kind = byte ? strchr("ntr\\", byte) : NULL;
            if (!kind)
                return false;
            byte = "\n\t\r\\"[strchr("ntr\\", byte) - "ntr\\"];
        }
        bytes[made++] = byte;
    }
    text->length = made;
    return true;
}

static bool is_control(unsigned char byte) {
    return byte < ' ' && byte != '\t' && byte != '\n' && byte != '\r';
}

bool is_allowed(struct text text) {
    for (size_t at = 0; at < text.length; at++)
        if (is_control((unsigned char)text.bytes[at])
            || is_no_character(text.bytes + at, text.length - at))
            return false;
    return true;
}

/* What a byte is written as where that is not itself; a value has more such than a text. */
static const char *byte_reference(char byte, bool is_value) {
    switch (byte) {
    case '&': return "&amp;";
    case '<': return "&lt;";
    case '>': return "&gt;";
    case '\r': return "&#13;";
    case '"': return is_value ? "&quot;" : NULL;
    case '\t': return is_value ? "&#9;" : NULL;
    case '\n': return is_value ? "&#10;" : NULL;
    default: return NULL;
    }
}

const char *reference(struct text text, bool is_value, size_t *read) {
    bool is_mark = text.length >= 3 && memcmp(text.bytes, "\xef\xbb\xbf", 3) == 0;
    *read = is_mark ? 3 : 1;
    return is_mark ? "&#xFEFF;" : byte_reference(*text.bytes, is_value);
}

/* Writes the byte at a place that may need a reference or be none of XML's: how many bytes
 * of the text that was, 0 where it is none. */
static size_t put_special(char **to, const char *at, size_t left, bool is_value) {
    size_t read;
    const char *made = reference((struct text){at, left}, is_value, &read);
    if (is_control((unsigned char)*at) || is_no_character(at, left))
        return 0;
    if (!made) {
        *(*to)++ = *at;
        return 1;
    }
    size_t length = strlen(made);
    memcpy(*to, made, length);
    *to += length;
    return read;
}

/* Whether a byte may be more than itself. */
static bool is_special(char byte) {
    static const bool SPECIAL[256] = {
        [0] = 1, [1] = 1, [2] = 1, [3] = 1, [4] = 1, [5] = 1, [6] = 1, [7] = 1, [8] = 1,
        [9] = 1, [10] = 1, [11] = 1, [12] = 1, [13] = 1, [14] = 1, [15] = 1, [16] = 1,
        [17] = 1, [18] = 1, [19] = 1, [20] = 1, [21] = 1, [22] = 1, [23] = 1, [24] = 1,
        [25] = 1, [26] = 1, [27] = 1, [28] = 1, [29] = 1, [30] = 1, [31] = 1,
        ['&'] = 1, ['<'] = 1, ['>'] = 1, ['"'] = 1, [0xef] = 1,
    };
    return SPECIAL[(unsigned char)byte];
}

size_t plain_length(struct text text, size_t from) {
    while (from < text.length && !is_special(text.bytes[from]))
        from++;
    return from;
}

bool put_text(struct output *out, struct text text, bool is_value) {
    const char *at = text.bytes, *end = text.bytes + text.length;
    while (at < end) {
        const char *stop = end - at > PART ? at + PART : end;
        char *to = output_room(out, PART * 6);
        while (at < stop) {
            if (!is_special(*at)) {
                *to++ = *at++;
                continue;
            }
            size_t read = put_special(&to, at, (size_t)(end - at), is_value);
            if (read == 0)
                return false;
            at += read;
        }
        output_took(out, to);
    }
    return true;
}

bool is_blank(struct text text) {
    for (size_t at = 0; at < text.length; at++)
        if (!strchr(" \t\r\n", text.bytes[at]) || !text.bytes[at])
            return false;
    return true;
}

bool has_pair(struct text text, char first, char second) {
    const char *at = text.bytes, *end = text.bytes + text.length;
    while (at < end && (at = memchr(at, first, (size_t)(end - at)))) {
        if (++at < end && *at == second)
            return true;
    }
    return false;
}

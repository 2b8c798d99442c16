#include "references.h"

#include <stdbool.h>
#include <stddef.h>
#include <string.h>

/* The number of a character reference from after its `&#` on: the place after it, or NULL. */
static const char *read_number(const char *at, unsigned long *code) {
    unsigned base = *at == 'x' ? 16 : 10;
    const char *digits = base == 16 ? at + 1 : at, *after = digits;
    *code = 0;
    for (; after - digits < 8; after++) {
        unsigned byte = (unsigned char)*after, lower = byte | 0x20;
        bool is_letter = base == 16 && lower >= 'a' && lower <= 'f';
        if (!is_letter && (byte < '0' || byte > '9'))
            break;
        *code = *code * base + (is_letter ? lower - 'a' + 10 : byte - '0');
    }
    return after > digits && *after == ';' ? after + 1 : NULL;
}

/* Puts the character of a number. False: XML does not have it. */
static bool put_code(char **made, unsigned long code) {
    if (code >= 0x110000 || (code >= 0xd800 && code < 0xe000) || code == 0xfffe || code == 0xffff)
        return false;
    if (code < ' ' && code != '\t' && code != '\n' && code != '\r')
        return false;
    if (code < 0x80) {
        *made = put_character(*made, (char)code);
        return true;
    }
    int more = code < 0x800 ? 1 : code < 0x10000 ? 2 : 3;
    *(*made)++ = (char)((more == 1 ? 0xc0 : more == 2 ? 0xe0 : 0xf0) | code >> 6 * more);
    while (more-- > 0)
        *(*made)++ = (char)(0x80 | (code >> 6 * more & 0x3f));
    return true;
}

const char *convert_reference(const char *at, char **made) {
    static const struct {
        char name[7], character;
        unsigned char length;
    } ENTITIES[] = {
        {"&amp;", '&', 5},   {"&lt;", '<', 4},    {"&gt;", '>', 4},
        {"&quot;", '"', 6}, {"&apos;", '\'', 6},
    };
    if (at[1] == '#') {
        unsigned long code;
        const char *after = read_number(at + 2, &code);
        return after && put_code(made, code) ? after : NULL;
    }
    for (size_t row = 0; row < sizeof ENTITIES / sizeof *ENTITIES; row++) {
        if (memcmp(at, ENTITIES[row].name, ENTITIES[row].length) == 0) {
            *(*made)++ = ENTITIES[row].character;
            return at + ENTITIES[row].length;
        }
    }
    return NULL;
}

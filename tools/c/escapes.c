#include "escapes.h"

#include <stdbool.h>
#include <stdint.h>
#include <string.h>

enum { PART = OUTPUT_ROOM / 8 };

/* Whether one of eight bytes may need an escape: one below a space, or a backslash. It may
 * be wrong about bytes that need none, and never misses one. */
static bool has_special(uint64_t eight) {
    const uint64_t ones = 0x0101010101010101u, high = 0x8080808080808080u;
    uint64_t slashes = eight ^ ones * '\\';
    return (((eight - ones * ' ') & ~eight) | ((slashes - ones) & ~slashes)) & high;
}

/* Copies what needs no escape, eight bytes at a time: where that stopped. */
static const char *copy_plain(const char *text, const char *end, char **to) {
    uint64_t eight;
    while (end - text >= 8) {
        memcpy(&eight, text, 8);
        if (has_special(eight))
            break;
        memcpy(*to, &eight, 8);
        *to += 8;
        text += 8;
    }
    return text;
}

void put_escaped(struct output *out, const char *text, size_t length) {
    static const char ESCAPES[256] = {['\\'] = '\\', ['\n'] = 'n', ['\t'] = 't', ['\r'] = 'r'};
    while (length > 0) {
        size_t part = length < PART ? length : PART;
        char *to = output_room(out, 2 * part);
        const char *end = text + part;
        for (text = copy_plain(text, end, &to); text < end; text++) {
            char escape = ESCAPES[(unsigned char)*text];
            if (escape)
                *to++ = '\\';
            *to++ = escape ? escape : *text;
        }
        output_took(out, to);
        length -= part;
    }
}

void put_name(struct output *out, const char *name, char after) {
    output_put(out, name, strlen(name));
    output_byte(out, after);
}

void put_data(struct output *out, const char *text) {
    put_escaped(out, text, strlen(text));
    output_byte(out, '\n');
}

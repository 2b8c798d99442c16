#include "names.h"

#include <stdint.h>
#include <string.h>

typedef unsigned char byte;

static bool continues(byte next) {
    return (next & 0xc0) == 0x80;
}

size_t character_length(const char *text, size_t left) {
    const byte *at = (const byte *)text;
    if (at[0] < 0x80)
        return 1;
    if (at[0] < 0xc2 || at[0] > 0xf4 || left < 2 || !continues(at[1]))
        return 0;
    if (at[0] < 0xe0)
        return 2;
    if (left < 3 || !continues(at[2]) || (at[0] == 0xe0 && at[1] < 0xa0)
        || (at[0] == 0xed && at[1] > 0x9f))
        return 0;
    if (at[0] < 0xf0)
        return 3;
    bool is_beyond = (at[0] == 0xf0 && at[1] < 0x90) || (at[0] == 0xf4 && at[1] > 0x8f);
    return left < 4 || !continues(at[3]) || is_beyond ? 0 : 4;
}

bool is_no_character(const char *at, size_t left) {
    return left >= 3 && memcmp(at, "\xef\xbf", 2) == 0 && (byte)at[2] >= 0xbe;
}

bool is_utf8(struct text text) {
    const byte *at = (const byte *)text.bytes, *end = at + text.length;
    while (at < end) {
        uint64_t eight;
        while (end - at >= 8) {
            memcpy(&eight, at, 8);
            if (eight & 0x8080808080808080u)
                break;
            at += 8;
        }
        if (at == end)
            return true;
        size_t length = character_length((const char *)at, (size_t)(end - at));
        if (length == 0)
            return false;
        at += length;
    }
    return true;
}

/* The character at a place, and its length; the text is UTF-8. */
static uint32_t character(const byte *at, size_t *length) {
    *length = at[0] < 0x80 ? 1 : at[0] < 0xe0 ? 2 : at[0] < 0xf0 ? 3 : 4;
    uint32_t code = *length == 1 ? at[0] : at[0] & (0xffu >> (*length + 1));
    for (size_t next = 1; next < *length; next++)
        code = code << 6 | (at[next] & 0x3f);
    return code;
}

struct range {
    uint32_t from, to;
};

static bool is_in(uint32_t code, const struct range *ranges, size_t count) {
    for (size_t at = 0; at < count; at++)
        if (code >= ranges[at].from && code <= ranges[at].to)
            return true;
    return false;
}

/* XML 1.0, 2.3: NameStartChar beyond ASCII. */
static bool starts_name(uint32_t code) {
    static const struct range STARTS[] = {
        {0xc0, 0xd6}, {0xd8, 0xf6}, {0xf8, 0x2ff},
        {0x370, 0x37d}, {0x37f, 0x1fff}, {0x200c, 0x200d}, {0x2070, 0x218f}, {0x2c00, 0x2fef},
        {0x3001, 0xd7ff}, {0xf900, 0xfdcf}, {0xfdf0, 0xfffd}, {0x10000, 0xeffff},
    };
    return is_in(code, STARTS, sizeof STARTS / sizeof *STARTS);
}

/* XML 1.0, 2.3: NameChar beyond ASCII. */
static bool continues_name(uint32_t code) {
    static const struct range MORE[] = {
        {0xb7, 0xb7}, {0x300, 0x36f}, {0x203f, 0x2040},
    };
    return starts_name(code) || is_in(code, MORE, sizeof MORE / sizeof *MORE);
}

/* Whether the character at a place may stand there in a name; how many bytes it has. */
static bool is_of_name(const byte *at, bool is_first, size_t *length) {
    enum { STARTS = 1, CONTINUES = 2, BOTH = 3 };
    static const byte ASCII[0x80] = {
        ['a' ... 'z'] = BOTH, ['A' ... 'Z'] = BOTH, ['_'] = BOTH,
        ['0' ... '9'] = CONTINUES, ['-'] = CONTINUES, ['.'] = CONTINUES,
    };
    *length = 1;
    if (at[0] < 0x80)
        return ASCII[at[0]] & (is_first ? STARTS : CONTINUES);
    uint32_t code = character(at, length);
    return is_first ? starts_name(code) : continues_name(code);
}

bool is_ncname(struct text text) {
    const byte *at = (const byte *)text.bytes, *end = at + text.length;
    bool is_name = text.length > 0;
    for (size_t length; is_name && at < end; at += length)
        is_name = is_of_name(at, at == (const byte *)text.bytes, &length);
    return is_name;
}

bool split_name(struct text text, struct text *prefix, struct text *local) {
    const char *colon = memchr(text.bytes, ':', text.length);
    size_t before = colon ? (size_t)(colon - text.bytes) : 0, skipped = colon ? before + 1 : 0;
    *prefix = (struct text){text.bytes, before};
    *local = (struct text){text.bytes + skipped, text.length - skipped};
    return colon != NULL;
}

bool is_qname(struct text text, struct text *prefix, struct text *local) {
    bool has_colon = split_name(text, prefix, local);
    return (!has_colon || is_ncname(*prefix)) && is_ncname(*local);
}

/* Prints one character of ASCII or beyond, escaped where that is needed. */
static void print_character(FILE *out, uint32_t code, char quote) {
    if (code == '\n')
        fputs("\\n", out);
    else if (code == '\r')
        fputs("\\r", out);
    else if (code == '\t')
        fputs("\\t", out);
    else if (code == '\\' || code == (unsigned char)quote)
        fprintf(out, "\\%c", (char)code);
    else if (code >= ' ' && code < 0x7f)
        fputc((int)code, out);
    else if (code < 0x100)
        fprintf(out, "\\x%02x", (unsigned)code);
    else if (code < 0x10000)
        fprintf(out, "\\u%04x", (unsigned)code);
    else
        fprintf(out, "\\U%08x", (unsigned)code);
}

void print_ascii(FILE *out, struct text text) {
    bool has_single = memchr(text.bytes, '\'', text.length) != NULL;
    bool has_double = memchr(text.bytes, '"', text.length) != NULL;
    char quote = has_single && !has_double ? '"' : '\'';
    const byte *at = (const byte *)text.bytes, *end = at + text.length;
    fputc(quote, out);
    while (at < end) {
        size_t length;
        uint32_t code = character(at, &length);
        print_character(out, code, quote);
        at += length;
    }
    fputc(quote, out);
}

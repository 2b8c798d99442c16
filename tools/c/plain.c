#include "plain.h"

#include <string.h>

#include "names.h"

const unsigned char PLAIN_CLASS[256] = {
    ['a' ... 'z'] = STARTS_NAME | IN_NAME, ['A' ... 'Z'] = STARTS_NAME | IN_NAME,
    ['_'] = STARTS_NAME | IN_NAME, ['0' ... '9'] = IN_NAME, ['-'] = IN_NAME, ['.'] = IN_NAME,
    [' '] = IS_SPACE, ['\t'] = IS_SPACE, ['\r'] = IS_SPACE, ['\n'] = IS_SPACE,
};

/* Passes over a name without a colon, or over nothing. */
static const char *after_part(const char *at) {
    if (!is_a(at, STARTS_NAME))
        return at;
    while (is_a(at, IN_NAME))
        at++;
    return at;
}

const char *read_name(const char *at, struct plain_name *name) {
    const char *after = after_part(at);
    *name = (struct plain_name){at, (size_t)(after - at), 0};
    if (*after != ':' || after == at)
        return after;
    const char *local = after + 1, *end = after_part(local);
    if (end == local || *end == ':')
        return after;
    name->prefix = name->length;
    name->length = (size_t)(end - at);
    return end;
}

bool add_name(struct plain_names *names, const struct plain_name *name) {
    if (names->count == MOST_ATTRIBUTES)
        return false;
    for (size_t at = 0; at < names->count; at++) {
        const struct plain_name *other = &names->list[at];
        if (other->length == name->length && memcmp(other->bytes, name->bytes, name->length) == 0)
            return false;
    }
    names->list[names->count++] = *name;
    return true;
}

bool is_of_declaration(const struct plain_name *name) {
    size_t length = name->prefix ? name->prefix : name->length;
    return length == 5 && memcmp(name->bytes, "xmlns", 5) == 0;
}

/* Whether three bytes are U+FEFF, U+FFFE or U+FFFF. */
static bool is_mark(const char *at) {
    return memcmp(at, "\xef\xbb\xbf", 3) == 0 || is_no_character(at, 3);
}

const char *copy_beyond(const char *at, size_t left, char **made) {
    const char *end = at + left;
    while (at < end && (unsigned char)*at >= 0x80) {
        size_t length = character_length(at, (size_t)(end - at));
        if (length == 0 || (length == 3 && is_mark(at)))
            break;
        memcpy(*made, at, length);
        *made += length;
        at += length;
    }
    return at;
}

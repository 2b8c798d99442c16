#include "encoder.h"

#include <iconv.h>
#include <stdio.h>
#include <stdlib.h>
#include <strings.h>

#include "charsets.h"

enum { PLANE = 1 << 16, LONGEST_REFERENCE = 16 };

/* Makes the table of an encoding. False: the system does not have it. */
static bool open_single(struct encoder *to, const char *name) {
    iconv_t meaning = iconv_open("UTF-32BE", name);
    if (meaning == (iconv_t)-1)
        return false;
    to->bytes = calloc(PLANE, 1);
    for (unsigned byte = 1; byte < 256 && to->bytes; byte++) {
        int number;
        if (read_byte(meaning, (char)byte, &number) && number > 0 && number < PLANE)
            to->bytes[number] = (unsigned char)byte;
    }
    iconv_close(meaning);
    return to->bytes != NULL;
}

static bool is_single(const char *name) {
    return is_single_byte(name) || strcasecmp(name, "US-ASCII") == 0
        || strcasecmp(name, "ISO-8859-1") == 0;
}

bool is_known_encoding(const char *name) {
    return !name || strcasecmp(name, "UTF-8") == 0 || strcasecmp(name, "UTF-16") == 0
        || is_single(name);
}

bool encoder_open(struct encoder *to, struct output *out, const char *name) {
    *to = (struct encoder){.out = out, .is_wide = name && strcasecmp(name, "UTF-16") == 0};
    return is_known_encoding(name) && (!name || !is_single(name) || open_single(to, name));
}

void encoder_close(struct encoder *to) {
    free(to->bytes);
}

/* The number of the character at a place of UTF-8, which is moved after it. */
static uint32_t read_character(const char **at) {
    unsigned char first = (unsigned char)*(*at)++;
    if (first < 0x80)
        return first;
    unsigned more = first < 0xe0 ? 1 : first < 0xf0 ? 2 : 3;
    uint32_t number = first & (0x3fu >> more);
    while (more-- > 0)
        number = number << 6 | ((unsigned char)*(*at)++ & 0x3f);
    return number;
}

static bool has(const struct encoder *to, uint32_t number) {
    return !to->bytes || (number < PLANE && to->bytes[number] > 0);
}

size_t encoder_character(const struct encoder *to, struct text text, bool *is_held) {
    const char *at = text.bytes;
    *is_held = has(to, read_character(&at));
    return (size_t)(at - text.bytes);
}

bool encoder_holds(const struct encoder *to, struct text text) {
    const char *at = text.bytes, *end = text.bytes + text.length;
    while (to->bytes && at < end)
        if (!has(to, read_character(&at)))
            return false;
    return true;
}

/* Puts sixteen bits, the lower eight first. */
static void put_unit(struct output *out, uint32_t unit) {
    output_byte(out, (char)(unit & 0xff));
    output_byte(out, (char)(unit >> 8));
}

static void put_wide(struct output *out, uint32_t number) {
    if (number >= PLANE) {
        number -= PLANE;
        put_unit(out, 0xd800 | number >> 10);
        number = 0xdc00 | (number & 0x3ff);
    }
    put_unit(out, number);
}

static void put_single(struct encoder *to, uint32_t number) {
    char reference[LONGEST_REFERENCE];
    if (has(to, number)) {
        output_byte(to->out, (char)to->bytes[number]);
        return;
    }
    snprintf(reference, sizeof reference, "&#%u;", (unsigned)number);
    output_text(to->out, reference);
}

void encoder_begin(struct encoder *to) {
    if (to->is_wide)
        put_unit(to->out, 0xfeff);
}

void encoder_put(struct encoder *to, struct text text) {
    const char *at = text.bytes, *end = text.bytes + text.length;
    if (encoder_is_utf8(to)) {
        output_put(to->out, text.bytes, text.length);
        return;
    }
    while (at < end) {
        uint32_t number = read_character(&at);
        if (to->is_wide)
            put_wide(to->out, number);
        else
            put_single(to, number);
    }
}

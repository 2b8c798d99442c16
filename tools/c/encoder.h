/* The encoding of a result: UTF-8, UTF-16, or one of those that have a byte for a character. */
#ifndef ENCODER_H
#define ENCODER_H

#include <stdbool.h>
#include <stdint.h>
#include <string.h>

#include "output.h"
#include "scopes.h"

struct encoder {
    struct output *out;
    bool is_wide;         /* UTF-16 */
    unsigned char *bytes; /* of the characters that are one, by their number; NULL: all can be written */
};

/* Whether results can be written in an encoding; without a name it is UTF-8. */
bool is_known_encoding(const char *name);

/* False: the encoding is not known, or out of memory. */
bool encoder_open(struct encoder *to, struct output *out, const char *name);
void encoder_close(struct encoder *to);

static inline bool encoder_is_utf8(const struct encoder *to) {
    return !to->is_wide && !to->bytes;
}

/* Whether the encoding has all characters of a text. */
bool encoder_holds(const struct encoder *to, struct text text);

/* How many bytes of a text of UTF-8 are one character; the encoding has it. */
size_t encoder_character(const struct encoder *to, struct text text, bool *is_held);

/* Puts what comes before all: a byte order mark. */
void encoder_begin(struct encoder *to);

/* Puts a text of UTF-8, and references for the characters that the encoding does not have. */
void encoder_put(struct encoder *to, struct text text);

static inline void encoder_string(struct encoder *to, const char *string) {
    encoder_put(to, (struct text){string, strlen(string)});
}

#endif

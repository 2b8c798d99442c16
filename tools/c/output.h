/* Buffered output whose end is held back until all input was found right.
 *
 * What is written before a refusal lacks its end, and ends in no byte that a whole result
 * may end in: lines without the last line feed, or a tag without its `>`. Nobody takes it
 * for a whole document.
 */
#ifndef OUTPUT_H
#define OUTPUT_H

#include <stdbool.h>
#include <stddef.h>
#include <stdint.h>
#include <string.h>

#ifndef OUTPUT_ROOM
#define OUTPUT_ROOM (1 << 18) /* tests have less */
#endif

struct output {
    int target; /* the file that gets the bytes in the end */
    int file;   /* the file that gets them now: the target, or a temporary one */
    bool is_held;
    char *bytes;
    size_t used;
    uint64_t passed; /* bytes that have left the buffer */
    uint64_t written; /* of the first bytes, that were written before a restart */
    int fault; /* the errno of the first call that failed, or 0 */
};

/* Starts output to a file that is open. Where it is held, that file gets nothing before
 * output_finish: for results of which a beginning may look whole. False: out of memory. */
bool output_open(struct output *out, int target, bool is_held);

/* Begins again with what has to begin as what was put so far: that is not written twice. */
void output_restart(struct output *out);

/* Empties the buffer except for its last bytes: one, and those before it that may end a whole
 * result, a few at most. */
void output_flush(struct output *out);

/* Writes all that is left, what was held back too. False: `fault` says why not. */
bool output_finish(struct output *out);

void output_close(struct output *out);

/* Puts bytes of any number. */
void output_put_long(struct output *out, const char *bytes, size_t length);

/* A place for so many bytes, at most half of the buffer; output_took says how many came. */
static inline char *output_room(struct output *out, size_t length) {
    if (length > OUTPUT_ROOM - out->used)
        output_flush(out);
    return out->bytes + out->used;
}

/* How many bytes were put so far. */
static inline uint64_t output_count(const struct output *out) {
    return out->passed + out->used;
}

static inline void output_took(struct output *out, const char *end) {
    out->used = (size_t)(end - out->bytes);
}

static inline void output_put(struct output *out, const char *bytes, size_t length) {
    if (length > OUTPUT_ROOM / 2) {
        output_put_long(out, bytes, length);
        return;
    }
    char *room = output_room(out, length);
    memcpy(room, bytes, length);
    output_took(out, room + length);
}

static inline void output_byte(struct output *out, char byte) {
    char *room = output_room(out, 1);
    *room = byte;
    output_took(out, room + 1);
}

/* Puts a text that ends in a zero byte. */
static inline void output_text(struct output *out, const char *text) {
    output_put(out, text, strlen(text));
}

#endif

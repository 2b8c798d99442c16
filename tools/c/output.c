#include "output.h"

#include <errno.h>
#include <stdio.h>
#include <stdlib.h>
#include <unistd.h>

enum { MOST_HELD = 8 };

bool output_open(struct output *out, int target, bool is_held) {
    *out = (struct output){.target = target, .file = target, .is_held = is_held};
    out->bytes = malloc(OUTPUT_ROOM);
    return out->bytes != NULL;
}

void output_close(struct output *out) {
    if (out->file != out->target)
        close(out->file);
    free(out->bytes);
    out->bytes = NULL;
}

/* Writes bytes to a file: 0, or the errno. */
static int write_all(int file, const char *bytes, size_t length) {
    while (length > 0) {
        ssize_t wrote = write(file, bytes, length);
        if (wrote < 0 && errno != EINTR)
            return errno;
        if (wrote > 0) {
            bytes += wrote;
            length -= (size_t)wrote;
        }
    }
    return 0;
}

void output_restart(struct output *out) {
    out->written = out->passed > out->written ? out->passed : out->written;
    out->passed = out->used = 0;
}

/* Writes so many bytes of the buffer, except those that were written before a restart. */
static int write_first(struct output *out, size_t length) {
    uint64_t written = out->written > out->passed ? out->written - out->passed : 0;
    size_t passed_over = written < length ? (size_t)written : length;
    return write_all(out->file, out->bytes + passed_over, length - passed_over);
}

/* Opens a file without a name, which goes when it is closed: 0, or the errno. */
static int open_temporary(int *file) {
    FILE *made = tmpfile();
    if (!made)
        return errno;
    *file = dup(fileno(made));
    int fault = *file < 0 ? errno : 0;
    fclose(made);
    return fault;
}

/* Writes what is in the buffer except so many last bytes, which move to its beginning. */
static void write_buffer(struct output *out, size_t kept) {
    if (out->used <= kept)
        return;
    if (out->is_held && out->file == out->target && !out->fault) {
        out->file = -1;
        out->fault = open_temporary(&out->file);
        if (out->fault)
            out->file = out->target;
    }
    if (!out->fault)
        out->fault = write_first(out, out->used - kept);
    memmove(out->bytes, out->bytes + out->used - kept, kept);
    out->passed += out->used - kept;
    out->used = kept;
}

/* How many of the last bytes stay when the buffer is emptied. */
static size_t count_held(const struct output *out) {
    size_t held = 1;
    while (held < out->used && held < MOST_HELD) {
        char last = out->bytes[out->used - held - 1]; /* of those that are written */
        if (last != '\n' && last != '>')
            break;
        held++;
    }
    return held;
}

void output_flush(struct output *out) {
    write_buffer(out, count_held(out));
}

void output_put_long(struct output *out, const char *bytes, size_t length) {
    while (length > 0) {
        size_t part = length < OUTPUT_ROOM / 2 ? length : OUTPUT_ROOM / 2;
        char *room = output_room(out, part);
        memcpy(room, bytes, part);
        output_took(out, room + part);
        bytes += part;
        length -= part;
    }
}

/* Copies the temporary file to the target: 0, or the errno. */
static int copy_held(struct output *out) {
    if (lseek(out->file, 0, SEEK_SET) < 0)
        return errno;
    for (;;) {
        ssize_t got = read(out->file, out->bytes, OUTPUT_ROOM);
        if (got < 0 && errno == EINTR)
            continue;
        if (got <= 0)
            return got < 0 ? errno : 0;
        int fault = write_all(out->target, out->bytes, (size_t)got);
        if (fault)
            return fault;
    }
}

bool output_finish(struct output *out) {
    if (out->file == out->target)
        out->is_held = false; /* all of it is still in the buffer */
    write_buffer(out, 0);
    if (!out->fault && out->file != out->target)
        out->fault = copy_held(out);
    return !out->fault;
}

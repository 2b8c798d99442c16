#include "opened.h"

#include <stdlib.h>

#include "blocks.h"

enum { LEAST_BYTES = 1 << 10, LEAST_NAMES = 64 };

/* Makes room for one more name of this length. */
static bool grow(struct opened *opened, size_t length) {
    if (opened->room - opened->used < length + BLOCK) {
        size_t room = 2 * opened->room + length + LEAST_BYTES;
        char *bytes = realloc(opened->bytes, room);
        if (!bytes)
            return false;
        opened->bytes = bytes;
        opened->room = room;
    }
    if (opened->depth == opened->most_depth) {
        size_t most = 2 * opened->most_depth + LEAST_NAMES;
        size_t *ends = realloc(opened->ends, most * sizeof *ends);
        if (!ends)
            return false;
        opened->ends = ends;
        opened->most_depth = most;
    }
    return true;
}

bool opened_push(struct opened *opened, struct text name) {
    if (!grow(opened, name.length))
        return false;
    copy_short(opened->bytes + opened->used, name.bytes, name.length);
    opened->used += name.length;
    opened->ends[opened->depth++] = opened->used;
    return true;
}

void opened_close(struct opened *opened) {
    free(opened->bytes);
    free(opened->ends);
}

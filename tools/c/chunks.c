#include "chunks.h"

#include <errno.h>
#include <stdlib.h>
#include <unistd.h>

#include "declaration.h"

enum { LEAST = 1 << 16, MOST = 1 << 24 };

int chunk_fit(struct chunk *chunk, bool is_inside) {
    size_t room = is_inside ? chunk->room * 2 : LEAST;
    if (room == chunk->room || room > MOST)
        return 0;
    char *bytes = realloc(chunk->bytes, room + DECLARATION_ROOM);
    if (!bytes)
        return ENOMEM;
    chunk->bytes = bytes;
    chunk->room = room;
    return 0;
}

int chunk_read(struct chunk *chunk, int file) {
    chunk->length = 0;
    while (chunk->length < chunk->room) {
        ssize_t got = read(file, chunk->bytes + chunk->length, chunk->room - chunk->length);
        if (got < 0 && errno != EINTR)
            return errno;
        if (got == 0)
            return 0;
        chunk->length += got > 0 ? (size_t)got : 0;
    }
    return 0;
}

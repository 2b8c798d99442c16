/* The bytes of a document that are read at once. */
#ifndef CHUNKS_H
#define CHUNKS_H

#include <stdbool.h>
#include <stddef.h>

struct chunk {
    char *bytes; /* with some room after them for a longer XML declaration */
    size_t length, room;
};

/* Makes the room larger inside a long token, which expat reads anew with each chunk, and
 * else as it was in the beginning: 0, or the errno. */
int chunk_fit(struct chunk *chunk, bool is_inside);

/* Reads until the room is full or the file ends: 0, or the errno. */
int chunk_read(struct chunk *chunk, int file);

#endif

#include "lines.h"

#include <errno.h>
#include <stdlib.h>
#include <string.h>
#include <unistd.h>

#include "blocks.h"

#ifndef LINES_ROOM
#define LINES_ROOM (1 << 18) /* tests have less */
#endif

enum { ROOM = LINES_ROOM, PART = ROOM / 4 };

bool lines_open(struct lines *lines, int file) {
    *lines = (struct lines){.file = file, .room = ROOM};
    lines->bytes = malloc(ROOM + BLOCK);
    return lines->bytes != NULL;
}

void lines_close(struct lines *lines) {
    free(lines->bytes);
}

/* Makes room after what was read: moves it to the front, and where it is long gets more. */
static void make_room(struct lines *lines) {
    size_t left = lines->to - lines->from;
    if (lines->from > 0)
        memmove(lines->bytes, lines->bytes + lines->from, left);
    lines->from = 0;
    lines->to = left;
    if (left <= lines->room / 2)
        return;
    char *grown = realloc(lines->bytes, 2 * lines->room + BLOCK);
    if (!grown) {
        lines->fault = ENOMEM;
        return;
    }
    lines->bytes = grown;
    lines->room *= 2;
}

/* Reads more bytes, or notes that there are none. */
static void read_more(struct lines *lines) {
    make_room(lines);
    while (!lines->fault) {
        ssize_t got = read(lines->file, lines->bytes + lines->to, lines->room - lines->to);
        if (got < 0 && errno == EINTR)
            continue;
        if (got < 0)
            lines->fault = errno;
        lines->is_at_end = got == 0;
        lines->to += got > 0 ? (size_t)got : 0;
        memset(lines->bytes + lines->to, 0, BLOCK);
        return;
    }
}

/* How many of these bytes end neither inside a character nor after half an escape. */
static size_t whole_part(const char *bytes, size_t length) {
    size_t slashes = 0;
    for (size_t back = 1; back <= 3 && back < length; back++) {
        unsigned char byte = (unsigned char)bytes[length - back];
        size_t wanted = byte < 0xc0 ? 1 : byte < 0xe0 ? 2 : byte < 0xf0 ? 3 : 4;
        if (wanted > back)
            return length - back;
        if (byte < 0x80)
            break;
    }
    while (slashes < length && bytes[length - 1 - slashes] == '\\')
        slashes++;
    return length - slashes % 2;
}

/* Gives so many bytes as a line or a part of one, and passes over them. */
static void give(struct lines *lines, struct line *line, size_t length, bool ends, bool has_feed) {
    lines->number += !lines->is_inside;
    *line = (struct line){
        .number = lines->number,
        .bytes = lines->bytes + lines->from,
        .length = length,
        .begins = !lines->is_inside,
        .ends = ends,
        .has_line_feed = has_feed,
    };
    lines->from += length + has_feed;
    lines->searched = 0;
    lines->is_inside = !ends;
}

bool lines_next(struct lines *lines, struct line *line) {
    while (!lines->fault) {
        char *from = lines->bytes + lines->from;
        size_t left = lines->to - lines->from;
        char *feed = memchr(from + lines->searched, '\n', left - lines->searched);
        if (feed) {
            give(lines, line, (size_t)(feed - from), true, true);
            return true;
        }
        lines->searched = left;
        if (lines->is_at_end) {
            if (left == 0 && !lines->is_inside)
                return false;
            give(lines, line, left, true, false);
            return true;
        }
        if (left >= PART && (lines->is_inside || from[0] == '-')) {
            give(lines, line, whole_part(from, left), false, false);
            return true;
        }
        read_more(lines);
    }
    return false;
}

void lines_drain(struct lines *lines) {
    ssize_t got = 1;
    while (got > 0 || (got < 0 && errno == EINTR))
        got = read(lines->file, lines->bytes, lines->room);
}

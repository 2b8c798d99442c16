/* The lines of a file one by one, a long text in parts. */
#ifndef LINES_H
#define LINES_H

#include <stdbool.h>
#include <stddef.h>

/* A line without its line feed, or a part of a long text line; the bytes may be changed. */
struct line {
    unsigned long number;
    char *bytes;
    size_t length;
    bool begins;        /* the first part of its line */
    bool ends;          /* the last one */
    bool has_line_feed; /* and a line feed follows it */
};

struct lines {
    int file;
    char *bytes; /* with a block of zeros after those that were read */
    size_t room, from, to; /* what was read and not given yet */
    size_t searched;       /* how much of that has no line feed */
    unsigned long number;  /* of lines that were begun */
    bool is_inside;        /* a part of a line was given */
    bool is_at_end;
    int fault; /* the errno of a read, or of memory */
};

/* False: out of memory. */
bool lines_open(struct lines *lines, int file);
void lines_close(struct lines *lines);

/* The next line or part. False: there is none, or `fault` says why it can't be had. */
bool lines_next(struct lines *lines, struct line *line);

/* Reads to the end of the file and drops what comes. */
void lines_drain(struct lines *lines);

#endif

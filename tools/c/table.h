/* Of each PYX line the line of XML that it comes from. */
#ifndef TABLE_H
#define TABLE_H

#include <stdbool.h>
#include <stdio.h>

struct table {
    FILE *rows;           /* a file without a name; NULL: nobody asks */
    unsigned long latest; /* the row that may still change; 0: there is none */
    int fault;            /* the errno of the first call that failed, or 0 */
};

void table_open(struct table *table);
void table_close(struct table *table);

/* Adds a row. The latest row can be changed until the next one. */
void table_add(struct table *table, unsigned long place);

/* Writes the rows to a file of this name. False: `fault` says why not. */
bool table_write(struct table *table, const char *name);

#endif

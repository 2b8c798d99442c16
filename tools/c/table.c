#include "table.h"

#include <errno.h>

static void note_fault(struct table *table) {
    if (!table->fault)
        table->fault = errno ? errno : EIO;
}

void table_open(struct table *table) {
    table->rows = tmpfile();
    if (!table->rows)
        note_fault(table);
}

void table_close(struct table *table) {
    if (table->rows)
        fclose(table->rows);
}

void table_add(struct table *table, unsigned long place) {
    if (table->latest && fprintf(table->rows, "%lu\n", table->latest) < 0)
        note_fault(table);
    table->latest = place;
}

/* Copies the rows, which are all written, to another file. */
static void copy(struct table *table, FILE *made) {
    char rows[1 << 14];
    size_t length;
    while ((length = fread(rows, 1, sizeof rows, table->rows)) > 0) {
        if (fwrite(rows, 1, length, made) != length) {
            note_fault(table);
            return;
        }
    }
    if (ferror(table->rows))
        note_fault(table);
}

bool table_write(struct table *table, const char *name) {
    if (table->fault)
        return false;
    table_add(table, 0);
    if (fseek(table->rows, 0, SEEK_SET) != 0) {
        note_fault(table);
        return false;
    }
    FILE *made = fopen(name, "wb");
    if (!made) {
        note_fault(table);
        return false;
    }
    copy(table, made);
    if (fclose(made) != 0)
        note_fault(table);
    return !table->fault;
}

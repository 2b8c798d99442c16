/* Runs a converter on many inputs in one process, for tools/test --fuzz (lib/fuzz.py).
 *
 * It is built with the converter's sources, of which `main` is renamed to `converter_main`, with
 * ENDS, the bytes that only a whole result ends in, and with CALLS, the lists of options.
 * Each input is converted with each of these, from a file and from a pipe, which has to give
 * the same; and what is written of a refused input may end in no byte of ENDS. libFuzzer gives
 * the inputs, or with IS_SERVER standard input, each after its length: the answers go to
 * standard output.
 */
#define _GNU_SOURCE
#include <fcntl.h>
#include <getopt.h>
#include <stdbool.h>
#include <stdint.h>
#include <stdio.h>
#include <stdlib.h>
#include <string.h>
#include <sys/mman.h>
#include <unistd.h>

#undef main

int converter_main(int count, char **given);

enum { MOST_OPTIONS = 8, MOST_PIPED = 1 << 15, TABLE = 100 /* its file, /dev/fd/100 in CALLS */ };

static char *const OPTIONS[][MOST_OPTIONS] = {CALLS};

struct bytes {
    char *at;
    size_t length;
};

struct answer {
    int status;
    struct bytes made, said, table;
};

static FILE *errors;
static int out_file;

static void require(bool holds, const char *what) {
    if (holds)
        return;
    fprintf(errors, "fuzz: %s\n", what);
    fflush(errors);
    abort();
}

/* All that a file has. */
static struct bytes content(int file) {
    off_t length = lseek(file, 0, SEEK_END);
    struct bytes made = {malloc((size_t)length + 1), (size_t)length};
    require(made.at && pread(file, made.at, made.length, 0) == length, "the answer can't be read");
    return made;
}

/* Gives a converter an input as its standard input. */
static void give(const uint8_t *data, size_t length, bool is_piped) {
    int ends[2] = {-1, -1};
    if (is_piped) {
        require(pipe(ends) == 0 && write(ends[1], data, length) == (ssize_t)length, "no pipe");
        close(ends[1]);
    } else {
        ends[0] = memfd_create("input", 0);
        require(write(ends[0], data, length) == (ssize_t)length, "no file for the input");
        lseek(ends[0], 0, SEEK_SET);
    }
    dup2(ends[0], STDIN_FILENO);
    close(ends[0]);
}

/* Runs the converter once. */
static struct answer ask(char *const *options, const uint8_t *data, size_t length, bool is_piped) {
    char *given[MOST_OPTIONS + 2] = {"converter"};
    int count = 1;
    for (; options[count - 1]; count++)
        given[count] = options[count - 1];
    struct answer made;
    FILE *ours = stderr;
    give(data, length, is_piped);
    require(ftruncate(out_file, 0) == 0 && ftruncate(TABLE, 0) == 0, "no file for the output");
    lseek(out_file, 0, SEEK_SET);
    dup2(out_file, STDOUT_FILENO);
    stderr = open_memstream(&made.said.at, &made.said.length);
    optind = 0;
    made.status = converter_main(count, given);
    fclose(stderr);
    stderr = ours;
    made.made = content(out_file);
    made.table = content(TABLE);
    return made;
}

static void drop(struct answer *answer) {
    free(answer->made.at);
    free(answer->said.at);
    free(answer->table.at);
}

static bool is_same(struct bytes one, struct bytes other) {
    return one.length == other.length && memcmp(one.at, other.at, one.length) == 0;
}

/* Converts an input with some options, from a file and from a pipe. */
static struct answer convert(char *const *options, const uint8_t *data, size_t length) {
    struct answer made = ask(options, data, length, false);
    struct bytes out = made.made;
    if (made.status != 0 && out.length > 0)
        require(!memchr(ENDS, out.at[out.length - 1], sizeof ENDS - 1), "a refused input leaves what looks whole");
    if (length > MOST_PIPED)
        return made;
    struct answer piped = ask(options, data, length, true);
    require(piped.status == made.status && is_same(piped.said, made.said)
            && is_same(piped.table, made.table), "a pipe gives other answers than a file");
    require(made.status != 0 || is_same(piped.made, out), "a pipe gives other bytes than a file");
    drop(&piped);
    return made;
}

static void open_all(void) {
    errors = fdopen(dup(STDERR_FILENO), "w");
    out_file = memfd_create("output", 0);
    int table = memfd_create("table", 0);
    require(errors && out_file >= 0 && dup2(table, TABLE) == TABLE, "no files");
    close(table);
}

#ifdef IS_SERVER
static void put_bytes(FILE *to, struct bytes bytes) {
    uint32_t length = (uint32_t)bytes.length;
    fwrite(&length, sizeof length, 1, to);
    fwrite(bytes.at, 1, bytes.length, to);
}

int main(void) {
    FILE *from = fdopen(dup(STDIN_FILENO), "r"), *to = fdopen(dup(STDOUT_FILENO), "w");
    uint32_t length;
    open_all();
    while (fread(&length, sizeof length, 1, from) == 1) {
        uint8_t *data = malloc(length + 1);
        require(data && fread(data, 1, length, from) == length, "no input");
        for (size_t call = 0; call < sizeof OPTIONS / sizeof *OPTIONS; call++) {
            struct answer made = convert(OPTIONS[call], data, length);
            fputc(made.status, to);
            put_bytes(to, made.made);
            put_bytes(to, made.said);
            put_bytes(to, made.table);
            drop(&made);
        }
        free(data);
        fflush(to);
    }
    return 0;
}
#else
int LLVMFuzzerTestOneInput(const uint8_t *data, size_t length) {
    if (!errors)
        open_all();
    for (size_t call = 0; call < sizeof OPTIONS / sizeof *OPTIONS; call++) {
        struct answer made = convert(OPTIONS[call], data, length);
        drop(&made);
    }
    return 0;
}
#endif

/* Writes an XML document as PYX lines: what the script tools/xml2pyx does, at xslt's pace.
 *
 * usage: xml2pyx [--drop-doctype] [--lines TABLE] [FILE]
 *
 * One pass over a file or a pipe, and a second one over a file that is not plain
 * (plain_xml.h), with memory for one tag, the open elements, the bindings in scope and the
 * bytes that are read at once. Lines are written while the document is read; their last
 * line feed comes only when all of it was found well-formed, so that a beginning is no
 * document. A document that is refused gets FILE:LINE:COLUMN and the reason on standard
 * error, and status 1.
 *
 * expat without namespaces gives declarations and attributes in their order; the rules
 * of namespaces are tested here. Where there is a document type declaration a second
 * parser, with namespaces, hears nothing and tests them in the entities too.
 */
#include <errno.h>
#include <expat.h>
#include <fcntl.h>
#include <getopt.h>
#include <signal.h>
#include <stdio.h>
#include <stdlib.h>
#include <string.h>
#include <strings.h>
#include <unistd.h>

#include "chunks.h"
#include "declaration.h"
#include "encodings.h"
#include "escapes.h"
#include "namespaces.h"
#include "output.h"
#include "places.h"
#include "plain_xml.h"
#include "streams.h"
#include "table.h"

enum { REASON = 128, REFUSED = 1, USAGE = 2 };

struct options {
    bool drops_doctype;
    const char *table;
    const char *file;
};

/* Where and why a document is refused. */
struct refusal {
    bool is_set;
    unsigned long line, column; /* the column from 0 */
    char reason[REASON];
};

struct converter {
    struct options options;
    XML_Parser reader, tester;
    struct namespaces namespaces;
    struct output out;
    struct table table;
    struct refusal refusal;
    struct moved moved;
    size_t depth;
    char encoding[64]; /* for reading a tag alone; empty: UTF-8 */
    bool is_latin;     /* that is ISO-8859-1 */
    bool in_text, is_blank, in_doctype, has_doctype, has_root, is_out_of_memory;
    bool is_inside; /* a token: nothing came of the latest bytes */
};

/* Keeps the least of the refusals: by place, and at one place by reason. */
static void refuse(struct converter *to, unsigned long line, unsigned long column,
                   const char *reason) {
    struct refusal *kept = &to->refusal;
    bool is_less = !kept->is_set || line < kept->line;
    if (kept->is_set && line == kept->line)
        is_less = column < kept->column
               || (column == kept->column && strcmp(reason, kept->reason) < 0);
    if (!is_less)
        return;
    *kept = (struct refusal){.is_set = true, .line = line, .column = column};
    snprintf(kept->reason, sizeof kept->reason, "%s", reason);
}

/* Refuses the document at a place, and reads no more. */
static void refuse_at(struct converter *to, struct place place, const char *reason) {
    refuse(to, place.line, place.column, reason);
    XML_StopParser(to->reader, XML_FALSE);
}

/* Refuses it where the reader is. */
static void refuse_here(struct converter *to, const char *reason) {
    refuse_at(to, place_here(to->reader), reason);
}

/* Notes that a PYX line comes from here. */
static void note_place(struct converter *to) {
    if (to->table.rows)
        table_add(&to->table, XML_GetCurrentLineNumber(to->reader));
}

/* Begins a line, and ends the text before it. */
static void begin_line(struct converter *to, char kind) {
    if (to->in_text)
        output_byte(&to->out, '\n');
    to->in_text = to->is_inside = false;
    output_byte(&to->out, kind);
    note_place(to);
}

/* Refuses a name. */
static void refuse_name(struct converter *to, struct place place) {
    refuse_at(to, place, XML_ErrorString(XML_ERROR_INVALID_TOKEN));
}

/* Tests the letters of a tag's names in ISO-8859-1, which expat does not. */
static void test_letters(struct converter *to, const char *name, const char **attributes) {
    bool is_fine = !has_no_letter(name);
    for (; is_fine && *attributes; attributes += 2)
        is_fine = !has_no_letter(*attributes);
    if (!is_fine)
        refuse_name(to, place_of_no_letter(to->reader));
}

/* Tests a start tag by the rules of namespaces, unless a parser of its own does. */
static void test_start(struct converter *to, const char *name, const char **attributes) {
    enum XML_Error fault = namespaces_enter(&to->namespaces, name, attributes, to->depth);
    if (fault == XML_ERROR_INVALID_TOKEN)
        refuse_name(to, place_of_colon(to->reader, to->encoding[0] ? to->encoding : NULL));
    else if (fault != XML_ERROR_NONE)
        refuse_here(to, XML_ErrorString(fault));
    to->is_out_of_memory |= fault == XML_ERROR_NO_MEMORY;
}

static void start(void *data, const char *name, const char **attributes) {
    struct converter *to = data;
    struct output *out = &to->out;
    to->depth++;
    to->has_root = true;
    if (to->is_latin)
        test_letters(to, name, attributes);
    if (!to->has_doctype && !to->refusal.is_set)
        test_start(to, name, attributes);
    begin_line(to, '(');
    put_name(out, name, '\n');
    for (; *attributes; attributes += 2) {
        output_byte(out, 'A');
        put_name(out, attributes[0], ' ');
        put_data(out, attributes[1]);
        note_place(to);
    }
}

static void end(void *data, const char *name) {
    struct converter *to = data;
    namespaces_leave(&to->namespaces, to->depth--);
    begin_line(to, ')');
    put_name(&to->out, name, '\n');
}

static bool is_space(char byte) {
    return byte == ' ' || byte == '\t' || byte == '\r' || byte == '\n';
}

/* A text comes from the line of its first character that is no white space. */
static void place_text(struct converter *to, const char *text, int length) {
    unsigned long line = XML_GetCurrentLineNumber(to->reader);
    for (const char *last = text + length; text < last; text++) {
        line += *text == '\n';
        if (!is_space(*text)) {
            to->is_blank = false;
            to->table.latest = line;
            return;
        }
    }
}

static void text(void *data, const char *text, int length) {
    struct converter *to = data;
    if (!to->in_text) {
        begin_line(to, '-');
        to->in_text = to->is_blank = true;
    }
    to->is_inside = false;
    put_escaped(&to->out, text, (size_t)length);
    if (to->table.rows && to->is_blank)
        place_text(to, text, length);
}

static void comment(void *data, const char *text) {
    struct converter *to = data;
    if (to->in_doctype)
        return;
    begin_line(to, 'C');
    put_data(&to->out, text);
}

static void instruction(void *data, const char *target, const char *text) {
    struct converter *to = data;
    if (to->in_doctype)
        return;
    if (to->is_latin)
        test_letters(to, target, (const char *[]){NULL});
    if (!to->has_doctype && !to->refusal.is_set && strchr(target, ':'))
        refuse_name(to, place_in_target(to->reader, target));
    begin_line(to, '?');
    put_name(&to->out, target, ' ');
    put_data(&to->out, text);
}

static void start_doctype(void *data, const char *name, const char *system, const char *public,
                          int has_subset) {
    struct converter *to = data;
    (void)name, (void)system, (void)public, (void)has_subset;
    if (to->options.drops_doctype)
        to->in_doctype = to->has_doctype = true;
    else
        refuse_here(to, "a document type declaration; --drop-doctype reads on without it");
}

static void end_doctype(void *data) {
    ((struct converter *)data)->in_doctype = false;
}

/* Refuses an entity that stands outside the document. */
static int outside(XML_Parser parser, const char *context, const char *base, const char *system,
                   const char *public) {
    struct converter *to = XML_GetUserData(parser);
    (void)context, (void)base, (void)system, (void)public;
    refuse_here(to, "an entity that stands outside the document");
    return XML_STATUS_ERROR;
}

static void declaration(void *data, const char *version, const char *encoding, int standalone) {
    struct converter *to = data;
    (void)version, (void)standalone;
    if (encoding && !to->encoding[0])
        snprintf(to->encoding, sizeof to->encoding, "%s", encoding);
    to->is_latin = strcasecmp(to->encoding, "ISO-8859-1") == 0;
}

/* Opens all that a converter needs. False: out of memory. */
static bool open_converter(struct converter *to, const struct options *options) {
    *to = (struct converter){.options = *options, .moved = {1, 0, 0}};
    to->reader = XML_ParserCreate(NULL);
    to->tester = XML_ParserCreateNS(NULL, '\1');
    bool is_open = namespaces_open(&to->namespaces) & output_open(&to->out, STDOUT_FILENO, false);
    if (!to->reader || !to->tester || !is_open)
        return false;
    if (options->table)
        table_open(&to->table);
    XML_SetUserData(to->reader, to);
    XML_SetElementHandler(to->reader, start, end);
    XML_SetCharacterDataHandler(to->reader, text);
    XML_SetCommentHandler(to->reader, comment);
    XML_SetProcessingInstructionHandler(to->reader, instruction);
    XML_SetDoctypeDeclHandler(to->reader, start_doctype, end_doctype);
    XML_SetExternalEntityRefHandler(to->reader, outside);
    XML_SetXmlDeclHandler(to->reader, declaration);
    XML_SetUnknownEncodingHandler(to->reader, know_encoding, NULL);
    XML_SetUnknownEncodingHandler(to->tester, know_encoding, NULL);
    return true;
}

static void close_converter(struct converter *to) {
    XML_ParserFree(to->reader);
    XML_ParserFree(to->tester);
    namespaces_close(&to->namespaces);
    output_close(&to->out);
    table_close(&to->table);
}

/* Gives a parser the next bytes, and notes where and why it refuses them. */
static void parse(struct converter *to, XML_Parser parser, const char *bytes, size_t length) {
    if (XML_Parse(parser, bytes, (int)length, length == 0) != XML_STATUS_ERROR)
        return;
    enum XML_Error fault = XML_GetErrorCode(parser);
    to->is_out_of_memory |= fault == XML_ERROR_NO_MEMORY;
    if (fault != XML_ERROR_ABORTED && fault != XML_ERROR_EXTERNAL_ENTITY_HANDLING)
        refuse(to, XML_GetCurrentLineNumber(parser), XML_GetCurrentColumnNumber(parser),
               XML_ErrorString(fault));
}

/* Converts the next bytes, none at the end; whether to go on. */
static bool feed(struct converter *to, const char *bytes, size_t length) {
    parse(to, to->reader, bytes, length);
    if (!to->has_doctype && (to->has_root || to->refusal.is_set)) {
        XML_ParserFree(to->tester);
        to->tester = NULL;
    }
    if (to->tester)
        parse(to, to->tester, bytes, length);
    return !to->refusal.is_set && !to->is_out_of_memory && !to->out.fault && !to->table.fault;
}

/* Learns the encoding from the first bytes, and makes the document stand alone. */
static void begin(struct converter *to, char *head, size_t *length) {
    const char *wide = wide_encoding(head, *length);
    if (wide)
        snprintf(to->encoding, sizeof to->encoding, "%s", wide);
    if (to->options.drops_doctype && *length > 0)
        to->moved = standing_alone(head, length);
}

/* Converts the whole file: 0, or the errno of a read. */
static int convert(struct converter *to, int file) {
    struct chunk chunk = {NULL, 0, 0};
    int fault = 0;
    bool is_first = true, goes_on = to->options.table || !convert_plain_xml(file, &to->out);
    while (goes_on) {
        fault = chunk_fit(&chunk, to->is_inside);
        if (!fault)
            fault = chunk_read(&chunk, file);
        if (!fault && is_first)
            begin(to, chunk.bytes, &chunk.length);
        is_first = false;
        to->is_inside = true;
        goes_on = !fault && feed(to, chunk.bytes, chunk.length) && chunk.length > 0;
    }
    free(chunk.bytes);
    return fault;
}

static int complain(const char *name, const char *reason) {
    fprintf(stderr, "xml2pyx: %s: %s\n", name, reason);
    return REFUSED;
}

/* Reports where and why the document is refused, with columns from 1 and as they were. */
static int complain_of(const struct converter *to, const char *name) {
    const struct refusal *refusal = &to->refusal;
    long column = (long)refusal->column;
    if (refusal->line == to->moved.line && refusal->column >= to->moved.from)
        column -= to->moved.columns;
    fprintf(stderr, "xml2pyx: %s:%lu:%ld: %s\n", name, refusal->line, column + 1,
            refusal->reason);
    return REFUSED;
}

/* Reports what went wrong, or else writes what was held back: the status. */
static int finish(struct converter *to, const char *name, int read_fault) {
    if (read_fault)
        return complain(name, strerror(read_fault));
    if (to->is_out_of_memory)
        return complain(name, "out of memory");
    if (to->refusal.is_set)
        return complain_of(to, name);
    output_flush(&to->out); /* a table of lines that can't be written would look whole */
    if (to->out.fault)
        return complain("standard output", strerror(to->out.fault));
    if (to->options.table && !table_write(&to->table, to->options.table))
        return complain(to->options.table, strerror(to->table.fault));
    if (!output_finish(&to->out))
        return complain("standard output", strerror(to->out.fault));
    return 0;
}

static int run(const struct options *options) {
    const char *name = options->file ? options->file : "standard input";
    int file = options->file ? open(options->file, O_RDONLY) : STDIN_FILENO;
    if (file < 0)
        return complain(name, strerror(errno));
    struct converter to;
    int status = open_converter(&to, options) ? finish(&to, name, convert(&to, file))
                                            : complain(name, "out of memory");
    close_converter(&to);
    if (options->file)
        close(file);
    return status;
}

/* Reads the options. False: the arguments are not as they should be. */
static bool read_options(int count, char **given, struct options *options) {
    static const struct option OPTIONS[] = {
        {"drop-doctype", no_argument, NULL, 'd'},
        {"lines", required_argument, NULL, 'l'},
        {NULL, 0, NULL, 0},
    };
    int option;
    *options = (struct options){.file = NULL};
    while ((option = getopt_long(count, given, "", OPTIONS, NULL)) != -1) {
        if (option == 'd')
            options->drops_doctype = true;
        else if (option == 'l')
            options->table = optarg;
        else
            return false;
    }
    if (optind < count)
        options->file = given[optind++];
    return optind == count;
}

int main(int count, char **given) {
    struct options options;
    if (!read_options(count, given, &options)) {
        fprintf(stderr, "usage: xml2pyx [--drop-doctype] [--lines TABLE] [FILE]\n");
        return USAGE;
    }
    signal(SIGPIPE, SIG_IGN);
    return streams_take() ? run(&options) : REFUSED;
}

/* Writes PYX lines as an XML document: what the script tools/pyx2xml does, at xslt's pace.
 *
 * usage: pyx2xml [--fragment | --result] [FILE]
 *
 * One pass over a file or a pipe, with memory for one line (of a text a part), the names
 * of one start tag and of the open elements, and the bindings in scope; plain lines have a
 * faster path (plain_pyx.h). The document is written while the lines are read; its last
 * byte comes only when all of them were found right, so that a beginning is no document.
 * Of a fragment a beginning may be one: with --fragment nothing is written before that.
 * Lines that are refused get FILE:LINE and the reason on standard error, and status 1.
 *
 * With --result, or an option of an xsl:output, the lines are the result of a stylesheet,
 * maybe still being written by a program, and the caller holds what comes: it is written as the
 * options say (serializer.h). All lines are read even where they are refused, so that the program's
 * own end is that of its work.
 */
#include <errno.h>
#include <fcntl.h>
#include <getopt.h>
#include <signal.h>
#include <stdio.h>
#include <stdlib.h>
#include <string.h>
#include <strings.h>
#include <unistd.h>

#include "characters.h"
#include "elements.h"
#include "lines.h"
#include "names.h"
#include "output.h"
#include "plain_pyx.h"
#include "refusal.h"
#include "serializer.h"
#include "settings.h"
#include "streams.h"
#include "target.h"

enum { REFUSED = 1, USAGE = 2 };

struct options {
    bool is_fragment;
    bool is_result; /* a document or a fragment */
    struct settings settings;
    const char *file;
};

struct converter {
    bool is_fragment; /* or may become one */
    bool is_result;
    struct serializer serializer;
    struct lines lines;
    struct output out;
    struct target target;
    struct refusal refusal;
    struct elements elements;
};

/* Refuses a line where its part could not be put. */
static void refuse_part(struct converter *to, unsigned long number, enum reason reason) {
    if (reason != FINE)
        refuse_line(&to->refusal, number, reason);
}

static void add_comment(struct converter *to, unsigned long number, struct text text) {
    bool is_bad = has_pair(text, '-', '-') || memchr(text.bytes, '\r', text.length)
               || (text.length > 0 && text.bytes[text.length - 1] == '-');
    if (is_bad || !is_allowed(text)) {
        refuse_line(&to->refusal, number, is_bad ? BAD_COMMENT : NO_CHARACTER);
        return;
    }
    refuse_part(to, number, target_comment(&to->target, text));
}

static bool is_xml(struct text target) {
    return target.length == 3 && strncasecmp(target.bytes, "xml", 3) == 0;
}

static void add_instruction(struct converter *to, unsigned long number, struct text target,
                            struct text text) {
    if (is_xml(target) && number == 1)
        return;
    if (!is_ncname(target) || is_xml(target)) {
        refuse(&to->refusal, number, BAD_NAME, target);
        return;
    }
    while (text.length > 0 && memchr(" \t\n", text.bytes[0], 3)) { // it would separate the target
        text.bytes++;
        text.length--;
    }
    bool is_bad = has_pair(text, '?', '>') || memchr(text.bytes, '\r', text.length);
    if (is_bad || !is_allowed(text)) {
        refuse_line(&to->refusal, number, is_bad ? BAD_INSTRUCTION : NO_CHARACTER);
        return;
    }
    refuse_part(to, number, target_instruction(&to->target, target, text));
}

/* Puts a text or a part of one. */
static enum reason put_part(struct converter *to, struct text text) {
    bool is_top = to->elements.opened.depth == 0;
    if (is_top && !to->is_fragment)
        return is_blank(text) ? FINE : TEXT_OUTSIDE;
    if (is_top && to->is_result)
        serializer_top(&to->serializer, TEXT, text);
    return target_text(&to->target, text);
}

/* A `-` line or a part of one. What comes first in the order of reasons counts, in
 * whichever part it stands. */
static void add_text(struct converter *to, struct line *line) {
    struct text text = {line->bytes + line->begins, line->length - line->begins};
    enum reason reason = FINE;
    if (!is_utf8(text))
        reason = BAD_UTF8;
    else if (!unescape(&text, line->bytes + line->begins))
        reason = BAD_ESCAPE;
    else if (line->ends && !line->has_line_feed)
        reason = NO_LINE_FEED;
    else
        reason = put_part(to, text);
    if (reason != FINE && (!is_refused(&to->refusal) || reason < to->refusal.reason))
        to->refusal = (struct refusal){.reason = reason, .number = line->number};
}

/* Whether a line may begin so. */
static bool is_kind(char byte) {
    return byte == '(' || byte == 'A' || byte == '-' || byte == ')' || byte == '?' || byte == 'C';
}

/* The fault of a whole line before its meaning, if there is one. Its text is unescaped. */
static enum reason read_line(const struct converter *to, const struct line *line,
                             struct text *name, struct text *text) {
    char *bytes = line->bytes;
    char kind = line->length > 0 ? bytes[0] : 0;
    size_t rest = line->length > 0 ? line->length - 1 : 0;
    if (!is_utf8((struct text){bytes, line->length}))
        return BAD_UTF8;
    if (!is_kind(kind))
        return BAD_KIND;
    if (kind == 'A' && to->elements.start == 0)
        return LONE_ATTRIBUTE;
    size_t length = kind == 'C' ? 0 : rest, skipped = 0;
    char *space = kind == 'A' || kind == '?' ? memchr(bytes + 1, ' ', rest) : NULL;
    if (space) {
        length = (size_t)(space - bytes) - 1;
        skipped = 1;
    }
    *name = (struct text){bytes + 1, length};
    *text = (struct text){bytes + 1 + length + skipped, rest - length - skipped};
    if (!unescape(text, bytes + 1 + length + skipped))
        return BAD_ESCAPE;
    return line->has_line_feed ? FINE : NO_LINE_FEED;
}

/* Tells a result of a line that begins a node at the top. */
static void note_top(struct converter *to, char kind) {
    static const enum kind KINDS[128] = {['('] = ELEMENT, ['C'] = COMMENT, ['?'] = INSTRUCTION};
    if (to->is_result && to->elements.opened.depth == 0 && KINDS[(int)kind] != NO_NODE)
        serializer_top(&to->serializer, KINDS[(int)kind], (struct text){NULL, 0});
}

/* Ends the start tag that was read, if there is one. */
static void finish_tag(struct converter *to, bool is_empty) {
    bool is_top = to->elements.start > 0 && to->elements.opened.depth == 1;
    finish_start(&to->elements, is_empty);
    if (is_top && to->is_result && !is_refused(&to->refusal))
        serializer_start_end(&to->serializer, opened_last(&to->elements.opened), is_empty);
}

/* A line that is no text. */
static void add_line(struct converter *to, const struct line *line) {
    struct text name = {NULL, 0}, text = {NULL, 0};
    char kind = line->length > 0 ? line->bytes[0] : 0;
    bool is_empty = kind == ')' && to->elements.start > 0;
    enum reason reason = read_line(to, line, &name, &text);
    if (kind != 'A' || reason != FINE)
        finish_tag(to, is_empty); /* a fault of an earlier line comes first */
    if (is_refused(&to->refusal))
        return;
    if (reason == FINE)
        note_top(to, kind);
    if (reason != FINE)
        refuse_line(&to->refusal, line->number, reason);
    else if (kind == '(')
        open_element(&to->elements, line->number, name);
    else if (kind == ')')
        close_element(&to->elements, line->number, name, is_empty);
    else if (kind == 'A')
        add_attribute(&to->elements, line->number, name, text);
    else if (kind == 'C')
        add_comment(to, line->number, text);
    else
        add_instruction(to, line->number, name, text);
}

/* Converts lines up to the last one, or the first that is refused; of a refused text all parts. */
static void convert_lines(struct converter *to) {
    struct line line;
    bool is_text = false;
    for (;;) {
        convert_plain_pyx(&to->lines, &to->elements);
        if (to->out.fault || !lines_next(&to->lines, &line))
            return;
        if (line.begins) {
            is_text = line.length > 0 && line.bytes[0] == '-';
            if (is_text)
                finish_tag(to, false);
            if (is_refused(&to->refusal))
                return;
        }
        if (is_text)
            add_text(to, &line);
        else
            add_line(to, &line);
        if (line.ends && is_refused(&to->refusal))
            return;
    }
}

/* Converts all lines. */
static void convert(struct converter *to) {
    convert_lines(to);
    if (is_refused(&to->refusal) || to->out.fault || to->lines.fault)
        return;
    finish_tag(to, false);
    if (to->elements.opened.depth > 0)
        refuse_line(&to->refusal, to->lines.number, TRUNCATED);
    else if (!to->elements.has_top && !to->is_fragment)
        refuse_line(&to->refusal, to->lines.number, NO_ROOT);
    else if (to->is_result && !is_refused(&to->refusal))
        serializer_finish(&to->serializer);
    if (!to->is_fragment)
        output_byte(&to->out, '\n');
}

/* Opens all that a converter needs. False: out of memory. */
static bool open_converter(struct converter *to, const struct options *options, int file) {
    bool is_fragment = options->is_fragment || options->is_result;
    *to = (struct converter){.is_fragment = is_fragment, .is_result = options->is_result};
    bool has_lines = lines_open(&to->lines, file);
    bool has_output = output_open(&to->out, STDOUT_FILENO, options->is_fragment);
    bool has_elements = elements_open(&to->elements, &to->target, &to->refusal, is_fragment);
    to->target.out = &to->out;
    if (options->is_result && !serializer_open(&to->serializer, &options->settings, &to->target))
        return false;
    return has_elements && has_lines && has_output;
}

static void close_converter(struct converter *to) {
    lines_close(&to->lines);
    output_close(&to->out);
    elements_close(&to->elements);
    serializer_close(&to->serializer);
    free(to->refusal.subject);
}

static int complain(const char *name, const char *reason) {
    fprintf(stderr, "pyx2xml: %s: %s\n", name, reason);
    return REFUSED;
}

/* Reports where and why the lines are refused. */
static int complain_of(const struct refusal *refusal, const char *name) {
    if (refusal->reason == NO_MEMORY)
        return complain(name, "out of memory");
    fprintf(stderr, "pyx2xml: %s:%lu: ", name, refusal->number);
    print_reason(stderr, refusal);
    fputc('\n', stderr);
    return REFUSED;
}

/* Reports what went wrong, or else writes what was held back: the status. */
static int finish(struct converter *to, const char *name) {
    if (to->lines.fault)
        return complain(name, strerror(to->lines.fault));
    if (is_refused(&to->refusal))
        return complain_of(&to->refusal, name);
    if (!output_finish(&to->out))
        return complain("standard output", strerror(to->out.fault));
    return 0;
}

static int run(const struct options *options) {
    const char *name = options->file ? options->file : "standard input";
    int file = options->file ? open(options->file, O_RDONLY) : STDIN_FILENO;
    if (file < 0)
        return complain(name, strerror(errno));
    struct converter to;
    int status = REFUSED;
    if (open_converter(&to, options, file)) {
        convert(&to);
        if (options->is_result)
            lines_drain(&to.lines);
        status = finish(&to, name);
    } else {
        complain(name, "out of memory");
    }
    close_converter(&to);
    if (options->file)
        close(file);
    return status;
}

enum { FRAGMENT = SETTINGS_COUNT, RESULT, OPTION_COUNT };

/* Sets what an option says. False: there is no such one. */
static bool set_option(struct options *options, int option, const char *value) {
    if (option == FRAGMENT)
        options->is_fragment = true;
    else
        options->is_result = true;
    return option == FRAGMENT || option == RESULT
        || (option < SETTINGS_COUNT && settings_set(&options->settings, option, value));
}

/* Reads the options. False: the arguments are not as they should be. */
static bool read_options(int count, char **given, struct options *options) {
    struct option names[OPTION_COUNT + 1] = {
        [FRAGMENT] = {"fragment", no_argument, NULL, FRAGMENT},
        [RESULT] = {"result", no_argument, NULL, RESULT},
    };
    for (int at = 0; at < SETTINGS_COUNT; at++)
        names[at] = (struct option){SETTINGS[at], required_argument, NULL, at};
    int option;
    *options = (struct options){.file = NULL};
    while ((option = getopt_long(count, given, "", names, NULL)) != -1)
        if (!set_option(options, option, optarg))
            return false;
    if (optind < count)
        options->file = given[optind++];
    return optind == count && !(options->is_fragment && options->is_result);
}

int main(int count, char **given) {
    struct options options;
    if (!read_options(count, given, &options)) {
        fprintf(stderr, "usage: pyx2xml [--fragment | --result [OPTION VALUE]...] [FILE]\n");
        return USAGE;
    }
    if (!is_known_encoding(options.settings.encoding)) {
        fprintf(stderr, "pyx2xml: the encoding %s is not known\n", options.settings.encoding);
        return USAGE;
    }
    signal(SIGPIPE, SIG_IGN);
    return streams_take() ? run(&options) : REFUSED;
}

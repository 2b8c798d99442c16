#include "write_xml.h"

#include "characters.h"
#include "html_names.h"

/* Indented by two spaces a level, at most by this. */
static const char SPACES[] = "                                                            ";

static const char *const XHTML_TYPES[] = {
    "-//W3C//DTD XHTML 1.0 Strict//EN",
    "-//W3C//DTD XHTML 1.0 Transitional//EN",
    "-//W3C//DTD XHTML 1.0 Frameset//EN",
    "http://www.w3.org/TR/xhtml1/DTD/xhtml1-strict.dtd",
    "http://www.w3.org/TR/xhtml1/DTD/xhtml1-transitional.dtd",
    "http://www.w3.org/TR/xhtml1/DTD/xhtml1-frameset.dtd",
};

bool is_xhtml_type(const char *public, const char *system) {
    for (size_t at = 0; at < sizeof XHTML_TYPES / sizeof *XHTML_TYPES; at++)
        if ((public && strcmp(public, XHTML_TYPES[at]) == 0)
            || (system && strcmp(system, XHTML_TYPES[at]) == 0))
            return true;
    return false;
}

static void put(struct writer *to, const char *string) {
    encoder_string(to->encoder, string);
}

static void put_slice(struct writer *to, struct slice slice) {
    encoder_put(to->encoder, bytes_of(to->nodes, slice));
}

/* An identifier between quotes. */
static void put_quoted(struct writer *to, const char *text) {
    const char *quote = strchr(text, '"') ? "'" : "\"";
    put(to, quote);
    put(to, text);
    put(to, quote);
}

void put_declaration(struct writer *to) {
    const struct settings *settings = to->settings;
    if (settings->omits_declaration == YES)
        return;
    put(to, "<?xml version=\"1.0\" encoding=\"");
    put(to, settings->encoding ? settings->encoding : "UTF-8");
    put(to, "\"");
    if (settings->standalone != NOT_SAID)
        put(to, settings->standalone == YES ? " standalone=\"yes\"" : " standalone=\"no\"");
    put(to, "?>\n");
}

void put_doctype(struct writer *to, struct text name, const char *public, const char *system) {
    put(to, "<!DOCTYPE ");
    encoder_put(to->encoder, name);
    if (public || system)
        put(to, public ? " PUBLIC " : " SYSTEM ");
    if (public)
        put_quoted(to, public);
    if (public && system)
        put(to, " ");
    if (system)
        put_quoted(to, system);
    put(to, ">");
}

/* Puts a text with references for what XML reads as something else. */
static void put_escaped(struct writer *to, struct text text, bool is_value) {
    size_t from = 0, read;
    for (size_t at = plain_length(text, 0); at < text.length; at = plain_length(text, at + read)) {
        const char *made = reference((struct text){text.bytes + at, text.length - at}, is_value,
                                     &read);
        if (!made) {
            read = 1;
            continue;
        }
        encoder_put(to->encoder, (struct text){text.bytes + from, at - from});
        put(to, made);
        from = at + read;
    }
    encoder_put(to->encoder, (struct text){text.bytes + from, text.length - from});
}

void put_xml_text(struct writer *to, struct text text) {
    put_escaped(to, text, false);
}

void put_xml_start(struct writer *to, size_t element) {
    const struct node *node = &to->nodes->list[element];
    put(to, "<");
    put_slice(to, node->name);
    for (size_t at = 0; at < node->count; at++) {
        const struct named *attribute = &to->nodes->attributes[node->attributes + at];
        put(to, " ");
        put_slice(to, attribute->name);
        put(to, "=\"");
        put_escaped(to, bytes_of(to->nodes, attribute->value), true);
        put(to, "\"");
    }
}

void put_end_tag(struct writer *to, size_t element) {
    put(to, "</");
    put_slice(to, to->nodes->list[element].name);
    put(to, ">");
}

void put_comment(struct writer *to, size_t comment) {
    put(to, "<!--");
    put_slice(to, to->nodes->list[comment].text);
    put(to, "-->");
}

void put_instruction(struct writer *to, size_t instruction) {
    const struct node *node = &to->nodes->list[instruction];
    put(to, "<?");
    put_slice(to, node->name);
    put(to, node->text.length > 0 ? " " : "");
    put_slice(to, node->text);
}

/* How many of the first bytes can be in one section: up to the `>` that would end it, or to a
 * character that the encoding does not have. */
static size_t section_length(const struct writer *to, struct text text) {
    size_t at = 0;
    while (at < text.length) {
        struct text rest = {text.bytes + at, text.length - at};
        bool is_held, is_end = at >= 2 && *rest.bytes == '>' && memcmp(rest.bytes - 2, "]]", 2) == 0;
        size_t length = encoder_character(to->encoder, rest, &is_held);
        if (is_end || !is_held || *rest.bytes == '\r')
            break;
        at += length;
    }
    return at;
}

/* A text as CDATA sections, and references between them. */
static void put_sections(struct writer *to, struct text text) {
    while (text.length > 0) {
        size_t length = section_length(to, text);
        if (length > 0) {
            put(to, "<![CDATA[");
            encoder_put(to->encoder, (struct text){text.bytes, length});
            put(to, "]]>");
        } else {
            bool is_held;
            length = encoder_character(to->encoder, text, &is_held);
            put_escaped(to, (struct text){text.bytes, length}, false);
        }
        text = (struct text){text.bytes + length, text.length - length};
    }
}

static void put_indent(struct writer *to, size_t level) {
    size_t count = 2 * level < sizeof SPACES - 1 ? 2 * level : sizeof SPACES - 1;
    encoder_put(to->encoder, (struct text){SPACES, count});
}

/* Whether what is between the nodes inside an element is only what is put there. */
static bool is_indented(const struct writer *to, size_t at) {
    return at > 0 && to->nodes->list[at].is_indented;
}

/* Ends the start tag of an element without children. In XHTML only what has no end tag in HTML is
 * an empty-element tag (XHTML 1.0, C.2 and C.3). */
static void put_empty_end(struct writer *to, size_t element) {
    const struct node *node = &to->nodes->list[element];
    if (!to->is_xhtml) {
        put(to, "/>");
    } else if (html_class(node_name(to->nodes, element)) & VOID_NAME
               && (node->is_xhtml || !node->has_space)) {
        put(to, " />");
    } else {
        put(to, ">");
        put_end_tag(to, element);
    }
}

/* Begins an element, or writes another node. */
static void begin(struct writer *to, size_t at, size_t level) {
    struct node *node = &to->nodes->list[at], *parent = &to->nodes->list[node->parent];
    if (is_indented(to, node->parent) && (node->kind == ELEMENT || !to->is_xhtml))
        put_indent(to, level);
    if (node->kind == COMMENT)
        put_comment(to, at);
    if (node->kind == INSTRUCTION) {
        put_instruction(to, at);
        put(to, "?>");
    }
    if (node->kind == TEXT && parent->is_cdata)
        put_sections(to, bytes_of(to->nodes, node->text));
    else if (node->kind == TEXT)
        put_xml_text(to, bytes_of(to->nodes, node->text));
    if (node->kind != ELEMENT)
        return;
    node->is_indented = parent->is_indented && !node->has_text && !node->is_preserved;
    put_xml_start(to, at);
    if (has_children(to->nodes, at))
        put(to, node->is_indented ? ">\n" : ">");
    else
        put_empty_end(to, at);
}

/* What follows a node: inside an indented element a line feed; at the top one after a comment. */
static void put_after(struct writer *to, size_t at) {
    const struct node *node = &to->nodes->list[at];
    bool is_at_top = node->parent == 0 && node->kind == COMMENT
                  && kind_after(to->nodes, at) != NO_NODE && to->settings->indent != NO;
    if (is_at_top || is_indented(to, node->parent))
        put(to, "\n");
}

/* Ends the open elements up to one of them, or to the root: that element's level. */
static size_t end_up_to(struct writer *to, size_t open, size_t wanted, size_t level) {
    while (open != wanted) {
        level--;
        if (is_indented(to, open))
            put_indent(to, level);
        put_end_tag(to, open);
        put_after(to, open);
        open = to->nodes->list[open].parent;
    }
    return level;
}

void write_xml(struct writer *to) {
    size_t open = 0, level = 0;
    to->nodes->list[0].is_indented = to->is_indented;
    for (size_t at = 1; at < to->nodes->count; at++) {
        const struct node *node = &to->nodes->list[at];
        level = end_up_to(to, open, node->parent, level);
        open = node->parent;
        begin(to, at, level);
        if (has_children(to->nodes, at)) {
            open = at;
            level++;
        } else {
            put_after(to, at);
        }
    }
    end_up_to(to, open, 0, level);
}

void write_xml_beginning(struct writer *to, bool is_empty) {
    put_declaration(to);
    for (size_t at = 1; at < to->nodes->count; at++) {
        if (to->nodes->list[at].kind == ELEMENT) {
            put_xml_start(to, at);
            put(to, is_empty ? "/>" : ">");
            return;
        }
        begin(to, at, 0);
        if (to->nodes->list[at].kind == COMMENT && to->settings->indent != NO)
            put(to, "\n");
    }
}

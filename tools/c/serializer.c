#include "serializer.h"

#include <strings.h>

#include "characters.h"
#include "html_names.h"
#include "write_html.h"
#include "write_xml.h"

/* The document types of versions of HTML. */
static const struct {
    const char *version, *public, *system;
} VERSIONS[] = {
    {"5", NULL, NULL},
    {"4.01frame", "-//W3C//DTD HTML 4.01 Frameset//EN",
     "http://www.w3.org/TR/1999/REC-html401-19991224/frameset.dtd"},
    {"4.01strict", "-//W3C//DTD HTML 4.01//EN",
     "http://www.w3.org/TR/1999/REC-html401-19991224/strict.dtd"},
    {"4.01trans", "-//W3C//DTD HTML 4.01 Transitional//EN",
     "http://www.w3.org/TR/1999/REC-html401-19991224/loose.dtd"},
    {"4.01", "-//W3C//DTD HTML 4.01 Transitional//EN",
     "http://www.w3.org/TR/1999/REC-html401-19991224/loose.dtd"},
    {"4.0strict", "-//W3C//DTD HTML 4.01//EN", "http://www.w3.org/TR/html4/strict.dtd"},
    {"4.0trans", "-//W3C//DTD HTML 4.01 Transitional//EN",
     "http://www.w3.org/TR/html4/loose.dtd"},
    {"4.0frame", "-//W3C//DTD HTML 4.01 Frameset//EN",
     "http://www.w3.org/TR/html4/frameset.dtd"},
    {"4.0", "-//W3C//DTD HTML 4.01 Transitional//EN", "http://www.w3.org/TR/html4/loose.dtd"},
    {"3.2", "-//W3C//DTD HTML 3.2//EN", NULL},
};

bool serializer_open(struct serializer *to, const struct settings *settings, struct target *target) {
    *to = (struct serializer){.settings = *settings, .target = target};
    bool has_nodes = nodes_open(&to->nodes);
    target->nodes = &to->nodes;
    target->encoder = &to->encoder;
    target->settings = &to->settings;
    return encoder_open(&to->encoder, target->out, settings->encoding) && has_nodes;
}

void serializer_close(struct serializer *to) {
    nodes_close(&to->nodes);
    encoder_close(&to->encoder);
}

static struct writer writer_of(struct serializer *to) {
    enum choice indent = to->settings.indent;
    bool is_html = to->settings.method == HTML_METHOD;
    return (struct writer){
        .nodes = &to->nodes,
        .settings = &to->settings,
        .encoder = &to->encoder,
        .is_indented = is_html ? indent != NO : indent == YES,
    };
}

/* Decides by the first element, or a text before it. What is plain goes to the output from now on. */
static void decide(struct serializer *to, bool is_html, bool is_empty) {
    to->is_decided = true;
    to->is_found_html = to->settings.method == ANY_METHOD && is_html;
    if (to->settings.method == ANY_METHOD)
        to->settings.method = is_html ? HTML_METHOD : XML_METHOD;
    if (!is_plain_xml(&to->settings))
        return;
    struct writer writer = writer_of(to);
    write_xml_beginning(&writer, is_empty);
    to->target->nodes = NULL;
    to->has_comment = false;
}

void serializer_top(struct serializer *to, enum kind kind, struct text text) {
    if (kind == TEXT && text.length == 0)
        return;
    if (kind == TEXT && !is_blank(text)) {
        to->has_other = true;
        if (!to->is_decided)
            decide(to, false, false);
    }
    if (kind == ELEMENT)
        to->has_other |= to->has_element;
    to->has_element |= kind == ELEMENT;
    if (to->has_comment && !to->target->nodes && to->settings.indent != NO)
        output_byte(to->target->out, '\n');
    to->has_comment = kind == COMMENT;
}

void serializer_start_end(struct serializer *to, struct text name, bool is_empty) {
    const struct node *made = &to->nodes.list[to->nodes.inner];
    if (!to->is_decided)
        decide(to, !made->has_space && same_name(name, "html"), is_empty);
}

/* Whether a result is a document, and no piece of one. */
static bool is_document(const struct serializer *to) {
    return to->has_element && !to->has_other;
}

/* The first element at the top, or 0. */
static size_t first_element(const struct nodes *nodes) {
    size_t at = 1;
    while (at < nodes->count && nodes->list[at].kind != ELEMENT)
        at++;
    return at < nodes->count ? at : 0;
}

/* The document type of HTML: as it is asked for, or that of the version. */
static void put_html_doctype(struct writer *to, struct text name) {
    const struct settings *settings = to->settings;
    const char *public = settings->doctype_public, *system = settings->doctype_system;
    bool is_asked = public || system;
    for (size_t at = 0; at < sizeof VERSIONS / sizeof *VERSIONS && !is_asked; at++) {
        if (!settings->version || strcasecmp(settings->version, VERSIONS[at].version) != 0)
            continue;
        is_asked = true;
        public = VERSIONS[at].public;
        system = VERSIONS[at].system;
    }
    if (system && strcmp(system, "about:legacy-compat") == 0)
        system = NULL;
    if (!is_asked)
        return;
    put_doctype(to, name, public, system);
    encoder_string(to->encoder, "\n");
}

static void finish_html(struct serializer *to) {
    struct writer writer = writer_of(to);
    size_t top = first_element(&to->nodes);
    put_html_doctype(&writer, to->is_found_html ? node_name(&to->nodes, top) : text_of("html"));
    write_html(&writer);
}

static void finish_xml(struct serializer *to) {
    struct writer writer = writer_of(to);
    const struct settings *settings = &to->settings;
    put_declaration(&writer);
    if (is_document(to) && settings->doctype_system) {
        put_doctype(&writer, node_name(&to->nodes, first_element(&to->nodes)),
                    settings->doctype_public, settings->doctype_system);
        writer.is_xhtml = is_xhtml_type(settings->doctype_public, settings->doctype_system);
        encoder_string(&to->encoder, settings->indent != NO ? "\n" : "");
    }
    write_xml(&writer);
}

void serializer_finish(struct serializer *to) {
    nodes_finish(&to->nodes);
    bool is_kept = to->target->nodes != NULL;
    if (is_kept && to->nodes.count == 1)
        return;
    if (is_kept)
        encoder_begin(&to->encoder);
    if (is_kept && to->settings.method == HTML_METHOD) {
        finish_html(to);
        return;
    }
    if (is_kept)
        finish_xml(to);
    if (is_document(to) && to->settings.indent != NO)
        encoder_string(&to->encoder, "\n");
}

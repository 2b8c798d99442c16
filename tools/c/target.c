#include "target.h"

#include "characters.h"
#include "html_names.h"
#include "names.h"

/* The reason why nodes did not get a part. */
static enum reason kept(bool is_kept) {
    return is_kept ? FINE : NO_MEMORY;
}

/* Whether nodes get a text for which no reference can be written. */
static bool holds(const struct target *to, struct text text) {
    return !to->nodes || encoder_holds(to->encoder, text);
}

enum reason target_start(struct target *to, struct text name) {
    if (!holds(to, name))
        return NOT_ENCODED;
    if (to->nodes)
        return kept(nodes_start(to->nodes, name));
    output_byte(to->out, '<');
    output_put(to->out, name.bytes, name.length);
    return FINE;
}

enum reason target_attribute(struct target *to, struct text name, struct text value) {
    bool is_fine = true;
    if (to->nodes) {
        if (!nodes_attribute(to->nodes, name, value))
            return NO_MEMORY;
        is_fine = is_allowed(value);
    } else {
        output_byte(to->out, ' ');
        output_put(to->out, name.bytes, name.length);
        output_text(to->out, "=\"");
        is_fine = put_text(to->out, value, true);
        output_byte(to->out, '"');
    }
    if (!is_fine)
        return NO_CHARACTER;
    return holds(to, name) ? FINE : NOT_ENCODED;
}

void target_start_end(struct target *to, struct text name, struct text uri, bool is_empty) {
    if (!to->nodes) {
        output_text(to->out, is_empty ? "/>" : ">");
        return;
    }
    struct node *made = &to->nodes->list[to->nodes->inner];
    struct text prefix, local;
    split_name(name, &prefix, &local);
    made->has_space = uri.length > 0;
    made->is_xhtml = same_text(uri, text_of("http://www.w3.org/1999/xhtml"));
    made->html = made->has_space ? 0 : html_class(name);
    made->is_cdata = is_cdata(to->settings, uri, local);
}

void target_end(struct target *to, struct text name, bool is_empty) {
    if (to->nodes) {
        nodes_end(to->nodes);
    } else if (!is_empty) {
        output_text(to->out, "</");
        output_put(to->out, name.bytes, name.length);
        output_byte(to->out, '>');
    }
}

/* Whether a text comes into a script or a style sheet of HTML, where no references are read. */
static bool is_raw(const struct target *to) {
    bool is_raw = to->nodes->list[to->nodes->inner].html & RAW_NAME;
    return is_raw && to->settings->method == HTML_METHOD;
}

enum reason target_text(struct target *to, struct text text) {
    if (!to->nodes)
        return put_text(to->out, text, false) ? FINE : NO_CHARACTER;
    if (!is_allowed(text))
        return NO_CHARACTER;
    if (is_raw(to) && !holds(to, text))
        return NOT_ENCODED;
    return kept(nodes_text(to->nodes, text));
}

enum reason target_comment(struct target *to, struct text text) {
    if (!holds(to, text))
        return NOT_ENCODED;
    if (to->nodes)
        return kept(nodes_other(to->nodes, COMMENT, (struct text){NULL, 0}, text));
    output_text(to->out, "<!--");
    output_put(to->out, text.bytes, text.length);
    output_text(to->out, "-->");
    return FINE;
}

enum reason target_instruction(struct target *to, struct text name, struct text text) {
    if (!holds(to, name) || !holds(to, text))
        return NOT_ENCODED;
    if (to->nodes)
        return kept(nodes_other(to->nodes, INSTRUCTION, name, text));
    output_text(to->out, "<?");
    output_put(to->out, name.bytes, name.length);
    if (text.length > 0)
        output_byte(to->out, ' ');
    output_put(to->out, text.bytes, text.length);
    output_text(to->out, "?>");
    return FINE;
}

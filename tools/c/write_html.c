#include "write_html.h"

#include <strings.h>

#include "html_names.h"
#include "names.h"

static const char CONTENT_TYPE[] = "text/html; charset=";

/* The `meta` that says the encoding: where it is put, or which one is changed; 0: nowhere. */
struct meta {
    size_t head;    /* the element that it is put into */
    size_t changed; /* the element whose `content` says another encoding */
};

struct html {
    struct writer *to;
    struct nodes *nodes;
    struct meta meta;
};

static void put(struct html *html, const char *string) {
    encoder_string(html->to->encoder, string);
}

static void put_text(struct html *html, struct text text) {
    encoder_put(html->to->encoder, text);
}

static const char *encoding_of(const struct html *html) {
    return html->to->settings->encoding ? html->to->settings->encoding : "UTF-8";
}

/* Whether a node is an element of HTML of this name. */
static bool is_named(const struct html *html, size_t at, const char *name) {
    const struct node *node = &html->nodes->list[at];
    return node->kind == ELEMENT && !node->has_space && same_name(node_name(html->nodes, at), name);
}

/* The first child of this name inside a node, or 0. */
static size_t child_named(const struct html *html, size_t parent, const char *name) {
    const struct node *list = html->nodes->list;
    for (size_t at = parent + 1; at < list[parent].end; at = list[at].end)
        if (is_named(html, at, name))
            return at;
    return 0;
}

/* The value of an attribute of an element, empty where it has none. */
static struct text value_of(const struct html *html, size_t element, const char *name) {
    const struct node *node = &html->nodes->list[element];
    for (size_t at = node->attributes; at < node->attributes + node->count; at++)
        if (same_name(bytes_of(html->nodes, html->nodes->attributes[at].name), name))
            return bytes_of(html->nodes, html->nodes->attributes[at].value);
    return (struct text){"", 0};
}

/* Whether a text has another in it, in any case. */
static bool contains(struct text text, const char *other) {
    size_t length = strlen(other);
    for (size_t at = 0; at + length <= text.length; at++)
        if (strncasecmp(text.bytes + at, other, length) == 0)
            return true;
    return false;
}

/* Finds out where the encoding is said: in a `meta` that says one already, or in a new one. */
static struct meta find_meta(const struct html *html) {
    const struct node *list = html->nodes->list;
    size_t top = child_named(html, 0, "html"), head = child_named(html, top, "head");
    if (head == 0)
        return (struct meta){0, 0};
    for (size_t at = head + 1; at < list[head].end; at = list[at].end) {
        struct text content = value_of(html, at, "content");
        if (!is_named(html, at, "meta") || content.length == 0
            || !same_name(value_of(html, at, "http-equiv"), "Content-Type"))
            continue;
        return (struct meta){0, contains(content, encoding_of(html)) ? 0 : at};
    }
    return (struct meta){head, 0};
}

/* Whether a value has a character. */
static bool has(struct text value, char wanted) {
    return value.length > 0 && memchr(value.bytes, wanted, value.length);
}

/* A byte of a value that is not put as it is: whether there is one. */
static bool put_special(struct html *html, struct text value, size_t at, bool is_uri, char quote) {
    unsigned char byte = (unsigned char)value.bytes[at];
    static const char DIGITS[] = "0123456789ABCDEF";
    char escape[] = {'%', DIGITS[byte >> 4], DIGITS[byte & 15], 0};
    if (byte == '&' && !(at + 1 < value.length && value.bytes[at + 1] == '{'))
        put(html, "&amp;");
    else if (byte == '>')
        put(html, "&gt;");
    else if (byte == '\r')
        put(html, "&#13;");
    else if (byte == '"' && quote == '"')
        put(html, "&quot;");
    else if (byte >= 0x80 && is_uri)
        put(html, escape);
    else
        return false;
    return true;
}

/* The value of an attribute between quotes. */
static void put_value(struct html *html, struct text value, bool is_uri) {
    char quote[] = {has(value, '"') && !has(value, '\'') ? '\'' : '"', 0};
    size_t from = 0;
    put(html, "=");
    put(html, quote);
    for (size_t at = 0; at < value.length; at++) {
        unsigned char byte = (unsigned char)value.bytes[at];
        if (byte != '&' && byte != '>' && byte != '\r' && byte != '"' && !(byte >= 0x80 && is_uri))
            continue;
        put_text(html, (struct text){value.bytes + from, at - from});
        from = put_special(html, value, at, is_uri, *quote) ? at + 1 : at;
    }
    put_text(html, (struct text){value.bytes + from, value.length - from});
    put(html, quote);
}

static void put_attribute(struct html *html, size_t element, const struct named *attribute) {
    struct text name = bytes_of(html->nodes, attribute->name);
    struct text value = bytes_of(html->nodes, attribute->value);
    put(html, " ");
    put_text(html, name);
    if (element == html->meta.changed && same_name(name, "content")) {
        put(html, "=\"");
        put(html, CONTENT_TYPE);
        put(html, encoding_of(html));
        put(html, "\"");
    } else if (name.length != value.length || !is_boolean_name(name)
               || strncasecmp(name.bytes, value.bytes, name.length) != 0) {
        put_value(html, value, is_uri_name(node_name(html->nodes, element), name));
    }
}

/* Whether an element of HTML has no end tag. */
static bool is_void(const struct html *html, size_t element) {
    return html->nodes->list[element].html & VOID_NAME;
}

/* Whether line feeds may be put around an element, and inside it. */
static bool is_block(const struct html *html, size_t element) {
    return html->to->is_indented && html->nodes->list[element].html & BLOCK_NAME;
}

/* Whether a name begins with `p`: inside `p`, `pre` and `param` no line feeds are put. */
static bool begins_with_p(const struct html *html, size_t element) {
    struct text prefix, local;
    split_name(node_name(html->nodes, element), &prefix, &local);
    return *local.bytes == 'p';
}

/* The kinds of the children of an element, a `meta` that is put among them. */
struct children {
    enum kind first, last;
    bool has_more; /* than one */
};

static struct children children_of(const struct html *html, size_t element) {
    const struct node *list = html->nodes->list;
    struct children found = {NO_NODE, NO_NODE, false};
    if (has_children(html->nodes, element)) {
        found.first = list[element + 1].kind;
        found.last = list[list[element].last].kind;
        found.has_more = list[element].last != element + 1;
    }
    if (element == html->meta.head && element > 0) {
        found.has_more = found.first != NO_NODE;
        found.first = ELEMENT;
        found.last = found.last != NO_NODE ? found.last : ELEMENT;
    }
    return found;
}

/* A line feed inside an element, before a child or after the last one of this kind. */
static void put_inner_feed(struct html *html, size_t element, enum kind child) {
    if (is_block(html, element) && child != TEXT && children_of(html, element).has_more
        && !begins_with_p(html, element))
        put(html, "\n");
}

/* A line feed after an element inside another one, where a sibling of this kind follows. */
static void put_outer_feed(struct html *html, size_t parent, enum kind sibling) {
    if (sibling != NO_NODE && sibling != TEXT && parent > 0 && !begins_with_p(html, parent))
        put(html, "\n");
}

static void put_after(struct html *html, size_t element) {
    if (is_block(html, element))
        put_outer_feed(html, html->nodes->list[element].parent, kind_after(html->nodes, element));
}

/* The new `meta`, as the first child of the head. */
static void put_meta(struct html *html, size_t head) {
    put(html, "<meta http-equiv=\"Content-Type\" content=\"");
    put(html, CONTENT_TYPE);
    put(html, encoding_of(html));
    put(html, "\">");
    if (html->to->is_indented)
        put_outer_feed(html, head, kind_inside(html->nodes, head + 1, head));
}

/* The start of an element that is in a namespace, as XML; an empty one has its end tag, except
 * for those of XHTML that have none in HTML. */
static void begin_xml(struct html *html, size_t at) {
    struct text prefix, local;
    split_name(node_name(html->nodes, at), &prefix, &local);
    bool is_void = html->nodes->list[at].is_xhtml && html_class(local) & VOID_NAME;
    put_xml_start(html->to, at);
    put(html, is_void && !has_children(html->nodes, at) ? "/>" : ">");
    if (!is_void && !has_children(html->nodes, at))
        put_end_tag(html->to, at);
}

/* The start of an element of HTML, and of an empty one the end. */
static void begin_element(struct html *html, size_t at) {
    const struct node *node = &html->nodes->list[at];
    enum kind first = children_of(html, at).first;
    put(html, "<");
    put_text(html, node_name(html->nodes, at));
    for (size_t place = node->attributes; place < node->attributes + node->count; place++)
        put_attribute(html, at, &html->nodes->attributes[place]);
    put(html, ">");
    if (first != NO_NODE && !is_void(html, at))
        put_inner_feed(html, at, first);
    if (at == html->meta.head)
        put_meta(html, at);
    if (first == NO_NODE && !is_void(html, at))
        put_end_tag(html->to, at);
}

/* Ends an element that has children. */
static void end_element(struct html *html, size_t at) {
    if (!is_void(html, at)) {
        put_inner_feed(html, at, children_of(html, at).last);
        put_end_tag(html->to, at);
    }
    put_after(html, at);
}

static void write_text(struct html *html, size_t at) {
    const struct node *node = &html->nodes->list[at];
    struct text text = bytes_of(html->nodes, node->text);
    if (html->nodes->list[node->parent].html & RAW_NAME)
        put_text(html, text);
    else
        put_xml_text(html->to, text);
}

/* Begins an element, or writes another node. */
static void begin(struct html *html, size_t at) {
    const struct node *node = &html->nodes->list[at];
    if (node->kind == TEXT)
        write_text(html, at);
    else if (node->kind == COMMENT)
        put_comment(html->to, at);
    else if (node->kind == INSTRUCTION)
        put_instruction(html->to, at);
    else if (node->has_space)
        begin_xml(html, at);
    else
        begin_element(html, at);
    if (node->kind == INSTRUCTION)
        put(html, ">");
}

/* Ends the open elements up to one of them, or to the root. */
static void end_up_to(struct html *html, size_t open, size_t wanted) {
    for (; open != wanted; open = html->nodes->list[open].parent)
        end_element(html, open);
}

void write_html(struct writer *to) {
    struct html html = {.to = to, .nodes = to->nodes};
    size_t open = 0;
    html.meta = find_meta(&html);
    for (size_t at = 1; at < to->nodes->count; at++) {
        size_t parent = to->nodes->list[at].parent;
        end_up_to(&html, open, parent);
        open = parent;
        begin(&html, at);
        if (children_of(&html, at).first != NO_NODE && to->nodes->list[at].kind == ELEMENT)
            open = at;
        else if (to->nodes->list[at].kind == ELEMENT)
            put_after(&html, at);
    }
    end_up_to(&html, open, 0);
    put(&html, "\n");
}

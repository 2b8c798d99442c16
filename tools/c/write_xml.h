/* The nodes of a result as XML (XSLT 1.0, 16.1). */
#ifndef WRITE_XML_H
#define WRITE_XML_H

#include "encoder.h"
#include "nodes.h"
#include "settings.h"

/* What writes the nodes of a result. */
struct writer {
    struct nodes *nodes;
    const struct settings *settings;
    struct encoder *encoder;
    bool is_indented;
    bool is_xhtml; /* the document type is one of XHTML, so that browsers may read it as HTML */
};

/* Whether these are the identifiers of a document type of XHTML. */
bool is_xhtml_type(const char *public, const char *system);

/* The XML declaration, where it is asked for. */
void put_declaration(struct writer *to);

/* The document type declaration, with a name. */
void put_doctype(struct writer *to, struct text name, const char *public, const char *system);

/* The start of an element as XML has it, up to its attributes. */
void put_xml_start(struct writer *to, size_t element);

/* The end tag of an element. */
void put_end_tag(struct writer *to, size_t element);

/* A text of XML. */
void put_xml_text(struct writer *to, struct text text);

/* A comment, or an instruction up to its last byte. */
void put_comment(struct writer *to, size_t comment);
void put_instruction(struct writer *to, size_t instruction);

/* All nodes. */
void write_xml(struct writer *to);

/* The nodes that come before the first element or text, and of the element the start tag. */
void write_xml_beginning(struct writer *to, bool is_empty);

#endif

/* The result of a stylesheet (XSLT 1.0, 16): its nodes are kept until it is known how they are
 * written. XML that is plain is written from then on as it comes, and all else at the end. */
#ifndef SERIALIZER_H
#define SERIALIZER_H

#include "encoder.h"
#include "nodes.h"
#include "settings.h"
#include "target.h"

struct serializer {
    struct settings settings;
    struct target *target;
    struct nodes nodes;
    struct encoder encoder;
    bool is_decided;    /* how it is written */
    bool is_found_html; /* by the first element */
    bool has_element;   /* at the top */
    bool has_other;     /* and there a second one, or a text that is not blank */
    bool has_comment;   /* it is the last node at the top */
};

/* False: the encoding is not known, or out of memory. */
bool serializer_open(struct serializer *to, const struct settings *settings, struct target *target);
void serializer_close(struct serializer *to);

/* A node at the top, of a text the bytes. */
void serializer_top(struct serializer *to, enum kind kind, struct text text);

/* The start tag of an element at the top has ended. */
void serializer_start_end(struct serializer *to, struct text name, bool is_empty);

/* All lines were read, and are right: writes what is left. */
void serializer_finish(struct serializer *to);

#endif

/* Where the parts of a document go: to the output at once, or to the nodes of a result. */
#ifndef TARGET_H
#define TARGET_H

#include "encoder.h"
#include "nodes.h"
#include "output.h"
#include "refusal.h"
#include "settings.h"

struct target {
    struct output *out;
    struct nodes *nodes;             /* NULL: to the output at once, as XML in UTF-8 */
    const struct encoder *encoder;   /* of the nodes */
    const struct settings *settings; /* of the nodes */
};

/* Each puts a part, and says why it can't. */
enum reason target_start(struct target *to, struct text name);
enum reason target_attribute(struct target *to, struct text name, struct text value);
enum reason target_text(struct target *to, struct text text);
enum reason target_comment(struct target *to, struct text text);
enum reason target_instruction(struct target *to, struct text name, struct text text);

/* Ends the start tag of the element of this name, which is in a namespace. */
void target_start_end(struct target *to, struct text name, struct text uri, bool is_empty);

/* Ends an element; of an empty one nothing is left to put. */
void target_end(struct target *to, struct text name, bool is_empty);

#endif

/* Why PYX lines are refused, in the words of tools/pyx2xml. */
#ifndef REFUSAL_H
#define REFUSAL_H

#include <stdbool.h>
#include <stdio.h>

#include "scopes.h"

/* Why lines are refused; those of one text line in the order in which they count. */
enum reason {
    FINE,
    BAD_UTF8,
    BAD_KIND,
    LONE_ATTRIBUTE,
    BAD_ESCAPE,
    NO_LINE_FEED,
    TEXT_OUTSIDE,
    NO_CHARACTER,
    NOT_ENCODED,
    SECOND_TOP,
    NOT_OPEN,
    BAD_NAME,
    UNBOUND_PREFIX,
    DOUBLE_ATTRIBUTE,
    BAD_NAMESPACE,
    BAD_COMMENT,
    BAD_INSTRUCTION,
    TRUNCATED,
    NO_ROOT,
    NO_MEMORY,
};

struct refusal {
    enum reason reason;
    unsigned long number; /* of the line */
    char *subject;        /* a name, or NULL */
    size_t length;
};

/* Refuses the lines, unless that was done already; what is named is copied. */
void refuse(struct refusal *refusal, unsigned long number, enum reason reason,
            struct text subject);

/* The same for a reason that names nothing. */
void refuse_line(struct refusal *refusal, unsigned long number, enum reason reason);

static inline bool is_refused(const struct refusal *refusal) {
    return refusal->reason != FINE;
}

/* Prints the reason with what it names. */
void print_reason(FILE *out, const struct refusal *refusal);

#endif

#include "refusal.h"

#include <stdlib.h>
#include <string.h>

#include "names.h"

static const char *const REASONS[] = {
    [BAD_UTF8] = "BadUtf8: the line is not UTF-8",
    [BAD_KIND] = "BadLine: no line begins like this",
    [LONE_ATTRIBUTE] = "BadLine: an attribute that follows no start",
    [BAD_ESCAPE] = "BadEscape: a backslash without n, t, r or a backslash after it",
    [NO_LINE_FEED] = "NoFinalLineFeed: the last line has no line feed",
    [TEXT_OUTSIDE] = "Unbalanced: text outside the top element",
    [NO_CHARACTER] = "XML has no such character",
    [NOT_ENCODED] = "the encoding has no such character, and here no reference can be written",
    [SECOND_TOP] = "Unbalanced: a second top element",
    [NOT_OPEN] = "Unbalanced: closes no open element of this name",
    [BAD_NAME] = "BadName: ",
    [UNBOUND_PREFIX] = "UnboundPrefix: ",
    [DOUBLE_ATTRIBUTE] = "DoubleAttribute: ",
    [BAD_NAMESPACE] = "BadNamespace: ",
    [BAD_COMMENT] = "an XML comment can't hold `--`, a last `-` or a carriage return",
    [BAD_INSTRUCTION] = "an XML instruction can't hold `?>` or a carriage return",
    [TRUNCATED] = "Truncated: an element is open at the end",
    [NO_ROOT] = "NoRoot: no element",
    [NO_MEMORY] = "out of memory",
};

void refuse(struct refusal *refusal, unsigned long number, enum reason reason,
            struct text subject) {
    if (is_refused(refusal))
        return;
    *refusal = (struct refusal){reason, number, NULL, subject.length};
    if (!subject.bytes)
        return;
    refusal->subject = malloc(subject.length + 1);
    if (refusal->subject)
        memcpy(refusal->subject, subject.bytes, subject.length);
    else
        refusal->reason = NO_MEMORY;
}

void refuse_line(struct refusal *refusal, unsigned long number, enum reason reason) {
    refuse(refusal, number, reason, (struct text){NULL, 0});
}

void print_reason(FILE *out, const struct refusal *refusal) {
    struct text subject = {refusal->subject, refusal->length};
    fputs(REASONS[refusal->reason], out);
    if (refusal->reason == BAD_NAME)
        print_ascii(out, subject.bytes ? subject : text_of(""));
    else if (subject.bytes)
        fwrite(subject.bytes, 1, subject.length, out);
}

#include "places.h"

#include <string.h>

#include "encodings.h"

struct place place_here(XML_Parser reader) {
    return (struct place){XML_GetCurrentLineNumber(reader), XML_GetCurrentColumnNumber(reader)};
}

/* A parser says where that reads the tag alone. */
struct place place_of_colon(XML_Parser reader, const char *encoding) {
    struct place place = place_here(reader);
    int offset = 0, size = 0;
    const char *context = XML_GetInputContext(reader, &offset, &size);
    int length = XML_GetCurrentByteCount(reader);
    XML_Parser tag = XML_ParserCreateNS(encoding, '\1');
    if (tag && context) {
        XML_SetUnknownEncodingHandler(tag, know_encoding, NULL);
        if (XML_Parse(tag, context + offset, length, XML_TRUE) == XML_STATUS_ERROR) {
            bool is_first = XML_GetCurrentLineNumber(tag) == 1;
            place.line += XML_GetCurrentLineNumber(tag) - 1;
            place.column = (is_first ? place.column : 0) + XML_GetCurrentColumnNumber(tag);
        }
    }
    XML_ParserFree(tag);
    return place;
}

struct place place_in_target(XML_Parser reader, const char *target) {
    struct place place = place_here(reader);
    place.column += strlen("<?");
    for (; *target && *target != ':'; target++)
        place.column += ((unsigned char)*target & 0xc0) != 0x80;
    return place;
}

bool has_no_letter(const char *name) {
    return strstr(name, "\xc2\xaa") || strstr(name, "\xc2\xb5") || strstr(name, "\xc2\xba");
}

/* The place after a byte of ISO-8859-1 and before another one. */
static struct place after(struct place place, char byte, char next) {
    if (byte == '\n' || (byte == '\r' && next != '\n'))
        return (struct place){place.line + 1, 0};
    place.column++;
    return place;
}

/* The first such byte in what begins here that is in no value. */
struct place place_of_no_letter(XML_Parser reader) {
    struct place place = place_here(reader), first = place;
    int offset = 0, size = 0;
    const char *context = XML_GetInputContext(reader, &offset, &size);
    if (!context || context[offset] != '<')
        return first; /* an entity holds it */
    char quote = 0;
    for (int at = offset; at < size && (quote || context[at] != '>'); at++) {
        char byte = context[at];
        if (!quote && (byte == '\xaa' || byte == '\xb5' || byte == '\xba'))
            return place;
        if (byte == quote)
            quote = 0;
        else if (!quote && (byte == '"' || byte == '\''))
            quote = byte;
        place = after(place, byte, at + 1 < size ? context[at + 1] : 0);
    }
    return first;
}

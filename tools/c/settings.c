#include "settings.h"

#include <string.h>
#include <strings.h>

const char *const SETTINGS[SETTINGS_COUNT] = {
    "method",         "indent",        "standalone",
    "omit-xml-declaration", "encoding", "version",
    "doctype-public", "doctype-system", "cdata-section-elements",
};

static bool set_method(struct settings *settings, const char *value) {
    settings->method = strcmp(value, "html") == 0 ? HTML_METHOD : XML_METHOD;
    return settings->method == HTML_METHOD || strcmp(value, "xml") == 0;
}

static bool set_choice(enum choice *choice, const char *value) {
    *choice = strcmp(value, "yes") == 0 ? YES : NO;
    return *choice == YES || strcmp(value, "no") == 0;
}

static bool set_text(const char **text, const char *value) {
    *text = value;
    return true;
}

bool settings_set(struct settings *settings, int number, const char *value) {
    switch (number) {
    case 0: return set_method(settings, value);
    case 1: return set_choice(&settings->indent, value);
    case 2: return set_choice(&settings->standalone, value);
    case 3: return set_choice(&settings->omits_declaration, value);
    case 4: return set_text(&settings->encoding, value);
    case 5: return set_text(&settings->version, value);
    case 6: return set_text(&settings->doctype_public, value);
    case 7: return set_text(&settings->doctype_system, value);
    default: return set_text(&settings->cdata, value);
    }
}

bool is_cdata(const struct settings *settings, struct text uri, struct text local) {
    const char *at = settings->cdata ? settings->cdata : "";
    while (*(at += strspn(at, " \t\r\n"))) {
        const char *close = *at == '{' ? strchr(at, '}') : NULL;
        struct text space = {close ? at + 1 : at, close ? (size_t)(close - at) - 1 : 0};
        at = close ? close + 1 : at;
        struct text name = {at, strcspn(at, " \t\r\n")};
        at += name.length;
        if (same_text(space, uri) && same_text(name, local))
            return true;
    }
    return false;
}

bool is_plain_xml(const struct settings *settings) {
    bool is_utf8 = !settings->encoding || strcasecmp(settings->encoding, "UTF-8") == 0;
    return settings->method == XML_METHOD && is_utf8 && settings->indent != YES
        && !settings->doctype_system && !settings->cdata;
}

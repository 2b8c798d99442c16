#include "charsets.h"

#include <errno.h>
#include <stddef.h>
#include <strings.h>

/* The same list as in lib/encodings.py: registered names of encodings that iconv and Python
 * read alike. */
static const char *const KNOWN[] = {
    "ASCII",
    "ISO-8859-2",   "ISO-8859-3",   "ISO-8859-4",   "ISO-8859-5",   "ISO-8859-6",
    "ISO-8859-7",   "ISO-8859-8",   "ISO-8859-9",   "ISO-8859-10",  "ISO-8859-11",
    "ISO-8859-13",  "ISO-8859-14",  "ISO-8859-15",  "ISO-8859-16",  "windows-1250",
    "windows-1251", "windows-1252", "windows-1253", "windows-1254", "windows-1255",
    "windows-1256", "windows-1257", "windows-1258", "KOI8-R",       "KOI8-U",
    "IBM437",       "IBM850",       "IBM852",       "IBM855",       "IBM857",
    "IBM860",       "IBM861",       "IBM862",       "IBM863",       "IBM865",
    "IBM866",       "IBM869",
};

bool is_single_byte(const char *name) {
    for (size_t at = 0; at < sizeof KNOWN / sizeof *KNOWN; at++)
        if (strcasecmp(name, KNOWN[at]) == 0)
            return true;
    return false;
}

bool read_byte(iconv_t meaning, char byte, int *made) {
    unsigned char wide[8];
    char *in = &byte, *out = (char *)wide;
    size_t left = 1, room = sizeof wide;
    bool is_read = iconv(meaning, &in, &left, &out, &room) != (size_t)-1;
    bool is_none = !is_read && errno == EILSEQ;
    if (is_read) /* a character that a next one may be joined to comes when it is asked for */
        is_read = iconv(meaning, NULL, NULL, &out, &room) != (size_t)-1;
    else
        iconv(meaning, NULL, NULL, NULL, NULL);
    *made = -1;
    if (!is_read || room != 4)
        return is_none;
    *made = (int)((unsigned)wide[0] << 24 | wide[1] << 16 | wide[2] << 8 | wide[3]);
    return true;
}

#include "encodings.h"

#include <stdbool.h>

#include "charsets.h"

int know_encoding(void *data, const XML_Char *name, XML_Encoding *encoding) {
    (void)data;
    iconv_t meaning = is_single_byte(name) ? iconv_open("UTF-32BE", name) : (iconv_t)-1;
    if (meaning == (iconv_t)-1)
        return XML_STATUS_ERROR;
    bool is_single = true;
    for (int byte = 0; byte < 256 && is_single; byte++)
        is_single = read_byte(meaning, (char)byte, &encoding->map[byte]);
    iconv_close(meaning);
    encoding->data = NULL;
    encoding->convert = NULL;
    encoding->release = NULL;
    return is_single ? XML_STATUS_OK : XML_STATUS_ERROR;
}

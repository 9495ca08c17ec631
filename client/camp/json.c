/* Texts as JSON. */
#include "json.h"

#include <stdio.h>

void json_text(const void *bytes, size_t length)
{
    const unsigned char *byte = bytes;
    putchar('"');
    for (; length > 0; byte++, length--) {
        if (*byte == '"' || *byte == '\\')
            printf("\\%c", *byte);
        else if (*byte >= 32 && *byte <= 126)
            putchar(*byte);
        else
            printf("\\u%04x", (unsigned)*byte);
    }
    putchar('"');
}

/* Texts as JSON, on standard output. */
#ifndef CAMP_JSON_H
#define CAMP_JSON_H

#include <stddef.h>

/* Bytes as a string: the quote, the backslash and all outside 32 to 126 are escaped. */
void json_text(const void *bytes, size_t length);

#endif

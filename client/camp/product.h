/*
 * The product of two symmetry operators as a text, for a message that says what is missing.
 */
#ifndef CAMP_PRODUCT_H
#define CAMP_PRODUCT_H

#include <stdbool.h>
#include <stdint.h>

/* Enough for the text of every operator, and its end. */
enum { OPERATOR_TEXT = 40 };

/*
 * Writes the text of a product, which applies the second row first. False where no text says it: a
 * factor is beyond 1, or a translation is no fraction of an operator.
 */
bool product_text(const int8_t *first, const int8_t *second, char text[OPERATOR_TEXT]);

#endif

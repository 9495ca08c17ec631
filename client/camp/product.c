/* The product of two symmetry operators as a text. */
#include "product.h"

#include <stddef.h>
#include <stdio.h>
#include <string.h>

#include "symmetry.h"

enum { LETTERS = 3, PARTS = 3, FACTORS = PARTS * LETTERS, WHOLE = 24 };

static void multiply(const int8_t *first, const int8_t *second, int8_t *product)
{
    for (int part = 0; part < PARTS; part++) {
        const int8_t *factors = first + LETTERS * part;
        int translation = first[FACTORS + part];
        for (int letter = 0; letter < LETTERS; letter++) {
            int factor = 0;
            for (int at = 0; at < LETTERS; at++)
                factor += factors[at] * second[LETTERS * at + letter];
            product[LETTERS * part + letter] = (int8_t)factor;
            translation += factors[letter] * second[FACTORS + letter];
        }
        product[FACTORS + part] = (int8_t)((translation % WHOLE + WHOLE) % WHOLE);
    }
}

/* Writes the fraction that is so many 24ths, nothing for 0, and returns its end. */
static char *put_fraction(char *to, int translation)
{
    static const int denominators[] = {2, 3, 4, 6, 8};
    for (size_t at = 0; translation > 0 && at < sizeof denominators / sizeof *denominators; at++) {
        int denominator = denominators[at];
        if (translation * denominator % WHOLE == 0)
            return to + sprintf(to, "+%d/%d", translation * denominator / WHOLE, denominator);
    }
    return to;
}

/* Writes a part, the letters first, and returns its end. */
static char *put_part(char *to, const int8_t *factors, int translation)
{
    char *start = to;
    for (int letter = 0; letter < LETTERS; letter++) {
        if (factors[letter] < 0)
            *to++ = '-';
        else if (factors[letter] > 0 && to > start)
            *to++ = '+';
        if (factors[letter] != 0)
            *to++ = "xyz"[letter];
    }
    return put_fraction(to, translation);
}

bool product_text(const int8_t *first, const int8_t *second, char text[OPERATOR_TEXT])
{
    int8_t product[SYMMETRY_ROW];
    char *end = text;
    multiply(first, second, product);
    for (int part = 0; part < PARTS; part++) {
        if (part > 0)
            *end++ = ',';
        end = put_part(end, product + LETTERS * part, product[FACTORS + part]);
    }
    *end = '\0';
    /* What is told is what the proved library reads. */
    symmetry_operator read = symmetry_read((const uint8_t *)text, (size_t)(end - text));
    return read.answer == 0 && memcmp(read.row, product, SYMMETRY_ROW) == 0;
}

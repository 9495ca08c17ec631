/*
 * Symmetry operators: the row of a text such as -y,x-y,z+1/3, and whether a list of rows is a group.
 *
 * Link with libexport_symmetry.a. The rules are those of document 02, No. 5.
 *
 * A row has SYMMETRY_ROW numbers: nine factors, -1 to 1, part by part, each of x, y and z; then three
 * translations in 24ths, 0 to 23. A list is rows one after the other, the list of no rows too.
 *
 * Runs: a run is a pointer and a length, in elements. It may hold anything. The pointer may not be
 * NULL, not even where the length is 0; for an empty run pass the address of any element. The
 * elements are read during the call only, and never written.
 *
 * Threads: both functions are pure. They keep no state, allocate nothing and may be called from any
 * number of threads at once.
 */
#ifndef SYMMETRY_H
#define SYMMETRY_H

#include <stddef.h>
#include <stdint.h>

#ifdef __cplusplus
extern "C" {
#endif

#define SYMMETRY_ROW 12
#define SYMMETRY_MOST 192   /* the operators of the longest list */

/* An operator: the answer and, where the answer is 0, its row; otherwise the row is zeros. */
typedef struct {
    uint8_t answer;
    int8_t row[SYMMETRY_ROW];
} symmetry_operator;

/*
 * The row of an operator's text: three parts with commas, each a sum of signed x, y and z, each letter
 * at most once, with at most one signed fraction first or last, whose numerator is 1 to 7 and below
 * its denominator 2, 3, 4, 6 or 8. A part's first plus may be missing.
 *   13  the text is no operator
 *   0   read
 */
symmetry_operator symmetry_read(const uint8_t *text, size_t length);

typedef struct {
    uint64_t pairs;
    uint8_t answer;
} symmetry_checked;

/*
 * Whether a list is a group; the length counts its numbers, SYMMETRY_ROW for each row. The first that
 * applies:
 *   13  more than SYMMETRY_MOST rows, a part row, or a number out of range
 *   14  a determinant is neither 1 nor -1
 *   15  the identity is not in the list (the empty list too)
 *   16  two rows are equal
 *   17  a product of two rows, or of one with itself, is not in the list
 *   0   a group
 * Pairs run by first row, then second; a product applies the second first. Told is how many pairs were
 * looked at: with 17 up to and including the first without its product, with 0 all, otherwise none.
 */
symmetry_checked symmetry_check(const int8_t *rows, size_t length);

#ifdef __cplusplus
}
#endif

#endif

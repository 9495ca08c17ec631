/*
 * The wall screen's two questions.
 *
 * Link with libexport_wall.a. The rules are those of document 01, "A line, a number" and "The
 * twelve rows", and of document 02, No. 4, 6, 11 and 12.
 *
 * Bytes: a run of bytes is a pointer and a length. It may hold any bytes, NUL too, and needs no end
 * mark. The pointer may not be NULL, not even where the length is 0; for an empty run pass the
 * address of any byte. The bytes are read during the call only, and never written.
 *
 * Threads: both functions are pure. They keep no state, allocate nothing and may be called from any
 * number of threads at once.
 */
#ifndef WALL_H
#define WALL_H

#include <stddef.h>
#include <stdint.h>

#ifdef __cplusplus
extern "C" {
#endif

/*
 * The number for one line, without its end-of-line byte. The first that applies:
 *   5  over 200 bytes, or a byte outside 32 to 126, or not a name, spaces and a value
 *      (the empty line too)
 *   6  the name is none of the nineteen
 *   7  the value fails its item's kind
 *   0  accepted
 */
uint8_t wall_classify(const uint8_t *line, size_t length);

/* A grade: the answer and, where the answer is 0, the level; otherwise the level is 0. */
typedef struct {
    uint8_t answer;
    uint8_t level;
} wall_graded;

/*
 * The grade of one typed value by one row. A number is a sign or none, one to nine digits with a
 * point among, before or after them or none, at most six digits after it, and then, or not, one to
 * four digits in round brackets. The first that applies:
 *   answer 6, level 0  the row is not 6, 8 or 10
 *   answer 7, level 0  the value is not a number (the unassigned marks ? and . too)
 *   answer 0           the level that the number earns: 0 none, 2 C, 3 B, 4 A
 */
wall_graded wall_grade(uint64_t row, const uint8_t *value, size_t length);

#ifdef __cplusplus
}
#endif

#endif

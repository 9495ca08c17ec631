/*
 * Single readers of the proved library, exported for the comparison only.
 *
 * Link with libtest_probe.a. As in wall.h a pointer may not be NULL, not even where the length is 0,
 * and every function is pure.
 */
#ifndef PROBE_H
#define PROBE_H

#include <stddef.h>
#include <stdint.h>

#ifdef __cplusplus
extern "C" {
#endif

/* The number in millionths and found 1; 0 and found 0 where there is no number. */
typedef struct {
    int64_t millionths;
    uint64_t found;
} probe_number_result;

probe_number_result probe_number(const uint8_t *text, size_t length);

/* The form of a value: 0 no value, 1 unassigned (a bare ? or .), 2 another bare value, 3 quoted. */
uint64_t probe_value(const uint8_t *text, size_t length);

/*
 * The form of a line: a name, spaces, a value; found 1. The name is the bytes before name_end, the
 * value those from value_start on. All three are 0 for a text that is not of the form.
 * Neither the limit of 200 bytes nor the range 32 to 126 is tested here.
 */
typedef struct {
    uint64_t found;
    uint64_t name_end;
    uint64_t value_start;
} probe_line_result;

probe_line_result probe_line(const uint8_t *text, size_t length);

/* The item of a name, 1 to 19; 0 for none of the nineteen names. */
uint64_t probe_item(const uint8_t *name, size_t length);

#ifdef __cplusplus
}
#endif

#endif

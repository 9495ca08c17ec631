/* What the numbers of refusals mean, in words to the counsellor: document 01, document 02 from 9 on. */
#include "meanings.h"

#include <stddef.h>

static const char *const meanings[] = {
    [1] = "this bench is not there: a pair begins with 0, 1, 2 or 3",
    [2] = "the desk is not sound",
    [3] = "this key does nothing here",
    [4] = "the line is full",
    [5] = "not a name, a space and a value",
    [6] = "no item has this name",
    [7] = "not a number, or no category, as this item wants",
    [8] = "the rest of the log is too short for this entry",
    [9] = "this value belongs to another bench",
    [10] = "the file is longer than the bytes lent for it",
    [11] = "not 1 to 32 letters, digits or -",
    [12] = "no such sheet: 0 is the camp's, of benches 0 and 1, and 1 the visitors', of benches 2 and 3",
    [13] = "not an operator",
    [14] = "the determinant is not 1 or -1",
    [15] = "the identity x,y,z is missing",
    [16] = "the same operator twice",
    [17] = "a product is missing",
    [18] = "no record of an entry begins here",
    [19] = "this record overwrites a value of another bench",
    [20] = "the log ends inside this record",
    [21] = "no such profile: 0 is single-crystal, 1 powder",
    [22] = "the helper cannot start",
    [23] = "no count of hydrogens, 0 to 9999, fits the weight",
    [24] = "this count of hydrogens does not fit the weight",
};

const char *meaning_of(unsigned number)
{
    return number < sizeof meanings / sizeof meanings[0] ? meanings[number] : NULL;
}

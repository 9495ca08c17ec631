/* What the running desk says. */
#include "words.h"

#include <stddef.h>

/* As the guide has them (docs/guide/refusals.md), but 5 and 7 shorter: each fits 80 columns. */
static const char *const to_child[] = {
    [1] = "This keypad is not connected to a bench.",
    [2] = "Call a counsellor: the desk has to be started again.",
    [3] = "That key does nothing here.",
    [4] = "The line is full: press Enter, or erase.",
    [5] = "This is not a name, a space and a value. Is there a _ in front?",
    [6] = "No item has this name. Compare it with the list, letter by letter.",
    [7] = "This item wants a number such as 0.045(3), or a category. Not known? Type ?",
    [8] = "The log is full: call a counsellor. The line is kept.",
    [9] = "This value belongs to another bench.",
};

const char *child_words(unsigned answer)
{
    const char *words = answer < sizeof to_child / sizeof *to_child ? to_child[answer] : NULL;
    return words != NULL ? words : "Call a counsellor.";
}

/* Each with what it says where it was judged, where an item is missing and where it cannot be judged. */
static const struct {
    const char *name;
    const char *says[3];
} rows[] = {
    {"CHEMS_01s", {"formula: a term is not readable", "formula missing", ""}},
    {"CHEMS_01o", {"formula: symbols out of order", "formula missing", ""}},
    {"CHEMS_02", {"formula and category disagree", "formula or category missing", "formula not readable"}},
    {"CHEMW_01r", {"weight is not the formula's", "formula or weight missing", "no sum of weights"}},
    {"CHEMW_01d", {"weight and formula differ", "formula, weight or category missing", "no sum of weights"}},
    {"RFACG_01", {"R factor too high", "R factor missing", ""}},
    {"RFACG_01g", {"R factor by its old name", "", ""}},
    {"RFACR_01", {"wR factor too high", "wR factor missing", ""}},
    {"RFACR_01g", {"wR factor by its old name", "", ""}},
    {"SHFSU_01", {"shift too large", "shift missing", ""}},
    {"SHFSU_01g", {"shift by its old name", "", ""}},
    {"REFLE_01", {"threshold too high", "threshold missing", "threshold written otherwise"}},
    {"R13", {"", "measured reflections missing", ""}},
    {"R14", {"", "different reflections missing", ""}},
    {"R15", {"", "strong reflections missing", ""}},
    {"R16", {"", "length of the crystal missing", ""}},
    {"R17", {"", "middle size missing", ""}},
    {"R18", {"", "smallest size missing", ""}},
    {"R19", {"", "wavelength missing", ""}},
    {"R20", {"agreement of equivalents missing", "", ""}},
    {"R21", {"agreement of equivalents not 0", "", ""}},
    {"R22", {"more different than measured", "", ""}},
    {"R23", {"fewer different than strong ones", "", ""}},
    {"R24", {"crystal sizes out of order", "", ""}},
    {"R25", {"moieties and formula disagree", "", "moieties or formula not readable"}},
};
_Static_assert(sizeof rows / sizeof *rows == DESK_ROWS, "words for each row");

const char *row_name(int row)
{
    return rows[row].name;
}

const char *row_words(int row, unsigned reason)
{
    return reason < 3 ? rows[row].says[reason] : "";
}

char level_letter(unsigned level)
{
    return level < 5 ? "-GCBA"[level] : '?';
}

const char *camp_name(uint64_t sheet)
{
    return sheet == 0 ? "our camp" : "visitors";
}

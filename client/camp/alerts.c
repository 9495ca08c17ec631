/* The alerts of a sheet, the gravest first. */
#include "alerts.h"

static bool is_before(desk_row row, desk_row other)
{
    return row.level > other.level || (row.level == other.level && row.reason < other.reason);
}

alerts alerts_of(const own_desk *desk, uint64_t sheet, uint64_t profile)
{
    alerts found = {0, {0}, report_of(desk, sheet, profile)};
    const desk_row *rows = found.report.rows;
    for (int row = 0; row < DESK_ROWS; row++) {
        if (rows[row].level == 0)
            continue;
        size_t at = found.count++;
        for (; at > 0 && is_before(rows[row], rows[found.rows[at - 1]]); at--)
            found.rows[at] = found.rows[at - 1];
        found.rows[at] = row;
    }
    return found;
}

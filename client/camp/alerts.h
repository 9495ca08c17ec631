/* The alerts of a sheet, the gravest first. */
#ifndef CAMP_ALERTS_H
#define CAMP_ALERTS_H

#include "session.h"

typedef struct {
    size_t count;
    int rows[DESK_ROWS];    /* the first row is 0 */
    desk_reported report;
} alerts;

/* The rows with a level: by level, those that were judged before others, then by their number. */
alerts alerts_of(const own_desk *desk, uint64_t sheet, uint64_t profile);

#endif

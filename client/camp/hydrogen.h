/* How many hydrogens fit the weight of a sheet, in words. */
#ifndef CAMP_HYDROGEN_H
#define CAMP_HYDROGEN_H

#include <stdio.h>

#include "options.h"
#include "session.h"

/* Tells each of these sheets with a formula or a weight; the gravest status. */
int tell_hydrogens(FILE *to, const char *file, const own_desk *desk, sheets of);

#endif

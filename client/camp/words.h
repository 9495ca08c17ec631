/* What the running desk says: to the child at a bench, and of the rows of a report. */
#ifndef CAMP_WORDS_H
#define CAMP_WORDS_H

#include "desk.h"

/* A refused key, in words to the child; never NULL. */
const char *child_words(unsigned answer);

/* The name of a row as desk prints it; the first is 0. */
const char *row_name(int row);

/* What a row with an alert says, one line. */
const char *row_words(int row, unsigned reason);

/* The letters of the levels. */
char level_letter(unsigned level);

/* Whose sheet it is. */
const char *camp_name(uint64_t sheet);

#endif

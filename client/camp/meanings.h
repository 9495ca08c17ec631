/* What the numbers of refusals mean, in words to the counsellor. */
#ifndef CAMP_MEANINGS_H
#define CAMP_MEANINGS_H

/* NULL for a number that the desk does not give. */
const char *meaning_of(unsigned number);

#endif

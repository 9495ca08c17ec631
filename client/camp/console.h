/* The counsellor's console: commands by line, answered in words with the numbers. */
#ifndef CAMP_CONSOLE_H
#define CAMP_CONSOLE_H

#include "view.h"

/* Adds a byte to the counsellor's line; those outside 32 to 126 are left out. */
void type_console(console_state *console, char byte);

/* Takes back the last byte. */
void erase_console(console_state *console);

/* Answers the line and begins a new one; false where it was quit. */
bool enter_console(view *shown);

#endif

/* The loop of the running desk: keys as they come, the counsellor's lines, inputs that come back. */
#ifndef CAMP_LOOP_H
#define CAMP_LOOP_H

#include "view.h"

/* Takes the signals that end the desk, and those of the terminal's size, until they are waited for. */
void take_signals(void);

/* Runs until quit, a signal that ends it, or until nothing can come any more. The console may be shut. */
void run_loop(view *shown, input *inputs, bool console);

#endif

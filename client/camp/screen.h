/* The wall screen, drawn in the terminal. */
#ifndef CAMP_SCREEN_H
#define CAMP_SCREEN_H

#include "view.h"

/*
 * Takes the terminal, and its keys where the counsellor types on it; false, and told, where it is none that
 * can be drawn on.
 */
bool start_screen(bool keys);

/* Draws all anew at the size that the terminal has. */
void resize_screen(void);

/* Draws what is shown. */
void draw_screen(view *shown);

/* What the counsellor typed: takes all that is there; false where it was quit. */
bool read_screen(view *shown);

/* Gives the terminal back. */
void end_screen(void);

#endif

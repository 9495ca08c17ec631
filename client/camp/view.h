/*
 * What is shown of the running desk: the words of each bench and the last notice, on the screen or as one
 * line for each event.
 */
#ifndef CAMP_VIEW_H
#define CAMP_VIEW_H

#include "inputs.h"
#include "live.h"

/* How words are meant. */
typedef enum { QUIET, GOOD, BAD } mood;

/* Enough for every line of words, and its end. */
enum { WORDS = 320 };

typedef struct {
    char text[WORDS];
    mood as;
} words_shown;

/* The counsellor's line, as far as it is typed, and the answer to the last one. */
enum { COMMAND_MOST = 400 };

typedef struct {
    char line[COMMAND_MOST + 1];
    size_t length;
    bool too_long;
    char *answer;       /* its lines, or NULL; free gives it back */
    size_t from;        /* the first row that is shown */
} console_state;

typedef struct {
    live_desk *live;
    const input *inputs;
    size_t input_count;
    bool plain;
    uint64_t profile;    /* of the alerts on the screen */
    words_shown benches[DESK_BENCHES];
    words_shown notice;
    console_state console;
} view;

/* The input of a bench, which may be that of the pairs; NULL for none. */
const input *input_of(const view *shown, uint64_t bench);

/* Tells what came of a key; a pair of no bench has DESK_NO_BENCH. */
void tell_key(view *shown, key pressed, const pressed_key *came, const uint8_t *line, size_t length);

/* Tells of an input: where it came from, what happened, and why, which may be NULL. */
void tell_input(view *shown, const input *in, mood as, const char *what, const char *why);

/* Tells of the desk as a whole. */
void tell_notice(view *shown, mood as, const char *what);

#endif

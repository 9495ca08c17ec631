/*
 * A session: pairs, a bench digit and a key byte each, and the desk that plays them as the program
 * desk does.
 */
#ifndef CAMP_SESSION_H
#define CAMP_SESSION_H

#include <stdbool.h>

#include "desk.h"
#include "files.h"

/* The log of the program desk. */
enum { LOG_LENGTH = 4096 };

/* A desk with its memory. */
typedef struct {
    uint8_t texts[DESK_TEXTS];
    size_t numbers[DESK_NUMBERS];
    uint8_t log[LOG_LENGTH];
} own_desk;

/* A key of a bench, 0 to 3, or of DESK_NO_BENCH where the pair begins otherwise. */
typedef struct {
    uint64_t bench;
    uint8_t byte;
} key;

/* The key that enters a line. */
enum { ENTER = 10 };

/* How many keys a session has; a last odd byte is none. */
size_t key_count(const content *session);

/* The key of a pair. */
key key_of(uint8_t first, uint8_t byte);

/* A key of a session; the first is at 0. */
key key_at(const content *session, size_t at);

/* Makes the desk a fresh one, with a log of zeros. */
void start(own_desk *desk);

/* One key; the answer is that of desk_key. */
uint8_t press(own_desk *desk, key pressed);

/* Plays a session on a fresh desk; refused keys are passed over. */
void play(own_desk *desk, const content *session);

/* The same of the session in a file. False, and told, where it cannot be read. */
bool play_session(const char *path, own_desk *desk);

/* The profiles of a report. */
enum { SINGLE_CRYSTAL = 0, POWDER = 1 };

/* desk_report, desk_who and desk_file of this desk. */
desk_reported report_of(const own_desk *desk, uint64_t sheet, uint64_t profile);
desk_told who_typed(const own_desk *desk, uint64_t sheet, uint64_t item);
desk_filed write_file(const own_desk *desk, uint64_t sheet, const char *block, uint8_t out[DESK_FILE]);

/* How many accepted entries a sheet has. */
size_t count_of(const own_desk *desk, uint64_t sheet);

/* Whether the desk has no sheet of that number. */
bool no_such_sheet(const own_desk *desk, uint64_t sheet);

#endif

/*
 * The desk at work: its memory, its log, and the file in which the log is kept. An entry counts when its
 * record is on the disk; until then the desk is as it was before its Enter, which is being saved.
 */
#ifndef CAMP_LIVE_H
#define CAMP_LIVE_H

#include "items.h"
#include "writer.h"

typedef struct {
    own_desk desk;            /* whose short log is not used */
    uint8_t log[DESK_LOG];    /* what the file holds */
    log_file file;
    log_writer writer;
    bool saving;              /* an Enter's record is on its way to the disk */
    uint64_t saving_bench;    /* of that Enter */
    bool apart;               /* a record on the disk is not that of its entry: nothing is pressed any more */
} live_desk;

/* What came of a key. */
typedef struct {
    uint8_t answer;         /* of desk_key */
    bool saving;            /* an Enter that is being saved, of which end_saving tells the rest */
    bool entered;           /* an entry, accepted and on the disk */
    const char *not_kept;   /* why an accepted entry is not: the desk is as it was before it; or NULL */
} pressed_key;

/* Opens the log, reads it, and starts its writer. Where that fails it tells so. */
bool start_live(live_desk *live, const char *log);

/*
 * Whether a key may be pressed now. While an Enter is being saved, every other Enter waits, and so do all
 * keys of its own bench. The other benches' keys are taken before it: by demand 3 (docs/DECISIONS.md, "The
 * running desk") that changes no answer, no sheet, no line and no byte of the log.
 */
bool may_press(const live_desk *live, key pressed);

/* One key of a bench, which may be pressed. */
pressed_key press_live(live_desk *live, key pressed);

/* Waits for the Enter that is being saved, and makes it for good where its record is on the disk. */
pressed_key end_saving(live_desk *live);

/* Ends the writer, when nothing is being saved, and the lock of the log. */
void end_live(live_desk *live);

/* How many bytes of the log are used, and how many entries a sheet has. */
size_t used_of(const live_desk *live);
size_t entries_of(const live_desk *live, uint64_t sheet);

/* The line of a bench, and its length. */
const uint8_t *line_of(const live_desk *live, uint64_t bench, size_t *length);

/* The sheet of a bench. */
uint64_t sheet_of(uint64_t bench);

/* Hands on each entry of the log in order, as the proved reader takes it. */
void each_entry(const live_desk *live, item_taker *take, void *with);

#endif

/*
 * The log as a file that one program writes: locked, read at the start by the proved reader, and longer
 * by a record only when the record is on the disk.
 */
#ifndef CAMP_LOG_FILE_H
#define CAMP_LOG_FILE_H

#include "log.h"

typedef struct {
    const char *path;
    int file;
    size_t length;    /* of the whole records, which is all that the file holds between two calls */
    bool unclean;     /* but for what a failed write left, which is not yet cut off on the disk */
    char *told;       /* of a torn record, as it was told at the start; NULL for none */
} log_file;

/*
 * Opens the log, or makes an empty one, and locks it. Where that fails it tells so; a log that was there
 * is as it was, and an empty one that was made stays.
 */
bool open_log(log_file *log, const char *path);

/*
 * Reads the log into a fresh desk, and its bytes too. A record that is torn at the end is told, kept in
 * FILE.torn, and cut off; where it cannot be kept so, it is not cut off: false. Any other fault is told
 * with its byte, and changes nothing: false.
 */
bool load_log(log_file *log, log_reader *reader, uint8_t bytes[DESK_LOG]);

/*
 * Writes a record behind the others and waits until it is on the disk: NULL. Otherwise why it is not, and
 * the file is cut back to the records before it, now or before the next one.
 */
const char *append_record(log_file *log, const uint8_t *record, size_t length);

/* Whether the path names this file. */
bool is_log(const log_file *log, const char *path);

/* Ends the lock. */
void close_log(log_file *log);

#endif

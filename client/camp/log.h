/*
 * A log, as it comes from the stick: read in parts into a fresh desk by the proved reader.
 */
#ifndef CAMP_LOG_H
#define CAMP_LOG_H

#include <stdbool.h>

#include "session.h"

/* How many bytes are read at a time. */
enum { PART = 512 };

/* A reader with its memory; the log of its desk is not used. */
typedef struct {
    own_desk desk;
    uint8_t kept[DESK_KEPT];
    size_t state[DESK_STATE];
    desk_fed fed;
} log_reader;

/* Makes the reader a fresh one. */
void start_reader(log_reader *reader);

/* The next part of a log; whether it is read further. */
bool feed_log(log_reader *reader, const uint8_t *part, size_t length, bool last);

/* What is done after each byte. */
typedef void byte_taker(const log_reader *reader, void *with);

/*
 * Reads a log into a fresh desk, in parts, until it ends or a record is refused. Where `each` is not NULL
 * the parts are single bytes, and it is called after each. False, and told, where the file cannot be read.
 */
bool read_log(const char *path, log_reader *reader, byte_taker *each, void *with);

/*
 * Tells a damaged log, 'camp: FILE: byte BYTE: NUMBER, MEANING; ..', on standard error. The status: done
 * where the log was read to its end.
 */
int tell_damage(const char *file, const log_reader *reader);

/* The same with another ending; whether it is damaged. */
bool is_damaged(const char *file, const log_reader *reader, const char *ending);

/* The same as a member of JSON, "damage": null or an object. */
void json_damage(const log_reader *reader);

#endif

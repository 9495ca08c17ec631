/*
 * The writer of the log, a thread beside the loop: it puts one record at a time on the disk, and nobody
 * else waits for the disk. From when a record is given until its end is taken, the log file is the writer's.
 */
#ifndef CAMP_WRITER_H
#define CAMP_WRITER_H

#include <pthread.h>
#include <semaphore.h>

#include "log_file.h"

typedef struct {
    log_file *log;
    pthread_t thread;
    sem_t given;                  /* a record is there to be written */
    sem_t ended;                  /* it is on the disk, or it failed */
    int ready;                    /* a file that can be read then */
    uint8_t record[DESK_KEPT];
    size_t length;                /* of the record; 0 ends the thread */
    const char *why;              /* it is not on the disk; NULL where it is */
} log_writer;

/* Starts the thread, which takes no signals; false, and told, where that fails. */
bool start_writer(log_writer *writer, log_file *log);

/* Gives it a record, when it has none. */
void give_record(log_writer *writer, const uint8_t *record, size_t length);

/* Waits for the record's end: NULL, or why it is not on the disk, as append_record says it. */
const char *take_end(log_writer *writer);

/* Ends the thread, which has no record. */
void end_writer(log_writer *writer);

#endif

/* The writer of the log, a thread beside the loop. */
#define _POSIX_C_SOURCE 200809L

#include "writer.h"

#include <errno.h>
#include <signal.h>
#include <string.h>
#include <sys/eventfd.h>
#include <unistd.h>

#include "messages.h"

static void wait_on(sem_t *semaphore)
{
    while (sem_wait(semaphore) != 0 && errno == EINTR)
        ;
}

static void *write_records(void *with)
{
    log_writer *writer = with;
    for (wait_on(&writer->given); writer->length > 0; wait_on(&writer->given)) {
        writer->why = append_record(writer->log, writer->record, writer->length);
        sem_post(&writer->ended);
        eventfd_write(writer->ready, 1);
    }
    return NULL;
}

/* Starts the thread with all signals blocked; 0, or an errno. */
static int start_thread(log_writer *writer)
{
    sigset_t all, before;
    sigfillset(&all);
    pthread_sigmask(SIG_SETMASK, &all, &before);
    int error = pthread_create(&writer->thread, NULL, write_records, writer);
    pthread_sigmask(SIG_SETMASK, &before, NULL);
    return error;
}

static void free_writer(log_writer *writer)
{
    sem_destroy(&writer->given);
    sem_destroy(&writer->ended);
    if (writer->ready >= 0)
        close(writer->ready);
}

bool start_writer(log_writer *writer, log_file *log)
{
    writer->log = log;
    sem_init(&writer->given, 0, 0);
    sem_init(&writer->ended, 0, 0);
    writer->ready = eventfd(0, EFD_CLOEXEC);
    int error = writer->ready < 0 ? errno : start_thread(writer);
    if (error == 0)
        return true;
    free_writer(writer);
    about(stderr, log->path);
    fprintf(stderr, "the thread that writes it cannot be started: %s\n", strerror(error));
    return false;
}

void give_record(log_writer *writer, const uint8_t *record, size_t length)
{
    memcpy(writer->record, record, length);
    writer->length = length;
    sem_post(&writer->given);
}

const char *take_end(log_writer *writer)
{
    eventfd_t times;
    wait_on(&writer->ended);
    eventfd_read(writer->ready, &times);
    return writer->why;
}

void end_writer(log_writer *writer)
{
    writer->length = 0;
    sem_post(&writer->given);
    pthread_join(writer->thread, NULL);
    free_writer(writer);
}

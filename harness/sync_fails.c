/*
 * For harness/run.sh: a disk that fails or is slow, put before the system's functions. Flushing a file fails as long as the
 * file that SYNC_FAILS names is there, cutting one as long as that of CUT_FAILS is. Each call is added to the file that
 * SYNC_TOLD names, with the length of its file, or "folder". An fdatasync lasts SYNC_WAITS milliseconds more, and as long as
 * the file that SYNC_HOLDS names is there; when it began and ended, in seconds of the clock that only goes forward, is added
 * to the file that SYNC_TIMES names. Closing a FIFO takes a second where CLOSE_WAITS is set.
 */
#define _GNU_SOURCE

#include <errno.h>
#include <fcntl.h>
#include <stdio.h>
#include <stdlib.h>
#include <sys/stat.h>
#include <sys/syscall.h>
#include <time.h>
#include <unistd.h>

static int fails(const char *name)
{
    const char *sign = getenv(name);
    return sign != NULL && access(sign, F_OK) == 0;
}

/* Adds a call to what is told. */
static int told(const char *call, int file, int result)
{
    int error = errno;
    const char *path = getenv("SYNC_TOLD");
    FILE *to = path != NULL ? fopen(path, "a") : NULL;
    struct stat found;
    if (to != NULL && fstat(file, &found) == 0) {
        if (S_ISDIR(found.st_mode))
            fprintf(to, "%s folder%s\n", call, result != 0 ? " fails" : "");
        else
            fprintf(to, "%s %lld%s\n", call, (long long)found.st_size, result != 0 ? " fails" : "");
    }
    if (to != NULL)
        fclose(to);
    errno = error;
    return result;
}

static void rest(long milliseconds)
{
    struct timespec time = {milliseconds / 1000, milliseconds % 1000 * 1000000};
    nanosleep(&time, NULL);
}

static double seconds(void)
{
    struct timespec time;
    clock_gettime(CLOCK_MONOTONIC, &time);
    return (double)time.tv_sec + (double)time.tv_nsec / 1e9;
}

/* Adds when a flush began and that it ended now. */
static void timed(double began)
{
    const char *path = getenv("SYNC_TIMES");
    FILE *to = path != NULL ? fopen(path, "a") : NULL;
    if (to == NULL)
        return;
    fprintf(to, "%.6f %.6f\n", began, seconds());
    fclose(to);
}

static int flush(const char *call, long number, int file)
{
    if (!fails("SYNC_FAILS"))
        return told(call, file, (int)syscall(number, file));
    errno = EIO;
    return told(call, file, -1);
}

int fdatasync(int file)
{
    const char *waits = getenv("SYNC_WAITS");
    double began = seconds();
    if (waits != NULL)
        rest(atol(waits));
    while (fails("SYNC_HOLDS"))
        rest(1);
    int result = flush("fdatasync", SYS_fdatasync, file);
    int error = errno;
    timed(began);
    errno = error;
    return result;
}

int fsync(int file)
{
    return flush("fsync", SYS_fsync, file);
}

int ftruncate(int file, off_t length)
{
    if (!fails("CUT_FAILS"))
        return told("ftruncate", file, (int)syscall(SYS_ftruncate, file, length));
    errno = EIO;
    return told("ftruncate", file, -1);
}

int close(int file)
{
    struct stat found;
    if (getenv("CLOSE_WAITS") != NULL && fstat(file, &found) == 0 && S_ISFIFO(found.st_mode))
        sleep(1);
    return (int)syscall(SYS_close, file);
}

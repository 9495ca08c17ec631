/* The log as a file that one program writes. */
#define _DEFAULT_SOURCE

#include "log_file.h"

#include <errno.h>
#include <fcntl.h>
#include <stdlib.h>
#include <string.h>
#include <sys/file.h>
#include <sys/stat.h>
#include <unistd.h>

#include "messages.h"

enum { END_INSIDE = 20 };

static const char not_started[] =
    "the desk is not started, and nothing is changed; start with a copy or another --log";

/* The number of a reader's state that says how many bytes of a record are kept. */
enum { KEPT_AT = 0 };

static bool told(const char *path, const char *why)
{
    about(stderr, path);
    fprintf(stderr, "%s\n", why);
    return false;
}

/* The folder of a path, which free gives back; NULL where there is no room. */
static char *folder_of(const char *path)
{
    const char *slash = strrchr(path, '/');
    if (slash == NULL)
        return strdup(".");
    return strndup(path, slash == path ? 1 : (size_t)(slash - path));
}

/* Makes sure that the name of a file is kept as well as its bytes. */
static bool keep_name(const char *path)
{
    char *folder = folder_of(path);
    int file = folder != NULL ? open(folder, O_RDONLY | O_DIRECTORY | O_CLOEXEC) : -1;
    bool kept = file >= 0 && fsync(file) == 0;
    int error = errno;
    if (file >= 0)
        close(file);
    free(folder);
    errno = error;
    return kept;
}

/* The file, which is made where it is not there, or an errno. It is no pipe that would be waited for. */
static int open_file(const char *path)
{
    int file = open(path, O_RDWR | O_NONBLOCK | O_NOCTTY | O_CLOEXEC);
    if (file >= 0 || errno != ENOENT)
        return file;
    file = open(path, O_RDWR | O_CREAT | O_EXCL | O_NOCTTY | O_CLOEXEC, 0666);
    /* Another program made it meanwhile. */
    return file >= 0 || errno != EEXIST ? file : open(path, O_RDWR | O_NONBLOCK | O_NOCTTY | O_CLOEXEC);
}

static bool lock(const log_file *log)
{
    struct stat found;
    if (fstat(log->file, &found) != 0)
        return told(log->path, strerror(errno));
    if (!S_ISREG(found.st_mode))
        return told(log->path, "not an ordinary file");
    if (flock(log->file, LOCK_EX | LOCK_NB) == 0)
        return true;
    return told(log->path, errno == EWOULDBLOCK ? "another program writes this log" : strerror(errno));
}

bool open_log(log_file *log, const char *path)
{
    *log = (log_file){path, open_file(path), 0, false, NULL};
    if (log->file < 0)
        return told(path, strerror(errno));
    /* Whoever made the file may have ended before its name was kept. */
    if (lock(log) && (keep_name(path) || told(path, strerror(errno))))
        return true;
    close(log->file);
    return false;
}

/* What the bytes of the file go to. */
typedef struct {
    log_reader *reader;
    uint8_t *bytes;
    size_t length;
} loading;

static bool load_part(void *to, const uint8_t *part, size_t length)
{
    loading *load = to;
    size_t fits = load->length < DESK_LOG ? DESK_LOG - load->length : 0;
    memcpy(load->bytes + (fits > 0 ? load->length : 0), part, length < fits ? length : fits);
    load->length += length;
    return feed_log(load->reader, part, length, false);
}

/* Adds bytes to a file beside the log; NULL, or why not. */
static const char *keep_torn(const char *path, const uint8_t *bytes, size_t length)
{
    struct stat found;
    int file = open(path, O_WRONLY | O_APPEND | O_CREAT | O_NONBLOCK | O_NOCTTY | O_CLOEXEC, 0666);
    if (file < 0)
        return strerror(errno);
    const char *why = NULL;
    if (fstat(file, &found) == 0 && !S_ISREG(found.st_mode))
        why = "not an ordinary file";
    else if (!write_bytes(file, bytes, length) || fsync(file) != 0 || !keep_name(path))
        why = strerror(errno);
    close(file);
    return why;
}

/* What came of a torn record: where it is kept and cut off, of is NULL; otherwise the file that failed. */
typedef struct {
    const char *of;
    const char *why;
} mended;

/* Keeps what is torn, which starts at the log's length, beside the log, and cuts it off. */
static mended cut_torn(const log_file *log, const char *beside, const uint8_t *torn, size_t length)
{
    const char *why = keep_torn(beside, torn, length);
    if (why != NULL)
        return (mended){beside, why};
    if (ftruncate(log->file, (off_t)log->length) != 0 || fsync(log->file) != 0)
        return (mended){log->path, strerror(errno)};
    return (mended){NULL, NULL};
}

static void show_torn(FILE *to, const log_file *log, const char *beside, size_t length, mended came)
{
    about(to, log->path);
    fprintf(to, "byte %zu: ", log->length);
    show_refusal(to, END_INSIDE);
    if (came.of != NULL) {
        fputs("; ", to);
        show_text(to, came.of);
        fprintf(to, ": %s; the desk is not started, and the torn record not cut off\n", came.why);
        return;
    }
    fprintf(to, "; its %zu byte%s: in ", length, length == 1 ? "" : "s");
    show_text(to, beside);
    fputs(", and the log goes on before it\n", to);
}

/* Mends a torn log, tells it on standard error, and keeps what is told; false where it cannot be mended. */
static bool mend(log_file *log, const uint8_t *torn, size_t length)
{
    static const char ending[] = ".torn";
    char *beside = malloc(strlen(log->path) + sizeof ending);
    size_t size;
    FILE *to = beside != NULL ? open_memstream(&log->told, &size) : NULL;
    if (to == NULL) {
        free(beside);
        return told(log->path, strerror(ENOMEM));
    }
    strcat(strcpy(beside, log->path), ending);
    mended came = cut_torn(log, beside, torn, length);
    show_torn(to, log, beside, length, came);
    fclose(to);
    fputs(log->told, stderr);
    free(beside);
    return came.of == NULL;
}

/* Goes on before a torn record: the reader starts anew with what is whole. */
static bool go_on(log_file *log, log_reader *reader, const uint8_t *bytes, const uint8_t *torn, size_t length)
{
    log->length = reader->fed.place;
    if (!mend(log, torn, length))
        return false;
    start_reader(reader);
    feed_log(reader, bytes, log->length, true);
    return !is_damaged(log->path, reader, not_started);
}

bool load_log(log_file *log, log_reader *reader, uint8_t bytes[DESK_LOG])
{
    loading load = {reader, bytes, 0};
    uint8_t torn[DESK_KEPT];
    start_reader(reader);
    if (!read_parts_of(log->file, PART, load_part, &load))
        return told(log->path, strerror(errno));
    size_t kept = reader->state[KEPT_AT];
    memcpy(torn, reader->kept, DESK_KEPT);
    feed_log(reader, bytes, 0, true);
    if (reader->fed.answer == END_INSIDE)
        return go_on(log, reader, bytes, torn, kept);
    log->length = load.length;
    return !is_damaged(log->path, reader, not_started);
}

/* Cuts off what a failed write left behind the whole records, on the disk too. */
static void cut_back(log_file *log)
{
    log->unclean = ftruncate(log->file, (off_t)log->length) != 0 || fdatasync(log->file) != 0;
}

/* Why the file is no longer the log; NULL where it is. */
static const char *changed(log_file *log)
{
    struct stat found;
    if (log->unclean)
        cut_back(log);
    if (log->unclean)
        return "the log file cannot be cut back";
    if (fstat(log->file, &found) != 0)
        return strerror(errno);
    if (found.st_nlink == 0)
        return "the log file was removed";
    if ((size_t)found.st_size < log->length)
        return "the log file was cut by another program";
    return (size_t)found.st_size > log->length ? "another program wrote to the log file" : NULL;
}

const char *append_record(log_file *log, const uint8_t *record, size_t length)
{
    const char *why = changed(log);
    if (why != NULL)
        return why;
    if (lseek(log->file, (off_t)log->length, SEEK_SET) < 0 || !write_bytes(log->file, record, length) ||
        fdatasync(log->file) != 0) {
        why = strerror(errno);
        cut_back(log);
        return why;
    }
    log->length += length;
    return NULL;
}

bool is_log(const log_file *log, const char *path)
{
    struct stat own, other;
    return fstat(log->file, &own) == 0 && stat(path, &other) == 0 && own.st_dev == other.st_dev &&
           own.st_ino == other.st_ino;
}

void close_log(log_file *log)
{
    free(log->told);
    log->told = NULL;
    close(log->file);
    log->file = -1;
}

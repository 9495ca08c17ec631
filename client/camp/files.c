/* Files, read whole, and written whole or not at all. */
#define _DEFAULT_SOURCE

#include "files.h"

#include <errno.h>
#include <fcntl.h>
#include <stdio.h>
#include <stdlib.h>
#include <string.h>
#include <sys/file.h>
#include <sys/stat.h>
#include <unistd.h>

#include "messages.h"

enum { FIRST_ROOM = 4096 };

static bool is_standard(const char *path)
{
    return strcmp(path, "-") == 0;
}

const char *no_file(const char *argument)
{
    if (*argument == '\0')
        return "is not the name of a file";
    if (*argument == '-' && !is_standard(argument))
        return "is not an option";
    return NULL;
}

const char *input_name(const char *path)
{
    return is_standard(path) ? "standard input" : path;
}

/* Doubles the room. */
static bool grow(content *read, size_t *room)
{
    size_t more = *room == 0 ? FIRST_ROOM : 2 * *room;
    uint8_t *bytes = more > *room ? realloc(read->bytes, more) : NULL;
    if (bytes == NULL) {
        errno = ENOMEM;
        return false;
    }
    read->bytes = bytes;
    *room = more;
    return true;
}

static bool read_all(int file, content *into)
{
    size_t room = 0;
    for (;;) {
        if (into->length == room && !grow(into, &room))
            return false;
        ssize_t got = read(file, into->bytes + into->length, room - into->length);
        if (got == 0)
            return true;
        if (got > 0)
            into->length += (size_t)got;
        else if (errno != EINTR)
            return false;
    }
}

bool read_whole(const char *path, content *into)
{
    *into = (content){NULL, 0};
    int file = is_standard(path) ? STDIN_FILENO : open(path, O_RDONLY);
    bool whole = file >= 0 && read_all(file, into);
    if (!whole) {
        trouble(input_name(path));
        free(into->bytes);
    }
    if (file >= 0 && !is_standard(path))
        close(file);
    return whole;
}

/* False with errno. */
static bool hand_on(int file, uint8_t *part, size_t most, part_taker *take, void *to)
{
    for (;;) {
        ssize_t got = read(file, part, most);
        if (got == 0)
            return true;
        if (got < 0 && errno != EINTR)
            return false;
        if (got > 0 && !take(to, part, (size_t)got))
            return true;
    }
}

bool read_parts_of(int file, size_t most, part_taker *take, void *to)
{
    uint8_t *part = malloc(most);
    bool whole = part != NULL && hand_on(file, part, most, take, to);
    int error = errno;
    free(part);
    errno = error;
    return whole;
}

bool read_parts(const char *path, size_t most, part_taker *take, void *to)
{
    int file = is_standard(path) ? STDIN_FILENO : open(path, O_RDONLY);
    bool whole = file >= 0 && read_parts_of(file, most, take, to);
    if (!whole)
        trouble(input_name(path));
    if (file >= 0 && !is_standard(path))
        close(file);
    return whole;
}

bool write_bytes(int file, const uint8_t *bytes, size_t length)
{
    while (length > 0) {
        ssize_t put = write(file, bytes, length);
        if (put >= 0) {
            bytes += put;
            length -= (size_t)put;
        } else if (errno != EINTR) {
            return false;
        }
    }
    return true;
}

/* Gives a new file the rights that the process gives its files. */
static bool set_rights(int file)
{
    mode_t mask = umask(0);
    umask(mask);
    return fchmod(file, 0666 & ~mask) == 0;
}

/* Writes, and makes sure that the bytes are kept; closes the file in any case. */
static bool keep(int file, const uint8_t *bytes, size_t length)
{
    bool kept = write_bytes(file, bytes, length) && set_rights(file) && fsync(file) == 0;
    int error = errno;
    if (close(file) != 0 && kept) {
        kept = false;
        error = errno;
    }
    errno = error;
    return kept;
}

/* Writes beside the file's place, by the name `beside`, and renames; leaves nothing where that fails. */
static bool replace(const char *path, char *beside, const uint8_t *bytes, size_t length)
{
    int file = mkstemp(beside);
    if (file < 0)
        return false;
    if (keep(file, bytes, length) && rename(beside, path) == 0)
        return true;
    int error = errno;
    unlink(beside);
    errno = error;
    return false;
}

/* Writes to the path, which is not -; false with errno. */
static bool write_to(const char *path, const uint8_t *bytes, size_t length)
{
    static const char ending[] = ".XXXXXX";
    char *beside = malloc(strlen(path) + sizeof ending);
    if (beside == NULL)
        return false;
    strcat(strcpy(beside, path), ending);
    bool written = replace(path, beside, bytes, length);
    free(beside);
    return written;
}

/* A folder, a device or a pipe has this name: nothing that a file may take the place of. */
static bool is_taken(const char *path)
{
    struct stat found;
    return stat(path, &found) == 0 && !S_ISREG(found.st_mode);
}

const char *try_write(const char *path, const uint8_t *bytes, size_t length)
{
    if (is_taken(path))
        return "not an ordinary file";
    /* A running desk holds its log. */
    int before = open(path, O_RDONLY | O_NONBLOCK | O_CLOEXEC);
    if (before < 0 && errno != ENOENT)
        return strerror(errno);
    const char *why = NULL;
    if (before >= 0 && flock(before, LOCK_EX | LOCK_NB) != 0)
        why = errno == EWOULDBLOCK ? "another program writes this file" : strerror(errno);
    else if (!write_to(path, bytes, length))
        why = strerror(errno);
    if (before >= 0)
        close(before);
    return why;
}

bool write_whole(const char *path, const uint8_t *bytes, size_t length)
{
    if (is_standard(path)) {
        fwrite(bytes, 1, length, stdout);
        return true;
    }
    const char *why = try_write(path, bytes, length);
    if (why == NULL)
        return true;
    about(stderr, path);
    fprintf(stderr, "%s\n", why);
    return false;
}

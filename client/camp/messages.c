/* What camp says, in one form. */
#define _POSIX_C_SOURCE 200809L

#include "messages.h"

#include <errno.h>
#include <inttypes.h>
#include <stdbool.h>
#include <string.h>
#include <unistd.h>

#include "meanings.h"

enum { NO_SUCH_SHEET = 12 };

void show(FILE *to, const void *bytes, size_t length)
{
    const unsigned char *byte = bytes;
    for (; length > 0; byte++, length--) {
        if (*byte >= 32 && *byte <= 126)
            putc(*byte, to);
        else
            fprintf(to, "\\x%02x", (unsigned)*byte);
    }
}

void show_text(FILE *to, const char *text)
{
    show(to, text, strlen(text));
}

void about(FILE *to, const char *file)
{
    fputs("camp: ", to);
    show_text(to, file);
    fputs(": ", to);
}

void show_refusal(FILE *to, unsigned number)
{
    const char *meaning = meaning_of(number);
    fprintf(to, "%u, %s", number, meaning != NULL ? meaning : "a number without a meaning here");
}

int no_sheet(uint64_t sheet)
{
    fprintf(stderr, "camp: sheet %" PRIu64 ": ", sheet);
    show_refusal(stderr, NO_SUCH_SHEET);
    putc('\n', stderr);
    return STATUS_FOUND;
}

int trouble(const char *file)
{
    int error = errno;
    about(stderr, file);
    fprintf(stderr, "%s\n", strerror(error));
    return STATUS_FOUND;
}

int misused(const char *command, const char *argument, const char *why)
{
    fputs("camp: ", stderr);
    if (command != NULL)
        fprintf(stderr, "%s: ", command);
    if (argument != NULL) {
        putc('\'', stderr);
        show_text(stderr, argument);
        fputs("' ", stderr);
    }
    fprintf(stderr, "%s; see 'camp help%s%s'\n", why, command != NULL ? " " : "",
            command != NULL ? command : "");
    return STATUS_MISUSED;
}

int output_ended(int status)
{
    bool lost = ferror(stdout) != 0;
    if (fflush(stdout) != 0)
        return trouble("standard output");
    if (lost) {
        errno = EIO;
        return trouble("standard output");
    }
    /* Some file systems tell only here. That it was closed before is no fault where nothing was printed. */
    if (close(STDOUT_FILENO) != 0 && errno != EBADF)
        return trouble("standard output");
    return status;
}

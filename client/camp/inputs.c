/* What the keys come from. */
#define _DEFAULT_SOURCE

#include "inputs.h"

#include <errno.h>
#include <fcntl.h>
#include <string.h>
#include <sys/stat.h>
#include <time.h>
#include <unistd.h>

#include "options.h"

/* How long one waits before an input is opened again, in milliseconds: one that was used, and another. */
enum { SOON = 100, LATER = 500 };

int64_t now(void)
{
    struct timespec time;
    clock_gettime(CLOCK_MONOTONIC, &time);
    return (int64_t)time.tv_sec * 1000 + time.tv_nsec / 1000000;
}

bool read_speed(const char *digits, speed_t *speed)
{
    static const struct {
        uint64_t bits;
        speed_t speed;
    } speeds[] = {
        {300, B300},     {600, B600},     {1200, B1200},   {2400, B2400},     {4800, B4800},
        {9600, B9600},   {19200, B19200}, {38400, B38400}, {57600, B57600},   {115200, B115200},
    };
    uint64_t bits;
    for (size_t at = 0; read_number(digits, &bits) && at < sizeof speeds / sizeof *speeds; at++) {
        if (speeds[at].bits == bits) {
            *speed = speeds[at].speed;
            return true;
        }
    }
    return false;
}

/* Every byte as it was sent, at once and without an echo; false with errno. */
static bool set_raw(input *in)
{
    struct termios modes;
    if (tcgetattr(in->file, &in->before) != 0)
        return false;
    modes = in->before;
    cfmakeraw(&modes);
    modes.c_cflag |= CLOCAL | CREAD;
    modes.c_cc[VMIN] = 1;
    modes.c_cc[VTIME] = 0;
    if (cfsetispeed(&modes, in->speed) != 0 || cfsetospeed(&modes, in->speed) != 0)
        return false;
    return tcsetattr(in->file, TCSANOW, &modes) == 0;
}

/* Whether two files that are open are the same device, or the same file. */
static bool same_file(int file, int other)
{
    struct stat one, two;
    if (fstat(file, &one) != 0 || fstat(other, &two) != 0)
        return false;
    if (S_ISCHR(one.st_mode) && S_ISCHR(two.st_mode))
        return one.st_rdev == two.st_rdev;
    return one.st_dev == two.st_dev && one.st_ino == two.st_ino;
}

bool same_input(const input *in, const input *other)
{
    return in->file >= 0 && other->file >= 0 && same_file(in->file, other->file);
}

/* Why a file that is open gives no keys; NULL where it does. */
static const char *no_input(input *in)
{
    struct stat found;
    if (fstat(in->file, &found) != 0)
        return strerror(errno);
    if (S_ISDIR(found.st_mode))
        return strerror(EISDIR);
    /* Pairs that a person types are taken as the terminal gives them. */
    in->is_terminal = !in->once && isatty(in->file) != 0;
    if (in->is_terminal && same_file(in->file, STDIN_FILENO)) {
        in->is_terminal = false;
        return "this is the counsellor's own terminal";
    }
    if (in->is_terminal && !set_raw(in)) {
        in->is_terminal = false;
        return strerror(errno);
    }
    return NULL;
}

static void shut(int *file)
{
    if (*file >= 0)
        close(*file);
    *file = -1;
}

const char *open_input(input *in)
{
    in->opened = now();
    in->again = in->opened + LATER;
    in->in_pair = false;
    in->file = in->once ? fcntl(STDIN_FILENO, F_DUPFD_CLOEXEC, 0)
                        : open(in->path, O_RDONLY | O_NONBLOCK | O_NOCTTY | O_CLOEXEC);
    if (in->file < 0)
        return strerror(errno);
    const char *why = no_input(in);
    if (why != NULL) {
        close_input(in);
        return why;
    }
    shut(&in->held);
    in->state = INPUT_WAITING;
    return NULL;
}

/*
 * A file that was read to its end is not read again. A FIFO is held until it is open anew, since what
 * another writer puts there meanwhile would be lost with the last descriptor.
 */
static void end_input(input *in)
{
    int error = errno;
    struct stat found;
    mode_t mode = fstat(in->file, &found) == 0 ? found.st_mode : 0;
    bool over = in->once || S_ISREG(mode);
    in->again = now() + (in->state == INPUT_THERE ? SOON : LATER);
    if (!over && S_ISFIFO(mode)) {
        in->held = in->file;
        in->file = -1;
    }
    close_input(in);
    in->state = over ? INPUT_OVER : INPUT_AWAY;
    errno = error;
}

bool is_left(const input *in)
{
    return in->taken < in->length;
}

read_result read_input(input *in)
{
    ssize_t got = read(in->file, in->bytes, sizeof in->bytes);
    in->taken = 0;
    in->length = got > 0 ? (size_t)got : 0;
    if (got > 0) {
        in->state = INPUT_THERE;
        return READ_SOME;
    }
    if (got < 0 && (errno == EAGAIN || errno == EINTR))
        return READ_LATER;
    end_input(in);
    /* A pseudo-terminal whose other side is closed fails so. */
    return got == 0 || errno == EIO ? READ_ENDED : READ_FAILED;
}

void close_input(input *in)
{
    if (in->file < 0)
        return;
    if (in->is_terminal)
        tcsetattr(in->file, TCSANOW, &in->before);
    in->is_terminal = false;
    shut(&in->file);
    in->state = INPUT_AWAY;
}

void refuse_input(input *in)
{
    close_input(in);
    in->state = INPUT_REFUSED;
}

/* The loop of the running desk. */
#define _GNU_SOURCE

#include "loop.h"

#include <errno.h>
#include <poll.h>
#include <signal.h>
#include <string.h>
#include <unistd.h>

#include "console.h"
#include "screen.h"

/* What is waited for: the inputs, and behind them the console and the Enter that is being saved. */
enum { CONSOLE = DESK_BENCHES, SAVED, POLLS };
/* An input that ends sooner and gave nothing is not told each time, in milliseconds. */
enum { BRIEF = 1000 };

static volatile sig_atomic_t ended, resized;

static void end_soon(int number)
{
    (void)number;
    ended = 1;
}

static void resize_soon(int number)
{
    (void)number;
    resized = 1;
}

/* What ends the desk, the size, and what it does not mind. */
static const struct {
    int number;
    void (*handler)(int);
} signals[] = {
    {SIGINT, end_soon}, {SIGTERM, end_soon}, {SIGQUIT, end_soon}, {SIGHUP, end_soon}, {SIGWINCH, resize_soon},
    {SIGPIPE, SIG_IGN}, {SIGTSTP, SIG_IGN},  {SIGTTIN, SIG_IGN},  {SIGTTOU, SIG_IGN}, {SIGXFSZ, SIG_IGN},
};

/* nohup starts a program so. */
static bool is_kept(int number)
{
    struct sigaction before;
    return number == SIGHUP && sigaction(number, NULL, &before) == 0 && before.sa_handler == SIG_IGN;
}

void take_signals(void)
{
    sigset_t blocked;
    sigemptyset(&blocked);
    for (size_t at = 0; at < sizeof signals / sizeof *signals; at++) {
        struct sigaction action;
        if (is_kept(signals[at].number))
            continue;
        memset(&action, 0, sizeof action);
        action.sa_handler = signals[at].handler;
        sigaction(signals[at].number, &action, NULL);
        if (signals[at].handler != SIG_IGN)
            sigaddset(&blocked, signals[at].number);
    }
    /* They come while the loop waits, and not in the middle of a record. */
    pthread_sigmask(SIG_BLOCK, &blocked, NULL);
}

static void tell_open(view *shown, input *in, const char *why)
{
    const char *what = why == NULL ? "is open" : why;
    in->why = why;
    if (in->said != NULL && strcmp(in->said, what) == 0)
        return;
    in->said = what;
    if (why == NULL)
        tell_input(shown, in, GOOD, what, NULL);
    else
        tell_input(shown, in, BAD, "is not there", why);
}

static bool is_shared(const view *shown, const input *in)
{
    for (size_t at = 0; at < shown->input_count; at++)
        if (&shown->inputs[at] != in && same_input(in, &shown->inputs[at]))
            return true;
    return false;
}

/* Opens what is away and due. */
static void open_inputs(view *shown, input *inputs)
{
    for (size_t at = 0; at < shown->input_count; at++) {
        input *in = &inputs[at];
        if (in->state != INPUT_AWAY || in->again > now())
            continue;
        const char *why = open_input(in);
        if (why == NULL && is_shared(shown, in)) {
            refuse_input(in);
            why = "this is the input of another bench";
        }
        tell_open(shown, in, why);
    }
}

/* The line of a bench as it is before a key, and its length. */
static size_t copy_line(const view *shown, uint64_t bench, uint8_t line[DESK_LINE])
{
    size_t length = 0;
    if (bench < DESK_BENCHES)
        memcpy(line, line_of(shown->live, bench, &length), DESK_LINE);
    return length;
}

static void press_key(view *shown, key pressed)
{
    uint8_t line[DESK_LINE];
    size_t length = copy_line(shown, pressed.bench, line);
    pressed_key came = press_live(shown->live, pressed);
    if (!came.saving)
        tell_key(shown, pressed, &came, line, length);
}

/* Waits for the Enter that is being saved, and tells what came of it. */
static void tell_saved(view *shown)
{
    uint8_t line[DESK_LINE];
    key pressed = {shown->live->saving_bench, ENTER};
    size_t length = copy_line(shown, pressed.bench, line);
    pressed_key came = end_saving(shown->live);
    if (!shown->live->apart)
        tell_key(shown, pressed, &came, line, length);
}

/* A byte of a bench's own input, or of the pairs. */
static void take_byte(view *shown, input *in, uint8_t byte)
{
    if (in->bench != DESK_NO_BENCH) {
        press_key(shown, (key){in->bench, byte});
    } else if (in->in_pair) {
        in->in_pair = false;
        press_key(shown, key_of(in->pair, byte));
    } else {
        in->in_pair = true;
        in->pair = byte;
    }
}

/* Whether the next byte of an input may be taken now. Pairs keep their order: they wait for every Enter. */
static bool may_take(const view *shown, const input *in)
{
    if (in->bench == DESK_NO_BENCH)
        return !shown->live->saving && !shown->live->apart;
    return may_press(shown->live, (key){in->bench, in->bytes[in->taken]});
}

/* Takes what was read of an input, as far as it may be; the rest waits. */
static void take_bytes(view *shown, input *in)
{
    static uint64_t waits;
    while (is_left(in) && may_take(shown, in))
        take_byte(shown, in, in->bytes[in->taken++]);
    if (is_left(in))
        in->since = waits++;
}

/* Of the inputs that wait and may go on, the one that waits longest; NULL for none. */
static input *next_waiting(const view *shown, input *inputs)
{
    input *next = NULL;
    for (size_t at = 0; at < shown->input_count; at++) {
        input *in = &inputs[at];
        if (is_left(in) && may_take(shown, in) && (next == NULL || in->since < next->since))
            next = in;
    }
    return next;
}

/* The end of the Enter that is being saved, and then what waited for it. */
static void take_saved(view *shown, input *inputs)
{
    tell_saved(shown);
    for (input *in = next_waiting(shown, inputs); in != NULL; in = next_waiting(shown, inputs))
        take_bytes(shown, in);
}

static void take_input(view *shown, input *in)
{
    bool brief = in->state == INPUT_WAITING && now() - in->opened < BRIEF;
    read_result result = read_input(in);
    take_bytes(shown, in);
    if (result != READ_ENDED && result != READ_FAILED)
        return;
    const char *why = result == READ_FAILED ? strerror(errno) : NULL;
    in->why = why != NULL ? why : "it ended";
    if (in->state == INPUT_OVER)
        tell_input(shown, in, QUIET, "is at its end", why);
    else if (!brief)
        tell_input(shown, in, BAD, "ended; it is opened again when it comes back", why);
    if (!brief)
        in->said = NULL;
}

/* The counsellor's lines where they do not come from the screen; false where the console is shut. */
static bool take_lines(view *shown)
{
    char bytes[TURN];
    ssize_t got = read(STDIN_FILENO, bytes, sizeof bytes);
    bool shut = got == 0 || (got < 0 && errno != EINTR && errno != EAGAIN);
    for (ssize_t at = 0; at < got && !ended; at++) {
        if (bytes[at] != '\n')
            type_console(&shown->console, bytes[at]);
        else if (!enter_console(shown))
            ended = 1;
    }
    /* The last line counts without its end too. */
    if (shut && shown->console.length > 0 && !enter_console(shown))
        ended = 1;
    return !shut;
}

static bool take_console(view *shown)
{
    if (shown->plain || isatty(STDIN_FILENO) == 0)
        return take_lines(shown);
    if (!read_screen(shown))
        ended = 1;
    return true;
}

/* How long the loop may wait, in milliseconds; -1 where no input is away. */
static int64_t wait_most(const view *shown)
{
    int64_t most = -1;
    for (size_t at = 0; at < shown->input_count; at++) {
        const input *in = &shown->inputs[at];
        if (in->state != INPUT_AWAY)
            continue;
        int64_t left = in->again > now() ? in->again - now() : 0;
        if (most < 0 || left < most)
            most = left;
    }
    return most;
}

static bool all_over(const view *shown)
{
    for (size_t at = 0; at < shown->input_count; at++)
        if (shown->inputs[at].state != INPUT_OVER && shown->inputs[at].state != INPUT_REFUSED)
            return false;
    return true;
}

/* Waits until something comes; false where it was a signal, or nothing. */
static bool wait_for(struct pollfd polls[POLLS], int64_t most)
{
    struct timespec time = {(time_t)(most / 1000), (long)(most % 1000) * 1000000};
    sigset_t none, blocked;
    sigemptyset(&none);
    bool came = ppoll(polls, POLLS, most < 0 ? NULL : &time, &none) > 0;
    /* Where something came, ppoll leaves signals for later: an input that floods would starve them. */
    pthread_sigmask(SIG_SETMASK, &none, &blocked);
    pthread_sigmask(SIG_SETMASK, &blocked, NULL);
    return came;
}

/* Whether an input is not read now: bytes of it wait, or an Enter of its bench is being saved. */
static bool is_held(const view *shown, const input *in)
{
    const live_desk *live = shown->live;
    return is_left(in) || (live->saving && (in->bench == DESK_NO_BENCH || in->bench == live->saving_bench));
}

/* A file of -1 is passed over. */
static void set_polls(const view *shown, bool console, struct pollfd polls[POLLS])
{
    for (size_t at = 0; at < POLLS; at++)
        polls[at] = (struct pollfd){-1, POLLIN, 0};
    for (size_t at = 0; at < shown->input_count; at++)
        if (!is_held(shown, &shown->inputs[at]))
            polls[at].fd = shown->inputs[at].file;
    if (console)
        polls[CONSOLE].fd = STDIN_FILENO;
    if (shown->live->saving)
        polls[SAVED].fd = shown->live->writer.ready;
}

/* Takes all that came; whether the console is still there. */
static bool take_polls(view *shown, input *inputs, bool console, const struct pollfd polls[POLLS])
{
    if (polls[SAVED].revents != 0)
        take_saved(shown, inputs);
    for (size_t at = 0; at < shown->input_count; at++)
        if (polls[at].revents != 0)
            take_input(shown, &inputs[at]);
    return polls[CONSOLE].revents != 0 ? take_console(shown) : console;
}

void run_loop(view *shown, input *inputs, bool console)
{
    struct pollfd polls[POLLS];
    while (!ended && !shown->live->apart && (console || !all_over(shown))) {
        open_inputs(shown, inputs);
        if (!shown->plain)
            draw_screen(shown);
        set_polls(shown, console, polls);
        bool came = wait_for(polls, wait_most(shown));
        if (resized && !shown->plain)
            resize_screen();
        resized = 0;
        if (came)
            console = take_polls(shown, inputs, console, polls);
    }
    /* What was read is taken before the end, each Enter with its record. */
    while (shown->live->saving)
        take_saved(shown, inputs);
}

/* camp refusals: the keys of a session that are refused. */
#include <stdlib.h>

#include "commands.h"
#include "messages.h"
#include "session.h"

enum { ACCEPTED = 0, NO_BENCH = 1 };
enum { ERASE = 8, EMPTY = 24 };

const char refusals_usage[] =
    "usage: camp refusals SESSION\n"
    "\n"
    "Plays a session as the desk does and tells each key that is refused: its pair and bench, the\n"
    "refusal's number, what that means, and the key. Pairs of no bench that follow each other are told\n"
    "in one line. Then it tells what a bench typed and did not enter, and how many keys were refused.\n"
    "\n"
    "  SESSION   a file of keys, for each of them a bench digit and the key's byte; - for standard\n"
    "            input\n"
    "\n"
    "Exit status: 0 no key is refused; 1 some are, or SESSION cannot be read; 2 wrong use.\n"
    "\n"
    "Example:\n"
    "\n"
    "  $ camp refusals session\n"
    "  camp: session: pair 29, bench 1: 6, no item has this name (Enter after `_refine_ls_wR_factor_gt 0.16`)\n"
    "  camp: session: bench 1 has not entered `_refine_ls_wR_factor_gt 0.16`\n"
    "  camp: session: 1 of 29 keys refused\n";

/* Pairs of no bench that follow each other, counted from 1; first is 0 where there are none. */
typedef struct {
    size_t first;
    size_t last;
} stray;

/* Tells such pairs, and forgets them. */
static void tell_stray(const char *file, stray *pairs)
{
    if (pairs->first == 0)
        return;
    about(stdout, file);
    if (pairs->first < pairs->last)
        printf("pairs %zu to %zu, no bench: ", pairs->first, pairs->last);
    else
        printf("pair %zu, no bench: ", pairs->first);
    show_refusal(stdout, NO_BENCH);
    putchar('\n');
    pairs->first = 0;
}

static void show_line(const own_desk *desk, uint64_t bench)
{
    putchar('`');
    show(stdout, desk->texts + DESK_LINE * bench, desk->numbers[bench]);
    putchar('`');
}

static void show_key(const own_desk *desk, key pressed)
{
    if (pressed.byte == ENTER) {
        fputs("Enter after ", stdout);
        show_line(desk, pressed.bench);
    } else if (pressed.byte == ERASE) {
        fputs("erase", stdout);
    } else if (pressed.byte == EMPTY) {
        fputs("empty the line", stdout);
    } else if (pressed.byte >= 32 && pressed.byte <= 126) {
        printf("key %c", pressed.byte);
    } else {
        printf("byte %u", (unsigned)pressed.byte);
    }
}

/* Tells one refused key of a bench, after which the desk is as it was before. */
static void tell_key(const char *file, const own_desk *desk, size_t pair, key pressed, unsigned answer)
{
    about(stdout, file);
    printf("pair %zu, bench %u: ", pair, (unsigned)pressed.bench);
    show_refusal(stdout, answer);
    fputs(" (", stdout);
    show_key(desk, pressed);
    fputs(")\n", stdout);
}

/* Tells each refused key, and answers how many there are. */
static size_t tell_keys(const char *file, own_desk *desk, const content *session)
{
    size_t refused = 0;
    stray pairs = {0, 0};
    start(desk);
    for (size_t at = 0; at < key_count(session); at++) {
        key pressed = key_at(session, at);
        unsigned answer = press(desk, pressed);
        refused += answer != ACCEPTED;
        if (answer == NO_BENCH) {
            pairs.first = pairs.first == 0 ? at + 1 : pairs.first;
            pairs.last = at + 1;
            continue;
        }
        tell_stray(file, &pairs);
        if (answer != ACCEPTED)
            tell_key(file, desk, at + 1, pressed, answer);
    }
    tell_stray(file, &pairs);
    return refused;
}

/* Tells what the session leaves unfinished: a byte without its pair, lines without their Enter. */
static void tell_rest(const char *file, const own_desk *desk, const content *session)
{
    if (session->length % 2 != 0) {
        about(stdout, file);
        puts("the last byte has no pair and is passed over");
    }
    for (uint64_t bench = 0; bench < DESK_BENCHES; bench++) {
        if (desk->numbers[bench] > 0) {
            about(stdout, file);
            printf("bench %u has not entered ", (unsigned)bench);
            show_line(desk, bench);
            putchar('\n');
        }
    }
}

int refusals_run(int count, char **arguments)
{
    static own_desk desk;
    content session;
    if (count < 1)
        return misused("refusals", NULL, "SESSION, the file of keys, is missing");
    if (count > 1)
        return misused("refusals", arguments[1], "is one argument too many");
    if (no_file(arguments[0]) != NULL)
        return misused("refusals", arguments[0], no_file(arguments[0]));
    if (!read_whole(arguments[0], &session))
        return STATUS_FOUND;
    const char *file = input_name(arguments[0]);
    size_t refused = tell_keys(file, &desk, &session);
    tell_rest(file, &desk, &session);
    about(stdout, file);
    printf("%zu of %zu keys refused\n", refused, key_count(&session));
    free(session.bytes);
    return refused > 0 ? STATUS_FOUND : STATUS_DONE;
}

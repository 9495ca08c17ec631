/* What is shown of the running desk, as words. */
#define _POSIX_C_SOURCE 200809L

#include "view.h"

#include <inttypes.h>
#include <stdio.h>
#include <stdlib.h>
#include <string.h>

#include "messages.h"
#include "words.h"

enum { ACCEPTED = 0 };

const input *input_of(const view *shown, uint64_t bench)
{
    for (size_t at = 0; at < shown->input_count; at++)
        if (shown->inputs[at].bench == bench || shown->inputs[at].bench == DESK_NO_BENCH)
            return &shown->inputs[at];
    return NULL;
}

/* Prints a line of an event at once. */
static void print_event(const char *text)
{
    puts(text);
    fflush(stdout);
}

/* Of words that are longer, what has no room is the beginning, as of a long path. */
void tell_notice(view *shown, mood as, const char *what)
{
    size_t length = strlen(what);
    shown->notice.as = as;
    strcpy(shown->notice.text, what + (length < WORDS ? 0 : length - (WORDS - 1)));
    if (shown->plain)
        print_event(what);
}

void tell_input(view *shown, const input *in, mood as, const char *what, const char *why)
{
    char *text;
    size_t length;
    FILE *to = open_memstream(&text, &length);
    if (to == NULL)
        return;
    if (in->bench == DESK_NO_BENCH)
        fputs("pairs: ", to);
    else
        fprintf(to, "bench %" PRIu64 ": ", in->bench);
    show_text(to, input_name(in->path));
    fprintf(to, " %s%s%s", what, why != NULL ? ": " : "", why != NULL ? why : "");
    if (fclose(to) == 0)
        tell_notice(shown, as, text);
    free(text);
}

/* What came of a key, in words to the child. */
static void say(words_shown *words, const view *shown, key pressed, const pressed_key *came)
{
    char *text = words->text;
    uint64_t sheet = sheet_of(pressed.bench);
    *words = (words_shown){.as = came->entered ? GOOD : BAD};
    if (came->entered)
        snprintf(text, WORDS, "Thank you! Entry %zu of sheet %" PRIu64 " is kept.",
                 entries_of(shown->live, sheet), sheet);
    else if (came->not_kept != NULL)
        snprintf(text, WORDS, "NOT KEPT: %s. The line stays. Call a counsellor.", came->not_kept);
    else if (came->answer != ACCEPTED)
        snprintf(text, WORDS, "%s", child_words(came->answer));
    else
        words->as = QUIET;
}

/* The length of words without the full stop at their end. */
static int without_stop(const char *words)
{
    int length = (int)strlen(words);
    return length > 0 && words[length - 1] == '.' ? length - 1 : length;
}

/* One line of a key that entered something or was refused, with the line, which nobody sees otherwise. */
static void print_key(const view *shown, key pressed, const pressed_key *came, const uint8_t *line,
                      size_t length)
{
    uint64_t sheet = sheet_of(pressed.bench);
    if (pressed.bench == DESK_NO_BENCH)
        fputs("no bench: ", stdout);
    else
        printf("bench %" PRIu64 ": ", pressed.bench);
    if (came->entered)
        printf("accepted, sheet %" PRIu64 ", entry %zu: ", sheet, entries_of(shown->live, sheet));
    else if (came->not_kept != NULL)
        printf("not kept, %s: ", came->not_kept);
    else
        printf("refused, %u, %.*s: ", (unsigned)came->answer, without_stop(child_words(came->answer)),
               child_words(came->answer));
    if (pressed.byte == ENTER)
        show(stdout, line, length);
    else
        printf("byte %u", (unsigned)pressed.byte);
    print_event("");
}

void tell_key(view *shown, key pressed, const pressed_key *came, const uint8_t *line, size_t length)
{
    words_shown *words = pressed.bench < DESK_BENCHES ? &shown->benches[pressed.bench] : &shown->notice;
    say(words, shown, pressed, came);
    if (shown->plain && words->as != QUIET)
        print_key(shown, pressed, came, line, length);
}

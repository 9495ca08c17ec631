/* camp run: the desk at the camp, with its keypads, its log and its screen. */
#define _POSIX_C_SOURCE 200809L

#include <fcntl.h>
#include <inttypes.h>
#include <stdlib.h>
#include <string.h>
#include <unistd.h>

#include "commands.h"
#include "loop.h"
#include "messages.h"
#include "options.h"
#include "screen.h"

const char run_usage[] =
    "usage: camp run --log LOG [--plain] [--powder] [--speed BITS] --bench N=DEVICE..\n"
    "       camp run --log LOG [--plain] [--powder] --pairs FILE\n"
    "\n"
    "Runs the desk: takes keys as they come, shows lines, sheets and alerts, and keeps each accepted\n"
    "entry in LOG. An entry is shown as accepted when its record is on the disk; until then the other\n"
    "benches type on. Where that fails, the desk is as it was before that Enter, and the line stays.\n"
    "\n"
    "  LOG       the file of the log. One that is there is read first, and the desk goes on where it\n"
    "            ended. A record that is torn at its end is kept in LOG.torn and cut off; any other\n"
    "            damage is told with its byte, and nothing is changed. One program writes it at a time.\n"
    "  DEVICE    the keypad of bench N, 0 to 3: a serial line, a pseudo-terminal or a FIFO. One that\n"
    "            ends or fails is opened again when it comes back.\n"
    "  BITS      the speed of the serial lines, 300 to 115200; without it, 9600\n"
    "  FILE      keys of all benches, a bench digit and the key's byte each; - for standard input\n"
    "  --plain   one line for each event in place of the screen, as where standard output is no\n"
    "            terminal\n"
    "  --powder  the screen's alerts are those of a camp in powder week\n"
    "\n"
    "Standard input is the counsellor's console: 'help' there tells its commands, 'quit' ends the desk.\n"
    "\n"
    "Exit status: 0 it was ended; 1 the log cannot be read or written or is damaged, or the terminal\n"
    "cannot be drawn on; 2 wrong use.\n"
    "\n"
    "Example:\n"
    "\n"
    "  $ camp run --plain --log camp.log --pairs session </dev/null\n"
    "  camp.log: 0 entries, 65536 of 65536 bytes left\n"
    "  pairs: session is open\n"
    "  bench 0: accepted, sheet 0, entry 1: _refine_ls_R_factor_gt 0.16\n"
    "  bench 1: accepted, sheet 0, entry 2: _refine_ls_wR_factor_obs 0.2\n"
    "  pairs: session is at its end\n"
    "  camp.log: 2 entries, 65517 of 65536 bytes left\n";

/* What the options say. */
typedef struct {
    const char *log;
    input inputs[DESK_BENCHES];
    size_t count;
    bool plain;
    bool powder;
    bool console;
} run_options;

static void add_input(run_options *options, const char *path, uint64_t bench)
{
    bool once = strcmp(path, "-") == 0;
    options->inputs[options->count++] = (input){
        .path = path, .bench = bench, .file = -1, .held = -1, .once = once, .state = INPUT_AWAY};
    if (once)
        options->console = false;
}

/* N=DEVICE; false, and told, where it is wrong use. */
static bool add_bench(run_options *options, const char *word)
{
    bool is_bench = word[0] >= '0' && word[0] < '0' + DESK_BENCHES && word[1] == '=' && word[2] != '\0';
    const char *why = is_bench ? NULL : "is not a bench, 0 to 3, = and a device";
    for (size_t at = 0; why == NULL && at < options->count; at++) {
        if (options->inputs[at].bench == (uint64_t)(word[0] - '0'))
            why = "is of a bench that stands twice";
        else if (strcmp(options->inputs[at].path, word + 2) == 0)
            why = "is the device of another bench";
    }
    if (why != NULL) {
        misused("run", word, why);
        return false;
    }
    add_input(options, word + 2, (uint64_t)(word[0] - '0'));
    return true;
}

/* The inputs; false, and told, where they are wrong use. */
static bool take_inputs(arguments_of *arguments, run_options *options)
{
    const char *word, *pairs = NULL, *bits = "9600";
    speed_t speed;
    do {
        if (!take_next(arguments, "--bench", &word) || (word != NULL && !add_bench(options, word)))
            return false;
    } while (word != NULL);
    if (!take_value(arguments, "--pairs", &pairs) || !take_value(arguments, "--speed", &bits))
        return false;
    const char *why = NULL;
    if (pairs != NULL && options->count > 0)
        why = "--pairs and --bench do not go together";
    else if (pairs == NULL && options->count == 0)
        why = "--bench or --pairs, what the keys come from, is missing";
    if (why != NULL) {
        misused("run", NULL, why);
        return false;
    }
    if (pairs != NULL && no_file(pairs) != NULL) {
        misused("run", pairs, no_file(pairs));
        return false;
    }
    if (!read_speed(bits, &speed)) {
        misused("run", bits, "is not a speed of serial lines");
        return false;
    }
    if (pairs != NULL)
        add_input(options, pairs, DESK_NO_BENCH);
    for (size_t at = 0; at < options->count; at++)
        options->inputs[at].speed = speed;
    return true;
}

/* All options; false, and told, where they are wrong use. */
static bool take_options(arguments_of *arguments, run_options *options)
{
    if (!take_value(arguments, "--log", &options->log) || !take_flag(arguments, "--plain", &options->plain) ||
        !take_flag(arguments, "--powder", &options->powder) || !take_inputs(arguments, options))
        return false;
    end_options(arguments);
    const char *why = NULL, *word = NULL;
    if (arguments->count > 0) {
        word = arguments->words[0];
        why = *word == '-' ? "is not an option" : "is one argument too many";
    } else if (options->log == NULL) {
        why = "--log, the file of the log, is missing";
    } else if (no_file(options->log) != NULL || strcmp(options->log, "-") == 0) {
        word = options->log;
        why = "is not the name of a file";
    }
    if (why != NULL)
        misused("run", word, why);
    return why == NULL;
}

/* The log's entries and room. */
static void tell_log(view *shown)
{
    char *text;
    size_t length, entries = 0;
    for (uint64_t sheet = 0; sheet < DESK_SHEETS; sheet++)
        entries += entries_of(shown->live, sheet);
    FILE *to = open_memstream(&text, &length);
    if (to == NULL)
        return;
    show_text(to, shown->live->file.path);
    fprintf(to, ": %zu entr%s, %zu of %d bytes left", entries, entries == 1 ? "y" : "ies",
            DESK_LOG - used_of(shown->live), DESK_LOG);
    if (fclose(to) == 0)
        tell_notice(shown, QUIET, text);
    free(text);
}

/* What was typed and not entered ends with the desk. */
static void tell_lines(const live_desk *live)
{
    for (uint64_t bench = 0; bench < DESK_BENCHES; bench++) {
        size_t length;
        const uint8_t *line = line_of(live, bench, &length);
        if (length == 0)
            continue;
        printf("bench %" PRIu64 " has not entered `", bench);
        show(stdout, line, length);
        puts("`");
    }
}

/* What cannot be, since an Enter's record does not depend on the keys of other benches. */
static void tell_apart(const live_desk *live)
{
    about(stderr, live->file.path);
    fputs("its last record is not that of the entry on the desk; the desk has ended\n", stderr);
}

/*
 * Holds the numbers of the standard streams that are shut, so that no other file gets one: what is printed
 * would go into the log.
 */
static bool hold_streams(void)
{
    for (int file = STDIN_FILENO; file <= STDERR_FILENO; file++)
        if (fcntl(file, F_GETFD) < 0 && open("/dev/null", O_RDWR) != file)
            return false;
    return true;
}

static int run_desk(run_options *options)
{
    static live_desk live;
    static view shown;
    if (!hold_streams())
        return STATUS_FOUND;
    take_signals();
    if (!start_live(&live, options->log))
        return STATUS_FOUND;
    shown.live = &live;
    shown.inputs = options->inputs;
    shown.input_count = options->count;
    shown.plain = options->plain || isatty(STDOUT_FILENO) == 0;
    shown.profile = options->powder ? POWDER : SINGLE_CRYSTAL;
    bool screen = !shown.plain;
    if (screen && !start_screen(options->console && isatty(STDIN_FILENO) != 0)) {
        end_live(&live);
        return STATUS_FOUND;
    }
    /* The screen covers what was told before it. */
    if (live.file.told != NULL)
        shown.console.answer = strdup(live.file.told);
    tell_log(&shown);
    run_loop(&shown, options->inputs, options->console);
    for (size_t at = 0; at < options->count; at++)
        close_input(&options->inputs[at]);
    if (screen)
        end_screen();
    free(shown.console.answer);
    shown.plain = true;
    tell_lines(&live);
    tell_log(&shown);
    if (live.apart)
        tell_apart(&live);
    end_live(&live);
    return live.apart ? STATUS_FOUND : STATUS_DONE;
}

int run_run(int count, char **words)
{
    arguments_of arguments = {"run", count, words};
    run_options options = {.console = true};
    if (!take_options(&arguments, &options))
        return STATUS_MISUSED;
    return run_desk(&options);
}

/* The counsellor's console. */
#define _POSIX_C_SOURCE 200809L

#include "console.h"

#include <inttypes.h>
#include <stdlib.h>
#include <string.h>

#include "alerts.h"
#include "hydrogen.h"
#include "messages.h"
#include "options.h"
#include "words.h"

enum { WRITTEN = 0 };

void type_console(console_state *console, char byte)
{
    if (byte < 32 || byte > 126)
        return;
    if (console->length == COMMAND_MOST)
        console->too_long = true;
    else
        console->line[console->length++] = byte;
}

void erase_console(console_state *console)
{
    if (console->length > 0)
        console->length--;
}

/* The words of a command after its name. */
typedef struct {
    view *shown;
    FILE *to;
    char **words;
    int count;
} asked_line;

/* What is asked of an item, and how many sheets have it. */
typedef struct {
    uint64_t item;
    size_t told;
    FILE *to;
} who_asked;

static void tell_who(const filled_item *item, void *with)
{
    who_asked *asked = with;
    if (item->item != asked->item)
        return;
    show_item(asked->to, item);
    asked->told++;
}

static void who(const asked_line *line)
{
    who_asked asked = {item_of(line->words[0]), 0, line->to};
    if (asked.item == NO_ITEM) {
        show_text(line->to, line->words[0]);
        fputs(" is neither the number nor the name of an item\n", line->to);
        return;
    }
    for (uint64_t sheet = 0; sheet < DESK_SHEETS; sheet++)
        each_item(&line->shown->live->desk, sheet, tell_who, &asked);
    if (asked.told == 0)
        fprintf(line->to, "item %" PRIu64 " is empty\n", asked.item);
}

static void report(const asked_line *line)
{
    static const char *const reasons[] = {"judged", "missing", "not judgeable"};
    if (line->count == 1 && strcmp(line->words[0], "powder") != 0) {
        fputs("report takes nothing, or powder\n", line->to);
        return;
    }
    uint64_t profile = line->count == 1 ? POWDER : SINGLE_CRYSTAL;
    for (uint64_t sheet = 0; sheet < DESK_SHEETS; sheet++) {
        alerts found = alerts_of(&line->shown->live->desk, sheet, profile);
        size_t entries = entries_of(line->shown->live, sheet);
        fprintf(line->to, "sheet %" PRIu64 ", %s: %zu entr%s, %zu alert%s in %d rows\n", sheet,
                camp_name(sheet), entries, entries == 1 ? "y" : "ies", found.count,
                found.count == 1 ? "" : "s", DESK_ROWS);
        for (size_t at = 0; at < found.count; at++) {
            int row = found.rows[at];
            desk_row said = found.report.rows[row];
            fprintf(line->to, "  %c %02d %s: %s (%u, %s)\n", level_letter(said.level), row + 1,
                    row_name(row), row_words(row, said.reason), (unsigned)said.reason,
                    said.reason < 3 ? reasons[said.reason] : "");
        }
    }
}

static void hydrogen(const asked_line *line)
{
    const live_desk *live = line->shown->live;
    tell_hydrogens(line->to, live->file.path, &live->desk, (sheets){0, DESK_SHEETS - 1});
}

static void tell_entry(const filled_item *item, void *with)
{
    show_entry(with, item);
}

static void history(const asked_line *line)
{
    if (used_of(line->shown->live) == 0)
        fputs("there is no entry\n", line->to);
    each_entry(line->shown->live, tell_entry, line->to);
}

/* Why the file is not written; NULL where it may be. */
static const char *no_place(const live_desk *live, const char *path)
{
    if (strcmp(path, "-") == 0)
        return "not the name of a file";
    return is_log(&live->file, path) ? "this is the log" : NULL;
}

static void cif(const asked_line *line)
{
    static uint8_t out[DESK_FILE];
    uint64_t sheet;
    const char *path = line->words[2];
    if (!read_number(line->words[0], &sheet)) {
        show_text(line->to, line->words[0]);
        fputs(" is not the number of a sheet\n", line->to);
        return;
    }
    desk_filed filed = write_file(&line->shown->live->desk, sheet, line->words[1], out);
    if (filed.answer != WRITTEN) {
        show_refusal(line->to, filed.answer);
        putc('\n', line->to);
        return;
    }
    const char *why = no_place(line->shown->live, path);
    if (why == NULL)
        why = try_write(path, out, filed.count);
    show_text(line->to, path);
    fprintf(line->to, ": %s\n", why != NULL ? why : "written");
}

static void help(const asked_line *line);

/* Each command with how many words follow it, at least and at most; quit is answered before them. */
static const struct {
    const char *name;
    const char *takes;
    int least;
    int most;
    const char *summary;
    void (*run)(const asked_line *line);
} commands[] = {
    {"who", "ITEM", 1, 1, "who typed an item, by its number or name, and how often", who},
    {"report", "[powder]", 0, 1, "the alerts of both sheets, the gravest first", report},
    {"hydrogen", "", 0, 0, "how many hydrogens fit the weight", hydrogen},
    {"cif", "SHEET NAME FILE", 3, 3, "write a sheet as a CIF file with this block name", cif},
    {"history", "", 0, 0, "each entry of the log in order", history},
    {"help", "", 0, 0, "these lines", help},
    {"quit", "", 0, 0, "end the desk; the log has all that was accepted", NULL},
};
enum { COMMAND_COUNT = sizeof commands / sizeof *commands };

static void help(const asked_line *line)
{
    for (int at = 0; at < COMMAND_COUNT; at++)
        fprintf(line->to, "%-9s%-16s %s\n", commands[at].name, commands[at].takes, commands[at].summary);
}

/* Answers a line in its words; false where it was quit. */
static bool answer(view *shown, char **words, int count, FILE *to)
{
    asked_line line = {shown, to, words + 1, count - 1};
    for (int at = 0; at < COMMAND_COUNT; at++) {
        if (strcmp(words[0], commands[at].name) != 0)
            continue;
        if (line.count < commands[at].least || line.count > commands[at].most) {
            fprintf(to, "%s takes %s\n", words[0], commands[at].most == 0 ? "nothing" : commands[at].takes);
            return true;
        }
        if (commands[at].run == NULL)
            return false;
        commands[at].run(&line);
        return true;
    }
    show_text(to, words[0]);
    fputs(" is not a command; help tells all\n", to);
    return true;
}

/* Splits a line at its spaces: how many words it has, at most so many. */
static int split(char *line, char **words, int most)
{
    int count = 0;
    for (char *word = strtok(line, " "); word != NULL && count < most; word = strtok(NULL, " "))
        words[count++] = word;
    return count;
}

/* Answers to a stream. */
static bool answer_line(view *shown, FILE *to)
{
    char *words[8];
    console_state *console = &shown->console;
    console->line[console->length] = '\0';
    bool too_long = console->too_long;
    int count = split(console->line, words, 8);
    console->length = 0;
    console->too_long = false;
    if (too_long) {
        fprintf(to, "a command has at most %d characters\n", COMMAND_MOST);
        return true;
    }
    return count == 0 || answer(shown, words, count, to);
}

bool enter_console(view *shown)
{
    size_t length;
    console_state *console = &shown->console;
    if (shown->plain) {
        bool goes_on = answer_line(shown, stdout);
        fflush(stdout);
        return goes_on;
    }
    free(console->answer);
    console->answer = NULL;
    console->from = 0;
    FILE *to = open_memstream(&console->answer, &length);
    if (to == NULL)
        return true;
    bool goes_on = answer_line(shown, to);
    fclose(to);
    return goes_on;
}

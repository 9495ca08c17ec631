/* camp hydrogen: how many hydrogens fit the weight, and the formula as it should be typed. */
#include <inttypes.h>
#include <string.h>

#include "commands.h"
#include "hydrogen.h"
#include "log.h"
#include "messages.h"

enum { ACCEPTED = 0, NO_START = 22, NO_RIGHT_COUNT = 23 };
enum { FORMULA = 1, WEIGHT = 2 };
/* The last count that can be right, and how many right ones are told one by one. */
enum { MOST = 9999, TOLD = 3 };

const char hydrogen_usage[] =
    "usage: camp hydrogen [--sheet SHEET] LOG\n"
    "       camp hydrogen [--sheet SHEET] --session SESSION\n"
    "\n"
    "Reads a log, or plays a session as the desk does, and tells for each sheet the smallest count of\n"
    "hydrogens with which formula and weight agree, so that rows 1, 2 and 4 have no alert, the other\n"
    "counts that fit, and the line to be typed. The sheets stay as they are. A sheet with neither formula\n"
    "nor weight is passed over.\n"
    "\n"
    "  LOG       a log, as 'camp record' writes it; - for standard input\n"
    "  SESSION   a file of keys, for each of them a bench digit and the key's byte; - for standard\n"
    "            input\n"
    "  SHEET     0, of benches 0 and 1, or 1, of the visitors at benches 2 and 3; without it, both\n"
    "\n"
    "Exit status: 0 the typed counts fit; 1 something else is told of a sheet, or the log is damaged, or\n"
    "there is no such sheet, or the file cannot be read; 2 wrong use.\n"
    "\n"
    "Example:\n"
    "\n"
    "  $ camp hydrogen --session session\n"
    "  camp: session: sheet 0: H20 typed; H21 would fit the weight 142.286, and so would H22 and H23\n"
    "  camp: session: sheet 0: to be typed: _chemical_formula_sum 'C10 H21'\n";

/* Bytes of a text that is lent. */
typedef struct {
    const uint8_t *bytes;
    size_t length;
} span;

/* An item's value as typed. */
static span value(const own_desk *desk, uint64_t sheet, size_t item)
{
    size_t slot = DESK_ITEMS_SLOT + DESK_ITEMS * sheet + item - 1;
    size_t at = DESK_ITEMS_AT + DESK_SHEET_NUMBERS * sheet + DESK_ITEM_NUMBERS * (item - 1);
    return (span){desk->texts + DESK_LINE * slot, desk->numbers[at]};
}

/* The text of a value, without the quotes. */
static span text_of(span value)
{
    bool quoted = value.length >= 2 && (value.bytes[0] == '\'' || value.bytes[0] == '"');
    return quoted ? (span){value.bytes + 1, value.length - 2} : value;
}

/* The next term of a formula's text, which is then what follows it. */
static span next_term(span *text)
{
    const uint8_t *space = memchr(text->bytes, ' ', text->length);
    size_t length = space == NULL ? text->length : (size_t)(space - text->bytes);
    size_t passed = space == NULL ? length : length + 1;
    span term = {text->bytes, length};
    *text = (span){text->bytes + passed, text->length - passed};
    return term;
}

/* Whether a term's symbol is the one of this capital alone. */
static bool is_of(span term, char capital)
{
    bool longer = term.length > 1 && term.bytes[1] >= 'a' && term.bytes[1] <= 'z';
    return term.length > 0 && term.bytes[0] == (uint8_t)capital && !longer;
}

/* The typed count of hydrogens, 0 where there is no term of them. */
static unsigned typed_count(span text)
{
    while (text.length > 0) {
        span term = next_term(&text);
        if (is_of(term, 'H')) {
            unsigned count = 0;
            for (size_t at = 1; at < term.length; at++)
                count = 10 * count + (term.bytes[at] - '0');
            return term.length == 1 ? 1 : count;
        }
    }
    return 0;
}

/* A line that is being written. */
typedef struct {
    char bytes[2 * DESK_LINE];
    size_t length;
} written;

static void put(written *line, const void *bytes, size_t length)
{
    if (length > sizeof line->bytes - line->length)
        length = sizeof line->bytes - line->length;
    memcpy(line->bytes + line->length, bytes, length);
    line->length += length;
}

/* A term after the others, which begin after the mark. */
static void put_term(written *line, const void *bytes, size_t length)
{
    if (line->bytes[line->length - 1] != '\'')
        put(line, " ", 1);
    put(line, bytes, length);
}

static void put_hydrogens(written *line, unsigned count)
{
    char term[16];
    int length = count == 1 ? snprintf(term, sizeof term, "H") : snprintf(term, sizeof term, "H%u", count);
    if (count > 0)
        put_term(line, term, (size_t)length);
}

/* Whether H stands before a term: after C, or without C where the letters rise. */
static bool comes_before(span term, bool carbon)
{
    return carbon ? !is_of(term, 'C') : term.bytes[0] > 'H' || (term.bytes[0] == 'H' && !is_of(term, 'H'));
}

/* The line of the formula with another count of hydrogens, the other terms in their order. */
static written line_with(span text, unsigned count)
{
    static const char name[] = "_chemical_formula_sum '";
    written line = {.length = 0};
    bool carbon = false, placed = false;
    for (span rest = text; rest.length > 0;)
        carbon = is_of(next_term(&rest), 'C') || carbon;
    put(&line, name, sizeof name - 1);
    while (text.length > 0) {
        span term = next_term(&text);
        if (is_of(term, 'H'))
            continue;
        if (!placed && comes_before(term, carbon)) {
            put_hydrogens(&line, count);
            placed = true;
        }
        put_term(&line, term.bytes, term.length);
    }
    if (!placed)
        put_hydrogens(&line, count);
    put(&line, "'", 1);
    return line;
}

/* Types a line by bench 0; whether it is accepted. */
static bool typed(own_desk *desk, const void *bytes, size_t length)
{
    for (size_t at = 0; at < length; at++)
        if (press(desk, (key){0, ((const uint8_t *)bytes)[at]}) != ACCEPTED)
            return false;
    return press(desk, (key){0, ENTER}) == ACCEPTED;
}

/* Whether the desk itself finds nothing wrong with the line for this weight: typed into a fresh desk,
 * rows 1, 2 and 4 have no alert. */
static bool is_right(const written *line, span weight)
{
    static const char name[] = "_chemical_formula_weight ";
    static own_desk desk;
    written second = {.length = 0};
    put(&second, name, sizeof name - 1);
    put(&second, weight.bytes, weight.length);
    start(&desk);
    if (!typed(&desk, line->bytes, line->length) || !typed(&desk, second.bytes, second.length))
        return false;
    desk_reported report = report_of(&desk, 0, SINGLE_CRYSTAL);
    return report.rows[0].level == 0 && report.rows[1].level == 0 && report.rows[3].level == 0;
}

static bool fits(const own_desk *desk, uint64_t sheet, uint64_t count)
{
    desk_proposed checked =
        desk_hydrogens_right(desk->texts, DESK_TEXTS, desk->numbers, DESK_NUMBERS, sheet, count);
    return checked.answer == ACCEPTED;
}

/* 'camp: FILE: sheet N: ', the beginning of a message about a sheet. */
static void about_sheet(FILE *to, const char *file, uint64_t sheet)
{
    about(to, file);
    fprintf(to, "sheet %" PRIu64 ": ", sheet);
}

static void show_count(FILE *to, uint64_t count)
{
    if (count == 0)
        fputs("no H", to);
    else if (count == 1)
        putc('H', to);
    else
        fprintf(to, "H%" PRIu64, count);
}

/* Tells the right counts after the smallest: they follow each other up to the last. */
static void show_others(FILE *to, const own_desk *desk, uint64_t sheet, uint64_t smallest)
{
    uint64_t last = smallest;
    while (last < MOST && fits(desk, sheet, last + 1))
        last++;
    if (last == smallest)
        return;
    fputs(", and so would ", to);
    show_count(to, smallest + 1);
    if (last - smallest < TOLD) {
        if (last > smallest + 1) {
            fputs(" and ", to);
            show_count(to, last);
        }
    } else {
        fputs(" to ", to);
        show_count(to, last);
    }
}

/* Why the helper does not start: the first row that says so. */
static const char *no_start(const own_desk *desk, uint64_t sheet)
{
    desk_reported report = report_of(desk, sheet, SINGLE_CRYSTAL);
    if (report.rows[0].reason == 1)
        return "no formula is typed";
    if (report.rows[0].level > 0)
        return "row 1: a term of the formula cannot be read";
    if (report.rows[1].level > 0)
        return "row 2: the symbols of the formula are not in order, or one stands twice";
    if (report.rows[3].reason == 1)
        return "no weight is typed";
    return "a symbol of the formula has no weight here";
}

/* Tells a sheet; the status. */
static int tell_sheet(FILE *to, const char *file, const own_desk *desk, uint64_t sheet)
{
    span formula = text_of(value(desk, sheet, FORMULA)), weight = value(desk, sheet, WEIGHT);
    desk_proposed proposed = desk_hydrogens(desk->texts, DESK_TEXTS, desk->numbers, DESK_NUMBERS, sheet);
    about_sheet(to, file, sheet);
    if (proposed.answer != ACCEPTED) {
        show_refusal(to, proposed.answer);
        if (proposed.answer == NO_START)
            fprintf(to, ": %s", no_start(desk, sheet));
        if (proposed.answer == NO_RIGHT_COUNT) {
            putc(' ', to);
            show(to, weight.bytes, weight.length);
        }
        putc('\n', to);
        return STATUS_FOUND;
    }
    unsigned count = typed_count(formula);
    bool right = fits(desk, sheet, count);
    show_count(to, count);
    fputs(" typed; ", to);
    if (right)
        fputs("it fits", to);
    else if (proposed.count == 0)
        fputs("without H it would fit", to);
    else {
        show_count(to, proposed.count);
        fputs(" would fit", to);
    }
    fputs(" the weight ", to);
    show(to, weight.bytes, weight.length);
    if (!right)
        show_others(to, desk, sheet, proposed.count);
    putc('\n', to);
    if (right)
        return STATUS_DONE;
    written line = line_with(formula, (unsigned)proposed.count);
    if (is_right(&line, weight)) {
        about_sheet(to, file, sheet);
        fputs("to be typed: ", to);
        show(to, line.bytes, line.length);
        putc('\n', to);
    }
    return STATUS_FOUND;
}

int tell_hydrogens(FILE *to, const char *file, const own_desk *desk, sheets of)
{
    int status = STATUS_DONE;
    size_t told = 0;
    for (uint64_t sheet = of.first; sheet <= of.last; sheet++) {
        if (value(desk, sheet, FORMULA).length + value(desk, sheet, WEIGHT).length == 0)
            continue;
        told++;
        if (tell_sheet(to, file, desk, sheet) != STATUS_DONE)
            status = STATUS_FOUND;
    }
    if (told == 0) {
        about(to, file);
        fputs("neither a formula nor a weight is typed\n", to);
        return STATUS_FOUND;
    }
    return status;
}

int hydrogen_run(int count, char **words)
{
    static log_reader reader;
    arguments_of arguments = {"hydrogen", count, words};
    sheets of = {0, DESK_SHEETS - 1};
    const char *session = NULL;
    if (!take_sheet(&arguments, &of) || !take_value(&arguments, "--session", &session))
        return STATUS_MISUSED;
    end_options(&arguments);
    int files = session == NULL ? 1 : 0;
    if (arguments.count < files)
        return misused("hydrogen", NULL, "LOG, or --session and SESSION, is missing");
    if (arguments.count > files)
        return misused("hydrogen", words[files], "is one argument too many");
    const char *path = session == NULL ? words[0] : session;
    if (no_file(path) != NULL)
        return misused("hydrogen", path, no_file(path));
    if (!(session == NULL ? read_log(path, &reader, NULL, NULL) : play_session(path, &reader.desk)))
        return STATUS_FOUND;
    if (no_such_sheet(&reader.desk, of.first))
        return no_sheet(of.first);
    int status = tell_hydrogens(stdout, input_name(path), &reader.desk, of);
    return tell_damage(input_name(path), &reader) == STATUS_DONE ? status : STATUS_FOUND;
}

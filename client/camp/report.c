/* camp report: the reports of the sheets that a log gives or a session leaves, as the program desk prints them. */
#include <inttypes.h>
#include <string.h>

#include "commands.h"
#include "items.h"
#include "json.h"
#include "log.h"
#include "messages.h"
#include "options.h"
#include "words.h"

const char report_usage[] =
    "usage: camp report [--sheet SHEET] [--powder] [--json] LOG\n"
    "       camp report [--sheet SHEET] [--powder] [--json] --session SESSION\n"
    "\n"
    "Reads a log, or plays a session as the desk does, and prints, for each sheet, the report and the\n"
    "filled items in the form of desk: each row's number and name, its level (- none, then G, C, B and\n"
    "A) and reason (0 judged, 1 an item is missing, 2 it cannot be judged); then each item's number,\n"
    "bench, entry number and value.\n"
    "\n"
    "  LOG       a log, as 'camp record' writes it; - for standard input\n"
    "  SESSION   a file of keys, for each of them a bench digit and the key's byte; - for standard\n"
    "            input\n"
    "  SHEET     0, of benches 0 and 1, or 1, of the visitors at benches 2 and 3; without it, both\n"
    "  --powder  the report for powder week: rows 13 to 18, 20 and 21 are left out, - and 0\n"
    "  --json    the same for programs, in one line\n"
    "\n"
    "Exit status: 0 the log was read to its end; 1 it is damaged, or there is no such sheet, or it\n"
    "cannot be read; 2 wrong use. Of a damaged log all that stands before the damage is shown, and\n"
    "standard error tells the byte, the number of the refusal and what it means.\n"
    "\n"
    "Example:\n"
    "\n"
    "  $ camp report --sheet 0 stick.log\n"
    "  REPORT 25\n"
    "  01 CHEMS_01s C 1\n"
    "  02 CHEMS_01o C 1\n"
    "  03 CHEMS_02 G 1\n"
    "  04 CHEMW_01r C 1\n"
    "  05 CHEMW_01d - 1\n"
    "  06 RFACG_01 B 0\n"
    "  07 RFACG_01g - 0\n"
    "  08 RFACR_01 - 0\n"
    "  09 RFACR_01g G 0\n"
    "  10 SHFSU_01 C 1\n"
    "  11 SHFSU_01g - 0\n"
    "  12 REFLE_01 C 1\n"
    "  13 R13 C 1\n"
    "  14 R14 C 1\n"
    "  15 R15 C 1\n"
    "  16 R16 C 1\n"
    "  17 R17 C 1\n"
    "  18 R18 C 1\n"
    "  19 R19 C 1\n"
    "  20 R20 - 1\n"
    "  21 R21 - 1\n"
    "  22 R22 - 1\n"
    "  23 R23 - 1\n"
    "  24 R24 - 1\n"
    "  25 R25 - 1\n"
    "  ITEM 04 bench 0 entry 1 0.16\n"
    "  ITEM 07 bench 1 entry 2 0.2\n";

static const char *const profiles[DESK_PROFILES] = {"single-crystal", "powder"};

static void print_item(const filled_item *item, void *with)
{
    (void)with;
    printf("ITEM %02" PRIu64 " bench %u entry %zu ", item->item, (unsigned)item->told.bench,
           item->told.entry);
    show(stdout, item->value, item->value_length);
    putchar('\n');
}

/* The report of a sheet as desk prints it. */
static void print_sheet(const own_desk *desk, uint64_t sheet, uint64_t profile)
{
    desk_reported report = report_of(desk, sheet, profile);
    printf("REPORT %d\n", DESK_ROWS);
    for (int row = 0; row < DESK_ROWS; row++)
        printf("%02d %s %c %u\n", row + 1, row_name(row), level_letter(report.rows[row].level),
               (unsigned)report.rows[row].reason);
    each_item(desk, sheet, print_item, NULL);
}

static void json_of_item(const filled_item *item, void *first)
{
    if (!*(bool *)first)
        putchar(',');
    *(bool *)first = false;
    json_item(item);
}

static void json_sheet(const own_desk *desk, uint64_t sheet, uint64_t profile)
{
    desk_reported report = report_of(desk, sheet, profile);
    bool first = true;
    printf("{\"sheet\":%" PRIu64 ",\"rows\":[", sheet);
    for (int row = 0; row < DESK_ROWS; row++) {
        printf("%s{\"row\":%d,\"name\":", row > 0 ? "," : "", row + 1);
        json_text(row_name(row), strlen(row_name(row)));
        printf(",\"level\":\"%c\",\"reason\":%u}", level_letter(report.rows[row].level),
               (unsigned)report.rows[row].reason);
    }
    fputs("],\"items\":[", stdout);
    each_item(desk, sheet, json_of_item, &first);
    fputs("]}", stdout);
}

static void print_json(const log_reader *reader, sheets of, uint64_t profile)
{
    printf("{\"profile\":\"%s\",\"sheets\":[", profiles[profile]);
    for (uint64_t sheet = of.first; sheet <= of.last; sheet++) {
        if (sheet > of.first)
            putchar(',');
        json_sheet(&reader->desk, sheet, profile);
    }
    fputs("],", stdout);
    json_damage(reader);
    puts("}");
}

int report_run(int count, char **words)
{
    static log_reader reader;
    arguments_of arguments = {"report", count, words};
    sheets of = {0, DESK_SHEETS - 1};
    bool json = false, powder = false;
    const char *session = NULL;
    if (!take_sheet(&arguments, &of) || !take_flag(&arguments, "--json", &json) ||
        !take_flag(&arguments, "--powder", &powder) || !take_value(&arguments, "--session", &session))
        return STATUS_MISUSED;
    end_options(&arguments);
    int files = session == NULL ? 1 : 0;
    if (arguments.count < files)
        return misused("report", NULL, "LOG, or --session and SESSION, is missing");
    if (arguments.count > files)
        return misused("report", words[files], "is one argument too many");
    const char *path = session == NULL ? words[0] : session;
    if (no_file(path) != NULL)
        return misused("report", path, no_file(path));
    if (!(session == NULL ? read_log(path, &reader, NULL, NULL) : play_session(path, &reader.desk)))
        return STATUS_FOUND;
    if (no_such_sheet(&reader.desk, of.first))
        return no_sheet(of.first);
    uint64_t profile = powder ? POWDER : SINGLE_CRYSTAL;
    if (json)
        print_json(&reader, of, profile);
    else
        for (uint64_t sheet = of.first; sheet <= of.last; sheet++)
            print_sheet(&reader.desk, sheet, profile);
    return tell_damage(input_name(path), &reader);
}

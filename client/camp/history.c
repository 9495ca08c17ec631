/* camp history: the entries of a log, one after the other. */
#include "commands.h"
#include "items.h"
#include "json.h"
#include "log.h"
#include "messages.h"
#include "options.h"

const char history_usage[] =
    "usage: camp history [--sheet SHEET] [--json] LOG\n"
    "\n"
    "Reads a log and tells each entry in the order in which they were accepted, one line each: its\n"
    "sheet, its number among the sheet's entries, its bench, the item's name and the value as typed.\n"
    "Entries that were typed over later are told too.\n"
    "\n"
    "  LOG       a log, as 'camp record' writes it; - for standard input\n"
    "  SHEET     0, of benches 0 and 1, or 1, of the visitors at benches 2 and 3; without it, both\n"
    "  --json    the same for programs, in one line\n"
    "\n"
    "Exit status: 0 the log was read to its end; 1 it is damaged, or there is no such sheet, or it\n"
    "cannot be read; 2 wrong use. Of a damaged log all that stands before the damage is told, and\n"
    "standard error tells the byte, the number of the refusal and what it means. Where the log cannot be\n"
    "read to its end, the entries before that are told, and the JSON, if there are any, has no damage.\n"
    "\n"
    "Example:\n"
    "\n"
    "  $ camp history stick.log\n"
    "  sheet 0, entry 1, bench 0: _refine_ls_R_factor_gt 0.16\n"
    "  sheet 0, entry 2, bench 1: _refine_ls_wR_factor_obs 0.2\n"
    "  sheet 1, entry 1, bench 2: _refine_ls_R_factor_gt 0.03\n"
    "  sheet 0, entry 3, bench 0: _refine_ls_R_factor_gt 0.045\n";

/* What was told so far, and how. */
typedef struct {
    sheets of;
    size_t counts[DESK_SHEETS];
    bool json;
    bool any;
} history;

/* What stands before the first entry as JSON. */
static const char json_begin[] = "{\"entries\":[";

static void tell_last(const filled_item *item, void *with)
{
    history *told = with;
    if (told->json) {
        fputs(told->any ? "," : json_begin, stdout);
        json_item(item);
    } else {
        show_entry(stdout, item);
    }
    told->any = true;
}

/* After a byte of the log a sheet may have one entry more. */
static void tell_entry(const log_reader *reader, void *with)
{
    history *told = with;
    for (uint64_t sheet = 0; sheet < DESK_SHEETS; sheet++) {
        if (told->counts[sheet] == count_of(&reader->desk, sheet))
            continue;
        told->counts[sheet]++;
        if (sheet >= told->of.first && sheet <= told->of.last)
            last_item(&reader->desk, sheet, tell_last, told);
    }
}

int history_run(int count, char **words)
{
    static log_reader reader;
    static own_desk fresh;
    history told = {{0, DESK_SHEETS - 1}, {0}, false, false};
    const char *log = NULL;
    int status = log_arguments("history", count, words, &told.of, &told.json, &log);
    if (status != STATUS_DONE)
        return status;
    start(&fresh);
    if (no_such_sheet(&fresh, told.of.first))
        return no_sheet(told.of.first);
    if (!read_log(log, &reader, tell_entry, &told)) {
        if (told.json && told.any)
            puts("]}");
        return STATUS_FOUND;
    }
    if (told.json) {
        if (!told.any)
            fputs(json_begin, stdout);
        fputs("],", stdout);
        json_damage(&reader);
        puts("}");
    }
    return tell_damage(input_name(log), &reader);
}

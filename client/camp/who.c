/* camp who: who typed the items that a log gives or a session leaves, and how often. */
#include <inttypes.h>

#include "commands.h"
#include "items.h"
#include "log.h"
#include "messages.h"
#include "options.h"

const char who_usage[] =
    "usage: camp who [--sheet SHEET] [--json] LOG [ITEM]\n"
    "       camp who [--sheet SHEET] [--json] --session SESSION [ITEM]\n"
    "\n"
    "Reads a log, or plays a session as the desk does, and tells each item that is then filled: its\n"
    "sheet, number and name, the bench and the number of its last entry among the sheet's, how many\n"
    "accepted entries of the sheet named it, and the value as typed. Refused keys of a session are\n"
    "passed over: look at 'camp refusals' first.\n"
    "\n"
    "  LOG       a log, as 'camp record' writes it; - for standard input\n"
    "  SESSION   a file of keys, for each of them a bench digit and the key's byte; - for standard\n"
    "            input\n"
    "  ITEM      the number of an item, or its name: this one alone is told\n"
    "  SHEET     0, of benches 0 and 1, or 1, of the visitors at benches 2 and 3; without it, both\n"
    "  --json    the same for programs, in one line\n"
    "\n"
    "Exit status: 0 told; 1 ITEM is empty, or every item is, or the log is damaged, or there is no\n"
    "such sheet, or the file cannot be read; 2 wrong use. Of a damaged log all that stands before the\n"
    "damage is told, and standard error tells the byte, the number of the refusal and what it means.\n"
    "\n"
    "Example:\n"
    "\n"
    "  $ camp who stick.log\n"
    "  sheet 0, item 4 _refine_ls_R_factor_gt: bench 0, entry 3, typed 2 times: 0.045\n"
    "  sheet 0, item 7 _refine_ls_wR_factor_obs: bench 1, entry 2, typed 1 time: 0.2\n"
    "  sheet 1, item 4 _refine_ls_R_factor_gt: bench 2, entry 1, typed 1 time: 0.03\n";

/* What is asked, and how many items were told of. */
typedef struct {
    sheets of;
    uint64_t item;
    bool json;
    size_t told;
} question;

static void tell_item(const filled_item *item, void *with)
{
    question *asked = with;
    if (asked->item != ALL_ITEMS && asked->item != item->item)
        return;
    if (asked->json) {
        fputs(asked->told > 0 ? "," : "", stdout);
        json_item(item);
    } else {
        show_item(stdout, item);
    }
    asked->told++;
}

static void tell_nothing(const char *file, const question *asked)
{
    about(stdout, file);
    if (asked->of.first == asked->of.last)
        printf("sheet %" PRIu64 ": ", asked->of.first);
    if (asked->item == ALL_ITEMS)
        puts("every item is empty");
    else
        printf("item %" PRIu64 " is empty\n", asked->item);
}

/* Tells of the items of a desk that a reader has; where it played a session, the reader is at its start. */
static int tell(const char *file, const log_reader *reader, question *asked)
{
    if (no_such_sheet(&reader->desk, asked->of.first))
        return no_sheet(asked->of.first);
    if (asked->json)
        fputs("{\"items\":[", stdout);
    for (uint64_t sheet = asked->of.first; sheet <= asked->of.last; sheet++)
        each_item(&reader->desk, sheet, tell_item, asked);
    if (asked->json) {
        fputs("],", stdout);
        json_damage(reader);
        puts("}");
    } else if (asked->told == 0) {
        tell_nothing(file, asked);
    }
    int status = tell_damage(file, reader);
    return asked->told == 0 ? STATUS_FOUND : status;
}

int who_run(int count, char **words)
{
    static log_reader reader;
    arguments_of arguments = {"who", count, words};
    question asked = {{0, DESK_SHEETS - 1}, ALL_ITEMS, false, 0};
    const char *session = NULL;
    if (!take_sheet(&arguments, &asked.of) || !take_flag(&arguments, "--json", &asked.json) ||
        !take_value(&arguments, "--session", &session))
        return STATUS_MISUSED;
    end_options(&arguments);
    int files = session == NULL ? 1 : 0;
    if (arguments.count < files)
        return misused("who", NULL, "LOG, or --session and SESSION, is missing");
    if (arguments.count > files + 1)
        return misused("who", words[files + 1], "is one argument too many");
    const char *path = session == NULL ? words[0] : session;
    if (no_file(path) != NULL)
        return misused("who", path, no_file(path));
    if (arguments.count == files + 1)
        asked.item = item_of(words[files]);
    if (asked.item == NO_ITEM)
        return misused("who", words[files], "is neither the number nor the name of an item");
    bool read = session == NULL ? read_log(path, &reader, NULL, NULL) : play_session(path, &reader.desk);
    return read ? tell(input_name(path), &reader, &asked) : STATUS_FOUND;
}

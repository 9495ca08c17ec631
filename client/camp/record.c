/* camp record: the log of a session, as a file. */
#include <stdlib.h>

#include "commands.h"
#include "messages.h"
#include "options.h"
#include "session.h"

const char record_usage[] =
    "usage: camp record SESSION LOG\n"
    "\n"
    "Plays a session as the desk does and writes the log that it leaves, a record for each accepted\n"
    "entry, to a file: for the stick. Refused keys are passed over: look at 'camp refusals' first.\n"
    "\n"
    "  SESSION   a file of keys, for each of them a bench digit and the key's byte; - for standard\n"
    "            input\n"
    "  LOG       where the log goes; - for standard output. LOG appears whole or not at all: it is\n"
    "            written beside its place and then renamed. The log of a running desk is not replaced.\n"
    "\n"
    "'camp report LOG', 'camp history LOG', 'camp who LOG' and 'camp cif --log LOG' read it again.\n"
    "\n"
    "Exit status: 0 written; 1 it cannot be read or written; 2 wrong use. Standard error says why, and\n"
    "a LOG that was there before stays as it was.\n"
    "\n"
    "Example:\n"
    "\n"
    "  $ camp record session stick.log\n"
    "  $ camp history stick.log\n"
    "  sheet 0, entry 1, bench 0: _refine_ls_R_factor_gt 0.16\n"
    "  sheet 0, entry 2, bench 1: _refine_ls_wR_factor_obs 0.2\n";

int record_run(int count, char **words)
{
    static own_desk desk;
    content session;
    arguments_of arguments = {"record", count, words};
    end_options(&arguments);
    if (arguments.count < 1)
        return misused("record", NULL, "SESSION, the file of keys, is missing");
    if (arguments.count < 2)
        return misused("record", NULL, "LOG, the file for the log, is missing");
    if (arguments.count > 2)
        return misused("record", words[2], "is one argument too many");
    for (int at = 0; at < 2; at++)
        if (no_file(words[at]) != NULL)
            return misused("record", words[at], no_file(words[at]));
    if (!read_whole(words[0], &session))
        return STATUS_FOUND;
    play(&desk, &session);
    free(session.bytes);
    return write_whole(words[1], desk.log, desk.numbers[DESK_USED_AT]) ? STATUS_DONE : STATUS_FOUND;
}
